/* Asks the calls on texts, notices, moments, parts of names and parts of keys for an answer that is known, and for its refusals; and the constants for what
 * they are.
 *
 * usage: as calls.h says */
#include "calls.h"

/* What stands in an element of a string type (X.680 41, X.690 8.23). */
#define TEXT(element) x509_string_text(BYTES(element), room, sizeof room, &written)

static void strings(void)
{
    WANT(TEXT("\x0c\x02\xc3\xa9") == X509_OK && is_written("\xc3\xa9"));
    WANT(TEXT("\x12\x03" "1 2") == X509_OK && is_written("1 2"));
    WANT(TEXT("\x13\x03" "a'b") == X509_OK && is_written("a'b"));
    WANT(TEXT("\x14\x01" "a") == X509_OK && is_written("a"));
    WANT(TEXT("\x16\x03" "a@b") == X509_OK && is_written("a@b"));
    WANT(TEXT("\x1a\x01" "~") == X509_OK && is_written("~"));
    WANT(TEXT("\x1e\x04\x00\xe9\x20\xac") == X509_OK && is_written("\xc3\xa9\xe2\x82\xac"));
    /* a, U+E9, U+20AC and U+1F600 in four octets each (X.690 8.23.7) */
    WANT(TEXT("\x1c\x10\x00\x00\x00" "a\x00\x00\x00\xe9\x00\x00\x20\xac\x00\x01\xf6\x00") == X509_OK && is_written("a\xc3\xa9\xe2\x82\xac\xf0\x9f\x98\x80"));
    WANT(TEXT("\x1c\x04\x00\x10\xff\xff") == X509_OK && is_written("\xf4\x8f\xbf\xbf") && TEXT("\x1c\x00") == X509_OK && written == 0);
    WANT(TEXT("\x1c\x04\x00\x00\x00\x00") == X509_OK && written == 1 && room[0] == 0);
    WANT(x509_string_text(BYTES("\x1c\x04\x00\x00\x20\xac"), room, 2, &written) == X509_ROOM && written == 3);
    WANT(WROTE(TEXT("\x0c\x03" "a\x00" "b"), "a\x00" "b"));
    WANT(TEXT("\x1e\x00") == X509_OK && written == 0 && TEXT("\x0c\x00") == X509_OK && written == 0);
    WANT(x509_string_text(BYTES("\x1e\x02\x20\xac"), room, 2, &written) == X509_ROOM && written == 3);
    WANT(x509_string_text(BYTES("\x0c\x01" "a"), NULL, 0, &written) == X509_ROOM && written == 1);
    written = 77;
    WANT(x509_string_text(nothing, 0, room, sizeof room, &written) == X509_MALFORMED);
    WANT(TEXT("\x0c\x01\xff") == X509_MALFORMED && TEXT("\x12\x01" "a") == X509_MALFORMED && TEXT("\x13\x01" "@") == X509_MALFORMED);
    WANT(TEXT("\x14\x01\xe9") == X509_MALFORMED && TEXT("\x16\x01\x80") == X509_MALFORMED && TEXT("\x1a\x01\n") == X509_MALFORMED);
    WANT(TEXT("\x1e\x01" "a") == X509_MALFORMED && TEXT("\x1e\x02\xd8\x00") == X509_MALFORMED);
    WANT(TEXT("\x04\x01" "a") == X509_MALFORMED && TEXT("\x2c\x01" "a") == X509_MALFORMED);
    /* fewer octets than a character has; a half of a surrogate pair, the number behind the last, and one of 32 bits */
    WANT(TEXT("\x1c\x03\x00\x00" "a") == X509_MALFORMED && TEXT("\x1c\x05\x00\x00\x00" "a\x00") == X509_MALFORMED);
    WANT(TEXT("\x1c\x04\x00\x00\xd8\x00") == X509_MALFORMED && TEXT("\x1c\x04\x00\x11\x00\x00") == X509_MALFORMED
         && TEXT("\x1c\x04\x80\x00\x00" "a") == X509_MALFORMED);
    WANT(TEXT("\x0c\x02" "a") == X509_MALFORMED && TEXT("\x0c\x01" "ab") == X509_MALFORMED && written == 77);
}

static void notices(void)
{
    /* the notices 1 and 255 of "O", and the text "T" (RFC 5280 4.2.1.4) */
    const char value[] = "\x30\x11\x30\x0c\x0c\x01O\x30\x07\x02\x01\x01\x02\x02\x00\xff\x0c\x01T";
    x509_user_notice_view view = {{7, 7}, {7, 7}, {7, 7}};
    WANT(x509_user_notice(nothing, 0, &view) == X509_MALFORMED && x509_user_notice(BYTES("\x30\x02\x05\x00"), &view) == X509_MALFORMED);
    WANT(x509_user_notice((const uint8_t *)value, 18, &view) == X509_MALFORMED && is_at(view.organization, 7, 7) && is_at(view.explicit_text, 7, 7));
    WANT(x509_user_notice(BYTES(value), &view) == X509_OK);
    WANT(is_at(view.organization, 4, 3) && is_at(view.notice_numbers, 7, 9) && is_at(view.explicit_text, 16, 3));
    WANT(x509_string_text((const uint8_t *)value + 16, 3, room, sizeof room, &written) == X509_OK && is_written("T"));

    x509_span number = {7, 7};
    size_t at = 0;
    WANT(x509_numbers_next((const uint8_t *)value + 7, 9, &at, &number) == X509_OK && at == 5 && is_at(number, 4, 1));
    WANT(x509_numbers_next((const uint8_t *)value + 7, 9, &at, &number) == X509_OK && at == 9 && is_at(number, 7, 2));
    WANT(x509_numbers_next((const uint8_t *)value + 7, 9, &at, &number) == X509_ABSENT && at == 9 && is_at(number, 7, 2));
    at = 0;
    WANT(x509_numbers_next(BYTES("\x30\x03\x02\x01\xff"), &at, &number) == X509_MALFORMED && at == 0 && is_at(number, 7, 2));
    WANT(x509_numbers_next(BYTES("\x31\x03\x02\x01\x01"), &at, &number) == X509_MALFORMED && at == 0);
    WANT(x509_numbers_next(BYTES("\x30\x00"), &at, &number) == X509_ABSENT && at == 0);
    /* the parameters of a DSA key: 23, 11, 4 (RFC 3279 2.3.2) */
    WANT(x509_numbers_next(BYTES("\x30\x09\x02\x01\x17\x02\x01\x0b\x02\x01\x04"), &at, &number) == X509_OK && at == 5 && is_at(number, 4, 1));

    WANT(x509_user_notice(BYTES("\x30\x05\x30\x03\x0c\x01O"), &view) == X509_OK);
    WANT(is_at(view.organization, 4, 3) && is_at(view.notice_numbers, 0, 0) && is_at(view.explicit_text, 0, 0));
    WANT(x509_user_notice(BYTES("\x30\x04\x1e\x02\x00T"), &view) == X509_OK);
    WANT(is_at(view.organization, 0, 0) && is_at(view.notice_numbers, 0, 0) && is_at(view.explicit_text, 2, 4));
    WANT(x509_user_notice(BYTES("\x30\x00"), &view) == X509_OK && is_at(view.explicit_text, 0, 0));
}

/* 2026-01-02T03:04:05Z, and a year later */
#define MOMENT 1767323045
#define LATER 1798859045

static void moments(void)
{
    x509_private_key_usage_period_view view = {7, 7, 7, 7};
    WANT(x509_private_key_usage_period(nothing, 0, &view) == X509_MALFORMED);
    WANT(x509_private_key_usage_period(BYTES("\x30\x0f\x80\x0d" "260102030405Z"), &view) == X509_MALFORMED);
    WANT(view.has_not_before == 7 && view.not_before == 7 && view.has_not_after == 7 && view.not_after == 7);
    WANT(x509_private_key_usage_period(BYTES("\x30\x22\x80\x0f" "20260102030405Z" "\x81\x0f" "20270102030405Z"), &view) == X509_OK);
    WANT(view.has_not_before == 1 && view.not_before == MOMENT && view.has_not_after == 1 && view.not_after == LATER);
    WANT(x509_private_key_usage_period(BYTES("\x30\x11\x81\x0f" "20270102030405Z"), &view) == X509_OK);
    WANT(view.has_not_before == 0 && view.not_before == 0 && view.has_not_after == 1 && view.not_after == LATER);
    WANT(x509_private_key_usage_period(BYTES("\x30\x00"), &view) == X509_OK && view.has_not_after == 0 && view.not_after == 0);

    uint64_t moment = 77;
    WANT(x509_invalidity_date(BYTES("\x17\x0d" "260102030405Z"), &moment) == X509_MALFORMED && moment == 77);
    WANT(x509_invalidity_date(BYTES("\x18\x0f" "19691231235959Z"), &moment) == X509_MALFORMED && moment == 77);
    WANT(x509_invalidity_date(BYTES("\x18\x0f" "20260102030405Z"), &moment) == X509_OK && moment == MOMENT);

    moment = 77;
    WANT(x509_time_from_text(nothing, 0, &moment) == X509_FAILED && x509_time_from_text(BYTES("2026-01-02T03:04:05"), &moment) == X509_FAILED);
    WANT(x509_time_from_text(BYTES("2026-13-02T03:04:05Z"), &moment) == X509_FAILED
         && x509_time_from_text(BYTES("2026-02-29T03:04:05Z"), &moment) == X509_FAILED);
    WANT(x509_time_from_text(BYTES("1969-12-31T23:59:59Z"), &moment) == X509_FAILED
         && x509_time_from_text(BYTES("2026-01-02 03:04:05Z"), &moment) == X509_FAILED);
    WANT(x509_time_from_text(BYTES("2026-01-02T03:04:05z"), &moment) == X509_FAILED
         && x509_time_from_text(BYTES("2026-01-02T03:04:05\xff"), &moment) == X509_FAILED);
    WANT(moment == 77 && x509_time_from_text(BYTES("2026-01-02T03:04:05Z"), &moment) == X509_OK && moment == MOMENT);
    WANT(x509_time_from_text(BYTES("2002-01-01T12:01:00Z"), &moment) == X509_OK && moment == 1009886460);
    WANT(x509_time_from_text(BYTES("1970-01-01T00:00:00Z"), &moment) == X509_OK && moment == 0);
    WANT(x509_time_from_text(BYTES("9999-12-31T23:59:59Z"), &moment) == X509_OK && moment == 253402300799);
}

static void names(void)
{
    /* the party b, by its assigner a; the party b; and the DNS name a (RFC 5280 4.2.1.6) */
    x509_general_name found;
    size_t at = 0;
    WANT(x509_general_names_next(BYTES("\x30\x0c\xa5\x0a\xa0\x03\x0c\x01" "a\xa1\x03\x0c\x01" "b"), &at, &found) == X509_OK && at == 14);
    WANT(found.kind == X509_GENERAL_NAME_EDI_PARTY && is_at(found.content, 4, 10) && is_at(found.name_assigner, 6, 3) && is_at(found.party_name, 11, 3));
    at = 0;
    WANT(x509_general_names_next(BYTES("\x30\x08\xa5\x06\xa1\x04\x1e\x02\x00" "b"), &at, &found) == X509_OK && at == 10);
    WANT(is_at(found.name_assigner, 0, 0) && is_at(found.party_name, 6, 4) && is_at(found.value, 0, 0));
    at = 0;
    WANT(x509_general_names_next(BYTES("\x30\x03\x82\x01" "a"), &at, &found) == X509_OK && is_at(found.name_assigner, 0, 0) && is_at(found.party_name, 0, 0));
    at = 0;
    WANT(x509_general_names_next(BYTES("\x30\x07\xa5\x05\xa0\x03\x0c\x01" "a"), &at, &found) == X509_MALFORMED && at == 0
         && found.kind == X509_GENERAL_NAME_DNS);

    /* CN=a as an attribute of the subject (RFC 5280 4.2.1.8) */
    x509_request_attribute attribute = {{7, 7}, {7, 7}};
    WANT(x509_subject_directory_attributes_next(BYTES("\x30\x02\x30\x00"), &at, &attribute) == X509_MALFORMED && at == 0 && is_at(attribute.oid, 7, 7));
    const char attributes[] = "\x30\x0c\x30\x0a\x06\x03\x55\x04\x03\x31\x03\x0c\x01" "a";
    WANT(x509_subject_directory_attributes_next(BYTES(attributes), &at, &attribute) == X509_OK && at == 14);
    WANT(is_at(attribute.oid, 6, 3) && is_at(attribute.values, 9, 5));
    WANT(x509_subject_directory_attributes_next(BYTES(attributes), &at, &attribute) == X509_ABSENT && at == 14 && is_at(attribute.oid, 6, 3));
}

/* The content octets of AlgorithmIdentifiers, or of what they begin with (RFC 3279 2.3, RFC 4055 1.2, RFC 5480 2.1.1). */
#define RSA "\x06\x09\x2a\x86\x48\x86\xf7\x0d\x01\x01\x01\x05\x00"
#define RSA_PSS "\x06\x09\x2a\x86\x48\x86\xf7\x0d\x01\x01\x0a"
#define DSA "\x06\x07\x2a\x86\x48\xce\x38\x04\x01"
#define EC "\x06\x07\x2a\x86\x48\xce\x3d\x02\x01"

static void keys(void)
{
    x509_rsa_key rsa = {{7, 7}, {7, 7}, 7};
    WANT(x509_rsa_key_view(nothing, 0, &rsa) == X509_MALFORMED && x509_rsa_key_view(BYTES("\x30\x03\x02\x01\x33"), &rsa) == X509_MALFORMED);
    WANT(x509_rsa_key_view(BYTES("\x30\x06\x02\x01\xff\x02\x01\x03"), &rsa) == X509_MALFORMED);
    WANT(x509_rsa_key_view(BYTES("\x30\x09\x02\x01\x33\x02\x01\x03\x02\x01\x05"), &rsa) == X509_MALFORMED);
    WANT(is_at(rsa.modulus, 7, 7) && is_at(rsa.public_exponent, 7, 7) && rsa.modulus_bits == 7);
    WANT(x509_rsa_key_view(BYTES("\x30\x08\x02\x02\x00\xff\x02\x02\x01\x01"), &rsa) == X509_OK);
    WANT(is_at(rsa.modulus, 4, 2) && is_at(rsa.public_exponent, 8, 2) && rsa.modulus_bits == 8);
    WANT(x509_rsa_key_view(BYTES("\x30\x06\x02\x01\x33\x02\x01\x03"), &rsa) == X509_OK && rsa.modulus_bits == 6);
    WANT(x509_rsa_key_view(BYTES("\x30\x07\x02\x02\x01\x00\x02\x01\x03"), &rsa) == X509_OK && rsa.modulus_bits == 9);
    WANT(x509_rsa_key_view(BYTES("\x30\x06\x02\x01\x00\x02\x01\x03"), &rsa) == X509_OK && rsa.modulus_bits == 0);

    x509_key key;
    WANT(x509_key_view(request + 83, 91, &key) == X509_OK && is_at(key.parameters, 13, 10) && is_at(key.curve, 15, 8));
    /* a curve that has no kind, parameters that name none, none, and an RSA key whose parameters are an OID */
    WANT(x509_key_view(BYTES("\x30\x15\x30\x10\x06\x07\x2a\x86\x48\xce\x3d\x02\x01\x06\x05\x2b\x81\x04\x00\x0a\x03\x01\x00"), &key) == X509_OK);
    WANT(key.kind == X509_KEY_EC_OTHER && is_at(key.curve, 15, 5));
    WANT(x509_key_view(BYTES("\x30\x15\x30\x10\x06\x07\x2a\x86\x48\xce\x3d\x02\x01\x04\x05\x2b\x81\x04\x00\x0a\x03\x01\x00"), &key) == X509_OK);
    WANT(is_at(key.curve, 0, 0) && is_at(key.parameters, 13, 7));
    WANT(x509_key_view(BYTES("\x30\x0e\x30\x09\x06\x07\x2a\x86\x48\xce\x3d\x02\x01\x03\x01\x00"), &key) == X509_OK && is_at(key.curve, 0, 0));
    WANT(x509_key_view(BYTES("\x30\x13\x30\x0e\x06\x09\x2a\x86\x48\x86\xf7\x0d\x01\x01\x01\x06\x01\x2a\x03\x01\x00"), &key) == X509_OK);
    WANT(key.kind == X509_KEY_RSA && is_at(key.curve, 0, 0) && key.size == 0);
}

/* A key of the algorithm, whose content octets these are, and of these bits: its size. */
static uint32_t key_size(const uint8_t *algorithm, size_t len, const uint8_t *bits, size_t bits_len)
{
    x509_key key = {.size = 7};
    room[0] = room[2] = 0x30;
    room[1] = (uint8_t)(len + bits_len + 5);
    room[3] = (uint8_t)len;
    memcpy(room + 4, algorithm, len);
    memcpy(room + 4 + len, "\x03\x00\x00", 3);
    room[5 + len] = (uint8_t)(bits_len + 1);
    memcpy(room + 7 + len, bits, bits_len);
    WANT(x509_key_view(room, len + bits_len + 7, &key) == X509_OK);
    return key.size;
}

/* Of the sizes those of curves are SEC 2's and RFC 5639's, and of the others RFC 8032's and RFC 7748's. */
static void key_sizes(void)
{
    static const uint8_t modulus[] = "\x30\x07\x02\x02\x01\x00\x02\x01\x03";
    WANT(key_size(BYTES(RSA), BYTES(modulus)) == 9 && key_size(BYTES(RSA_PSS), BYTES(modulus)) == 9);
    WANT(key_size(BYTES(RSA), BYTES("\x30\x06\x02\x01\x00\x02\x01\x03")) == 0 && key_size(BYTES(RSA), BYTES("\x30\x03\x02\x01\x33")) == 0);
    WANT(key_size(BYTES(RSA), nothing, 0) == 0 && key_size(BYTES(RSA), BYTES("\x30\x09\x02\x01\x33\x02\x01\x03\x02\x01\x05")) == 0);
    /* a prime of 9 bits, no parameters, and numbers that aren't three */
    WANT(key_size(BYTES(DSA "\x30\x0a\x02\x02\x01\x01\x02\x01\x05\x02\x01\x02"), BYTES("\x02\x01\x03")) == 9);
    WANT(key_size(BYTES(DSA), BYTES("\x02\x01\x03")) == 0 && key_size(BYTES(DSA "\x30\x03\x02\x01\x17"), BYTES("\x02\x01\x03")) == 0);
    WANT(key_size(BYTES(EC "\x06\x08\x2a\x86\x48\xce\x3d\x03\x01\x07"), nothing, 0) == 256);
    WANT(key_size(BYTES(EC "\x06\x05\x2b\x81\x04\x00\x22"), nothing, 0) == 384 && key_size(BYTES(EC "\x06\x05\x2b\x81\x04\x00\x23"), nothing, 0) == 521);
    WANT(key_size(BYTES(EC "\x06\x05\x2b\x81\x04\x00\x0a"), nothing, 0) == 256 && key_size(BYTES(EC "\x06\x05\x2b\x81\x04\x00\x21"), nothing, 0) == 224);
    WANT(key_size(BYTES(EC "\x06\x09\x2b\x24\x03\x03\x02\x08\x01\x01\x0d"), nothing, 0) == 512);
    WANT(key_size(BYTES(EC "\x04\x05\x2b\x81\x04\x00\x22"), nothing, 0) == 0 && key_size(BYTES(EC), nothing, 0) == 0);
    WANT(key_size(BYTES("\x06\x03\x2b\x65\x70"), nothing, 0) == 256 && key_size(BYTES("\x06\x03\x2b\x65\x71"), nothing, 0) == 456);
    WANT(key_size(BYTES("\x06\x03\x2b\x65\x6e"), nothing, 0) == 256 && key_size(BYTES("\x06\x03\x2b\x65\x6f"), nothing, 0) == 448);
    WANT(key_size(BYTES("\x06\x03\x55\x04\x03"), nothing, 0) == 0);
}

/* The unique identifiers abf (12 bits) and none of the bits, put behind the key of a certificate (RFC 5280 4.1). */
static void unique_identifiers(void)
{
    x509_certificate view, other;
    WANT(x509_certificate_view(certificate, certificate_len, &view) == X509_OK);
    WANT(is_at(view.inner_algorithm, view.serial_number.place + view.serial_number.len, view.issuer.place - view.serial_number.place - view.serial_number.len));
    WANT(is_at(view.issuer_unique_id, 0, 0) && view.issuer_unused_bits == 0 && is_at(view.subject_unique_id, 0, 0) && view.subject_unused_bits == 0);
    const size_t end = view.subject_public_key_info.place + view.subject_public_key_info.len;
    memcpy(room, certificate, end);
    memcpy(room + end, "\x81\x03\x04\xab\xf0\x82\x01\x00", 8);
    memcpy(room + end + 8, certificate + end, certificate_len - end);
    /* both lengths have two octets, and the last doesn't overflow */
    WANT(room[1] == 0x82 && room[5] == 0x82 && room[3] < 248 && room[7] < 248);
    room[3] = (uint8_t)(room[3] + 8);
    room[7] = (uint8_t)(room[7] + 8);
    WANT(x509_certificate_view(room, certificate_len + 8, &other) == X509_OK);
    WANT(is_at(other.issuer_unique_id, end + 3, 2) && other.issuer_unused_bits == 4);
    WANT(is_at(other.subject_unique_id, end + 8, 0) && other.subject_unused_bits == 0);
    WANT(is_at(other.extensions, view.extensions.place + 8, view.extensions.len)
         && is_at(other.inner_algorithm, view.inner_algorithm.place, view.inner_algorithm.len));
}

static int is_dotted(const uint8_t *oid, size_t len, const char *text)
{
    return x509_oid_text(oid, len, room, sizeof room, &written) == X509_OK && is_written(text);
}

#define DOTTED(oid, text) is_dotted(BYTES(oid), text)

static uint32_t algorithm_kind(const uint8_t *bytes, size_t len)
{
    x509_algorithm view;
    return x509_algorithm_view(bytes, len, &view) == X509_OK ? view.kind : X509_SIGNATURE_OTHER;
}

/* The dotted texts are those of the standards that the header names. */
static void constants(void)
{
    WANT(DOTTED(X509_OID_SUBJECT_DIRECTORY_ATTRIBUTES, "2.5.29.9"));
    WANT(DOTTED(X509_OID_SUBJECT_KEY_IDENTIFIER, "2.5.29.14"));
    WANT(DOTTED(X509_OID_KEY_USAGE, "2.5.29.15"));
    WANT(DOTTED(X509_OID_PRIVATE_KEY_USAGE_PERIOD, "2.5.29.16"));
    WANT(DOTTED(X509_OID_SUBJECT_ALT_NAME, "2.5.29.17"));
    WANT(DOTTED(X509_OID_ISSUER_ALT_NAME, "2.5.29.18"));
    WANT(DOTTED(X509_OID_BASIC_CONSTRAINTS, "2.5.29.19"));
    WANT(DOTTED(X509_OID_CRL_NUMBER, "2.5.29.20"));
    WANT(DOTTED(X509_OID_CRL_REASON, "2.5.29.21"));
    WANT(DOTTED(X509_OID_INVALIDITY_DATE, "2.5.29.24"));
    WANT(DOTTED(X509_OID_DELTA_CRL_INDICATOR, "2.5.29.27"));
    WANT(DOTTED(X509_OID_ISSUING_DISTRIBUTION_POINT, "2.5.29.28"));
    WANT(DOTTED(X509_OID_CERTIFICATE_ISSUER, "2.5.29.29"));
    WANT(DOTTED(X509_OID_NAME_CONSTRAINTS, "2.5.29.30"));
    WANT(DOTTED(X509_OID_CRL_DISTRIBUTION_POINTS, "2.5.29.31"));
    WANT(DOTTED(X509_OID_CERTIFICATE_POLICIES, "2.5.29.32"));
    WANT(DOTTED(X509_OID_POLICY_MAPPINGS, "2.5.29.33"));
    WANT(DOTTED(X509_OID_AUTHORITY_KEY_IDENTIFIER, "2.5.29.35"));
    WANT(DOTTED(X509_OID_POLICY_CONSTRAINTS, "2.5.29.36"));
    WANT(DOTTED(X509_OID_EXTENDED_KEY_USAGE, "2.5.29.37"));
    WANT(DOTTED(X509_OID_FRESHEST_CRL, "2.5.29.46"));
    WANT(DOTTED(X509_OID_INHIBIT_ANY_POLICY, "2.5.29.54"));
    WANT(DOTTED(X509_OID_AUTHORITY_INFO_ACCESS, "1.3.6.1.5.5.7.1.1"));
    WANT(DOTTED(X509_OID_SUBJECT_INFO_ACCESS, "1.3.6.1.5.5.7.1.11"));
    WANT(DOTTED(X509_OID_TLS_FEATURE, "1.3.6.1.5.5.7.1.24"));
    WANT(DOTTED(X509_OID_OCSP_NO_CHECK, "1.3.6.1.5.5.7.48.1.5"));
    WANT(DOTTED(X509_OID_SIGNED_CERTIFICATE_TIMESTAMPS, "1.3.6.1.4.1.11129.2.4.2"));
    WANT(DOTTED(X509_OID_PRECERT_POISON, "1.3.6.1.4.1.11129.2.4.3"));
    WANT(DOTTED(X509_OID_SERVER_AUTH, "1.3.6.1.5.5.7.3.1"));
    WANT(DOTTED(X509_OID_CLIENT_AUTH, "1.3.6.1.5.5.7.3.2"));
    WANT(DOTTED(X509_OID_CODE_SIGNING, "1.3.6.1.5.5.7.3.3"));
    WANT(DOTTED(X509_OID_EMAIL_PROTECTION, "1.3.6.1.5.5.7.3.4"));
    WANT(DOTTED(X509_OID_TIME_STAMPING, "1.3.6.1.5.5.7.3.8"));
    WANT(DOTTED(X509_OID_OCSP_SIGNING, "1.3.6.1.5.5.7.3.9"));
    WANT(DOTTED(X509_OID_ANY_EXTENDED_KEY_USAGE, "2.5.29.37.0"));
    WANT(DOTTED(X509_OID_OCSP, "1.3.6.1.5.5.7.48.1"));
    WANT(DOTTED(X509_OID_CA_ISSUERS, "1.3.6.1.5.5.7.48.2"));
    WANT(DOTTED(X509_OID_ANY_POLICY, "2.5.29.32.0"));
    WANT(DOTTED(X509_OID_CPS, "1.3.6.1.5.5.7.2.1"));
    WANT(DOTTED(X509_OID_USER_NOTICE, "1.3.6.1.5.5.7.2.2"));
    WANT(DOTTED(X509_OID_COMMON_NAME, "2.5.4.3"));
    WANT(DOTTED(X509_OID_SERIAL_NUMBER, "2.5.4.5"));
    WANT(DOTTED(X509_OID_COUNTRY, "2.5.4.6"));
    WANT(DOTTED(X509_OID_LOCALITY, "2.5.4.7"));
    WANT(DOTTED(X509_OID_STATE_OR_PROVINCE, "2.5.4.8"));
    WANT(DOTTED(X509_OID_ORGANIZATION, "2.5.4.10"));
    WANT(DOTTED(X509_OID_ORGANIZATIONAL_UNIT, "2.5.4.11"));
    WANT(DOTTED(X509_OID_EMAIL_ADDRESS, "1.2.840.113549.1.9.1"));
    WANT(DOTTED(X509_OID_DOMAIN_COMPONENT, "0.9.2342.19200300.100.1.25"));
    WANT(DOTTED(X509_OID_CHALLENGE_PASSWORD, "1.2.840.113549.1.9.7"));
    WANT(DOTTED(X509_OID_EXTENSION_REQUEST, "1.2.840.113549.1.9.14"));
    WANT(algorithm_kind(BYTES(X509_ALGORITHM_RSA_SHA256)) == X509_SIGNATURE_RSA_SHA256 && sizeof X509_ALGORITHM_RSA_SHA256 == 16);
    WANT(algorithm_kind(BYTES(X509_ALGORITHM_RSA_SHA384)) == X509_SIGNATURE_RSA_SHA384 && sizeof X509_ALGORITHM_RSA_SHA384 == 16);
    WANT(algorithm_kind(BYTES(X509_ALGORITHM_RSA_SHA512)) == X509_SIGNATURE_RSA_SHA512 && sizeof X509_ALGORITHM_RSA_SHA512 == 16);
    WANT(algorithm_kind(BYTES(X509_ALGORITHM_ECDSA_SHA256)) == X509_SIGNATURE_ECDSA_SHA256 && sizeof X509_ALGORITHM_ECDSA_SHA256 == 13);
    WANT(algorithm_kind(BYTES(X509_ALGORITHM_ECDSA_SHA384)) == X509_SIGNATURE_ECDSA_SHA384 && sizeof X509_ALGORITHM_ECDSA_SHA384 == 13);
    WANT(algorithm_kind(BYTES(X509_ALGORITHM_ECDSA_SHA512)) == X509_SIGNATURE_ECDSA_SHA512 && sizeof X509_ALGORITHM_ECDSA_SHA512 == 13);
    WANT(algorithm_kind(BYTES(X509_ALGORITHM_ED25519)) == X509_SIGNATURE_ED25519 && algorithm_kind(BYTES(X509_ALGORITHM_ED448)) == X509_SIGNATURE_ED448);
}

int main(int argc, char **argv)
{
    read_files(argc, argv);
    strings();
    notices();
    moments();
    names();
    keys();
    key_sizes();
    unique_identifiers();
    constants();
    return ended();
}
