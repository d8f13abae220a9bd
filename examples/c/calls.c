/* Asks the calls on whole values, certificates, paths, CRLs and CSRs for an answer that is known, and for its refusals: no bytes, one byte, too little room.
 *
 * usage: as calls.h says */
#include "calls.h"

static void whole_values(void)
{
    const uint8_t one = 0x30;
    WANT(x509_certificate_check(certificate, certificate_len) == X509_OK);
    WANT(x509_certificate_check(nothing, 0) == X509_MALFORMED);
    WANT(x509_certificate_check(&one, 1) == X509_MALFORMED);
    WANT(x509_certificate_check(certificate, certificate_len - 1) == X509_MALFORMED);
    WANT(x509_certificate_check(list, list_len) == X509_MALFORMED);
    WANT(x509_certificate_check(request, request_len) == X509_MALFORMED);
    WANT(x509_crl_check(list, list_len) == X509_OK);
    WANT(x509_crl_check(nothing, 0) == X509_MALFORMED);
    WANT(x509_crl_check(&one, 1) == X509_MALFORMED);
    WANT(x509_request_check(request, request_len) == X509_OK);
    WANT(x509_request_check(request, request_len - 1) == X509_MALFORMED);
    WANT(x509_request_check(nothing, 0) == X509_MALFORMED);
    WANT(x509_request_check(&one, 1) == X509_MALFORMED);
    WANT(x509_request_check(certificate, certificate_len) == X509_MALFORMED);

    WANT(x509_certificate_reencode(certificate, certificate_len, room, sizeof room, &written) == X509_OK);
    WANT(written == certificate_len && memcmp(room, certificate, written) == 0);
    written = 77;
    WANT(x509_certificate_reencode(certificate, certificate_len, room, certificate_len - 1, &written) == X509_ROOM);
    WANT(written == certificate_len);
    written = 77;
    WANT(x509_certificate_reencode(nothing, 0, room, sizeof room, &written) == X509_MALFORMED && written == 77);
    WANT(x509_certificate_reencode(&one, 1, nothing, 0, &written) == X509_MALFORMED && written == 77);
}

static void types_by_name(void)
{
    const uint8_t oid[] = {0x06, 0x03, 0x55, 0x04, 0x06};
    const uint8_t *const name = (const uint8_t *)"ObjectIdentifier";
    WANT(x509_reencode(name, 16, X509_RFC5280, oid, 5, room, 5, &written) == X509_OK && written == 5);
    WANT(memcmp(room, oid, 5) == 0);
    WANT(x509_reencode(name, 16, X509_RAW, oid, 5, room, 4, &written) == X509_ROOM && written == 5);
    WANT(x509_reencode(name, 16, 2, oid, 5, room, 5, &written) == X509_FAILED);
    WANT(x509_reencode(name, 15, X509_RAW, oid, 5, room, 5, &written) == X509_FAILED);
    WANT(x509_reencode((const uint8_t *)"\xff", 1, X509_RAW, oid, 5, room, 5, &written) == X509_FAILED);
    WANT(x509_reencode(nothing, 0, X509_RAW, oid, 5, room, 5, &written) == X509_FAILED);
    WANT(x509_reencode(name, 16, X509_RAW, nothing, 0, room, 5, &written) == X509_MALFORMED);
    /* 2001-02-03T04:05:06Z as GeneralizedTime in both dates: 5280 wants UTCTime. */
    const uint8_t dates[] = "\x30\x22\x18\x0f" "20010203040506Z" "\x18\x0f" "20010203040506Z";
    const uint8_t spelled[] = "\x30\x1e\x17\x0d" "010203040506Z" "\x17\x0d" "010203040506Z";
    const uint8_t *const validity = (const uint8_t *)"Validity";
    WANT(x509_reencode(validity, 8, X509_RFC5280, dates, 36, room, 36, &written) == X509_OK && written == 32);
    WANT(memcmp(room, spelled, 32) == 0);
    WANT(x509_reencode(validity, 8, X509_RAW, dates, 36, room, 36, &written) == X509_OK && written == 36);
    WANT(memcmp(room, dates, 36) == 0);
}

/* OCTET STRINGs at the edges of the forms of lengths (X.690 8.1.3): written with the shortest header, as they came. */
static void lengths(void)
{
    static const struct { uint8_t header[4]; size_t header_len, len; } rows[] = {
        {{0x04, 0x7f}, 2, 127},
        {{0x04, 0x81, 0x80}, 3, 128},
        {{0x04, 0x81, 0xff}, 3, 255},
        {{0x04, 0x82, 0x01, 0x00}, 4, 256},
        {{0x04, 0x82, 0xff, 0xff}, 4, 65535},
    };
    static uint8_t value[65540], out[65540];
    memset(value, 0xab, sizeof value);
    for (size_t at = 0; at < sizeof rows / sizeof rows[0]; at++) {
        const size_t len = rows[at].header_len + rows[at].len;
        memcpy(value, rows[at].header, rows[at].header_len);
        WANT(x509_reencode((const uint8_t *)"OctetString", 11, X509_RAW, value, len, out, sizeof out, &written) == X509_OK);
        WANT(written == len && memcmp(out, value, len) == 0);
        memset(value, 0xab, rows[at].header_len);
    }
    /* three octets of the length */
    static uint8_t longer[5 + 65536], copy[sizeof longer];
    memset(longer, 0xab, sizeof longer);
    memcpy(longer, "\x04\x83\x01\x00\x00", 5);
    WANT(x509_reencode((const uint8_t *)"OctetString", 11, X509_RAW, longer, sizeof longer, copy, sizeof copy, &written) == X509_OK);
    WANT(written == sizeof longer && memcmp(copy, longer, sizeof longer) == 0);
}

static void names(void)
{
    WANT(x509_name_text(BYTES(NAME), room, sizeof room, &written) == X509_OK && written == 4);
    WANT(memcmp(room, "CN=a", 4) == 0);
    WANT(x509_name_text(BYTES(NAME), room, 3, &written) == X509_ROOM && written == 4);
    WANT(x509_name_text(BYTES(NAME), nothing, 0, &written) == X509_ROOM && written == 4);
    WANT(x509_name_text(nothing, 0, room, sizeof room, &written) == X509_MALFORMED);
    WANT(x509_name_text((const uint8_t *)NAME, 1, room, sizeof room, &written) == X509_MALFORMED);
    WANT(x509_name_from_text((const uint8_t *)"CN=a", 4, room, sizeof room, &written) == X509_OK && written == sizeof NAME - 1);
    WANT(memcmp(room, BYTES(NAME)) == 0);
    WANT(x509_name_from_text((const uint8_t *)"CN=a", 4, room, sizeof NAME - 2, &written) == X509_ROOM && written == sizeof NAME - 1);
    WANT(x509_name_from_text((const uint8_t *)"CN", 2, room, sizeof room, &written) == X509_FAILED);
    WANT(x509_name_from_text((const uint8_t *)"CN=\xff", 4, room, sizeof room, &written) == X509_FAILED);
    WANT(x509_name_from_text((const uint8_t *)"CN=a+CN=a", 9, room, sizeof room, &written) == X509_SET_DUPLICATE);
    WANT(x509_name_from_text(nothing, 0, room, sizeof room, &written) == X509_OK && written == 2);
}

/* Texts of RFC 4514, and texts that other readers take for others: each is that of a name, which prints it. The second is of section 4, with a comma in a
 * value behind three backslashes; in the last an asterisk is in no PrintableString, so the element is printed. */
static void texts_of_names(void)
{
#define ROW(text, name) {text, name, sizeof(name) - 1}
    static const struct { const char *text, *name; size_t len; } rows[] = {
        ROW("CN=foo,SN=bar,C=baz+L=bat",
            "\x30\x36\x31\x18\x30\x0a\x06\x03\x55\x04\x06\x13\x03" "baz" "\x30\x0a\x06\x03\x55\x04\x07\x0c\x03" "bat"
            "\x31\x0c\x30\x0a\x06\x03\x55\x04\x04\x0c\x03" "bar" "\x31\x0c\x30\x0a\x06\x03\x55\x04\x03\x0c\x03" "foo"),
        ROW("CN=a\\\\\\,b", "\x30\x0f\x31\x0d\x30\x0b\x06\x03\x55\x04\x03\x0c\x04" "a\\,b"),
        ROW("CN=a\\\\,O=b", "\x30\x19\x31\x0a\x30\x08\x06\x03\x55\x04\x0a\x0c\x01" "b" "\x31\x0b\x30\x09\x06\x03\x55\x04\x03\x0c\x02" "a\\"),
        ROW("", "\x30\x00"),
        ROW("1.3.6.1.4.1.1466.0=#04024869", "\x30\x12\x31\x10\x30\x0e\x06\x08\x2b\x06\x01\x04\x01\x8b\x3a\x00\x04\x02" "Hi"),
        ROW("CN=\\#x", "\x30\x0d\x31\x0b\x30\x09\x06\x03\x55\x04\x03\x0c\x02" "#x"),
        ROW("CN=a\\0ab", "\x30\x0e\x31\x0c\x30\x0a\x06\x03\x55\x04\x03\x0c\x03" "a\nb"),
        ROW("2.5.4.6=#13012a", "\x30\x0c\x31\x0a\x30\x08\x06\x03\x55\x04\x06\x13\x01" "*"),
    };
    for (size_t at = 0; at < sizeof rows / sizeof rows[0]; at++) {
        const uint8_t *const text = (const uint8_t *)rows[at].text;
        WANT(wrote(x509_name_from_text(text, strlen(rows[at].text), room, sizeof room, &written), rows[at].name, rows[at].len));
        WANT(x509_name_text((const uint8_t *)rows[at].name, rows[at].len, room, sizeof room, &written) == X509_OK && is_written(rows[at].text));
    }
    /* names of types are read in either case, in short and in full, and digits in either case */
    static const char *const spellings[] = {"cn=foo", "commonName=foo", "COMMONNAME=foo", "2.5.4.3=fo\\6F", "Cn=#0C03666F6f"};
    for (size_t at = 0; at < sizeof spellings / sizeof spellings[0]; at++)
        WANT(wrote(x509_name_from_text((const uint8_t *)spellings[at], strlen(spellings[at]), room, sizeof room, &written),
                   "\x30\x0e\x31\x0c\x30\x0a\x06\x03\x55\x04\x03\x0c\x03" "foo", 16));
    /* no names: the first that is wrong is told */
    static const char *const none[] = {"CN=a,", "CN=a\\", "CN=a\\4", "CN=#0", "CN=#", "=a", "CN", "X=1", "CN=a+CN=a+CN=\\",
                                       "CN=a\\4,CN=b+CN=b"};
    for (size_t at = 0; at < sizeof none / sizeof none[0]; at++)
        WANT(x509_name_from_text((const uint8_t *)none[at], strlen(none[at]), room, sizeof room, &written) == X509_FAILED);
    WANT(x509_name_from_text(BYTES("CN=b+CN=b,CN=a\\4"), room, sizeof room, &written) == X509_SET_DUPLICATE);
}

/* The types of attributes that have names (RFC 4519 2, RFC 5280 A.1, RFC 2985 5.2.1, X.520): a text with the one that is printed, one with that in full, the
 * OID, and the tag of a value that is read from a text. */
static void types_of_attributes(void)
{
#define TYPE(printed, in_full, oid, tag) {printed, in_full, oid, sizeof(oid) - 1, tag}
    static const struct { const char *printed, *in_full, *oid; size_t len; uint8_t tag; } rows[] = {
        TYPE("CN=a", "commonName=a", "\x55\x04\x03", 0x0c),
        TYPE("SN=a", "surname=a", "\x55\x04\x04", 0x0c),
        TYPE("L=a", "localityName=a", "\x55\x04\x07", 0x0c),
        TYPE("ST=a", "stateOrProvinceName=a", "\x55\x04\x08", 0x0c),
        TYPE("STREET=a", "streetAddress=a", "\x55\x04\x09", 0x0c),
        TYPE("O=a", "organizationName=a", "\x55\x04\x0a", 0x0c),
        TYPE("OU=a", "organizationalUnitName=a", "\x55\x04\x0b", 0x0c),
        TYPE("TITLE=a", "title=a", "\x55\x04\x0c", 0x0c),
        TYPE("DESCRIPTION=a", "description=a", "\x55\x04\x0d", 0x0c),
        TYPE("POSTALCODE=a", "postalCode=a", "\x55\x04\x11", 0x0c),
        TYPE("NAME=a", "name=a", "\x55\x04\x29", 0x0c),
        TYPE("GIVENNAME=a", "givenName=a", "\x55\x04\x2a", 0x0c),
        TYPE("INITIALS=a", "initials=a", "\x55\x04\x2b", 0x0c),
        TYPE("GENERATIONQUALIFIER=a", "generationQualifier=a", "\x55\x04\x2c", 0x0c),
        TYPE("DNQUALIFIER=a", "dnQualifier=a", "\x55\x04\x2e", 0x0c),
        TYPE("PSEUDONYM=a", "pseudonym=a", "\x55\x04\x41", 0x0c),
        TYPE("UID=a", "userId=a", "\x09\x92\x26\x89\x93\xf2\x2c\x64\x01\x01", 0x0c),
        TYPE("SERIALNUMBER=a", "serialNumber=a", "\x55\x04\x05", 0x13),
        TYPE("C=a", "countryName=a", "\x55\x04\x06", 0x13),
        TYPE("DC=a", "domainComponent=a", "\x09\x92\x26\x89\x93\xf2\x2c\x64\x01\x19", 0x16),
        TYPE("EMAILADDRESS=a", "emailAddress=a", "\x2a\x86\x48\x86\xf7\x0d\x01\x09\x01", 0x16),
    };
    for (size_t at = 0; at < sizeof rows / sizeof rows[0]; at++) {
        const uint8_t len = (uint8_t)rows[at].len;
        uint8_t name[32] = {0x30, (uint8_t)(len + 9), 0x31, (uint8_t)(len + 7), 0x30, (uint8_t)(len + 5), 0x06, len};
        memcpy(name + 8, rows[at].oid, len);
        memcpy(name + 8 + len, (const uint8_t[]){rows[at].tag, 1, 'a'}, 3);
        const char *const texts[] = {rows[at].printed, rows[at].in_full};
        for (int of = 0; of < 2; of++)
            WANT(wrote(x509_name_from_text((const uint8_t *)texts[of], strlen(texts[of]), room, sizeof room, &written), (const char *)name, len + 11u));
        WANT(x509_name_text(name, len + 11u, room, sizeof room, &written) == X509_OK && is_written(rows[at].printed));
    }
}

static void signed_parts(void)
{
    x509_span part = {7, 7};
    WANT(x509_signed_slice(nothing, 0, &part) == X509_MALFORMED && part.place == 7 && part.len == 7);
    WANT(x509_signed_slice((const uint8_t *)NAME, 1, &part) == X509_MALFORMED);
    WANT(x509_signed_slice(BYTES(NAME), &part) == X509_MALFORMED);
    /* SEQUENCE { SEQUENCE {}, NULL } */
    WANT(x509_signed_slice((const uint8_t *)"\x30\x04\x30\x00\x05\x00", 6, &part) == X509_OK && part.place == 2 && part.len == 2);
    /* Certificates, lists and requests of 128 to 65,535 octets begin with 30 81 LL or 30 82 LL LL. */
    size_t header = certificate[1] == 0x82 ? 4 : 3;
    WANT(x509_signed_slice(certificate, certificate_len, &part) == X509_OK && part.place == header);
    WANT(certificate[part.place + part.len] == 0x30); /* the algorithm stands behind it */
    header = list[1] == 0x82 ? 4 : 3;
    WANT(x509_signed_slice(list, list_len, &part) == X509_OK && part.place == header);
    header = request[1] == 0x82 ? 4 : 3;
    WANT(x509_signed_slice(request, request_len, &part) == X509_OK && part.place == header);
    WANT(x509_reencode((const uint8_t *)"CertReqInfo", 11, X509_RAW, request + header, part.len, room, sizeof room, &written) == X509_OK);
    WANT(written == part.len && memcmp(room, request + header, written) == 0);
}

static int holds(x509_span span, const char *bytes, size_t len)
{
    return span.len == len && memcmp(certificate + span.place, bytes, len) == 0;
}

/* The values are those of examples/data/make.py. */
static void certificates(void)
{
    x509_certificate view;
    memset(&view, 7, sizeof view);
    const x509_certificate before = view;
    WANT(x509_certificate_view(nothing, 0, &view) == X509_MALFORMED && memcmp(&view, &before, sizeof view) == 0);
    WANT(x509_certificate_view(certificate, 1, &view) == X509_MALFORMED);
    WANT(x509_certificate_view(certificate, certificate_len, &view) == X509_OK);
    WANT(view.version == 3);
    WANT(holds(view.serial_number, "\x02\x08\x12\x34\x56\x78\x90\xab\xcd\xef", 10));
    WANT(view.not_before == 1767323045 && view.not_after == 2695968550);
    WANT(view.issuer.len == view.subject.len && view.issuer.place < view.subject.place);
    WANT(memcmp(certificate + view.issuer.place, certificate + view.subject.place, view.subject.len) == 0);
    WANT(x509_name_text(certificate + view.subject.place, view.subject.len, room, sizeof room, &written) == X509_OK);
    WANT(view.subject_public_key_info.len == 91); /* a key of P-256 (RFC 5480) */
    const uint8_t *key = certificate + view.subject_public_key_info.place, *extensions = certificate + view.extensions.place;
    WANT(x509_reencode((const uint8_t *)"SubjectPublicKeyInfo", 20, X509_RAW, key, 91, room, 91, &written) == X509_OK);
    WANT(x509_reencode((const uint8_t *)"Extensions", 10, X509_RAW, extensions, view.extensions.len, room, sizeof room, &written) == X509_OK);

    /* a key of the algorithm 1.2.3.4 without parameters under one with an INTEGER, and keys that are used as they are (RFC 5280 6.1.4 (d) to (f)) */
#define WITHOUT BYTES("\x30\x0a\x30\x05\x06\x03\x2a\x03\x04\x03\x01\x00")
#define WITH "\x30\x0d\x30\x08\x06\x03\x2a\x03\x04\x02\x01\x07\x03\x01\x00"
    WANT(x509_working_key(BYTES(WITH), WITHOUT, room, 15, &written) == X509_OK && written == 15 && memcmp(room, WITH, 15) == 0);
    WANT(x509_working_key(BYTES(WITH), WITHOUT, room, 14, &written) == X509_ROOM && written == 15);
    WANT(x509_working_key(WITHOUT, BYTES(WITH), room, 15, &written) == X509_OK && written == 15 && memcmp(room, WITH, 15) == 0);
    WANT(x509_working_key(key, 91, WITHOUT, room, 12, &written) == X509_OK && written == 12);
    WANT(x509_working_key(BYTES(WITH), key, 91, room, sizeof room, &written) == X509_OK && written == 91 && memcmp(room, key, 91) == 0);
    WANT(x509_working_key(nothing, 0, WITHOUT, room, 12, &written) == X509_MALFORMED && written == 91);
    WANT(x509_working_key(WITHOUT, key, 90, room, 12, &written) == X509_MALFORMED && written == 91);

    x509_extension found = {7, {7, 7}};
    const uint8_t *const key_usage = (const uint8_t *)"\x55\x1d\x0f";
    WANT(x509_certificate_extension(nothing, 0, key_usage, 3, &found) == X509_MALFORMED && found.critical == 7);
    WANT(x509_certificate_extension(certificate, certificate_len, nothing, 0, &found) == X509_ABSENT && found.value.len == 7);
    WANT(x509_certificate_extension(certificate, certificate_len, (const uint8_t *)"\x55\x1d\x13", 3, &found) == X509_ABSENT);
    WANT(x509_certificate_extension(certificate, certificate_len, key_usage, 3, &found) == X509_OK && found.critical == 1);
    WANT(holds(found.value, "\x03\x02\x05\xa0", 4));
    WANT(x509_certificate_extension(certificate, certificate_len, (const uint8_t *)"\x55\x1d\x11", 3, &found) == X509_OK);
    WANT(found.critical == 0 && certificate[found.value.place] == 0x30);
    /* With the identifier of the one in place of the other's, there are two. */
    for (size_t at = view.extensions.place; at + 3 < certificate_len; at++)
        if (memcmp(certificate + at, "\x55\x1d\x11", 3) == 0)
            certificate[at + 2] = 0x0f;
    found.critical = 7;
    WANT(x509_certificate_extension(certificate, certificate_len, key_usage, 3, &found) == X509_REPEATED && found.critical == 7);
}

/* The certificate is valid from 2026-01-02T03:04:05Z to 2055-06-07T08:09:10Z. */
static void dates(void)
{
    uint32_t side = 7;
    WANT(x509_certificate_out_of_date(nothing, 0, 1767323045, &side) == X509_MALFORMED && side == 7);
    WANT(x509_certificate_out_of_date(list, list_len, 1767323045, &side) == X509_MALFORMED && side == 7);
    WANT(x509_certificate_out_of_date(certificate, certificate_len, 253402300800, &side) == X509_VALUE && side == 7);
    WANT(x509_certificate_out_of_date(certificate, certificate_len, 1767323044, &side) == X509_OK && side == X509_NOT_YET_VALID);
    WANT(x509_certificate_out_of_date(certificate, certificate_len, 1767323045, &side) == X509_OK && side == 0);
    WANT(x509_certificate_out_of_date(certificate, certificate_len, 2695968551, &side) == X509_OK && side == X509_EXPIRED);
    WANT(x509_certificate_out_of_date(certificate, certificate_len, 2695968550, &side) == X509_OK && side == 0);
    WANT(x509_certificate_out_of_date(certificate, certificate_len, 253402300799, &side) == X509_OK && side == X509_EXPIRED);
}

/* What is to be verified of the certificate, which is signed by ECDSA with SHA-256 (RFC 5758 3.2). */
static void signatures(void)
{
    x509_signature signature = {{7, 7}, {7, 7}, {7, 7}, 7};
    WANT(x509_certificate_signature(nothing, 0, &signature) == X509_MALFORMED && signature.signed_part.place == 7 && signature.unused_bits == 7);
    WANT(x509_certificate_signature(certificate, 1, &signature) == X509_MALFORMED && signature.algorithm.len == 7 && signature.bits.len == 7);
    WANT(x509_certificate_signature(certificate, certificate_len - 1, &signature) == X509_MALFORMED);
    WANT(x509_certificate_signature(list, list_len, &signature) == X509_MALFORMED);
    WANT(x509_certificate_signature(certificate, certificate_len, &signature) == X509_OK);
    x509_span part;
    WANT(x509_signed_slice(certificate, certificate_len, &part) == X509_OK);
    WANT(signature.signed_part.place == part.place && signature.signed_part.len == part.len);
    WANT(signature.algorithm.place == part.place + part.len);
    WANT(holds(signature.algorithm, "\x30\x0a\x06\x08\x2a\x86\x48\xce\x3d\x04\x03\x02", 12));
    /* The bits stand at the end, behind 03, the length and the number of unused bits. */
    const size_t place = signature.algorithm.place + 12 + 3;
    WANT(signature.bits.place == place && signature.bits.len == certificate_len - place && signature.unused_bits == 0);
    memcpy(room, certificate, certificate_len);
    room[certificate_len - 1] &= 0xf8;
    room[place - 1] = 3;
    WANT(x509_certificate_signature(room, certificate_len, &signature) == X509_OK && signature.unused_bits == 3);
    WANT(signature.bits.place == place && signature.bits.len == certificate_len - place);
}

/* What a text of a server's name is: how long a DNS name, or how many octets an address has; 0 where it is refused. */
static size_t server_name(const char *text, size_t len)
{
    x509_server_name name = {7, 7, {7, 7}};
    const x509_status status = x509_server_name_view((const uint8_t *)text, len, &name);
    if (status != X509_OK) {
        WANT(status == X509_VALUE && name.name_len == 7 && name.address_len == 7 && name.address[1] == 7 && name.address[2] == 0);
        return 0;
    }
    WANT((name.name_len == 0) == (name.address_len != 0) && name.name_len <= len);
    WANT(name.address_len == 0 || name.address_len == 4 || name.address_len == 16);
    for (size_t at = name.address_len; at < sizeof name.address; at++)
        WANT(name.address[at] == 0);
    return name.name_len + name.address_len;
}

#define SERVER(text) server_name(text, sizeof(text) - 1)

/* Whether the certificate is that of a server or a mailbox; 7 where the text is refused. */
static uint32_t is_of(x509_status (*ask)(const uint8_t *, size_t, const uint8_t *, size_t, uint32_t *), const char *text)
{
    uint32_t matches = 7;
    const x509_status status = ask(certificate, certificate_len, (const uint8_t *)text, strlen(text), &matches);
    WANT(status == X509_OK ? matches <= 1 : status == X509_VALUE && matches == 7);
    return matches;
}

/* The certificate's names are www.example.org, example.org, post@example.org and 192.0.2.7; its common name is the first of them. */
static void names_of_peers(void)
{
    x509_server_name name = {7, 7, {7, 7}};
    WANT(x509_server_name_view(BYTES("[2001:DB8::192.0.2.7]"), &name) == X509_OK && name.name_len == 0 && name.address_len == 16);
    WANT(memcmp(name.address, "\x20\x01\x0d\xb8\0\0\0\0\0\0\0\0\xc0\0\x02\x07", 16) == 0);
    WANT(x509_server_name_view(BYTES("192.0.2.7"), &name) == X509_OK && name.address_len == 4 && memcmp(name.address, "\xc0\0\x02\x07\0", 5) == 0);
    WANT(SERVER("example.org") == 11 && SERVER("Example.ORG.") == 11 && SERVER("localhost") == 9 && SERVER("_a.xn--bcher-kva") == 16);
    WANT(SERVER("::") == 16 && SERVER("[::1]") == 16 && SERVER("1:2:3:4:5:6:7:8") == 16 && SERVER("::ffff:1.2.3.4") == 16);
    WANT(SERVER("") == 0 && SERVER(".") == 0 && SERVER(".a") == 0 && SERVER("a..b") == 0 && SERVER("a..") == 0 && SERVER("-a.b") == 0 && SERVER("a-.b") == 0);
    WANT(SERVER("*.example.org") == 0 && SERVER("a b") == 0 && SERVER("b\xc3\xbc" "cher") == 0 && SERVER("a\0b") == 0 && SERVER("a.1") == 0 && SERVER("1") == 0);
    WANT(SERVER("192.0.2.07") == 0 && SERVER("192.0.2.256") == 0 && SERVER("192.0.2") == 0 && SERVER("192.0.2.7.") == 0 && SERVER("[192.0.2.7]") == 0);
    WANT(SERVER("1:2:3:4:5:6:7") == 0 && SERVER("1::2::3") == 0 && SERVER("::12345") == 0 && SERVER("[::") == 0 && SERVER("::1%1") == 0 && SERVER("[::1]:443") == 0);
    /* 63 octets in a label, and 253 in all */
    char text[256];
    memset(text, 'a', sizeof text);
    WANT(server_name(text, 63) == 63 && server_name(text, 64) == 0);
    text[63] = text[127] = text[191] = '.';
    WANT(server_name(text, 253) == 253 && server_name(text, 254) == 0);
    text[253] = '.';
    WANT(server_name(text, 254) == 253);

    x509_email_address address = {{7, 7}, {7, 7}};
    WANT(x509_email_address_view(nothing, 0, &address) == X509_VALUE && address.local.place == 7 && address.host.len == 7);
    WANT(x509_email_address_view(BYTES("@example.org"), &address) == X509_VALUE && x509_email_address_view(BYTES("a@"), &address) == X509_VALUE);
    WANT(x509_email_address_view(BYTES("a\"@example.org"), &address) == X509_VALUE && x509_email_address_view(BYTES("a@b."), &address) == X509_VALUE);
    WANT(x509_email_address_view(BYTES("a@192.0.2.7"), &address) == X509_VALUE && address.local.len == 7);
    WANT(x509_email_address_view(BYTES("\"a@b\"@example.org"), &address) == X509_OK);
    WANT(address.local.place == 0 && address.local.len == 5 && address.host.place == 6 && address.host.len == 11);

    uint32_t matches = 7;
    WANT(x509_certificate_matches_name(nothing, 0, BYTES("example.org"), &matches) == X509_MALFORMED && matches == 7);
    WANT(x509_certificate_matches_name(certificate, certificate_len - 1, nothing, 0, &matches) == X509_MALFORMED && matches == 7);
    WANT(x509_certificate_matches_email(list, list_len, BYTES("post@example.org"), &matches) == X509_MALFORMED && matches == 7);
    WANT(is_of(x509_certificate_matches_name, "EXAMPLE.org.") == 1 && is_of(x509_certificate_matches_name, "www.example.org") == 1);
    WANT(is_of(x509_certificate_matches_name, "192.0.2.7") == 1 && is_of(x509_certificate_matches_name, "192.0.2.8") == 0);
    WANT(is_of(x509_certificate_matches_name, "a.example.org") == 0 && is_of(x509_certificate_matches_name, "org") == 0);
    WANT(is_of(x509_certificate_matches_name, "::ffff:192.0.2.7") == 0 && is_of(x509_certificate_matches_name, "post@example.org") == 7);
    WANT(is_of(x509_certificate_matches_email, "post@EXAMPLE.org") == 1 && is_of(x509_certificate_matches_email, "Post@example.org") == 0);
    WANT(is_of(x509_certificate_matches_email, "post@www.example.org") == 0 && is_of(x509_certificate_matches_email, "example.org") == 7);
}

/* Whether the first certificate of a path has that fault, under the certificate of the examples and in its first second. */
static int has_fault(const uint8_t *path, size_t len, size_t count, uint32_t reason)
{
    const size_t lens[] = {len, len};
    x509_path_fault fault = {7, 7};
    const x509_status status = x509_path_check(certificate, certificate_len, path, count * len, lens, count, 1767323045, &fault);
    return status == X509_FAULT && fault.place == 0 && fault.reason == reason;
}

/* Copies of the certificate, with something wrong. It is its own issuer's, and no authority's. */
static void faults(void)
{
    WANT(has_fault(certificate, certificate_len - 1, 1, X509_PATH_DECODE));
    WANT(has_fault(list, list_len, 1, X509_PATH_DECODE));
    memcpy(room, certificate, certificate_len);
    memcpy(room + certificate_len, certificate, certificate_len);
    WANT(has_fault(room, certificate_len, 2, X509_PATH_NOT_CA));
    x509_certificate view;
    WANT(x509_certificate_view(certificate, certificate_len, &view) == X509_OK);
    room[view.issuer.place + view.issuer.len - 1] ^= 1;
    WANT(has_fault(room, certificate_len, 1, X509_PATH_ISSUER));
    room[view.issuer.place - 1] ^= 1; /* the end of the algorithm's identifier */
    WANT(has_fault(room, certificate_len, 1, X509_PATH_ALGORITHM));
    memcpy(room, certificate, certificate_len);
    const uint8_t *const key_usage = (const uint8_t *)"\x55\x1d\x0f";
    for (size_t at = view.extensions.place; at + 3 < certificate_len; at++)
        if (memcmp(room + at, key_usage, 3) == 0)
            room[at + 2] = 0x21; /* 2.5.29.33, a critical extension that isn't looked into */
    WANT(has_fault(room, certificate_len, 1, X509_PATH_CRITICAL));
    for (size_t at = view.extensions.place; at + 3 < certificate_len; at++)
        if (memcmp(room + at, "\x55\x1d\x11", 3) == 0)
            room[at + 2] = 0x21;
    WANT(has_fault(room, certificate_len, 1, X509_PATH_REPEATED));
}

static void paths(void)
{
    x509_path_fault fault = {7, 7};
    const size_t one[] = {certificate_len}, less[] = {certificate_len - 1}, around[] = {SIZE_MAX, certificate_len + 1};
    const uint8_t *const path = certificate;
    const size_t len = certificate_len;
    WANT(x509_path_check(certificate, len, path, len, one, 1, 1767323045, &fault) == X509_OK && fault.place == 7 && fault.reason == 7);
    WANT(x509_path_check(certificate, len, path, len, one, 1, 2695968550, &fault) == X509_OK);
    WANT(x509_path_check(certificate, len, nothing, 0, one, 0, 1767323045, &fault) == X509_ABSENT);
    WANT(x509_path_check(certificate, len, path, len, less, 1, 1767323045, &fault) == X509_FAILED);
    WANT(x509_path_check(certificate, len, path, len - 1, one, 1, 1767323045, &fault) == X509_FAILED);
    WANT(x509_path_check(certificate, len, path, len, around, 2, 1767323045, &fault) == X509_FAILED);
    WANT(x509_path_check(certificate, len, path, len, one, 1, 253402300800, &fault) == X509_VALUE);
    WANT(x509_path_check(certificate, len, path, len, one, 1, UINT64_MAX, &fault) == X509_VALUE);
    WANT(x509_path_check(nothing, 0, path, len, one, 1, 1767323045, &fault) == X509_MALFORMED);
    WANT(x509_path_check(certificate, 1, path, len, one, 1, 1767323045, &fault) == X509_MALFORMED);
    WANT(x509_path_check(list, list_len, path, len, one, 1, 1767323045, &fault) == X509_MALFORMED);
    WANT(fault.place == 7 && fault.reason == 7);
    WANT(x509_path_check(certificate, len, path, len, one, 1, 1767323044, &fault) == X509_FAULT && fault.place == 0 && fault.reason == X509_PATH_MOMENT);
    fault = (x509_path_fault){7, 7};
    WANT(x509_path_check(certificate, len, path, len, one, 1, 2695968551, &fault) == X509_FAULT && fault.place == 0 && fault.reason == X509_PATH_MOMENT);
    fault = (x509_path_fault){7, 7};
    WANT(x509_path_check(certificate, len, path, len, one, 1, 253402300799, &fault) == X509_FAULT && fault.place == 0 && fault.reason == X509_PATH_MOMENT);
}

/* NameConstraints (RFC 5280 4.2.1.10) by hand: of the names of directories all are permitted, or all are excluded; subtrees
 * with a minimum of 1, of such names and of registeredID; and a list that is empty. */
#define ALL_PERMITTED "\x30\x08\xa0\x06\x30\x04\xa4\x02\x30\x00"
#define ALL_EXCLUDED "\x30\x08\xa1\x06\x30\x04\xa4\x02\x30\x00"
#define FROM_ONE "\x30\x0b\xa1\x09\x30\x07\xa4\x02\x30\x00\x80\x01\x01"
#define OIDS_FROM_ONE "\x30\x0b\xa1\x09\x30\x07\x88\x02\x2a\x03\x80\x01\x01"
#define UNUSABLE "\x30\x02\xa1\x00"

/* What is said last to a call that validates: no constraints, any policies, these settings, no room for policies, and where it answers. */
#define PLAINLY(settings) NULL, 0, NULL, 0, &(settings), sizeof(settings), NULL, 0, &answer

/* The certificate of the examples as a path under itself, with settings of so many bytes and constraints. */
static x509_status validate(const void *settings, size_t size, const uint8_t *constraints, size_t constraints_len, x509_path_answer *answer)
{
    return x509_path_validate(certificate, certificate_len, certificate, certificate_len, &certificate_len, 1, constraints, constraints_len, NULL, 0,
                              settings, size, NULL, 0, answer);
}

static int is_fault(x509_status status, const x509_path_answer *answer, size_t place, uint32_t reason)
{
    return status == X509_FAULT && answer->place == place && answer->reason == reason && is_at(answer->name, 0, 0) && is_at(answer->key, 0, 0) &&
           answer->policies_len == 0;
}

static const x509_path_answer UNTOUCHED = {7, 7, {7, 7}, {7, 7}, 7};

static int is_untouched(x509_path_answer answer)
{
    return answer.place == 7 && answer.reason == 7 && is_at(answer.name, 7, 7) && is_at(answer.key, 7, 7) && answer.policies_len == 7;
}

static void settings_of_paths(void)
{
    /* a caller of a later header, who asks for nothing of what this library doesn't know, and one who does */
    struct { x509_path_settings known; uint64_t more[4]; } later = {{.moment = 1767323045}, {0, 0, 0, 0}};
    x509_path_answer answer = UNTOUCHED;
    WANT(validate(NULL, 0, NULL, 0, &answer) == X509_VALUE && is_untouched(answer));
    WANT(validate(&later, 1, NULL, 0, &answer) == X509_VALUE && is_untouched(answer));
    WANT(validate(&later, 15, NULL, 0, &answer) == X509_VALUE && is_untouched(answer));
    /* one of the first header, whose settings were a moment and flags */
    WANT(validate(&later, 16, NULL, 0, &answer) == X509_OK);
    WANT(validate(&later, sizeof later.known, NULL, 0, &answer) == X509_OK);
    WANT(validate(&later, sizeof later, NULL, 0, &answer) == X509_OK);
    WANT(validate(&later, sizeof later - 1, NULL, 0, &answer) == X509_OK);
    answer = UNTOUCHED;
    later.more[3] = 1;
    WANT(validate(&later, sizeof later, NULL, 0, &answer) == X509_VALUE && is_untouched(answer));
    later.known.moment = 253402300800;
    WANT(validate(&later, sizeof later.known, NULL, 0, &answer) == X509_VALUE && is_untouched(answer));
    later.known.moment = UINT64_MAX;
    WANT(validate(&later, sizeof later.known, NULL, 0, &answer) == X509_VALUE && is_untouched(answer));
}

/* What isn't known is refused: another flag, bit or purpose, and a purpose of the caller's own that is too long or isn't there. */
static void uses_that_are_none(void)
{
    static const x509_path_settings none[] = {
        {.moment = 1767323045, .flags = 64},       {.moment = 1767323045, .key_usage = 512},   {.moment = 1767323045, .purposes = 64},
        {.moment = 1767323045, .purpose_len = 65}, {.moment = 1767323045, .flags = 1ULL << 63},
    };
    x509_path_answer answer = UNTOUCHED;
    for (size_t at = 0; at < sizeof none / sizeof none[0]; at++)
        WANT(validate(&none[at], sizeof none[at], NULL, 0, &answer) == X509_VALUE && is_untouched(answer));
    const x509_path_settings own = {.moment = 1767323045, .purpose_len = 2, .purpose = {0x2a, 0x03}};
    WANT(validate(&own, 40, NULL, 0, &answer) == X509_VALUE && is_untouched(answer));
    WANT(validate(&own, 41, NULL, 0, &answer) == X509_VALUE && is_untouched(answer));
}

/* CertificatePolicies (RFC 5280 4.2.1.4) by hand: any-policy, 1.2.3, and none. */
#define ANY_POLICY "\x30\x08\x30\x06\x06\x04\x55\x1d\x20\x00"
#define ONE_POLICY "\x30\x06\x30\x04\x06\x02\x2a\x03"
#define NO_POLICY "\x30\x00"

/* The certificate of the examples has no policies, so its path is valid under none. */
static void policies_of_paths(void)
{
    x509_path_settings asked = {.moment = 1767323045};
    uint8_t out[8];
    x509_path_answer answer = UNTOUCHED;
    const size_t len = certificate_len;
    memset(out, 7, sizeof out);
    WANT(x509_path_validate(certificate, len, certificate, len, &len, 1, NULL, 0, BYTES(ONE_POLICY), &asked, sizeof asked, out, sizeof out, &answer)
         == X509_OK);
    WANT(answer.policies_len == 2 && memcmp(out, NO_POLICY "\7", 3) == 0);
    memset(out, 7, sizeof out);
    WANT(x509_path_validate(certificate, len, certificate, len, &len, 1, NULL, 0, NULL, 0, &asked, sizeof asked, out, 1, &answer) == X509_OK);
    WANT(answer.policies_len == 2 && out[0] == 7);
    for (asked.flags = 0; asked.flags < 64; asked.flags++) {
        const int is_asked = (asked.flags & X509_PATH_EXPLICIT_POLICY) != 0;
        answer = UNTOUCHED;
        const x509_status status = validate(&asked, sizeof asked, NULL, 0, &answer);
        WANT(is_asked ? is_fault(status, &answer, 0, X509_PATH_POLICY) : status == X509_OK && answer.policies_len == 2);
    }
    answer = UNTOUCHED;
    WANT(validate(&asked, sizeof asked, NULL, 0, &answer) == X509_VALUE && is_untouched(answer));
    asked.flags = UINT64_MAX;
    WANT(validate(&asked, sizeof asked, NULL, 0, &answer) == X509_VALUE && is_untouched(answer));
    asked.flags = X509_PATH_EXPLICIT_POLICY;
    WANT(is_fault(x509_path_validate(certificate, len, certificate, len, &len, 1, NULL, 0, BYTES(ANY_POLICY), &asked, sizeof asked, NULL, 0, &answer), &answer,
                  0, X509_PATH_POLICY));
    answer = UNTOUCHED;
    WANT(x509_path_validate(certificate, len, certificate, len, &len, 1, NULL, 0, BYTES("\x30\x01"), &asked, sizeof asked, NULL, 0, &answer) == X509_MALFORMED);
    WANT(is_untouched(answer));
}

/* Places for what certificates of a path say, and what stands there before they are filled in. */
static x509_path_certificate told[12];

static void unsay(void)
{
    memset(told, 7, sizeof told);
}

/* Whether nothing was put into the places from that one on. */
static int is_unsaid(size_t from)
{
    const uint8_t *const bytes = (const uint8_t *)told;
    for (size_t at = from * sizeof *told; at < sizeof told; at++)
        if (bytes[at] != 7)
            return 0;
    return 1;
}

static int is_same(x509_span a, x509_span b)
{
    return is_at(a, b.place, b.len);
}

/* Whether all numbers of two views are the same. */
static int is_same_view(const x509_certificate *a, const x509_certificate *b)
{
    return a->version == b->version && is_same(a->serial_number, b->serial_number) && is_same(a->issuer, b->issuer) && is_same(a->subject, b->subject) &&
           is_same(a->subject_public_key_info, b->subject_public_key_info) && is_same(a->extensions, b->extensions) && a->not_before == b->not_before &&
           a->not_after == b->not_after && is_same(a->inner_algorithm, b->inner_algorithm) && is_same(a->issuer_unique_id, b->issuer_unique_id) &&
           a->issuer_unused_bits == b->issuer_unused_bits && is_same(a->subject_unique_id, b->subject_unique_id) &&
           a->subject_unused_bits == b->subject_unused_bits;
}

/* Whether so many places, and no further one, say what x509_certificate_view and x509_certificate_signature say of the certificates of a path. */
static int is_said(const uint8_t *path, const size_t *lens, size_t count)
{
    for (size_t at = 0; at < count; path += lens[at++]) {
        x509_certificate view;
        x509_signature signature;
        if (x509_certificate_view(path, lens[at], &view) != X509_OK || x509_certificate_signature(path, lens[at], &signature) != X509_OK)
            return 0;
        const x509_signature *const said = &told[at].signature;
        if (!is_same_view(&told[at].view, &view) || !is_same(said->signed_part, signature.signed_part) || !is_same(said->algorithm, signature.algorithm) ||
            !is_same(said->bits, signature.bits) || said->unused_bits != signature.unused_bits)
            return 0;
    }
    return is_unsaid(count);
}

/* What is said to a call under the name and the key of the certificate of the examples. */
#define UNDER_OWN_KEY(view) \
    certificate + (view).subject.place, (view).subject.len, certificate + (view).subject_public_key_info.place, (view).subject_public_key_info.len

/* The calls that say what each certificate of a path holds, where it is valid and there is room. */
static void viewed_paths(void)
{
    const x509_path_settings first = {.moment = 1767323045}, before = {.moment = 1767323044};
    const uint8_t *const path = certificate;
    const size_t len = certificate_len;
    x509_path_answer answer = UNTOUCHED;
    x509_certificate own;
    WANT(x509_certificate_view(certificate, len, &own) == X509_OK);
    unsay();
    WANT(x509_path_validate_views(certificate, len, path, len, &len, 1, PLAINLY(first), told, 1) == X509_OK && is_said(path, &len, 1));
    WANT(is_same(answer.name, own.subject) && is_same(answer.key, own.subject_public_key_info) && answer.reason == 0 && answer.policies_len == 2);
    unsay();
    answer = UNTOUCHED;
    WANT(x509_path_validate_views_under_key(UNDER_OWN_KEY(own), path, len, &len, 1, PLAINLY(first), told, 12) == X509_OK && is_said(path, &len, 1));
    WANT(is_same(answer.name, own.subject) && is_same(answer.key, own.subject_public_key_info));
    unsay();
    answer = UNTOUCHED;
    WANT(x509_path_validate_views_under_anchor(certificate, len, path, len, &len, 1, PLAINLY(first), told, 2) == X509_OK && is_said(path, &len, 1));
    WANT(is_same(answer.name, own.subject) && is_same(answer.key, own.subject_public_key_info));

    /* no room for them, as of the calls above */
    unsay();
    WANT(x509_path_validate_views(certificate, len, path, len, &len, 1, PLAINLY(first), NULL, 0) == X509_OK);
    WANT(x509_path_validate_views_under_key(UNDER_OWN_KEY(own), path, len, &len, 1, PLAINLY(first), told, 0) == X509_OK);
    WANT(x509_path_validate_views_under_anchor(certificate, len, path, len, &len, 1, PLAINLY(first), told, 0) == X509_OK && is_unsaid(0));
    /* a fault; no certificates; lengths that don't add up; no settings; and an anchor that is none */
    WANT(is_fault(x509_path_validate_views(certificate, len, path, len, &len, 1, PLAINLY(before), told, 1), &answer, 0, X509_PATH_MOMENT));
    WANT(is_fault(x509_path_validate_views_under_key(UNDER_OWN_KEY(own), path, len, &len, 1, PLAINLY(before), told, 1), &answer, 0, X509_PATH_MOMENT));
    WANT(is_fault(x509_path_validate_views_under_anchor(certificate, len, path, len, &len, 1, PLAINLY(before), told, 1), &answer, 0, X509_PATH_MOMENT));
    answer = UNTOUCHED;
    WANT(x509_path_validate_views(certificate, len, NULL, 0, NULL, 0, PLAINLY(first), told, 1) == X509_ABSENT);
    WANT(x509_path_validate_views_under_key(UNDER_OWN_KEY(own), NULL, 0, NULL, 0, PLAINLY(first), told, 1) == X509_ABSENT);
    WANT(x509_path_validate_views_under_anchor(certificate, len, NULL, 0, NULL, 0, PLAINLY(first), told, 1) == X509_ABSENT);
    WANT(x509_path_validate_views(certificate, len, path, len - 1, &len, 1, PLAINLY(first), told, 1) == X509_FAILED);
    WANT(x509_path_validate_views_under_key(UNDER_OWN_KEY(own), path, len - 1, &len, 1, PLAINLY(first), told, 1) == X509_FAILED);
    WANT(x509_path_validate_views_under_anchor(certificate, len, path, len - 1, &len, 1, PLAINLY(first), told, 1) == X509_FAILED);
    WANT(x509_path_validate_views(certificate, len, path, len, &len, 1, NULL, 0, NULL, 0, NULL, 0, NULL, 0, &answer, told, 1) == X509_VALUE);
    WANT(x509_path_validate_views_under_key(UNDER_OWN_KEY(own), path, len, &len, 1, NULL, 0, NULL, 0, NULL, 0, NULL, 0, &answer, told, 1) == X509_VALUE);
    WANT(x509_path_validate_views_under_anchor(certificate, len, path, len, &len, 1, NULL, 0, NULL, 0, NULL, 0, NULL, 0, &answer, told, 1) == X509_VALUE);
    WANT(x509_path_validate_views(list, list_len, path, len, &len, 1, PLAINLY(first), told, 1) == X509_MALFORMED);
    WANT(x509_path_validate_views_under_key(NULL, 0, BYTES(NAME), path, len, &len, 1, PLAINLY(first), told, 1) == X509_MALFORMED);
    WANT(x509_path_validate_views_under_anchor(list, list_len, path, len, &len, 1, PLAINLY(first), told, 1) == X509_MALFORMED);
    WANT(is_unsaid(0) && is_untouched(answer));
}

static void validated_paths(void)
{
    const x509_path_settings first = {.moment = 1767323045}, before = {.moment = 1767323044}, last = {.moment = 2695968550}, behind = {.moment = 2695968551};
    const size_t len = certificate_len, around[] = {len, SIZE_MAX};
    x509_path_answer answer = UNTOUCHED;
    x509_certificate view;
    WANT(x509_certificate_view(certificate, len, &view) == X509_OK);
    WANT(validate(&first, sizeof first, NULL, 0, &answer) == X509_OK && answer.place == 0 && answer.reason == 0);
    WANT(is_at(answer.name, view.subject.place, view.subject.len));
    WANT(is_at(answer.key, view.subject_public_key_info.place, view.subject_public_key_info.len));
    WANT(validate(&last, sizeof last, NULL, 0, &answer) == X509_OK);
    WANT(is_fault(validate(&before, sizeof before, NULL, 0, &answer), &answer, 0, X509_PATH_MOMENT));
    WANT(is_fault(validate(&behind, sizeof behind, NULL, 0, &answer), &answer, 0, X509_PATH_MOMENT));
    settings_of_paths();
    uses_that_are_none();
    policies_of_paths();

    WANT(validate(&first, sizeof first, BYTES(ALL_PERMITTED), &answer) == X509_OK);
    WANT(is_fault(validate(&first, sizeof first, BYTES(ALL_EXCLUDED), &answer), &answer, 0, X509_PATH_NAMES));
    WANT(is_fault(validate(&first, sizeof first, BYTES(FROM_ONE), &answer), &answer, 0, X509_PATH_NAMES));
    WANT(validate(&first, sizeof first, BYTES(OIDS_FROM_ONE), &answer) == X509_OK);
    answer = UNTOUCHED;
    WANT(validate(&first, sizeof first, BYTES(UNUSABLE), &answer) == X509_VALUE && is_untouched(answer));
    WANT(validate(&first, sizeof first, BYTES("\x30\x01"), &answer) == X509_MALFORMED && is_untouched(answer));

    WANT(x509_path_validate(certificate, len, NULL, 0, NULL, 0, PLAINLY(first)) == X509_ABSENT && is_untouched(answer));
    WANT(x509_path_validate(certificate, len, certificate, len - 1, &len, 1, PLAINLY(first)) == X509_FAILED && is_untouched(answer));
    WANT(x509_path_validate(certificate, len, certificate, len, around, 2, PLAINLY(first)) == X509_FAILED && is_untouched(answer));
    WANT(x509_path_validate(NULL, 0, certificate, len, &len, 1, PLAINLY(first)) == X509_MALFORMED && is_untouched(answer));
    WANT(is_fault(x509_path_validate(certificate, len, list, list_len, &list_len, 1, PLAINLY(first)), &answer, 0, X509_PATH_DECODE));

    const uint8_t *name = certificate + view.subject.place, *key = certificate + view.subject_public_key_info.place;
    const size_t name_len = view.subject.len, key_len = view.subject_public_key_info.len;
    answer = UNTOUCHED;
    WANT(x509_path_validate_under_anchor(list, list_len, certificate, len, &len, 1, PLAINLY(first)) == X509_MALFORMED && is_untouched(answer));
    WANT(x509_path_validate_under_key(name, name_len - 1, key, key_len, certificate, len, &len, 1, PLAINLY(first)) == X509_MALFORMED);
    WANT(x509_path_validate_under_key(name, name_len, key, key_len - 1, certificate, len, &len, 1, PLAINLY(first)) == X509_MALFORMED);
    WANT(is_untouched(answer));
    WANT(x509_path_validate_under_anchor(certificate, len, certificate, len, &len, 1, PLAINLY(first)) == X509_OK);
    WANT(is_at(answer.name, view.subject.place, name_len) && is_at(answer.key, view.subject_public_key_info.place, key_len));
    answer = UNTOUCHED;
    WANT(x509_path_validate_under_key(name, name_len, key, key_len, certificate, len, &len, 1, PLAINLY(first)) == X509_OK);
    WANT(is_at(answer.name, view.subject.place, name_len) && is_at(answer.key, view.subject_public_key_info.place, key_len));
    WANT(is_fault(x509_path_validate_under_key(BYTES(NAME), key, key_len, certificate, len, &len, 1, PLAINLY(first)), &answer, 0, X509_PATH_ISSUER));
    WANT(is_fault(x509_path_validate_under_anchor(certificate, len, certificate, len, &len, 1, PLAINLY(before)), &answer, 0, X509_PATH_MOMENT));
    /* no certificates, lengths that don't add up, and no settings */
    answer = UNTOUCHED;
    WANT(x509_path_validate_under_key(name, name_len, key, key_len, NULL, 0, NULL, 0, PLAINLY(first)) == X509_ABSENT);
    WANT(x509_path_validate_under_anchor(certificate, len, NULL, 0, NULL, 0, PLAINLY(first)) == X509_ABSENT);
    WANT(x509_path_validate_under_key(name, name_len, key, key_len, certificate, len - 1, &len, 1, PLAINLY(first)) == X509_FAILED);
    WANT(x509_path_validate_under_anchor(certificate, len, certificate, len - 1, &len, 1, PLAINLY(first)) == X509_FAILED);
    WANT(x509_path_validate_under_key(name, name_len, key, key_len, certificate, len, &len, 1, NULL, 0, NULL, 0, NULL, 0, NULL, 0, &answer) == X509_VALUE);
    WANT(x509_path_validate_under_anchor(certificate, len, certificate, len, &len, 1, NULL, 0, NULL, 0, NULL, 0, NULL, 0, &answer) == X509_VALUE
         && is_untouched(answer));
}

/* Ten certificates, each an authority that is its own issuer, from 1970 to 9999, without a path length constraint (RFC 5280 4.1). */
static void long_paths(void)
{
    static const char authority[] = "\x30\x76\x30\x6a\xa0\x03\x02\x01\x02\x02\x01\x01\x30\x03\x06\x01\x2a" NAME
                                    "\x30\x20\x17\x0d" "700101000000Z" "\x18\x0f" "99991231235959Z" NAME "\x30\x08\x30\x03\x06\x01\x2a\x03\x01\x00"
                                    "\xa3\x13\x30\x11\x30\x0f\x06\x03\x55\x1d\x13\x01\x01\xff\x04\x05\x30\x03\x01\x01\xff"
                                    "\x30\x03\x06\x01\x2a\x03\x03\x00\xab\xcd";
    enum { COUNT = 10, LEN = sizeof authority - 1 };
    static uint8_t path[COUNT * LEN];
    size_t lens[COUNT];
    for (int at = 0; at < COUNT; at++) {
        memcpy(path + at * LEN, authority, LEN);
        lens[at] = LEN;
    }
    const x509_path_settings now = {.moment = 1767323045};
    x509_path_fault fault = {7, 7};
    x509_path_answer answer = UNTOUCHED;
    x509_certificate view;
    WANT(x509_certificate_view(BYTES(authority), &view) == X509_OK && is_at(view.extensions, view.extensions.place, 19));
    WANT(x509_path_check(BYTES(authority), path, sizeof path, lens, COUNT, now.moment, &fault) == X509_OK && fault.reason == 7);
    WANT(x509_path_validate(BYTES(authority), path, sizeof path, lens, COUNT, PLAINLY(now)) == X509_OK && answer.reason == 0);
    WANT(x509_path_validate_under_anchor(BYTES(authority), path, sizeof path, lens, COUNT, PLAINLY(now)) == X509_OK);
    WANT(x509_path_validate_under_key(BYTES(NAME), BYTES("\x30\x08\x30\x03\x06\x01\x2a\x03\x01\x00"), path, sizeof path, lens, COUNT, PLAINLY(now))
         == X509_OK);
    /* the fourth ends a year before the others; where there is room for all each says where its parts stand, and else none does */
    memcpy(path + 3 * LEN + 50, "9998", 4);
    unsay();
    WANT(x509_path_validate_views(BYTES(authority), path, sizeof path, lens, COUNT, PLAINLY(now), told, COUNT - 1) == X509_OK && is_unsaid(0));
    WANT(x509_path_validate_views(BYTES(authority), path, sizeof path, lens, COUNT, PLAINLY(now), told, 12) == X509_OK && is_said(path, lens, COUNT));
    for (size_t at = 0; at < COUNT; at++) {
        WANT(told[at].view.version == 3 && told[at].view.not_before == 0 && told[at].view.not_after == (at == 3 ? 253370764799 : 253402300799));
        WANT(is_at(told[at].view.subject, 65, 14) && is_at(told[at].view.subject_public_key_info, 79, 10) && is_at(told[at].view.extensions, 91, 19));
        WANT(is_at(told[at].signature.signed_part, 2, 108) && is_at(told[at].signature.algorithm, 110, 5) && is_at(told[at].signature.bits, 118, 2));
    }
    /* the fifth isn't, with cA false in its BasicConstraints, which DER doesn't encode */
    path[5 * LEN - 11] = 0;
    WANT(x509_path_check(BYTES(authority), path, sizeof path, lens, COUNT, now.moment, &fault) == X509_FAULT && fault.place == 4
         && fault.reason == X509_PATH_CRITICAL);
    WANT(is_fault(x509_path_validate(BYTES(authority), path, sizeof path, lens, COUNT, PLAINLY(now)), &answer, 4, X509_PATH_EXTENSION));
    unsay();
    WANT(is_fault(x509_path_validate_views(BYTES(authority), path, sizeof path, lens, COUNT, PLAINLY(now), told, 12), &answer, 4, X509_PATH_EXTENSION));
    WANT(is_unsaid(0));
}

/* Certificates by hand, from 1970 to 9999, without a path length constraint: a number, the names of issuer and subject, the OID of the key's algorithm, which
 * alone tells one key from another, and whether it is an authority's. */
#define OTHER_NAME "\x30\x0c\x31\x0a\x30\x08\x06\x03\x55\x04\x03\x0c\x01" "b"
#define BY_HAND(number, issuer, subject, key) "\x30\x76\x30\x6a\xa0\x03\x02\x01\x02\x02\x01" number "\x30\x03\x06\x01\x2a" issuer \
    "\x30\x20\x17\x0d" "700101000000Z" "\x18\x0f" "99991231235959Z" subject "\x30\x08\x30\x03\x06\x01" key "\x03\x01\x00" \
    "\xa3\x13\x30\x11\x30\x0f\x06\x03\x55\x1d\x13\x01\x01\xff\x04\x05\x30\x03\x01\x01\xff" "\x30\x03\x06\x01\x2a\x03\x03\x00\xab\xcd"
enum { BY_HAND_LEN = 0x78, NOT_BEFORE_PLACE = 35, KEY_PLACE = 79, KEY_LEN = 10 };

static const x509_found_path UNFOUND_PATH = {7, 7, 7, 7};

static int is_path(x509_found_path found, size_t anchor, size_t count, size_t place, uint32_t reason)
{
    return found.anchor == anchor && found.count == count && found.place == place && found.reason == reason;
}

/* What is said in the middle to a call that finds: no constraints, any policies, and settings. */
#define FOR(settings) NULL, 0, NULL, 0, &(settings), sizeof(settings)

/* A leaf that two authorities of one name and two keys may have issued, one of which is there twice, and a certificate of another. */
static void found_paths(void)
{
    static const char whole[] = BY_HAND("\x01", NAME, NAME, "\x2a") BY_HAND("\x02", NAME, OTHER_NAME, "\x2b") BY_HAND("\x03", NAME, OTHER_NAME, "\x2c")
                                BY_HAND("\x04", OTHER_NAME, NAME, "\x2d");
    const uint8_t *const bytes = (const uint8_t *)whole;
    const size_t len = sizeof whole - 1;
    const x509_span root = {0, BY_HAND_LEN}, leaf = {3 * BY_HAND_LEN, BY_HAND_LEN}, outside = {len, 1}, none = {0, 0};
    const x509_span authorities[] = {none, {BY_HAND_LEN, BY_HAND_LEN}, {2 * BY_HAND_LEN, BY_HAND_LEN}, {BY_HAND_LEN, BY_HAND_LEN}};
    const x509_span anchors[] = {authorities[1], root, root};
    const x509_path_settings now = {.moment = 1767323045}, before = {.moment = 0, .flags = X509_PATH_EXPLICIT_POLICY}, unknown = {.flags = 64};
    x509_found_path found = UNFOUND_PATH;
    size_t path[2] = {7, 7};
    WANT(len == 4 * BY_HAND_LEN);

    /* straight under an authority that is trusted, and under the root */
    WANT(x509_path_find(bytes, len, anchors, 3, authorities, 4, &leaf, NULL, 0, FOR(now), 8, path, 2, &found) == X509_OK);
    WANT(is_path(found, 0, 0, 0, 0) && path[0] == 7);
    WANT(x509_path_find(bytes, len, anchors + 1, 2, authorities, 4, &leaf, NULL, 0, FOR(now), 1, path, 2, &found) == X509_OK);
    WANT(is_path(found, 0, 1, 0, 0) && (path[0] == 1 || path[0] == 2) && path[1] == 7);
    const size_t first = path[0];
    path[0] = 7;
    WANT(x509_path_find(bytes, len, &root, 1, authorities, 4, &leaf, NULL, 0, FOR(now), 1, NULL, 0, &found) == X509_OK && is_path(found, 0, 1, 0, 0));

    /* the leaf wasn't signed with that key, nor with the other one */
    x509_bad_link bad[] = {{leaf, {authorities[first].place + KEY_PLACE, KEY_LEN}}, {leaf, {authorities[3 - first].place + KEY_PLACE, KEY_LEN}}};
    WANT(x509_path_find(bytes, len, &root, 1, authorities, 4, &leaf, bad, 1, FOR(now), 8, path, 2, &found) == X509_OK);
    WANT(is_path(found, 0, 1, 0, 0) && path[0] == 3 - first);
    WANT(x509_path_find(bytes, len, &root, 1, authorities, 4, &leaf, bad, 2, FOR(now), 8, path, 2, &found) == X509_FAULT);
    WANT(is_path(found, 0, 1, 1, X509_PATH_SIGNATURE) && (path[0] == 1 || path[0] == 2));

    /* a fault, and constraints that can't be used */
    WANT(x509_path_find(bytes, len, &root, 1, authorities, 4, &leaf, NULL, 0, FOR(before), 8, path, 2, &found) == X509_FAULT);
    WANT(is_path(found, 0, 1, 0, X509_PATH_POLICY));
    WANT(x509_path_find(bytes, len, &root, 1, authorities, 4, &leaf, NULL, 0, BYTES(UNUSABLE), NULL, 0, &now, sizeof now, 8, path, 2, &found) == X509_FAULT);
    WANT(is_path(found, 0, 1, 0, 0));

    /* what is wrong with the leaf whatever stands above it comes first: not yet valid, or with an extension that DER doesn't encode so */
    static uint8_t spoilt[sizeof whole - 1];
    memcpy(spoilt, bytes, len);
    spoilt[leaf.place + BY_HAND_LEN - 11] = 0;
    found = UNFOUND_PATH;
    path[0] = 7;
    WANT(x509_path_find(spoilt, len, anchors, 3, authorities, 4, &leaf, NULL, 0, FOR(now), 8, path, 2, &found) == X509_FAULT);
    WANT(is_path(found, 3, 0, 0, X509_PATH_EXTENSION) && path[0] == 7);
    memcpy(spoilt + leaf.place + NOT_BEFORE_PLACE, "49", 2);
    WANT(x509_path_find(spoilt, len, NULL, 0, NULL, 0, &leaf, NULL, 0, FOR(now), 0, NULL, 0, &found) == X509_FAULT && is_path(found, 0, 0, 0, X509_PATH_MOMENT));
    uint32_t side = 7;
    WANT(x509_certificate_out_of_date(spoilt + leaf.place, leaf.len, now.moment, &side) == X509_OK && side == X509_NOT_YET_VALID);
    WANT(x509_certificate_out_of_date(spoilt + leaf.place, leaf.len, 2493072000, &side) == X509_OK && side == 0);
    WANT(x509_certificate_out_of_date(spoilt + leaf.place, leaf.len, 2493071999, &side) == X509_OK && side == X509_NOT_YET_VALID);

    /* no authorities, too few that are allowed, and no anchors */
    found = UNFOUND_PATH;
    path[0] = 7;
    WANT(x509_path_find(bytes, len, &root, 1, NULL, 0, &leaf, NULL, 0, FOR(now), 8, path, 2, &found) == X509_ABSENT);
    WANT(x509_path_find(bytes, len, &root, 1, authorities, 4, &leaf, NULL, 0, FOR(now), 0, path, 2, &found) == X509_ABSENT);
    WANT(x509_path_find(bytes, len, NULL, 0, authorities, 4, &leaf, NULL, 0, FOR(now), 8, path, 2, &found) == X509_ABSENT);

    /* parts that lie elsewhere, or are none */
    const x509_bad_link others[] = {{outside, bad[0].key}, {leaf, outside}, {none, bad[0].key}, {leaf, none}};
    WANT(x509_path_find(bytes, len, &outside, 1, authorities, 4, &leaf, NULL, 0, FOR(now), 8, path, 2, &found) == X509_FAILED);
    WANT(x509_path_find(bytes, len, &root, 1, &outside, 1, &leaf, NULL, 0, FOR(now), 8, path, 2, &found) == X509_FAILED);
    WANT(x509_path_find(bytes, len, &root, 1, authorities, 4, &outside, NULL, 0, FOR(now), 8, path, 2, &found) == X509_FAILED);
    WANT(x509_path_find(bytes, len, &root, 1, authorities, 4, &leaf, others, 1, FOR(now), 8, path, 2, &found) == X509_FAILED);
    WANT(x509_path_find(bytes, len, &root, 1, authorities, 4, &leaf, others + 1, 1, FOR(now), 8, path, 2, &found) == X509_FAILED);
    WANT(x509_path_find(bytes, len, &none, 1, authorities, 4, &leaf, NULL, 0, FOR(now), 8, path, 2, &found) == X509_MALFORMED);
    WANT(x509_path_find(bytes, len, &root, 1, authorities, 4, &none, NULL, 0, FOR(now), 8, path, 2, &found) == X509_MALFORMED);
    WANT(x509_path_find(bytes, len, &root, 1, authorities, 4, &leaf, others + 2, 1, FOR(now), 8, path, 2, &found) == X509_MALFORMED);
    WANT(x509_path_find(bytes, len, &root, 1, authorities, 4, &leaf, others + 3, 1, FOR(now), 8, path, 2, &found) == X509_MALFORMED);
    WANT(x509_path_find(bytes, len, &root, 1, authorities, 4, &leaf, NULL, 0, FOR(unknown), 8, path, 2, &found) == X509_VALUE);
    WANT(x509_path_find(bytes, len, &root, 1, authorities, 4, &leaf, NULL, 0, FOR(now), 256, path, 2, &found) == X509_VALUE);
    WANT(is_path(found, 7, 7, 7, 7) && path[0] == 7 && path[1] == 7);
}

/* Ten authorities of one name: more paths lead over them than are validated, and none is valid where a policy is asked for. */
static void paths_beyond_limits(void)
{
    static const char authority[] = BY_HAND("\x01", NAME, NAME, "\x2a");
    enum { COUNT = 10 };
    static uint8_t bytes[(COUNT + 1) * BY_HAND_LEN];
    x509_span all[COUNT + 1];
    for (int at = 0; at <= COUNT; at++) {
        memcpy(bytes + at * BY_HAND_LEN, authority, BY_HAND_LEN);
        bytes[at * BY_HAND_LEN + 11] = (uint8_t)(at + 1); /* its number */
        all[at] = (x509_span){(size_t)at * BY_HAND_LEN, BY_HAND_LEN};
    }
    const x509_path_settings asked = {.moment = 1767323045, .flags = X509_PATH_EXPLICIT_POLICY};
    x509_found_path found = UNFOUND_PATH;
    WANT(x509_path_find(bytes, sizeof bytes, all, 1, all, COUNT, all + COUNT, NULL, 0, FOR(asked), 8, NULL, 0, &found) == X509_LIMIT);
    WANT(is_path(found, 7, 7, 7, 7));
    WANT(x509_path_find(bytes, sizeof bytes, all, 1, all, COUNT, all + COUNT, NULL, 0, FOR(asked), 1, NULL, 0, &found) == X509_FAULT);
}

static void lists(void)
{
    size_t entries = 77;
    WANT(x509_crl_walk(nothing, 0, &entries) == X509_MALFORMED && entries == 77);
    WANT(x509_crl_walk(list, 1, &entries) == X509_MALFORMED && entries == 77);
    WANT(x509_crl_walk(list, list_len, &entries) == X509_OK && entries == 3);

    x509_revocation revocation = {7, 7};
    const uint8_t *const number = (const uint8_t *)"\x02\x08\x12\x34\x56\x78\x90\xab\xcd\xef";
    WANT(x509_crl_lookup(nothing, 0, number, 10, &revocation) == X509_MALFORMED && revocation.date == 7);
    WANT(x509_crl_lookup(list, list_len, nothing, 0, &revocation) == X509_MALFORMED);
    WANT(x509_crl_lookup(list, list_len, number, 9, &revocation) == X509_MALFORMED);
    WANT(x509_crl_lookup(list, list_len, (const uint8_t *)"\x02\x01\x02", 3, &revocation) == X509_ABSENT && revocation.reason == 7);
    WANT(x509_crl_lookup(list, list_len, number, 10, &revocation) == X509_OK);
    WANT(revocation.date == 1768903200 && revocation.reason == 1);
    WANT(x509_crl_lookup(list, list_len, (const uint8_t *)"\x02\x01\x03", 3, &revocation) == X509_OK && revocation.reason == -1);

    /* A list of one entry, the number 5, which has its reason code twice, by hand. */
    const char reason[] = "\x30\x60\x30\x55\x02\x01\x01\x30\x03\x06\x01\x2a" NAME "\x17\x0d" "700101000001Z"
                          "\x30\x2e\x30\x2c\x02\x01\x05\x17\x0d" "700101000002Z"
                          "\x30\x18\x30\x0a\x06\x03\x55\x1d\x15\x04\x03\x0a\x01\x01\x30\x0a\x06\x03\x55\x1d\x15\x04\x03\x0a\x01\x04"
                          "\x30\x03\x06\x01\x2a\x03\x02\x04\xf0";
    revocation = (x509_revocation){7, 7};
    WANT(x509_crl_lookup(BYTES(reason), BYTES("\x02\x01\x05"), &revocation) == X509_FAILED && revocation.date == 7 && revocation.reason == 7);
    WANT(x509_crl_lookup(BYTES(reason), BYTES("\x02\x01\x06"), &revocation) == X509_ABSENT && revocation.date == 7 && revocation.reason == 7);
}

/* The entries of examples/data/list.der, at the places 2, 22 and 63, by their numbers; and lists by hand, of which the first numbers are 5, 6, 5. */
static void found_entries(const uint8_t *entries, size_t len)
{
    x509_crl_entry entry = {{7, 7}, 7, {7, 7}};
    WANT(x509_crl_entry_find(entries, len, BYTES("\x02\x01\x02"), &entry) == X509_ABSENT && is_at(entry.serial_number, 7, 7) && entry.date == 7);
    WANT(x509_crl_entry_find(entries, len, BYTES("\x02\x00"), &entry) == X509_MALFORMED
         && x509_crl_entry_find(entries, len, BYTES("\x04\x01\x03"), &entry) == X509_MALFORMED);
    WANT(x509_crl_entry_find(nothing, 0, BYTES("\x02\x01\x03"), &entry) == X509_MALFORMED
         && x509_crl_entry_find(entries, len - 1, BYTES("\x02\x01\x03"), &entry) == X509_MALFORMED);
    WANT(is_at(entry.serial_number, 7, 7) && entry.date == 7 && is_at(entry.extensions, 7, 7));
    WANT(x509_crl_entry_find(entries, len, BYTES("\x02\x08\x12\x34\x56\x78\x90\xab\xcd\xef"), &entry) == X509_OK);
    WANT(is_at(entry.serial_number, 24, 10) && entry.date == 1768903200 && is_at(entry.extensions, 49, 14));
    WANT(x509_crl_entry_find(entries, len, BYTES("\x02\x01\x01"), &entry) == X509_OK && is_at(entry.serial_number, 4, 3) && is_at(entry.extensions, 0, 0));
    WANT(x509_crl_entry_find(entries, len, BYTES("\x02\x01\x03"), &entry) == X509_OK && is_at(entry.serial_number, 65, 3));

    /* the first of two; what stands behind the one that is found isn't looked at */
    const char twice[] = "\x30\x3c\x30\x12\x02\x01\x05\x17\x0d" "260101000000Z" "\x30\x12\x02\x01\x06\x17\x0d" "260102000000Z"
                         "\x30\x12\x02\x01\x05\x17\x0d" "260103000000Z";
    WANT(x509_crl_entry_find(BYTES(twice), BYTES("\x02\x01\x05"), &entry) == X509_OK && is_at(entry.serial_number, 4, 3) && entry.date == 1767225600);
    WANT(x509_crl_entry_find(BYTES(twice), BYTES("\x02\x01\x06"), &entry) == X509_OK && is_at(entry.serial_number, 24, 3) && entry.date == 1767312000);
    WANT(x509_crl_entry_find(BYTES("\x30\x15\x30\x12\x02\x01\x05\x17\x0d" "260101000000Z" "\x05"), BYTES("\x02\x01\x05"), &entry) == X509_OK
         && is_at(entry.serial_number, 4, 3));
    WANT(x509_crl_entry_find(BYTES("\x30\x00"), BYTES("\x02\x01\x05"), &entry) == X509_ABSENT);
    /* no lists: of no entry, of one without a date, and octets behind */
    WANT(x509_crl_entry_find(BYTES("\x30\x02\x05\x00"), BYTES("\x02\x01\x05"), &entry) == X509_ABSENT);
    WANT(x509_crl_entry_find(BYTES("\x30\x05\x30\x03\x02\x01\x05"), BYTES("\x02\x01\x05"), &entry) == X509_MALFORMED);
    WANT(x509_crl_entry_find(BYTES("\x30\x00\x05\x00"), BYTES("\x02\x01\x05"), &entry) == X509_MALFORMED && is_at(entry.serial_number, 4, 3));
}

/* The indexes of these lists, whose entries stand two octets further in front in the content, and what is found by them; and by numbers that are no index. */
static void indexed_entries(const uint8_t *entries, size_t len)
{
    uint32_t index[4] = {7, 7, 7, 7};
    size_t count = 77;
    WANT(x509_crl_index(nothing, 0, index, 4, &count) == X509_MALFORMED && x509_crl_index(entries, len - 1, index, 4, &count) == X509_MALFORMED);
    WANT(x509_crl_index(BYTES("\x30\x05\x30\x03\x02\x01\x05"), index, 4, &count) == X509_MALFORMED && count == 77 && index[0] == 7);
    WANT(x509_crl_index(entries, len, NULL, 0, &count) == X509_ROOM && count == 3);
    count = 77;
    WANT(x509_crl_index(entries, len, index, 2, &count) == X509_ROOM && count == 3 && index[0] == 7 && index[1] == 7);
    WANT(x509_crl_index(BYTES("\x30\x00"), NULL, 0, &count) == X509_OK && count == 0);
    WANT(x509_crl_index(entries, len, index, 4, &count) == X509_OK && count == 3);
    /* in the order 01, 03, 12 34 .. */
    WANT(index[0] == 0 && index[1] == 61 && index[2] == 20);
    index[0] = index[1] = index[2] = 7;
    WANT(x509_crl_index(entries, len, index, 3, &count) == X509_OK && index[0] == 0 && index[1] == 61 && index[2] == 20);

    x509_crl_entry entry = {{7, 7}, 7, {7, 7}};
    WANT(x509_crl_index_find(entries, len, index, 3, BYTES("\x02\x01\x02"), &entry) == X509_ABSENT
         && x509_crl_index_find(entries, len, index, 3, BYTES("\x02\x01\x00"), &entry) == X509_ABSENT
         && x509_crl_index_find(entries, len, index, 3, BYTES("\x02\x01\x13"), &entry) == X509_ABSENT);
    WANT(x509_crl_index_find(entries, len, index, 3, BYTES("\x02\x00"), &entry) == X509_MALFORMED
         && x509_crl_index_find(entries, len, index, 3, BYTES("\x04\x01\x03"), &entry) == X509_MALFORMED);
    WANT(x509_crl_index_find(nothing, 0, index, 3, BYTES("\x02\x01\x03"), &entry) == X509_MALFORMED
         && x509_crl_index_find(entries, len - 1, index, 3, BYTES("\x02\x01\x03"), &entry) == X509_MALFORMED);
    WANT(is_at(entry.serial_number, 7, 7) && entry.date == 7 && is_at(entry.extensions, 7, 7));
    WANT(x509_crl_index_find(entries, len, index, 3, BYTES("\x02\x08\x12\x34\x56\x78\x90\xab\xcd\xef"), &entry) == X509_OK);
    WANT(is_at(entry.serial_number, 24, 10) && entry.date == 1768903200 && is_at(entry.extensions, 49, 14));
    WANT(x509_crl_index_find(entries, len, index, 3, BYTES("\x02\x01\x01"), &entry) == X509_OK && is_at(entry.serial_number, 4, 3)
         && is_at(entry.extensions, 0, 0));
    WANT(x509_crl_index_find(entries, len, index, 3, BYTES("\x02\x01\x03"), &entry) == X509_OK && is_at(entry.serial_number, 65, 3));
    WANT(x509_crl_index_find(BYTES("\x30\x00"), NULL, 0, BYTES("\x02\x01\x05"), &entry) == X509_ABSENT);

    /* the first of two */
    const char twice[] = "\x30\x3c\x30\x12\x02\x01\x05\x17\x0d" "260101000000Z" "\x30\x12\x02\x01\x06\x17\x0d" "260102000000Z"
                         "\x30\x12\x02\x01\x05\x17\x0d" "260103000000Z";
    WANT(x509_crl_index(BYTES(twice), index, 3, &count) == X509_OK && count == 3 && index[0] == 0 && index[1] == 40 && index[2] == 20);
    WANT(x509_crl_index_find(BYTES(twice), index, 3, BYTES("\x02\x01\x05"), &entry) == X509_OK && is_at(entry.serial_number, 4, 3)
         && entry.date == 1767225600);
    WANT(x509_crl_index_find(BYTES(twice), index, 3, BYTES("\x02\x01\x06"), &entry) == X509_OK && is_at(entry.serial_number, 24, 3));

    /* no indexes: of no place, of places outside and of one that begins no entry; of one within the value of an extension, where an entry stands or none */
    const uint32_t others[] = {0xffffffff, 81, 80, 5}, within[] = {29};
    WANT(x509_crl_index_find(entries, len, NULL, 0, BYTES("\x02\x01\x03"), &entry) == X509_ABSENT);
    for (size_t at = 0; at < 4; at++)
        WANT(x509_crl_index_find(entries, len, others + at, 1, BYTES("\x02\x01\x03"), &entry) == X509_ABSENT);
    WANT(x509_crl_index_find(entries, len, others, 4, BYTES("\x02\x01\x03"), &entry) == X509_ABSENT && is_at(entry.serial_number, 24, 3));
    const char inner[] = "\x30\x31\x30\x2f\x02\x01\x05\x17\x0d" "260101000000Z" "\x30\x1b\x30\x19\x06\x01\x2a\x04\x14"
                         "\x30\x12\x02\x01\x09\x17\x0d" "260102000000Z";
    WANT(x509_crl_index(BYTES(inner), index, 1, &count) == X509_OK && count == 1 && index[0] == 0);
    WANT(x509_crl_index_find(BYTES(inner), index, 1, BYTES("\x02\x01\x09"), &entry) == X509_ABSENT);
    WANT(x509_crl_index_find(BYTES(inner), within, 1, BYTES("\x02\x01\x09"), &entry) == X509_OK && is_at(entry.serial_number, 33, 3)
         && entry.date == 1767312000);
    const char dateless[] = "\x30\x22\x30\x20\x02\x01\x05\x17\x0d" "260101000000Z" "\x30\x0c\x30\x0a\x06\x01\x2a\x04\x05" "\x30\x03\x02\x01\x09";
    WANT(x509_crl_index_find(BYTES(dateless), within, 1, BYTES("\x02\x01\x09"), &entry) == X509_MALFORMED && is_at(entry.serial_number, 33, 3));
}

/* The front of an entry with a number, and an extension that names its issuer by a DNS name. */
#define ENTRY_OF(len, number) "\x30" len "\x02\x01" number "\x17\x0d" "260101000000Z"
#define ISSUED_BY(name) "\x30\x0f\x06\x03\x55\x1d\x1d\x01\x01\xff\x04\x05\x30\x03\x82\x01" name

/* An indirect list by hand (RFC 5280 5.3.3): the entries 5, 6, 7 and 8, of which 6 names the issuer with the DNS name a, behind a reason, and 8 that with b. */
static void issued_entries(void)
{
    const char value[] = "\x30\x81\x82" ENTRY_OF("\x12", "\x05") ENTRY_OF("\x31", "\x06")
                         "\x30\x1d\x30\x0a\x06\x03\x55\x1d\x15\x04\x03\x0a\x01\x01" ISSUED_BY("a")
                         ENTRY_OF("\x12", "\x07") ENTRY_OF("\x25", "\x08") "\x30\x11" ISSUED_BY("b");
    x509_crl_entry entry = {{7, 7}, 7, {7, 7}};
    x509_span issuer = {0, 0};
    size_t at = 0;
    WANT(x509_crl_issued_next(BYTES(value), &at, &issuer, &entry) == X509_OK && at == 23 && is_at(issuer, 0, 0) && is_at(entry.serial_number, 5, 3));
    WANT(x509_crl_issued_next(BYTES(value), &at, &issuer, &entry) == X509_OK && at == 74 && is_at(issuer, 69, 5) && is_at(entry.serial_number, 25, 3));
    WANT(x509_crl_issued_next(BYTES(value), &at, &issuer, &entry) == X509_OK && at == 94 && is_at(issuer, 69, 5) && is_at(entry.extensions, 0, 0));
    WANT(x509_crl_issued_next(BYTES(value), &at, &issuer, &entry) == X509_OK && at == 133 && is_at(issuer, 128, 5) && is_at(entry.serial_number, 96, 3));
    WANT(x509_crl_issued_next(BYTES(value), &at, &issuer, &entry) == X509_ABSENT && at == 133 && is_at(issuer, 128, 5) && is_at(entry.serial_number, 96, 3));
    x509_general_name name;
    size_t within = 0;
    WANT(x509_general_names_next((const uint8_t *)value + issuer.place, issuer.len, &within, &name) == X509_OK && name.kind == X509_GENERAL_NAME_DNS
         && is_at(name.content, 4, 1));

    /* twice in one entry; what holds no names; and a place that is none */
    const char twice[] = "\x30\x38" ENTRY_OF("\x36", "\x05") "\x30\x22" ISSUED_BY("a") ISSUED_BY("b");
    const char no_names[] = "\x30\x24" ENTRY_OF("\x22", "\x05") "\x30\x0e\x30\x0c\x06\x03\x55\x1d\x1d\x01\x01\xff\x04\x02\x05\x00";
    issuer = (x509_span){7, 7};
    at = 0;
    WANT(x509_crl_issued_next(BYTES(twice), &at, &issuer, &entry) == X509_FAILED && at == 0 && is_at(issuer, 7, 7) && is_at(entry.serial_number, 96, 3));
    WANT(x509_crl_issued_next(BYTES(no_names), &at, &issuer, &entry) == X509_MALFORMED && at == 0 && is_at(issuer, 7, 7));
    at = 1;
    WANT(x509_crl_issued_next(BYTES(value), &at, &issuer, &entry) == X509_MALFORMED && at == 1 && is_at(issuer, 7, 7) && is_at(entry.serial_number, 96, 3));
}

/* The places are those that `openssl asn1parse` tells of examples/data/list.der; what stands behind the entries is told from the end. */
/* The list with the name and the key of the certificate behind it, which signs both. */
static uint8_t signed_list[3 * 65536];
static size_t signed_list_len;

static x509_signed_crl sign_list(void)
{
    x509_certificate view;
    if (x509_certificate_view(certificate, certificate_len, &view) != X509_OK)
        exit(2);
    const x509_signed_crl given = {{3, list_len}, {3 + list_len, view.subject.len}, {3 + list_len + view.subject.len, view.subject_public_key_info.len}, 1};
    memcpy(signed_list + given.crl.place, list, list_len);
    memcpy(signed_list + given.name.place, certificate + view.subject.place, given.name.len);
    memcpy(signed_list + given.key.place, certificate + view.subject_public_key_info.place, given.key.len);
    signed_list_len = given.key.place + given.key.len;
    return given;
}

static const x509_revocation_answer NO_ANSWER = {7, 7, 7, 7, 7};

/* What is answered at that time to these CRLs in the bytes of the signed list. */
static x509_status asked_status(const x509_signed_crl *crls, size_t count, x509_revocation_settings settings, x509_revocation_answer *answer)
{
    *answer = NO_ANSWER;
    return x509_revocation_status(certificate, certificate_len, signed_list, signed_list_len, crls, count, &settings, sizeof settings, answer);
}

static int is_answer(const x509_revocation_answer *answer, uint32_t status, uint32_t reason, size_t crl, uint64_t date, uint32_t reasons)
{
    return answer->status == status && answer->reason == reason && answer->crl == crl && answer->date == date && answer->reasons == reasons;
}

static int is_unanswered(const x509_revocation_answer *answer)
{
    return is_answer(answer, 7, 7, 7, 7, 7);
}

/* Of examples/data/make.py: the list is in date from 2026-02-01T00:00:00Z to 2026-03-01T00:00:00Z, and has the serial number of the certificate, revoked at
 * 2026-01-20T10:00:00Z since its key is compromised. The reasons are the bits 1 to 8 (RFC 5280 4.2.1.13). */
static void statuses_by_lists(void)
{
    enum { FROM = 1769904000, TO = 1772323200, DATE = 1768903200, ALL = 0x1fe };
    const x509_signed_crl given = sign_list();
    x509_revocation_answer answer;
    WANT(asked_status(&given, 1, (x509_revocation_settings){FROM, 0}, &answer) == X509_OK && is_answer(&answer, X509_REVOKED, 1, 0, DATE, 0));
    WANT(asked_status(&given, 1, (x509_revocation_settings){TO, 0}, &answer) == X509_OK && is_answer(&answer, X509_REVOKED, 1, 0, DATE, 0));
    WANT(asked_status(&given, 1, (x509_revocation_settings){TO, X509_REVOCATION_WITHOUT_NEXT_UPDATE}, &answer) == X509_OK && answer.status == X509_REVOKED);
    WANT(asked_status(&given, 1, (x509_revocation_settings){FROM, X509_REVOCATION_USE_DELTAS}, &answer) == X509_OK
         && is_answer(&answer, X509_REVOKED, 1, 0, DATE, 0));
    WANT(asked_status(&given, 1, (x509_revocation_settings){FROM - 1, 0}, &answer) == X509_OK && is_answer(&answer, X509_UNDETERMINED, 0, 0, 0, ALL));
    WANT(asked_status(&given, 1, (x509_revocation_settings){TO + 1, 0}, &answer) == X509_OK && is_answer(&answer, X509_UNDETERMINED, 0, 0, 0, ALL));
    WANT(asked_status(NULL, 0, (x509_revocation_settings){FROM, 0}, &answer) == X509_OK && is_answer(&answer, X509_UNDETERMINED, 0, 0, 0, ALL));
    /* with another serial number in the entry the certificate isn't revoked; the signature isn't looked at here */
    uint8_t *entry = NULL;
    for (size_t at = given.crl.place; at + 8 <= given.name.place; at++)
        if (memcmp(signed_list + at, "\x12\x34\x56\x78\x90\xab\xcd\xef", 8) == 0)
            entry = signed_list + at;
    if (entry == NULL)
        exit(2);
    *entry = 0x13;
    WANT(asked_status(&given, 1, (x509_revocation_settings){FROM, 0}, &answer) == X509_OK && is_answer(&answer, X509_UNREVOKED, 0, 0, 0, 0));
    *entry = 0x12;
    /* another name than the issuer's: the CRL says nothing */
    signed_list[given.name.place + given.name.len - 1] ^= 1;
    WANT(asked_status(&given, 1, (x509_revocation_settings){FROM, 0}, &answer) == X509_OK && is_answer(&answer, X509_UNDETERMINED, 0, 0, 0, ALL));
    signed_list[given.name.place + given.name.len - 1] ^= 1;
}

/* Only those with 1 are looked at, and the place is that among all. */
static void verified_lists(void)
{
    enum { FROM = 1769904000, DATE = 1768903200, ALL = 0x1fe };
    const x509_signed_crl given = sign_list();
    x509_signed_crl three[3] = {given, given, given};
    x509_revocation_answer answer;
    three[0].verified = three[1].verified = 0;
    three[0].crl = (x509_span){SIZE_MAX, SIZE_MAX};
    WANT(asked_status(three, 3, (x509_revocation_settings){FROM, 0}, &answer) == X509_OK && is_answer(&answer, X509_REVOKED, 1, 2, DATE, 0));
    WANT(asked_status(three, 2, (x509_revocation_settings){FROM, 0}, &answer) == X509_OK && is_answer(&answer, X509_UNDETERMINED, 0, 0, 0, ALL));
    three[1].verified = 1;
    WANT(asked_status(three, 3, (x509_revocation_settings){FROM, 0}, &answer) == X509_OK && is_answer(&answer, X509_REVOKED, 1, 1, DATE, 0));
    /* what a library of signatures answers to an error is no 1 */
    three[1].verified = (uint32_t)-1;
    three[2].verified = 2;
    WANT(asked_status(three, 3, (x509_revocation_settings){FROM, 0}, &answer) == X509_OK && is_answer(&answer, X509_UNDETERMINED, 0, 0, 0, ALL));
    three[0].verified = 1;
    WANT(asked_status(three, 3, (x509_revocation_settings){FROM, 0}, &answer) == X509_FAILED && is_unanswered(&answer));
}

static void refused_statuses(void)
{
    enum { FROM = 1769904000 };
    const x509_signed_crl given = sign_list();
    const x509_revocation_settings settings = {FROM, 0};
    x509_signed_crl other = given;
    x509_revocation_answer answer;
    WANT(asked_status(&given, 1, (x509_revocation_settings){253402300800, 0}, &answer) == X509_VALUE && is_unanswered(&answer));
    WANT(asked_status(&given, 1, (x509_revocation_settings){253402300799, 0}, &answer) == X509_OK && answer.status == X509_UNDETERMINED);
    WANT(asked_status(&given, 1, (x509_revocation_settings){FROM, 4}, &answer) == X509_VALUE && is_unanswered(&answer));
    WANT(asked_status(&given, 1, (x509_revocation_settings){FROM, UINT64_MAX}, &answer) == X509_VALUE && is_unanswered(&answer));
    /* settings of a later version: what stands behind has to be zeros */
    struct {
        x509_revocation_settings known;
        uint64_t more;
    } later = {settings, 0};
    WANT(x509_revocation_status(certificate, certificate_len, signed_list, signed_list_len, &given, 1, &later.known, sizeof later, &answer) == X509_OK);
    later.more = 1;
    answer = NO_ANSWER;
    WANT(x509_revocation_status(certificate, certificate_len, signed_list, signed_list_len, &given, 1, &later.known, sizeof later, &answer) == X509_VALUE);
    WANT(x509_revocation_status(certificate, certificate_len, signed_list, signed_list_len, &given, 1, &settings, sizeof settings - 1, &answer) == X509_VALUE);
    WANT(x509_revocation_status(nothing, 0, signed_list, signed_list_len, &given, 1, &settings, sizeof settings, &answer) == X509_MALFORMED);
    WANT(x509_revocation_status(list, list_len, signed_list, signed_list_len, &given, 1, &settings, sizeof settings, &answer) == X509_MALFORMED);
    WANT(x509_revocation_status(certificate, certificate_len, nothing, 0, &given, 1, &settings, sizeof settings, &answer) == X509_FAILED
         && is_unanswered(&answer));
    other.key.len++;
    WANT(asked_status(&other, 1, settings, &answer) == X509_FAILED && is_unanswered(&answer));
    other.key = (x509_span){SIZE_MAX, 2};
    WANT(asked_status(&other, 1, settings, &answer) == X509_FAILED && is_unanswered(&answer));
    other.key = (x509_span){0, SIZE_MAX};
    WANT(asked_status(&other, 1, settings, &answer) == X509_FAILED && is_unanswered(&answer));
    other.key = given.name;
    WANT(asked_status(&other, 1, settings, &answer) == X509_MALFORMED && is_unanswered(&answer));
    other = given;
    other.name = given.key;
    WANT(asked_status(&other, 1, settings, &answer) == X509_MALFORMED && is_unanswered(&answer));
    other = given;
    other.crl.len--;
    WANT(asked_status(&other, 1, settings, &answer) == X509_MALFORMED && is_unanswered(&answer));
}

/* The fault of the CRL at that index, at that time; 77 where the call answers anything but X509_OK. */
static uint32_t fault_of(const x509_signed_crl *crls, size_t count, uint64_t moment, size_t index)
{
    const x509_revocation_settings settings = {moment, 0};
    uint32_t fault = 7;
    const x509_status status = x509_crl_fault(certificate, certificate_len, signed_list, signed_list_len, crls, count, &settings, sizeof settings, index, &fault);
    return status == X509_OK ? fault : 77;
}

/* What stands against the list of examples/data/make.py, in date from 2026-02-01T00:00:00Z to 2026-03-01T00:00:00Z. */
static void faults_of_lists(void)
{
    enum { FROM = 1769904000, TO = 1772323200 };
    const x509_signed_crl given = sign_list();
    x509_signed_crl two[2] = {given, given};
    WANT(fault_of(&given, 1, FROM, 0) == X509_CRL_WITHOUT_FAULT && fault_of(&given, 1, TO, 0) == X509_CRL_WITHOUT_FAULT);
    WANT(fault_of(&given, 1, FROM - 1, 0) == X509_CRL_NOT_YET_VALID && fault_of(&given, 1, TO + 1, 0) == X509_CRL_EXPIRED);
    two[1].verified = 2;
    WANT(fault_of(two, 2, FROM, 0) == X509_CRL_WITHOUT_FAULT && fault_of(two, 2, FROM, 1) == X509_CRL_SIGNATURE);
    WANT(fault_of(two, 2, TO + 1, 1) == X509_CRL_EXPIRED);
    /* another name than the issuer's; then another issuer of the list, too, which isn't that of the certificate */
    x509_crl view;
    if (x509_crl_view(list, list_len, &view) != X509_OK)
        exit(2);
    signed_list[given.name.place + given.name.len - 1] ^= 1;
    WANT(fault_of(&given, 1, FROM, 0) == X509_CRL_SIGNER);
    signed_list[given.crl.place + view.issuer.place + view.issuer.len - 1] ^= 1;
    WANT(fault_of(&given, 1, FROM, 0) == X509_CRL_ISSUER);
    sign_list();
}

static void refused_faults(void)
{
    enum { FROM = 1769904000 };
    const x509_signed_crl given = sign_list();
    const x509_revocation_settings settings = {FROM, 0};
    x509_signed_crl two[2] = {given, given};
    uint32_t fault = 7;
#define FAULT_AT(index, size) signed_list, signed_list_len, two, 2, &settings, size, index, &fault
    WANT(x509_crl_fault(certificate, certificate_len, FAULT_AT(1, sizeof settings)) == X509_OK && fault == X509_CRL_WITHOUT_FAULT);
    fault = 7;
    WANT(x509_crl_fault(certificate, certificate_len, FAULT_AT(2, sizeof settings)) == X509_VALUE && fault == 7);
    WANT(x509_crl_fault(certificate, certificate_len, FAULT_AT(SIZE_MAX, sizeof settings)) == X509_VALUE && fault == 7);
    WANT(x509_crl_fault(certificate, certificate_len, FAULT_AT(0, sizeof settings - 1)) == X509_VALUE && fault == 7);
    WANT(x509_crl_fault(list, list_len, FAULT_AT(0, sizeof settings)) == X509_MALFORMED && fault == 7);
    /* the CRL that is asked about has to be one, verified or not, and so have those that are verified */
    two[1].crl.len--;
    WANT(x509_crl_fault(certificate, certificate_len, FAULT_AT(0, sizeof settings)) == X509_MALFORMED && fault == 7);
    two[1].verified = 0;
    WANT(x509_crl_fault(certificate, certificate_len, FAULT_AT(0, sizeof settings)) == X509_OK && fault == X509_CRL_WITHOUT_FAULT);
    fault = 7;
    WANT(x509_crl_fault(certificate, certificate_len, FAULT_AT(1, sizeof settings)) == X509_MALFORMED && fault == 7);
    two[1].key = (x509_span){SIZE_MAX, 2};
    WANT(x509_crl_fault(certificate, certificate_len, FAULT_AT(1, sizeof settings)) == X509_FAILED && fault == 7);
#undef FAULT_AT
}

/* The certificate has a KeyUsage, without cRLSign. A certificate of v1 has none (RFC 5280 4.1.2.1). */
static void signers_of_lists(void)
{
    uint32_t may_sign = 7;
    WANT(x509_may_sign_crls(nothing, 0, &may_sign) == X509_MALFORMED && may_sign == 7);
    WANT(x509_may_sign_crls(list, list_len, &may_sign) == X509_MALFORMED && may_sign == 7);
    WANT(x509_may_sign_crls(certificate, certificate_len, &may_sign) == X509_OK && may_sign == 0);
    x509_extension usage;
    WANT(x509_certificate_extension(certificate, certificate_len, BYTES(X509_OID_KEY_USAGE), &usage) == X509_OK && usage.value.len == 4);
    /* the bits 5 and 6, keyCertSign and cRLSign, in place of 0 and 2 (RFC 5280 4.2.1.3) */
    uint8_t *bits = certificate + usage.value.place + 2, before[2] = {bits[0], bits[1]};
    bits[0] = 1;
    bits[1] = 0x06;
    WANT(x509_may_sign_crls(certificate, certificate_len, &may_sign) == X509_OK && may_sign == 1);
    bits[0] = 2;
    bits[1] = 0x04;
    WANT(x509_may_sign_crls(certificate, certificate_len, &may_sign) == X509_OK && may_sign == 0);
    memcpy(bits, before, 2);
}

static void crl_parts(void)
{
    x509_crl view;
    memset(&view, 7, sizeof view);
    const x509_crl before = view;
    WANT(x509_crl_view(nothing, 0, &view) == X509_MALFORMED && memcmp(&view, &before, sizeof view) == 0);
    WANT(x509_crl_view(list, list_len - 1, &view) == X509_MALFORMED && x509_crl_view(certificate, certificate_len, &view) == X509_MALFORMED);
    WANT(memcmp(&view, &before, sizeof view) == 0);
    WANT(x509_crl_view(list, list_len, &view) == X509_OK && view.version == 2);
    WANT(is_at(view.inner_algorithm, 10, 12) && is_at(view.issuer, 22, 73));
    WANT(view.this_update == 1769904000 && view.has_next_update == 1 && view.next_update == 1772323200);
    WANT(is_at(view.entries, 125, 83) && is_at(view.extensions, 0, 0));
    WANT(is_at(view.signature.signed_part, 4, 204) && is_at(view.signature.algorithm, 208, 12));
    WANT(is_at(view.signature.bits, 223, list_len - 223) && view.signature.unused_bits == 0);

    const uint8_t *const entries = list + view.entries.place;
    x509_crl_entry entry;
    size_t at = 0;
    WANT(x509_crl_entry_next(entries, view.entries.len, &at, &entry) == X509_OK && at == 22);
    WANT(is_at(entry.serial_number, 4, 3) && entry.date == 1768903200 && is_at(entry.extensions, 0, 0));
    WANT(x509_crl_entry_next(entries, view.entries.len, &at, &entry) == X509_OK && at == 63);
    WANT(is_at(entry.serial_number, 24, 10) && entry.date == 1768903200 && is_at(entry.extensions, 49, 14));
    x509_extension_entry extension;
    uint32_t reason = 77;
    size_t within = 0;
    WANT(x509_extensions_next(entries + 49, 14, &within, &extension) == X509_OK && is_at(extension.value, 11, 3));
    WANT(x509_crl_reason(entries + 49 + 11, 3, &reason) == X509_OK && reason == 1);
    WANT(x509_crl_entry_next(entries, view.entries.len, &at, &entry) == X509_OK && at == 83 && is_at(entry.serial_number, 65, 3));
    WANT(x509_crl_entry_next(entries, view.entries.len, &at, &entry) == X509_ABSENT && at == 83 && is_at(entry.serial_number, 65, 3));
    at = 1;
    WANT(x509_crl_entry_next(entries, view.entries.len, &at, &entry) == X509_MALFORMED && at == 1 && is_at(entry.serial_number, 65, 3));
    found_entries(entries, view.entries.len);
    indexed_entries(entries, view.entries.len);
    issued_entries();

    /* A v1 list without entries, of the issuer CN=a; and a v2 list with an empty SEQUENCE of extensions, by hand. */
    const char v1[] = "\x30\x2d\x30\x22\x30\x03\x06\x01\x2a\x30\x0c\x31\x0a\x30\x08\x06\x03\x55\x04\x03\x0c\x01\x61\x17\x0d" "700101000001Z"
                      "\x30\x03\x06\x01\x2a\x03\x02\x04\xf0";
    WANT(x509_crl_view(BYTES(v1), &view) == X509_OK && view.version == 1);
    WANT(view.this_update == 1 && view.has_next_update == 0 && view.next_update == 0);
    WANT(is_at(view.inner_algorithm, 4, 5) && is_at(view.issuer, 9, 14) && is_at(view.entries, 0, 0) && is_at(view.extensions, 0, 0));
    WANT(is_at(view.signature.signed_part, 2, 36) && is_at(view.signature.algorithm, 38, 5));
    WANT(is_at(view.signature.bits, 46, 1) && view.signature.unused_bits == 4);
    const char v2[] = "\x30\x34\x30\x29\x02\x01\x01\x30\x03\x06\x01\x2a\x30\x0c\x31\x0a\x30\x08\x06\x03\x55\x04\x03\x0c\x01\x61\x17\x0d" "700101000001Z"
                      "\xa0\x02\x30\x00\x30\x03\x06\x01\x2a\x03\x02\x04\xf0";
    WANT(x509_crl_view(BYTES(v2), &view) == X509_OK && view.version == 2);
    WANT(is_at(view.inner_algorithm, 7, 5) && is_at(view.entries, 0, 0) && is_at(view.extensions, 43, 2) && is_at(view.signature.signed_part, 2, 43));
}

/* The places are those that `openssl asn1parse` tells of examples/data/request.der. */
static void requests(void)
{
    x509_request view;
    memset(&view, 7, sizeof view);
    const x509_request before = view;
    WANT(x509_request_view(nothing, 0, &view) == X509_MALFORMED && memcmp(&view, &before, sizeof view) == 0);
    WANT(x509_request_view(request, request_len - 1, &view) == X509_MALFORMED && x509_request_view(list, list_len, &view) == X509_MALFORMED);
    WANT(memcmp(&view, &before, sizeof view) == 0);
    WANT(x509_request_view(request, request_len, &view) == X509_OK && view.version == 1);
    WANT(is_at(view.subject, 10, 73) && is_at(view.subject_public_key_info, 83, 91) && is_at(view.attributes, 174, 72));
    WANT(is_at(view.signature.signed_part, 4, 242) && is_at(view.signature.algorithm, 246, 12));
    WANT(is_at(view.signature.bits, 261, request_len - 261) && view.signature.unused_bits == 0);

    const uint8_t *const attributes = request + view.attributes.place;
    x509_request_attribute attribute = {{7, 7}, {7, 7}};
    size_t at = 0;
    WANT(x509_request_attribute_next(request + 4, 242, &at, &attribute) == X509_MALFORMED && at == 0 && is_at(attribute.oid, 7, 7));
    WANT(x509_request_attribute_next(attributes, 72, &at, &attribute) == X509_OK && at == 27);
    WANT(is_at(attribute.oid, 6, 9) && memcmp(attributes + 6, "\x2a\x86\x48\x86\xf7\x0d\x01\x09\x07", 9) == 0 && is_at(attribute.values, 15, 12));
    x509_element value = {7, {7, 7}, {7, 7}};
    size_t within = 0;
    WANT(x509_attribute_value_next(attributes + 15, 12, &within, &value) == X509_OK && within == 12);
    WANT(value.tag == 0x0c && is_at(value.element, 2, 10) && is_at(value.content, 4, 8) && memcmp(attributes + 15 + 4, "password", 8) == 0);
    WANT(x509_attribute_value_next(attributes + 15, 12, &within, &value) == X509_ABSENT && within == 12 && value.tag == 0x0c);
    WANT(x509_attribute_value_next(attributes + 15, 11, &within, &value) == X509_MALFORMED && within == 12 && value.tag == 0x0c);
    WANT(x509_request_attribute_next(attributes, 72, &at, &attribute) == X509_OK && at == 72 && is_at(attribute.values, 40, 32));
    WANT(x509_request_attribute_next(attributes, 72, &at, &attribute) == X509_ABSENT && at == 72 && is_at(attribute.values, 40, 32));

    const uint8_t *const password = (const uint8_t *)"\x2a\x86\x48\x86\xf7\x0d\x01\x09\x07";
    attribute = (x509_request_attribute){{7, 7}, {7, 7}};
    WANT(x509_request_attribute_find(nothing, 0, password, 9, &attribute) == X509_MALFORMED && is_at(attribute.oid, 7, 7));
    WANT(x509_request_attribute_find(request, request_len, password, 8, &attribute) == X509_ABSENT && is_at(attribute.oid, 7, 7));
    WANT(x509_request_attribute_find(request, request_len, password, 9, &attribute) == X509_OK);
    WANT(is_at(attribute.oid, 180, 9) && is_at(attribute.values, 189, 12));
    WANT(x509_request_attribute_find(request, request_len, (const uint8_t *)"\x2a\x86\x48\x86\xf7\x0d\x01\x09\x0e", 9, &attribute) == X509_OK);
    WANT(is_at(attribute.values, 214, 32));
    x509_element asked;
    within = 0;
    WANT(x509_attribute_value_next(request + 214, 32, &within, &asked) == X509_OK && is_at(asked.element, 2, 30));
    x509_span extensions = {7, 7};
    WANT(x509_request_extensions(nothing, 0, &extensions) == X509_MALFORMED && is_at(extensions, 7, 7));
    WANT(x509_request_extensions(request, request_len - 1, &extensions) == X509_MALFORMED && is_at(extensions, 7, 7));
    WANT(x509_request_extensions(request, request_len, &extensions) == X509_OK && is_at(extensions, 216, 30));
    x509_extension_entry extension;
    within = 0;
    WANT(x509_extensions_next(request + 216, 30, &within, &extension) == X509_OK && within == 30);
    WANT(is_at(extension.oid, 6, 3) && extension.critical == 0 && is_at(extension.value, 11, 19));
}

/* A CSR of the empty name with an empty key, and these attributes under the tag [0], which are fewer than 80 bytes. */
static size_t request_with(const uint8_t *attributes, size_t len)
{
    const char front[] = "\x02\x01\x00\x30\x00\x30\x08\x30\x03\x06\x01\x2a\x03\x01\x00", behind[] = "\x30\x03\x06\x01\x2a\x03\x01\x00";
    size_t at = 0;
    room[at++] = 0x30;
    room[at++] = (uint8_t)(2 + 15 + 2 + len + 8);
    room[at++] = 0x30;
    room[at++] = (uint8_t)(15 + 2 + len);
    memcpy(room + at, front, 15);
    at += 15;
    room[at++] = 0xa0;
    room[at++] = (uint8_t)len;
    memcpy(room + at, attributes, len);
    at += len;
    memcpy(room + at, behind, 8);
    return at + 8;
}

/* No attribute, one without a value, and two that ask for extensions (RFC 2985 5.4.2). */
static void asked_extensions(void)
{
    const uint8_t *const oid = (const uint8_t *)"\x2a\x86\x48\x86\xf7\x0d\x01\x09\x0e";
    x509_request_attribute attribute = {{7, 7}, {7, 7}};
    size_t len = request_with(nothing, 0);
    WANT(x509_request_attribute_find(room, len, oid, 9, &attribute) == X509_ABSENT && is_at(attribute.values, 7, 7));
    x509_span extensions = {7, 7};
    WANT(x509_request_extensions(room, len, &extensions) == X509_ABSENT && is_at(extensions, 7, 7));
    len = request_with(BYTES("\x30\x0d\x06\x09\x2a\x86\x48\x86\xf7\x0d\x01\x09\x0e\x31\x00"));
    WANT(x509_request_attribute_find(room, len, oid, 9, &attribute) == X509_OK && is_at(attribute.oid, 25, 9) && is_at(attribute.values, 34, 2));
    WANT(x509_request_extensions(room, len, &extensions) == X509_FAILED && is_at(extensions, 7, 7));
    len = request_with(BYTES("\x30\x0d\x06\x09\x2a\x86\x48\x86\xf7\x0d\x01\x09\x0e\x31\x00"
                             "\x30\x0f\x06\x09\x2a\x86\x48\x86\xf7\x0d\x01\x09\x0e\x31\x02\x30\x00"));
    attribute = (x509_request_attribute){{7, 7}, {7, 7}};
    WANT(x509_request_attribute_find(room, len, oid, 9, &attribute) == X509_REPEATED && is_at(attribute.values, 7, 7));
    WANT(x509_request_extensions(room, len, &extensions) == X509_REPEATED && is_at(extensions, 7, 7));
    /* two values; one that is no list of extensions; the empty list */
    len = request_with(BYTES("\x30\x11\x06\x09\x2a\x86\x48\x86\xf7\x0d\x01\x09\x0e\x31\x04\x05\x00\x30\x00"));
    WANT(x509_request_extensions(room, len, &extensions) == X509_FAILED && is_at(extensions, 7, 7));
    len = request_with(BYTES("\x30\x11\x06\x09\x2a\x86\x48\x86\xf7\x0d\x01\x09\x0e\x31\x04\x30\x02\x05\x00"));
    WANT(x509_request_extensions(room, len, &extensions) == X509_MALFORMED && is_at(extensions, 7, 7));
    len = request_with(BYTES("\x30\x0f\x06\x09\x2a\x86\x48\x86\xf7\x0d\x01\x09\x0e\x31\x02\x30\x00"));
    WANT(x509_request_extensions(room, len, &extensions) == X509_OK && is_at(extensions, 36, 2));
}

int main(int argc, char **argv)
{
    read_files(argc, argv);
    whole_values();
    types_by_name();
    lengths();
    names();
    texts_of_names();
    types_of_attributes();
    signed_parts();
    dates();
    signatures();
    names_of_peers();
    faults();
    paths();
    validated_paths();
    viewed_paths();
    long_paths();
    found_paths();
    paths_beyond_limits();
    statuses_by_lists();
    verified_lists();
    refused_statuses();
    faults_of_lists();
    refused_faults();
    signers_of_lists();
    certificates();
    lists();
    crl_parts();
    requests();
    asked_extensions();
    return ended();
}
