/* Asks the calls on keys, trust anchors, timestamps, names, values of extensions and texts for an answer that is known, and for its refusals.
 *
 * usage: as calls.h says */
#include "calls.h"

/* A key with an algorithm, which is the whole AlgorithmIdentifier, and no bits: its kind. */
static uint32_t key_kind(const uint8_t *algorithm, size_t len)
{
    x509_key key = {77, {7, 7}, {7, 7}, {7, 7}, 7, {7, 7}, 7};
    room[0] = 0x30;
    room[1] = (uint8_t)(len + 3);
    memcpy(room + 2, algorithm, len);
    memcpy(room + 2 + len, "\x03\x01\x00", 3);
    WANT(x509_key_view(room, len + 5, &key) == X509_OK && key.unused_bits == 0 && is_at(key.bits, len + 5, 0));
    return key.kind;
}

static uint32_t signature_kind(const uint8_t *algorithm, size_t len)
{
    x509_algorithm view = {77, {7, 7}, {7, 7}};
    WANT(x509_algorithm_view(algorithm, len, &view) == X509_OK && view.oid.place == 4);
    return view.kind;
}

/* The OIDs are those of RFC 3279, RFC 4055, RFC 5480, RFC 5758 and RFC 8410. */
static void keys(void)
{
    x509_key key = {77, {7, 7}, {7, 7}, {7, 7}, 7, {7, 7}, 7};
    WANT(x509_key_view(nothing, 0, &key) == X509_MALFORMED && key.kind == 77 && key.unused_bits == 7 && key.size == 7);
    WANT(x509_key_view(request + 83, 90, &key) == X509_MALFORMED && key.kind == 77 && is_at(key.bits, 7, 7));
    WANT(x509_key_view(request + 83, 91, &key) == X509_OK && key.kind == X509_KEY_EC_P256);
    WANT(is_at(key.oid, 6, 7) && is_at(key.parameters, 13, 10) && is_at(key.bits, 26, 65) && key.unused_bits == 0);
    WANT(key_kind(BYTES("\x30\x0d\x06\x09\x2a\x86\x48\x86\xf7\x0d\x01\x01\x01\x05\x00")) == X509_KEY_RSA);
    WANT(key_kind(BYTES("\x30\x0b\x06\x09\x2a\x86\x48\x86\xf7\x0d\x01\x01\x0a")) == X509_KEY_RSA_PSS);
    WANT(key_kind(BYTES("\x30\x09\x06\x07\x2a\x86\x48\xce\x38\x04\x01")) == X509_KEY_DSA);
    WANT(key_kind(BYTES("\x30\x10\x06\x07\x2a\x86\x48\xce\x3d\x02\x01\x06\x05\x2b\x81\x04\x00\x22")) == X509_KEY_EC_P384);
    WANT(key_kind(BYTES("\x30\x10\x06\x07\x2a\x86\x48\xce\x3d\x02\x01\x06\x05\x2b\x81\x04\x00\x23")) == X509_KEY_EC_P521);
    WANT(key_kind(BYTES("\x30\x10\x06\x07\x2a\x86\x48\xce\x3d\x02\x01\x06\x05\x2b\x81\x04\x00\x0a")) == X509_KEY_EC_OTHER);
    WANT(key_kind(BYTES("\x30\x10\x06\x07\x2a\x86\x48\xce\x3d\x02\x01\x04\x05\x2b\x81\x04\x00\x22")) == X509_KEY_EC_OTHER);
    WANT(key_kind(BYTES("\x30\x09\x06\x07\x2a\x86\x48\xce\x3d\x02\x01")) == X509_KEY_EC_OTHER);
    WANT(key_kind(BYTES("\x30\x05\x06\x03\x2b\x65\x70")) == X509_KEY_ED25519);
    WANT(key_kind(BYTES("\x30\x05\x06\x03\x2b\x65\x71")) == X509_KEY_ED448);
    WANT(key_kind(BYTES("\x30\x05\x06\x03\x2b\x65\x6e")) == X509_KEY_X25519);
    WANT(key_kind(BYTES("\x30\x05\x06\x03\x2b\x65\x6f")) == X509_KEY_X448);
    WANT(key_kind(BYTES("\x30\x05\x06\x03\x55\x04\x03")) == X509_KEY_OTHER);

    x509_algorithm algorithm = {77, {7, 7}, {7, 7}};
    WANT(x509_algorithm_view(BYTES("\x30\x00"), &algorithm) == X509_MALFORMED && algorithm.kind == 77 && is_at(algorithm.oid, 7, 7));
    WANT(x509_algorithm_view(BYTES("\x30\x0d\x06\x09\x2a\x86\x48\x86\xf7\x0d\x01\x01\x0b\x05\x00"), &algorithm) == X509_OK);
    WANT(algorithm.kind == X509_SIGNATURE_RSA_SHA256 && is_at(algorithm.oid, 4, 9) && is_at(algorithm.parameters, 13, 2));
    WANT(x509_algorithm_view(list + 208, 12, &algorithm) == X509_OK && algorithm.kind == X509_SIGNATURE_ECDSA_SHA256);
    WANT(is_at(algorithm.oid, 4, 8) && is_at(algorithm.parameters, 0, 0));
    WANT(signature_kind(BYTES("\x30\x0b\x06\x09\x2a\x86\x48\x86\xf7\x0d\x01\x01\x05")) == X509_SIGNATURE_RSA_SHA1);
    WANT(signature_kind(BYTES("\x30\x0b\x06\x09\x2a\x86\x48\x86\xf7\x0d\x01\x01\x0e")) == X509_SIGNATURE_RSA_SHA224);
    WANT(signature_kind(BYTES("\x30\x0b\x06\x09\x2a\x86\x48\x86\xf7\x0d\x01\x01\x0c")) == X509_SIGNATURE_RSA_SHA384);
    WANT(signature_kind(BYTES("\x30\x0b\x06\x09\x2a\x86\x48\x86\xf7\x0d\x01\x01\x0d")) == X509_SIGNATURE_RSA_SHA512);
    WANT(signature_kind(BYTES("\x30\x0b\x06\x09\x2a\x86\x48\x86\xf7\x0d\x01\x01\x0a")) == X509_SIGNATURE_RSA_PSS);
    WANT(signature_kind(BYTES("\x30\x09\x06\x07\x2a\x86\x48\xce\x38\x04\x03")) == X509_SIGNATURE_DSA_SHA1);
    WANT(signature_kind(BYTES("\x30\x0b\x06\x09\x60\x86\x48\x01\x65\x03\x04\x03\x01")) == X509_SIGNATURE_DSA_SHA224);
    WANT(signature_kind(BYTES("\x30\x0b\x06\x09\x60\x86\x48\x01\x65\x03\x04\x03\x02")) == X509_SIGNATURE_DSA_SHA256);
    WANT(signature_kind(BYTES("\x30\x09\x06\x07\x2a\x86\x48\xce\x3d\x04\x01")) == X509_SIGNATURE_ECDSA_SHA1);
    WANT(signature_kind(BYTES("\x30\x0a\x06\x08\x2a\x86\x48\xce\x3d\x04\x03\x01")) == X509_SIGNATURE_ECDSA_SHA224);
    WANT(signature_kind(BYTES("\x30\x0a\x06\x08\x2a\x86\x48\xce\x3d\x04\x03\x03")) == X509_SIGNATURE_ECDSA_SHA384);
    WANT(signature_kind(BYTES("\x30\x0a\x06\x08\x2a\x86\x48\xce\x3d\x04\x03\x04")) == X509_SIGNATURE_ECDSA_SHA512);
    WANT(signature_kind(BYTES("\x30\x05\x06\x03\x2b\x65\x70")) == X509_SIGNATURE_ED25519);
    WANT(signature_kind(BYTES("\x30\x05\x06\x03\x2b\x65\x71")) == X509_SIGNATURE_ED448);
    WANT(signature_kind(BYTES("\x30\x0b\x06\x09\x2a\x86\x48\x86\xf7\x0d\x01\x01\x01")) == X509_SIGNATURE_OTHER);
}

/* A TrustAnchorInfo with each of its fields but a certificate, by hand (RFC 5914 2): the key is empty, the identifier abcd, the title "T" in "en", the
 * name CN=a, any policy is allowed and a policy is required, the DNS names below a are permitted, and three certificates may follow. */
static const char ANCHOR[] = "\xa2\x45\x30\x43\x30\x08\x30\x03\x06\x01\x2a\x03\x01\x00\x04\x02\xab\xcd\x0c\x01T"
                             "\x30\x28\x30\x0c\x31\x0a\x30\x08\x06\x03\x55\x04\x03\x0c\x01\x61"
                             "\xa1\x08\x30\x06\x06\x04\x55\x1d\x20\x00\x82\x02\x06\x40\xa3\x07\xa0\x05\x30\x03\x82\x01\x61\x84\x01\x03\xa1\x02\x30\x00"
                             "\x82\x02" "en";

static void anchors(void)
{
    x509_anchor anchor;
    memset(&anchor, 7, sizeof anchor);
    const x509_anchor before = anchor;
    WANT(x509_anchor_view(nothing, 0, &anchor) == X509_MALFORMED && x509_anchor_view(certificate, certificate_len - 1, &anchor) == X509_MALFORMED);
    WANT(x509_anchor_view(list, list_len, &anchor) == X509_MALFORMED && memcmp(&anchor, &before, sizeof anchor) == 0);
    x509_certificate view;
    WANT(x509_certificate_view(certificate, certificate_len, &view) == X509_OK);
    WANT(x509_anchor_view(certificate, certificate_len, &anchor) == X509_OK && anchor.kind == X509_ANCHOR_CERTIFICATE);
    WANT(is_at(anchor.element, 0, certificate_len) && is_at(anchor.name, view.subject.place, view.subject.len));
    WANT(is_at(anchor.subject_public_key_info, view.subject_public_key_info.place, view.subject_public_key_info.len));
    WANT(is_at(anchor.extensions, view.extensions.place, view.extensions.len) && is_at(anchor.key_identifier, 0, 0) && is_at(anchor.title, 0, 0));
    WANT(is_at(anchor.title_language, 0, 0) && is_at(anchor.controls, 0, 0));

    /* its TBSCertificate, of 256 bytes or more, under the tag [1] */
    x509_span part;
    WANT(x509_signed_slice(certificate, certificate_len, &part) == X509_OK);
    memcpy(room, "\xa1\x82", 2);
    room[2] = (uint8_t)(part.len >> 8);
    room[3] = (uint8_t)part.len;
    memcpy(room + 4, certificate + part.place, part.len);
    WANT(x509_anchor_view(room, part.len + 4, &anchor) == X509_OK && anchor.kind == X509_ANCHOR_TBS_CERTIFICATE && is_at(anchor.element, 4, part.len));
    WANT(is_at(anchor.name, view.subject.place - part.place + 4, view.subject.len));
    WANT(is_at(anchor.subject_public_key_info, view.subject_public_key_info.place - part.place + 4, view.subject_public_key_info.len));
    WANT(is_at(anchor.extensions, view.extensions.place - part.place + 4, view.extensions.len) && is_at(anchor.controls, 0, 0));

    WANT(x509_anchor_view(BYTES(ANCHOR), &anchor) == X509_OK && anchor.kind == X509_ANCHOR_INFO && is_at(anchor.element, 2, 69));
    WANT(is_at(anchor.subject_public_key_info, 4, 10) && is_at(anchor.key_identifier, 16, 2) && is_at(anchor.title, 20, 1));
    WANT(is_at(anchor.controls, 21, 42) && is_at(anchor.name, 23, 14) && is_at(anchor.extensions, 65, 2) && is_at(anchor.title_language, 69, 2));
    /* a key and its identifier alone */
    WANT(x509_anchor_view(BYTES("\xa2\x10\x30\x0e\x30\x08\x30\x03\x06\x01\x2a\x03\x01\x00\x04\x02\xab\xcd"), &anchor) == X509_OK);
    WANT(is_at(anchor.key_identifier, 16, 2) && is_at(anchor.name, 0, 0) && is_at(anchor.title, 0, 0) && is_at(anchor.controls, 0, 0));
    WANT(is_at(anchor.extensions, 0, 0) && is_at(anchor.title_language, 0, 0));

    x509_path_controls controls;
    memset(&controls, 7, sizeof controls);
    const x509_path_controls same = controls;
    const uint8_t *const value = (const uint8_t *)ANCHOR + 21;
    WANT(x509_path_controls_view(value, 41, &controls) == X509_MALFORMED && memcmp(&controls, &same, sizeof controls) == 0);
    WANT(x509_path_controls_view(value, 42, &controls) == X509_OK && is_at(controls.name, 2, 14) && is_at(controls.certificate, 0, 0));
    WANT(is_at(controls.policies, 16, 10) && controls.has_policy_flags == 1 && controls.policy_flags == X509_POLICY_FLAGS_REQUIRE_EXPLICIT_POLICY);
    WANT(is_at(controls.permitted, 32, 7) && is_at(controls.excluded, 0, 0) && controls.has_path_len == 1 && controls.path_len == 3);
    x509_policy policy;
    x509_subtree subtree;
    size_t at = 0;
    WANT(x509_certificate_policies_under_next(0, value + 16, 10, &at, &policy) == X509_MALFORMED && at == 0);
    WANT(x509_certificate_policies_under_next(31, value + 16, 10, &at, &policy) == X509_MALFORMED && at == 0);
    WANT(x509_certificate_policies_under_next(1, value + 16, 10, &at, &policy) == X509_OK && at == 10 && is_at(policy.identifier, 6, 4));
    WANT(x509_certificate_policies_under_next(1, value + 16, 10, &at, &policy) == X509_ABSENT && at == 10);
    at = 0;
    WANT(x509_subtrees_under_next(0, value + 32, 7, &at, &subtree) == X509_OK && subtree.base.kind == X509_GENERAL_NAME_DNS);
    WANT(x509_path_controls_view(value + 2, 14, &controls) == X509_MALFORMED);
    /* a name alone */
    WANT(x509_path_controls_view(BYTES("\x30\x02\x30\x00"), &controls) == X509_OK && is_at(controls.name, 2, 2) && is_at(controls.policies, 0, 0));
    WANT(controls.has_policy_flags == 0 && controls.policy_flags == 0 && is_at(controls.permitted, 0, 0));
    WANT(controls.has_path_len == 0 && controls.path_len == 0);
}

/* A timestamp of version 1 at 1,700,000,000,123 ms, with one octet of extensions and a signature of two by ECDSA with SHA-256 (RFC 6962 3.2): 50 bytes. */
#define LOG "\x01\x02\x03\x04\x05\x06\x07\x08\x09\x0a\x0b\x0c\x0d\x0e\x0f\x10\x11\x12\x13\x14\x15\x16\x17\x18\x19\x1a\x1b\x1c\x1d\x1e\x1f\x20"
#define TIMESTAMP "\x00" LOG "\x00\x00\x01\x8b\xcf\xe5\x68\x7b\x00\x01\xee\x04\x03\x00\x02\xab\xcd"

static void timestamps(void)
{
    /* behind it, one of an unknown version, and one without octets */
    const char value[] = "\x04\x3b\x00\x39\x00\x32" TIMESTAMP "\x00\x01\x01\x00\x00";
    x509_span found = {7, 7};
    size_t at = 0;
    WANT(x509_timestamp_next(nothing, 0, &at, &found) == X509_MALFORMED && at == 0 && is_at(found, 7, 7));
    WANT(x509_timestamp_next(BYTES("\x04\x00"), &at, &found) == X509_MALFORMED);
    WANT(x509_timestamp_next(BYTES("\x05\x02\x00\x00"), &at, &found) == X509_MALFORMED);
    WANT(x509_timestamp_next(BYTES("\x04\x03\x00\x00\x00"), &at, &found) == X509_MALFORMED && at == 0 && is_at(found, 7, 7));
    WANT(x509_timestamp_next(BYTES("\x04\x02\x00\x00\x00"), &at, &found) == X509_MALFORMED && at == 0 && is_at(found, 7, 7));
    WANT(x509_timestamp_next(BYTES("\x04\x02\x00\x00"), &at, &found) == X509_ABSENT && at == 0 && is_at(found, 7, 7));
    WANT(x509_timestamp_next(BYTES("\x04\x03\x00\x01\x00"), &at, &found) == X509_MALFORMED && at == 0 && is_at(found, 7, 7));
    WANT(x509_timestamp_next(BYTES("\x04\x05\x00\x03\x00\x02\xab"), &at, &found) == X509_MALFORMED && at == 0 && is_at(found, 7, 7));
    WANT(x509_timestamp_next(BYTES(value), &at, &found) == X509_OK && at == 56 && is_at(found, 6, 50));
    WANT(x509_timestamp_next(BYTES(value), &at, &found) == X509_OK && at == 59 && is_at(found, 58, 1));
    WANT(x509_timestamp_next(BYTES(value), &at, &found) == X509_OK && at == 61 && is_at(found, 61, 0));
    WANT(x509_timestamp_next(BYTES(value), &at, &found) == X509_ABSENT && at == 61 && is_at(found, 61, 0));
    at = 3;
    WANT(x509_timestamp_next(BYTES(value), &at, &found) == X509_MALFORMED && at == 3 && is_at(found, 61, 0));
    at = 62;
    WANT(x509_timestamp_next(BYTES(value), &at, &found) == X509_MALFORMED && at == 62 && is_at(found, 61, 0));

    x509_timestamp view;
    memset(&view, 7, sizeof view);
    const x509_timestamp before = view;
    WANT(x509_timestamp_view(nothing, 0, &view) == X509_MALFORMED && x509_timestamp_view(BYTES("\x01"), &view) == X509_MALFORMED);
    WANT(x509_timestamp_view(BYTES(TIMESTAMP "\x00"), &view) == X509_MALFORMED && x509_timestamp_view((const uint8_t *)TIMESTAMP, 49, &view) == X509_MALFORMED);
    WANT(x509_timestamp_view(BYTES("\x00" LOG "\x00\x00\x01\x8b\xcf\xe5\x68\x7b\x00\x00\x09\x03\x00\x00"), &view) == X509_MALFORMED); /* no hash is 9 */
    WANT(memcmp(&view, &before, sizeof view) == 0);
    WANT(x509_timestamp_view(BYTES(TIMESTAMP), &view) == X509_OK && view.version == 0 && is_at(view.log_id, 1, 32));
    WANT(view.timestamp == 1700000000123 && is_at(view.extensions, 43, 1) && view.hash == 4 && view.signature_algorithm == 3 && is_at(view.signature, 48, 2));
}

/* A certificate and its precertificate (RFC 6962 3.1, 3.2): the fields before the extensions, their extensions, and algorithm and signature; and the SHA-256
 * digest of the key, which is `30 0d 30 05 06 03 2a 03 04 03 04 00 61 62 63`. */
#define FIELDS \
    "\xa0\x03\x02\x01\x02\x02\x01\x2a\x30\x05\x06\x03\x2a\x03\x04\x30\x0c\x31\x0a\x30\x08\x06\x03\x55\x04\x03\x0c\x01\x52\x30\x1e\x17\x0d\x31\x30" \
    "\x30\x31\x30\x31\x30\x38\x33\x30\x30\x30\x5a\x17\x0d\x33\x30\x31\x32\x33\x31\x30\x38\x33\x30\x30\x30\x5a\x30\x0c" \
    "\x31\x0a\x30\x08\x06\x03\x55\x04\x03\x0c\x01\x52\x30\x0d\x30\x05\x06\x03\x2a\x03\x04\x03\x04\x00\x61\x62\x63"
#define USAGE "\x30\x0e\x06\x03\x55\x1d\x0f\x01\x01\xff\x04\x04\x03\x02\x01\x06"
#define LISTED "\x30\x46\x06\x0a\x2b\x06\x01\x04\x01\xd6\x79\x02\x04\x02\x04\x38\x04\x36\x00\x34\x00\x32" TIMESTAMP
#define POISON "\x30\x13\x06\x0a\x2b\x06\x01\x04\x01\xd6\x79\x02\x04\x03\x01\x01\xff\x04\x02\x05\x00"
#define SIGNED "\x30\x05\x06\x03\x2a\x03\x04\x03\x02\x00\xaa"
#define ISSUED "\x30\x81\xc4\x30\x81\xb6" FIELDS "\xa3\x5a\x30\x58" USAGE LISTED SIGNED
#define PRECERT "\x30\x81\x91\x30\x81\x83" FIELDS "\xa3\x27\x30\x25" USAGE POISON SIGNED
#define LOGGED "\x30\x6e" FIELDS "\xa3\x12\x30\x10" USAGE
#define KEY_HASH "\x2b\x56\xae\x5e\x08\xc5\x72\xb0\x29\x58\x01\xb4\x7d\x8f\xf8\x10\x66\xc1\xb0\x92\x5d\x8d\x68\x70\xa2\xe1\xb9\x91\x34\x70\x50\x6d"
/* of version 1, a timestamp, and its moment */
#define SIGNED_FRONT "\x00\x00\x00\x00\x01\x8b\xcf\xe5\x68\x7b"

static void logged_parts(void)
{
    const char listed_twice[] = "\x30\x82\x01\x0f\x30\x82\x01\x00" FIELDS "\xa3\x81\xa3\x30\x81\xa0" LISTED USAGE LISTED SIGNED;
    const char poisoned_twice[] = "\x30\x81\x96\x30\x81\x88" FIELDS "\xa3\x2c\x30\x2a" POISON POISON SIGNED;
    WANT(WROTE(x509_logged_part(BYTES(ISSUED), room, sizeof room, &written), LOGGED));
    WANT(WROTE(x509_logged_precertificate(BYTES(PRECERT), room, sizeof room, &written), LOGGED));
    room[0] = 7;
    WANT(x509_logged_part(BYTES(ISSUED), room, 111, &written) == X509_ROOM && written == 112 && room[0] == 7);
    WANT(x509_logged_precertificate(BYTES(PRECERT), NULL, 0, &written) == X509_ROOM && written == 112);
    written = 77;
    WANT(x509_logged_part(BYTES(PRECERT), room, sizeof room, &written) == X509_ABSENT);
    WANT(x509_logged_precertificate(BYTES(ISSUED), room, sizeof room, &written) == X509_ABSENT);
    WANT(x509_logged_part(BYTES(listed_twice), room, sizeof room, &written) == X509_REPEATED);
    WANT(x509_logged_precertificate(BYTES(poisoned_twice), room, sizeof room, &written) == X509_REPEATED);
    WANT(x509_logged_part(nothing, 0, room, sizeof room, &written) == X509_MALFORMED);
    WANT(x509_logged_precertificate(BYTES("\x30\x00"), room, sizeof room, &written) == X509_MALFORMED);
    WANT(written == 77 && room[0] == 7);
}

static void signed_timestamps(void)
{
    const char listed_twice[] = "\x30\x82\x01\x0f\x30\x82\x01\x00" FIELDS "\xa3\x81\xa3\x30\x81\xa0" LISTED USAGE LISTED SIGNED;
    WANT(WROTE(x509_timestamp_signed_data(BYTES(TIMESTAMP), BYTES(ISSUED), BYTES(PRECERT), room, sizeof room, &written),
               SIGNED_FRONT "\x00\x01" KEY_HASH "\x00\x00\x70" LOGGED "\x00\x01\xee"));
    WANT(WROTE(x509_timestamp_signed_data_beside(BYTES(TIMESTAMP), BYTES(ISSUED), room, sizeof room, &written),
               SIGNED_FRONT "\x00\x00\x00\x00\xc7" ISSUED "\x00\x01\xee"));
    WANT(WROTE(x509_timestamp_signed_data_beside(BYTES(TIMESTAMP), BYTES("\xab"), room, sizeof room, &written),
               SIGNED_FRONT "\x00\x00\x00\x00\x01\xab\x00\x01\xee"));
    room[0] = 7;
    WANT(x509_timestamp_signed_data(BYTES(TIMESTAMP), BYTES(ISSUED), BYTES(ISSUED), room, 161, &written) == X509_ROOM && written == 162 && room[0] == 7);
    WANT(x509_timestamp_signed_data_beside(BYTES(TIMESTAMP), BYTES("\xab"), NULL, 0, &written) == X509_ROOM && written == 19);
    written = 77;
    WANT(x509_timestamp_signed_data(BYTES(TIMESTAMP), BYTES(PRECERT), BYTES(ISSUED), room, sizeof room, &written) == X509_ABSENT);
    WANT(x509_timestamp_signed_data(BYTES(TIMESTAMP), BYTES(listed_twice), BYTES(ISSUED), room, sizeof room, &written) == X509_REPEATED);
    WANT(x509_timestamp_signed_data(nothing, 0, BYTES(ISSUED), BYTES(ISSUED), room, sizeof room, &written) == X509_MALFORMED);
    WANT(x509_timestamp_signed_data(BYTES(TIMESTAMP "\x00"), BYTES(ISSUED), BYTES(ISSUED), room, sizeof room, &written) == X509_MALFORMED);
    WANT(x509_timestamp_signed_data(BYTES(TIMESTAMP), nothing, 0, BYTES(ISSUED), room, sizeof room, &written) == X509_MALFORMED);
    WANT(x509_timestamp_signed_data(BYTES(TIMESTAMP), BYTES(ISSUED), nothing, 0, room, sizeof room, &written) == X509_MALFORMED);
    WANT(x509_timestamp_signed_data_beside(BYTES("\x01"), BYTES(ISSUED), room, sizeof room, &written) == X509_MALFORMED);
    WANT(x509_timestamp_signed_data_beside(BYTES(TIMESTAMP), nothing, 0, room, sizeof room, &written) == X509_OVERLENGTH);
    WANT(written == 77 && room[0] == 7);
}

/* A precertificate signing certificate, whose issuer is S, and precertificates that it signed (RFC 6962 3.1, 3.2), with authority key identifiers. */
#define FIELDS_OF_S \
    "\xa0\x03\x02\x01\x02\x02\x01\x2a\x30\x05\x06\x03\x2a\x03\x04\x30\x0c\x31\x0a\x30\x08\x06\x03\x55\x04\x03\x0c\x01\x53\x30\x1e\x17\x0d\x31\x30\x30" \
    "\x31\x30\x31\x30\x38\x33\x30\x30\x30\x5a\x17\x0d\x33\x30\x31\x32\x33\x31\x30\x38\x33\x30\x30\x30\x5a\x30\x0c\x31\x0a\x30\x08\x06\x03\x55\x04\x03" \
    "\x0c\x01\x52\x30\x0d\x30\x05\x06\x03\x2a\x03\x04\x03\x04\x00\x61\x62\x63"
#define IDENTIFIER "\x30\x0c\x06\x03\x55\x1d\x23\x04\x05\x30\x03\x80\x01\x0a"
#define IDENTIFIER_ABOVE "\x30\x0e\x06\x03\x55\x1d\x23\x04\x07\x30\x05\x80\x03\x0b\x0b\x0b"
#define SIGNING "\x30\x7b" "\x30\x6e" FIELDS_OF_S "\xa3\x12\x30\x10" IDENTIFIER_ABOVE SIGNED
#define SIGNING_UNKEYED "\x30\x7b" "\x30\x6e" FIELDS_OF_S "\xa3\x12\x30\x10" USAGE SIGNED
#define SIGNING_TWICE "\x30\x81\x8b" "\x30\x7e" FIELDS_OF_S "\xa3\x22\x30\x20" IDENTIFIER_ABOVE IDENTIFIER_ABOVE SIGNED
#define SIGNED_PRECERT "\x30\x81\x9f" "\x30\x81\x91" FIELDS "\xa3\x35\x30\x33" IDENTIFIER USAGE POISON SIGNED
#define REISSUED "\x30\x7e" FIELDS_OF_S "\xa3\x22\x30\x20" IDENTIFIER_ABOVE USAGE
#define UNIDENTIFIED_REISSUED "\x30\x6e" FIELDS_OF_S "\xa3\x12\x30\x10" USAGE
#define IDENTIFIED_TWICE "\x30\x81\x9d" "\x30\x81\x8f" FIELDS "\xa3\x33\x30\x31" IDENTIFIER POISON IDENTIFIER SIGNED

static void reissued_parts(void)
{
    WANT(WROTE(x509_logged_precertificate_signed_by(BYTES(SIGNED_PRECERT), BYTES(SIGNING), room, sizeof room, &written), REISSUED));
    WANT(WROTE(x509_logged_precertificate_signed_by(BYTES(PRECERT), BYTES(SIGNING_UNKEYED), room, sizeof room, &written), UNIDENTIFIED_REISSUED));
    WANT(WROTE(x509_logged_precertificate_signed_by(BYTES(PRECERT), BYTES(SIGNING_TWICE), room, sizeof room, &written), UNIDENTIFIED_REISSUED));
    room[0] = 7;
    WANT(x509_logged_precertificate_signed_by(BYTES(SIGNED_PRECERT), BYTES(SIGNING), room, 127, &written) == X509_ROOM && written == 128 && room[0] == 7);
    written = 77;
    WANT(x509_logged_precertificate_signed_by(BYTES(ISSUED), BYTES(SIGNING), room, sizeof room, &written) == X509_ABSENT);
    WANT(x509_logged_precertificate_signed_by(BYTES(SIGNED_PRECERT), BYTES(SIGNING_UNKEYED), room, sizeof room, &written) == X509_ABSENT);
    WANT(x509_logged_precertificate_signed_by(BYTES(SIGNED_PRECERT), BYTES(SIGNING_TWICE), room, sizeof room, &written) == X509_REPEATED);
    WANT(x509_logged_precertificate_signed_by(BYTES(IDENTIFIED_TWICE), BYTES(SIGNING), room, sizeof room, &written) == X509_REPEATED);
    WANT(x509_logged_precertificate_signed_by(nothing, 0, BYTES(SIGNING), room, sizeof room, &written) == X509_MALFORMED);
    WANT(x509_logged_precertificate_signed_by(BYTES(SIGNED_PRECERT), BYTES("\x30\x00"), room, sizeof room, &written) == X509_MALFORMED);
    WANT(written == 77 && room[0] == 7);
}

/* Leaves of a certificate and of a precertificate, and what comes beside these (RFC 6962 3.1, 3.4). */
#define MOMENT_OF_LEAF "\x00\x00\x01\x8b\xcf\xe5\x68\x7b"
#define LEAF "\x00\x00" MOMENT_OF_LEAF "\x00\x00\x00\x00\x02\xab\xac\x00\x01\xee"
#define PRECERT_LEAF "\x00\x00" MOMENT_OF_LEAF "\x00\x01" KEY_HASH "\x00\x00\x03\xab\xac\xad\x00\x00"
#define CHAIN "\x00\x00\x09\x00\x00\x01\xab\x00\x00\x02\xac\xad"

static void log_entries(void)
{
    x509_log_leaf leaf;
    memset(&leaf, 7, sizeof leaf);
    const x509_log_leaf before = leaf;
    WANT(x509_log_leaf_view(nothing, 0, &leaf) == X509_MALFORMED && x509_log_leaf_view(BYTES(LEAF "\x00"), &leaf) == X509_MALFORMED);
    WANT(x509_log_leaf_view((const uint8_t *)LEAF, sizeof LEAF - 2, &leaf) == X509_MALFORMED);
    WANT(x509_log_leaf_view(BYTES("\x01\x00" MOMENT_OF_LEAF "\x00\x00\x00\x00\x01\xab\x00\x00"), &leaf) == X509_MALFORMED);
    WANT(x509_log_leaf_view(BYTES("\x00\x01" MOMENT_OF_LEAF "\x00\x00\x00\x00\x01\xab\x00\x00"), &leaf) == X509_MALFORMED);
    WANT(x509_log_leaf_view(BYTES("\x00\x00" MOMENT_OF_LEAF "\x00\x02\x00\x00\x01\xab\x00\x00"), &leaf) == X509_MALFORMED);
    WANT(x509_log_leaf_view(BYTES("\x00\x00" MOMENT_OF_LEAF "\x00\x00\x00\x00\x00\x00\x00"), &leaf) == X509_MALFORMED); /* a certificate of no bytes */
    WANT(memcmp(&leaf, &before, sizeof leaf) == 0);
    WANT(x509_log_leaf_view(BYTES(LEAF), &leaf) == X509_OK && leaf.version == 0 && leaf.leaf_type == 0 && leaf.timestamp == 1700000000123);
    WANT(leaf.entry_type == 0 && is_at(leaf.issuer_key_hash, 0, 0) && is_at(leaf.certificate, 15, 2) && is_at(leaf.extensions, 19, 1));
    WANT(x509_log_leaf_view(BYTES(PRECERT_LEAF), &leaf) == X509_OK && leaf.version == 0 && leaf.leaf_type == 0 && leaf.timestamp == 1700000000123);
    WANT(leaf.entry_type == 1 && is_at(leaf.issuer_key_hash, 12, 32) && is_at(leaf.certificate, 47, 3) && is_at(leaf.extensions, 52, 0));

    x509_log_precertificate submitted = {{7, 7}, {7, 7}};
    WANT(x509_log_precertificate_view(nothing, 0, &submitted) == X509_MALFORMED);
    WANT(x509_log_precertificate_view(BYTES("\x00\x00\x00" CHAIN), &submitted) == X509_MALFORMED);
    WANT(x509_log_precertificate_view(BYTES("\x00\x00\x01\xaa" CHAIN "\x00"), &submitted) == X509_MALFORMED);
    WANT(x509_log_precertificate_view(BYTES("\x00\x00\x01\xaa\x00\x00\x01\xab"), &submitted) == X509_MALFORMED);
    WANT(is_at(submitted.precertificate, 7, 7) && is_at(submitted.chain, 7, 7));
    WANT(x509_log_precertificate_view(BYTES("\x00\x00\x01\xaa" CHAIN), &submitted) == X509_OK && is_at(submitted.precertificate, 3, 1));
    WANT(is_at(submitted.chain, 4, 12));

    x509_span found = {7, 7};
    size_t at = 0;
    WANT(x509_log_chain_next(nothing, 0, &at, &found) == X509_MALFORMED && x509_log_chain_next(BYTES("\x00\x00"), &at, &found) == X509_MALFORMED);
    WANT(x509_log_chain_next(BYTES(CHAIN "\x00"), &at, &found) == X509_MALFORMED && x509_log_chain_next(BYTES("\x00\x00\x01"), &at, &found) == X509_MALFORMED);
    WANT(x509_log_chain_next(BYTES("\x00\x00\x01\x00"), &at, &found) == X509_MALFORMED); /* no count of three bytes */
    WANT(x509_log_chain_next(BYTES("\x00\x00\x03\x00\x00\x00"), &at, &found) == X509_MALFORMED); /* a certificate of no bytes */
    WANT(x509_log_chain_next(BYTES("\x00\x00\x03\x00\x00\x01"), &at, &found) == X509_MALFORMED && at == 0 && is_at(found, 7, 7));
    WANT(x509_log_chain_next(BYTES("\x00\x00\x00"), &at, &found) == X509_ABSENT && at == 0 && is_at(found, 7, 7));
    WANT(x509_log_chain_next(BYTES(CHAIN), &at, &found) == X509_OK && at == 7 && is_at(found, 6, 1));
    WANT(x509_log_chain_next(BYTES(CHAIN), &at, &found) == X509_OK && at == 12 && is_at(found, 10, 2));
    WANT(x509_log_chain_next(BYTES(CHAIN), &at, &found) == X509_ABSENT && at == 12 && is_at(found, 10, 2));
    at = 2;
    WANT(x509_log_chain_next(BYTES(CHAIN), &at, &found) == X509_MALFORMED && at == 2 && is_at(found, 10, 2));
    at = 13;
    WANT(x509_log_chain_next(BYTES(CHAIN), &at, &found) == X509_MALFORMED && at == 13 && is_at(found, 10, 2));
}

/* The trees of two and of three leaves, whose entries are no byte, a byte 0 and a byte 16: the hashes by SHA-256, after RFC 6962 2.1. */
#define LEAF_0 "\x6e\x34\x0b\x9c\xff\xb3\x7a\x98\x9c\xa5\x44\xe6\xbb\x78\x0a\x2c\x78\x90\x1d\x3f\xb3\x37\x38\x76\x85\x11\xa3\x06\x17\xaf\xa0\x1d"
#define LEAF_1 "\x96\xa2\x96\xd2\x24\xf2\x85\xc6\x7b\xee\x93\xc3\x0f\x8a\x30\x91\x57\xf0\xda\xa3\x5d\xc5\xb8\x7e\x41\x0b\x78\x63\x0a\x09\xcf\xc7"
#define LEAF_2 "\x02\x98\xd1\x22\x90\x6d\xcf\xc1\x08\x92\xcb\x53\xa7\x39\x92\xfc\x5b\x9f\x49\x3e\xa4\xc9\xba\xdb\x27\xb7\x91\xb4\x12\x7a\x7f\xe7"
#define ROOT_2 "\xfa\xc5\x42\x03\xe7\xcc\x69\x6c\xf0\xdf\xcb\x42\xc9\x2a\x1d\x9d\xba\xf7\x0a\xd9\xe6\x21\xf4\xbd\x8d\x98\x66\x2f\x00\xe3\xc1\x25"
#define ROOT_3 "\xae\xb6\xbc\xfe\x27\x4b\x70\xa1\x4f\xb0\x67\xa5\xe5\x57\x82\x64\xdb\x0f\xa9\xb5\x1a\xf5\xe0\xba\x15\x91\x58\xf3\x29\xe0\x6e\x77"

/* The head of a tree of three leaves (RFC 6962 3.5). */
static void tree_heads(void)
{
    WANT(WROTE(x509_tree_head_signed_data(1700000000123, 3, BYTES(ROOT_3), room, sizeof room, &written),
               "\x00\x01" MOMENT_OF_LEAF "\x00\x00\x00\x00\x00\x00\x00\x03" ROOT_3));
    room[0] = 7;
    WANT(x509_tree_head_signed_data(0, UINT64_MAX, BYTES(ROOT_3), room, 49, &written) == X509_ROOM && written == 50 && room[0] == 7);
    written = 77;
    WANT(x509_tree_head_signed_data(0, 3, BYTES(ROOT_3 "\x00"), room, sizeof room, &written) == X509_MALFORMED);
    WANT(x509_tree_head_signed_data(0, 3, (const uint8_t *)ROOT_3, 31, room, sizeof room, &written) == X509_MALFORMED);
    WANT(x509_tree_head_signed_data(0, 3, nothing, 0, room, sizeof room, &written) == X509_MALFORMED);
    WANT(written == 77 && room[0] == 7);
}

static void merkle_trees(void)
{
    WANT(WROTE(x509_merkle_leaf_hash(nothing, 0, room, sizeof room, &written), LEAF_0));
    WANT(WROTE(x509_merkle_leaf_hash(BYTES("\x10"), room, 32, &written), LEAF_2));
    room[0] = 7;
    WANT(x509_merkle_leaf_hash(BYTES("\x10"), room, 31, &written) == X509_ROOM && written == 32 && room[0] == 7);
    WANT(x509_merkle_inclusion(BYTES(LEAF_1), 1, 3, BYTES(LEAF_0 LEAF_2), BYTES(ROOT_3)) == X509_OK);
    WANT(x509_merkle_inclusion(BYTES(LEAF_2), 2, 3, BYTES(ROOT_2), BYTES(ROOT_3)) == X509_OK);
    WANT(x509_merkle_inclusion(BYTES(LEAF_0), 0, 1, nothing, 0, BYTES(LEAF_0)) == X509_OK);
    WANT(x509_merkle_inclusion(BYTES(LEAF_1), 0, 3, BYTES(LEAF_0 LEAF_2), BYTES(ROOT_3)) == X509_FAILED);
    WANT(x509_merkle_inclusion(BYTES(LEAF_2), 3, 3, BYTES(ROOT_2), BYTES(ROOT_3)) == X509_FAILED);
    WANT(x509_merkle_inclusion(BYTES(LEAF_2), 2, 3, BYTES(ROOT_2 ROOT_2), BYTES(ROOT_3)) == X509_FAILED);
    WANT(x509_merkle_inclusion(BYTES(LEAF_2), 2, 3, BYTES(ROOT_2 "\x00"), BYTES(ROOT_3)) == X509_FAILED);
    WANT(x509_merkle_inclusion(nothing, 0, 0, 1, nothing, 0, nothing, 0) == X509_FAILED);
    WANT(x509_merkle_inclusion(BYTES(LEAF_0 "\x00"), 0, 1, nothing, 0, BYTES(LEAF_0 "\x00")) == X509_FAILED);
    WANT(x509_merkle_consistency(2, 3, BYTES(ROOT_2), BYTES(ROOT_3), BYTES(LEAF_2)) == X509_OK);
    WANT(x509_merkle_consistency(1, 3, BYTES(LEAF_0), BYTES(ROOT_3), BYTES(LEAF_1 LEAF_2)) == X509_OK);
    WANT(x509_merkle_consistency(3, 3, BYTES(ROOT_3), BYTES(ROOT_3), nothing, 0) == X509_OK);
    WANT(x509_merkle_consistency(3, 3, BYTES(ROOT_2), BYTES(ROOT_3), nothing, 0) == X509_FAILED);
    WANT(x509_merkle_consistency(0, 3, BYTES(LEAF_0), BYTES(ROOT_3), nothing, 0) == X509_FAILED);
    WANT(x509_merkle_consistency(3, 2, BYTES(ROOT_3), BYTES(ROOT_2), BYTES(LEAF_2)) == X509_FAILED);
    WANT(x509_merkle_consistency(2, 3, BYTES(ROOT_2), BYTES(ROOT_3), BYTES("\x00")) == X509_FAILED);
    WANT(x509_merkle_consistency(1, 1, BYTES("\x00"), BYTES("\x00"), nothing, 0) == X509_FAILED);
}

static void attributes(void)
{
    x509_span rdn = {7, 7};
    size_t at = 0;
    WANT(x509_name_next(BYTES(NAME), &at, &rdn) == X509_OK && is_at(rdn, 2, 12) && at == 14);
    WANT(x509_name_next(BYTES(NAME), &at, &rdn) == X509_ABSENT && is_at(rdn, 2, 12) && at == 14);
    at = 3;
    WANT(x509_name_next(BYTES(NAME), &at, &rdn) == X509_MALFORMED && is_at(rdn, 2, 12) && at == 3);
    at = 0;
    WANT(x509_name_next((const uint8_t *)NAME, 13, &at, &rdn) == X509_MALFORMED && at == 0);
    WANT(x509_name_next(BYTES("\x30\x00"), &at, &rdn) == X509_ABSENT && at == 0);
    /* two equal attributes */
    WANT(x509_name_next(BYTES("\x30\x16\x31\x14\x30\x08\x06\x03\x55\x04\x03\x0c\x01\x61\x30\x08\x06\x03\x55\x04\x03\x0c\x01\x61"), &at, &rdn)
         == X509_MALFORMED);

    x509_attribute found = {{7, 7}, 7, {7, 7}, {7, 7}};
    WANT(x509_relative_name_next(BYTES(NAME), &at, &found) == X509_MALFORMED && found.tag == 7 && at == 0);
    WANT(x509_relative_name_next((const uint8_t *)NAME + 2, 12, &at, &found) == X509_OK && at == 12);
    WANT(is_at(found.oid, 6, 3) && found.tag == 0x0c && is_at(found.element, 9, 3) && is_at(found.content, 11, 1));
    WANT(x509_relative_name_next((const uint8_t *)NAME + 2, 12, &at, &found) == X509_ABSENT && at == 12);
    const char under[] = "\xa1\x0a\x30\x08\x06\x03\x55\x04\x03\x0c\x01\x61";
    at = 0;
    WANT(x509_relative_name_under_next(0, BYTES(under), &at, &found) == X509_MALFORMED && at == 0);
    WANT(x509_relative_name_under_next(31, BYTES(under), &at, &found) == X509_MALFORMED && at == 0);
    WANT(x509_relative_name_under_next(1, BYTES(under), &at, &found) == X509_OK && at == 12 && is_at(found.content, 11, 1));
    WANT(x509_relative_name_under_next(1, BYTES(under), &at, &found) == X509_ABSENT && at == 12);
}

/* O=T and C=US in one RDN, then CN=a, then CN=b, by hand. */
#define LONG_NAME "\x30\x2f\x31\x15" "\x30\x08\x06\x03\x55\x04\x0a\x0c\x01" "T" "\x30\x09\x06\x03\x55\x04\x06\x13\x02" "US" \
                  "\x31\x0a\x30\x08\x06\x03\x55\x04\x03\x0c\x01" "a" "\x31\x0a\x30\x08\x06\x03\x55\x04\x03\x0c\x01" "b"

static void first_attributes(void)
{
    x509_attribute found = {{7, 7}, 7, {7, 7}, {7, 7}};
    WANT(x509_name_find(nothing, 0, BYTES("\x55\x04\x03"), &found) == X509_MALFORMED && found.tag == 7);
    WANT(x509_name_find(BYTES(NAME), nothing, 0, &found) == X509_ABSENT && is_at(found.oid, 7, 7));
    WANT(x509_name_find(BYTES("\x30\x00"), BYTES("\x55\x04\x03"), &found) == X509_ABSENT && is_at(found.content, 7, 7));
    WANT(x509_name_find(BYTES(NAME), BYTES("\x55\x04\x04"), &found) == X509_ABSENT && is_at(found.element, 7, 7));
    WANT(x509_name_find(BYTES(NAME), BYTES("\x55\x04\x03"), &found) == X509_OK);
    WANT(is_at(found.oid, 8, 3) && found.tag == 0x0c && is_at(found.element, 11, 3) && is_at(found.content, 13, 1));
    WANT(x509_name_find(BYTES(LONG_NAME), BYTES("\x55\x04\x0a"), &found) == X509_OK && is_at(found.oid, 8, 3) && is_at(found.content, 13, 1));
    WANT(x509_name_find(BYTES(LONG_NAME), BYTES("\x55\x04\x06"), &found) == X509_OK);
    WANT(is_at(found.oid, 18, 3) && found.tag == 0x13 && is_at(found.element, 21, 4) && is_at(found.content, 23, 2));
    WANT(x509_name_find(BYTES(LONG_NAME), BYTES("\x55\x04\x03"), &found) == X509_OK && is_at(found.oid, 31, 3) && is_at(found.content, 36, 1));
    WANT(x509_name_find((const uint8_t *)LONG_NAME, sizeof LONG_NAME - 2, BYTES("\x55\x04\x0a"), &found) == X509_MALFORMED && is_at(found.oid, 31, 3));
}

/* Whether two names match, or 7 where the call refuses. */
static uint32_t match(const uint8_t *a, size_t a_len, const uint8_t *b, size_t b_len)
{
    uint32_t matches = 7, turned = 7;
    const x509_status status = x509_names_match(a, a_len, b, b_len, &matches);
    WANT(x509_names_match(b, b_len, a, a_len, &turned) == status && turned == matches);
    WANT(status == X509_OK ? matches <= 1 : matches == 7);
    uint32_t equal = 7;
    const int is_same = a_len == b_len && (a_len == 0 || memcmp(a, b, a_len) == 0);
    const x509_status told = x509_names_equal(a, a_len, b, b_len, &equal);
    WANT(status == X509_MEMORY || told == status);
    WANT(told == X509_OK ? equal == (uint32_t)is_same : equal == 7);
    return matches;
}

/* Whether two names of one CN match, whose elements these are. */
static uint32_t match_values(const char *a, size_t a_len, const char *b, size_t b_len)
{
    const struct { const char *bytes; size_t len; } values[2] = {{a, a_len}, {b, b_len}};
    uint8_t names[2][64];
    for (int at = 0; at < 2; at++) {
        const uint8_t len = (uint8_t)values[at].len;
        const uint8_t head[] = {0x30, (uint8_t)(len + 9), 0x31, (uint8_t)(len + 7), 0x30, (uint8_t)(len + 5), 0x06, 0x03, 0x55, 0x04, 0x03};
        memcpy(names[at], head, sizeof head);
        memcpy(names[at] + sizeof head, values[at].bytes, len);
    }
    return match(names[0], a_len + 11, names[1], b_len + 11);
}

#define MATCH(a, b) match_values(a, sizeof(a) - 1, b, sizeof(b) - 1)

/* O=T and C=US in one RDN; C=us and O="t " in one, which stand in the other order in DER; and the first two in that order, which isn't DER (X.690 11.6). */
#define TWO "\x30\x17\x31\x15" "\x30\x08\x06\x03\x55\x04\x0a\x0c\x01" "T" "\x30\x09\x06\x03\x55\x04\x06\x13\x02" "US"
#define TWO_OTHERS "\x30\x18\x31\x16" "\x30\x09\x06\x03\x55\x04\x06\x13\x02" "us" "\x30\x09\x06\x03\x55\x04\x0a\x13\x02" "t "
#define TURNED "\x30\x17\x31\x15" "\x30\x09\x06\x03\x55\x04\x06\x13\x02" "US" "\x30\x08\x06\x03\x55\x04\x0a\x0c\x01" "T"

/* emailAddress and DC of these IA5Strings (RFC 5280 A.1) */
#define EMAIL(len3, len2, len1, len, text) "\x30" len3 "\x31" len2 "\x30" len1 "\x06\x09\x2a\x86\x48\x86\xf7\x0d\x01\x09\x01\x16" len text
#define DOMAIN(len3, len2, len1, len, text) "\x30" len3 "\x31" len2 "\x30" len1 "\x06\x0a\x09\x92\x26\x89\x93\xf2\x2c\x64\x01\x19\x16" len text

static void matching_names(void)
{
    uint32_t matches = 7;
    WANT(x509_names_match(nothing, 0, nothing, 0, &matches) == X509_MALFORMED && matches == 7);
    WANT(x509_names_equal(nothing, 0, nothing, 0, &matches) == X509_MALFORMED && matches == 7);
    WANT(x509_names_equal(BYTES(NAME), nothing, 0, &matches) == X509_MALFORMED && matches == 7);
    WANT(x509_names_equal(BYTES(TURNED), BYTES(TURNED), &matches) == X509_MALFORMED && matches == 7);
    WANT(x509_names_equal(BYTES(NAME), BYTES(NAME), &matches) == X509_OK && matches == 1);
    WANT(x509_names_equal(BYTES(NAME), BYTES("\x30\x00"), &matches) == X509_OK && matches == 0);
    matches = 7;
    WANT(x509_names_match(BYTES(NAME), nothing, 0, &matches) == X509_MALFORMED && matches == 7);
    WANT(x509_names_match(nothing, 0, BYTES(NAME), &matches) == X509_MALFORMED && matches == 7);
    WANT(x509_names_match(BYTES(TURNED), BYTES(TURNED), &matches) == X509_MALFORMED && matches == 7);
    WANT(match(BYTES(NAME), BYTES(NAME)) == 1);
    WANT(match(BYTES("\x30\x00"), BYTES("\x30\x00")) == 1);
    WANT(match(BYTES("\x30\x00"), BYTES(NAME)) == 0);
    WANT(match(BYTES(NAME), BYTES(LONG_NAME)) == 0);
    WANT(match(BYTES(TWO), BYTES(TWO_OTHERS)) == 1);

    /* case, and the type of the string (RFC 4518 2.1, 2.2) */
    WANT(MATCH("\x0c\x01" "a", "\x0c\x01" "A") == 1);
    WANT(MATCH("\x0c\x01" "a", "\x13\x01" "A") == 1);
    WANT(MATCH("\x1e\x02\x00" "a", "\x16\x01" "A") == 1);
    WANT(MATCH("\x0c\x01" "a", "\x0c\x01" "b") == 0);
    /* a T61String of ASCII is a text, and one beyond is compared by its octets */
    WANT(MATCH("\x14\x01" "a", "\x14\x01" "A") == 1);
    WANT(MATCH("\x14\x01" "a", "\x0c\x01" "a") == 1);
    WANT(MATCH("\x14\x01\xe4", "\x14\x01\xe4") == 1);
    WANT(MATCH("\x14\x01\xe4", "\x14\x01\xc4") == 0);
    WANT(MATCH("\x14\x01\xe4", "\x0c\x02\xc3\xa4") == 0);
    /* UniversalString, four octets a character (X.690 8.23.8); a half of a surrogate pair is none */
    WANT(MATCH("\x1c\x04\x00\x00\x00" "A", "\x0c\x01" "a") == 1);
    WANT(MATCH("\x1c\x04\x00\x00\x00\xc4", "\x1e\x02\x00\xe4") == 1);
    WANT(MATCH("\x1c\x04\x00\x00\xd8\x00", "\x1c\x04\x00\x00\xd8\x00") == 1);
    WANT(MATCH("\x1c\x04\x00\x00\xd8\x00", "\x0c\x01" "a") == 0);
    /* spaces at the ends and within (RFC 4518 2.6.1), and what is mapped to them or to nothing (2.2) */
    WANT(MATCH("\x0c\x05" " a  b", "\x0c\x04" "A b ") == 1);
    WANT(MATCH("\x0c\x03" "a b", "\x0c\x02" "ab") == 0);
    WANT(MATCH("\x0c\x03" "a\tb", "\x0c\x03" "a b") == 1);
    WANT(MATCH("\x0c\x04" "a\xc2\xad" "b", "\x0c\x02" "ab") == 1);
    WANT(MATCH("\x0c\x05" "a\xe3\x80\x80" "b", "\x0c\x03" "a b") == 1);
    /* NFKC (2.3): a with a diaeresis, in one character and in two; the ligature fi; sharp s, whose case is folded; full width */
    WANT(MATCH("\x0c\x02\xc3\xa4", "\x0c\x03" "A\xcc\x88") == 1);
    WANT(MATCH("\x0c\x02\xc3\xa4", "\x1e\x02\x00\xc4") == 1);
    WANT(MATCH("\x0c\x02\xc3\xa4", "\x0c\x01" "a") == 0);
    WANT(MATCH("\x0c\x03\xef\xac\x81", "\x0c\x02" "FI") == 1);
    WANT(MATCH("\x0c\x02\xc3\x9f", "\x0c\x02" "SS") == 1);
    WANT(MATCH("\x0c\x03\xef\xbc\xa1", "\x0c\x01" "a") == 1);
    /* prohibited (2.4): for private use, and the replacement character */
    WANT(MATCH("\x0c\x04" "a\xee\x80\x80", "\x0c\x04" "a\xee\x80\x80") == 1);
    WANT(MATCH("\x0c\x04" "a\xee\x80\x80", "\x0c\x04" "A\xee\x80\x80") == 0);
    WANT(MATCH("\x0c\x04" "a\xef\xbf\xbd", "\x0c\x04" "A\xef\xbf\xbd") == 0);

    /* an e-mail address and a domain component without regard to case (RFC 5280 4.1.2.6, 7.3) */
    WANT(match(BYTES(EMAIL("\x16", "\x14", "\x12", "\x05", "a@b.c")), BYTES(EMAIL("\x16", "\x14", "\x12", "\x05", "a@B.C"))) == 1);
    WANT(match(BYTES(EMAIL("\x16", "\x14", "\x12", "\x05", "a@b.c")), BYTES(EMAIL("\x16", "\x14", "\x12", "\x05", "A@b.c"))) == 1);
    WANT(match(BYTES(EMAIL("\x16", "\x14", "\x12", "\x05", "a@b.c")), BYTES(EMAIL("\x16", "\x14", "\x12", "\x05", "a@b.d"))) == 0);
    WANT(match(BYTES(DOMAIN("\x15", "\x13", "\x11", "\x03", "a b")), BYTES(DOMAIN("\x15", "\x13", "\x11", "\x03", "A B"))) == 1);
    WANT(match(BYTES(DOMAIN("\x15", "\x13", "\x11", "\x03", "a b")), BYTES(DOMAIN("\x16", "\x14", "\x12", "\x04", "a  b"))) == 0);
}

/* A KeyUsage, a BasicConstraints, names and purposes (RFC 5280 4.2.1). */
static void extensions(void)
{
    /* critical, for signatures of data and of certificates */
    const char usage[] = "\x30\x10\x30\x0e\x06\x03\x55\x1d\x0f\x01\x01\xff\x04\x04\x03\x02\x02\x84";
    x509_extension_entry found;
    size_t at = 0;
    uint32_t uses = 77;
    WANT(x509_extensions_next(BYTES(usage), &at, &found) == X509_OK && at == 18);
    WANT(is_at(found.oid, 6, 3) && found.critical == 1 && is_at(found.value, 14, 4));
    WANT(x509_extensions_next(BYTES(usage), &at, &found) == X509_ABSENT && at == 18 && is_at(found.oid, 6, 3));
    WANT(x509_key_usage(BYTES("\x03\x02\x02\x84"), &uses) == X509_OK && uses == (X509_KEY_USAGE_DIGITAL_SIGNATURE | X509_KEY_USAGE_KEY_CERT_SIGN));
    x509_basic_constraints_view constraints;
    WANT(x509_basic_constraints(BYTES("\x30\x06\x01\x01\xff\x02\x01\x03"), &constraints) == X509_OK);
    WANT(constraints.ca == 1 && constraints.has_path_len == 1 && constraints.path_len == 3);
    WANT(x509_basic_constraints(BYTES("\x30\x00"), &constraints) == X509_OK && constraints.ca == 0 && constraints.has_path_len == 0
         && constraints.path_len == 0);

    /* the DNS name a, also under the tag [1] */
    x509_general_name name;
    at = 0;
    WANT(x509_general_names_next(BYTES("\x30\x03\x82\x01" "a"), &at, &name) == X509_OK && at == 5 && name.kind == X509_GENERAL_NAME_DNS
         && is_at(name.content, 4, 1));
    WANT(x509_general_names_next(BYTES("\x30\x03\x82\x01" "a"), &at, &name) == X509_ABSENT && at == 5);
    at = 0;
    WANT(x509_general_names_under_next(0, BYTES("\xa1\x03\x82\x01" "a"), &at, &name) == X509_MALFORMED && at == 0);
    WANT(x509_general_names_under_next(31, BYTES("\xa1\x03\x82\x01" "a"), &at, &name) == X509_MALFORMED && at == 0);
    WANT(x509_general_names_under_next(1, BYTES("\xa1\x03\x82\x01" "a"), &at, &name) == X509_OK && at == 5 && is_at(name.content, 4, 1));
    WANT(x509_general_names_under_next(1, BYTES("\xa1\x03\x82\x01" "a"), &at, &name) == X509_ABSENT && at == 5);

    x509_span purpose = {7, 7};
    at = 0;
    WANT(x509_extended_key_usage_next(BYTES("\x30\x0a\x06\x08" X509_OID_SERVER_AUTH), &at, &purpose) == X509_OK && at == 12 && is_at(purpose, 4, 8));
    WANT(x509_extended_key_usage_next(BYTES("\x30\x0a\x06\x08" X509_OID_SERVER_AUTH), &at, &purpose) == X509_ABSENT && at == 12 && is_at(purpose, 4, 8));
}

/* What the calls above say, encoded again, with the encodings of X.690 (8.2, 8.3, 8.6, 8.19, 11.2), and what no value says (RFC 5280 4.2.1, 5.2.3). */
static void encoded(void)
{
#define OUT room, sizeof room, &written
#define REFUSED(call, status) (written = 77, (call) == (status) && written == 77)
    x509_basic_constraints_view constraints = {1, 1, 128};
    WANT(WROTE(x509_basic_constraints_encode(&constraints, OUT), "\x30\x07\x01\x01\xff\x02\x02\x00\x80"));
    WANT(x509_basic_constraints_encode(&constraints, room, 8, &written) == X509_ROOM && written == 9);
    WANT(WROTE(x509_basic_constraints_encode(&(x509_basic_constraints_view){1, 1, 0}, OUT), "\x30\x06\x01\x01\xff\x02\x01\x00"));
    WANT(WROTE(x509_basic_constraints_encode(&(x509_basic_constraints_view){1, 0, 0}, OUT), "\x30\x03\x01\x01\xff"));
    WANT(WROTE(x509_basic_constraints_encode(&(x509_basic_constraints_view){0, 0, 0}, OUT), "\x30\x00"));
    const x509_basic_constraints_view bad[] = {{0, 1, 0}, {1, 1, 256}, {2, 0, 0}, {1, 2, 0}, {1, 0, 5}};
    for (size_t at = 0; at < sizeof bad / sizeof bad[0]; at++)
        WANT(REFUSED(x509_basic_constraints_encode(&bad[at], OUT), X509_VALUE));

    WANT(WROTE(x509_key_usage_encode(X509_KEY_USAGE_KEY_CERT_SIGN | X509_KEY_USAGE_CRL_SIGN, OUT), "\x03\x02\x01\x06"));
    WANT(WROTE(x509_key_usage_encode(X509_KEY_USAGE_DIGITAL_SIGNATURE, OUT), "\x03\x02\x07\x80"));
    WANT(WROTE(x509_key_usage_encode(X509_KEY_USAGE_KEY_AGREEMENT | X509_KEY_USAGE_DECIPHER_ONLY, OUT), "\x03\x03\x07\x08\x80"));
    WANT(WROTE(x509_key_usage_encode(X509_KEY_USAGE_KEY_AGREEMENT | X509_KEY_USAGE_ENCIPHER_ONLY, OUT), "\x03\x02\x00\x09"));
    WANT(x509_key_usage_encode(X509_KEY_USAGE_CRL_SIGN, room, 3, &written) == X509_ROOM && written == 4);
    const uint32_t unusable[] = {0, X509_KEY_USAGE_ENCIPHER_ONLY, X509_KEY_USAGE_DECIPHER_ONLY, 0x200, 0x201, 0x10001};
    for (size_t at = 0; at < sizeof unusable / sizeof unusable[0]; at++)
        WANT(REFUSED(x509_key_usage_encode(unusable[at], OUT), X509_VALUE));

    /* 1.2.3 and 1.2.3.4 */
    WANT(WROTE(x509_extended_key_usage_encode(BYTES("\x2a\x03\x2a\x03\x04"), (const size_t[]){2, 3}, 2, OUT), "\x30\x09\x06\x02\x2a\x03\x06\x03\x2a\x03\x04"));
    WANT(x509_extended_key_usage_encode(BYTES("\x2a\x03"), (const size_t[]){2}, 1, room, 5, &written) == X509_ROOM && written == 6);
    WANT(REFUSED(x509_extended_key_usage_encode(BYTES("\x2a\x03"), (const size_t[]){1}, 1, OUT), X509_FAILED));
    WANT(REFUSED(x509_extended_key_usage_encode(BYTES("\x2a\x03"), (const size_t[]){2, SIZE_MAX}, 2, OUT), X509_FAILED));
    WANT(REFUSED(x509_extended_key_usage_encode(BYTES("\x2a\x03\x80"), (const size_t[]){2, 1}, 2, OUT), X509_MALFORMED));
    WANT(REFUSED(x509_extended_key_usage_encode(BYTES("\x2a\x03"), (const size_t[]){2, 0}, 2, OUT), X509_MALFORMED));
    WANT(REFUSED(x509_extended_key_usage_encode(nothing, 0, NULL, 0, OUT), X509_VALUE));

    WANT(WROTE(x509_subject_key_identifier_encode(BYTES("\xab\xcd"), OUT), "\x04\x02\xab\xcd"));
    WANT(WROTE(x509_subject_key_identifier_encode(nothing, 0, OUT), "\x04\x00"));
    WANT(x509_subject_key_identifier_encode(BYTES("\xab\xcd"), room, 3, &written) == X509_ROOM && written == 4);

    /* the names and the serial number of a certificate: a DNS name, and 5 */
#define NAMES BYTES("\x30\x03\x82\x01" "a")
#define SERIAL BYTES("\x02\x01\x05")
    WANT(WROTE(x509_authority_key_identifier_encode(1, BYTES("\xab\xcd"), nothing, 0, nothing, 0, OUT), "\x30\x04\x80\x02\xab\xcd"));
    WANT(WROTE(x509_authority_key_identifier_encode(1, nothing, 0, nothing, 0, nothing, 0, OUT), "\x30\x02\x80\x00"));
    WANT(WROTE(x509_authority_key_identifier_encode(0, nothing, 0, nothing, 0, nothing, 0, OUT), "\x30\x00"));
    WANT(WROTE(x509_authority_key_identifier_encode(0, nothing, 0, NAMES, SERIAL, OUT), "\x30\x08\xa1\x03\x82\x01" "a\x82\x01\x05"));
    WANT(WROTE(x509_authority_key_identifier_encode(1, BYTES("\xab"), NAMES, SERIAL, OUT), "\x30\x0b\x80\x01\xab\xa1\x03\x82\x01" "a\x82\x01\x05"));
    WANT(x509_authority_key_identifier_encode(1, BYTES("\xab\xcd"), nothing, 0, nothing, 0, room, 5, &written) == X509_ROOM && written == 6);
    WANT(REFUSED(x509_authority_key_identifier_encode(1, BYTES("\xab"), NAMES, nothing, 0, OUT), X509_VALUE));
    WANT(REFUSED(x509_authority_key_identifier_encode(1, BYTES("\xab"), nothing, 0, SERIAL, OUT), X509_VALUE));
    WANT(REFUSED(x509_authority_key_identifier_encode(1, BYTES("\xab"), BYTES("\x30\x00"), SERIAL, OUT), X509_VALUE));
    WANT(REFUSED(x509_authority_key_identifier_encode(1, BYTES("\xab"), BYTES("\x30\x03\x82\x01\xff"), SERIAL, OUT), X509_MALFORMED));
    WANT(REFUSED(x509_authority_key_identifier_encode(1, BYTES("\xab"), NAMES, BYTES("\x02\x00"), OUT), X509_MALFORMED));
#undef SERIAL
#undef NAMES

    WANT(WROTE(x509_policy_constraints_encode(&(x509_policy_constraints_view){1, 0, 1, 4294967295}, OUT), "\x30\x0a\x80\x01\x00\x81\x05\x00\xff\xff\xff\xff"));
    WANT(WROTE(x509_policy_constraints_encode(&(x509_policy_constraints_view){0, 0, 1, 5}, OUT), "\x30\x03\x81\x01\x05"));
    WANT(WROTE(x509_policy_constraints_encode(&(x509_policy_constraints_view){1, 5, 0, 0}, OUT), "\x30\x03\x80\x01\x05"));
    WANT(x509_policy_constraints_encode(&(x509_policy_constraints_view){1, 5, 0, 0}, room, 4, &written) == X509_ROOM && written == 5);
    const x509_policy_constraints_view none[] = {{0, 0, 0, 0}, {2, 0, 0, 0}, {0, 5, 1, 0}, {1, 0, 0, 5}};
    for (size_t at = 0; at < sizeof none / sizeof none[0]; at++)
        WANT(REFUSED(x509_policy_constraints_encode(&none[at], OUT), X509_VALUE));

    WANT(WROTE(x509_inhibit_any_policy_encode(0, OUT), "\x02\x01\x00") && WROTE(x509_inhibit_any_policy_encode(128, OUT), "\x02\x02\x00\x80"));
    WANT(WROTE(x509_inhibit_any_policy_encode(4294967295, OUT), "\x02\x05\x00\xff\xff\xff\xff"));
    WANT(x509_inhibit_any_policy_encode(0, room, 2, &written) == X509_ROOM && written == 3);

    const char longest[] = "\x7f" "0123456789abcdefghi", longer[] = "\x80" "0123456789abcdefghi";
    WANT(WROTE(x509_crl_number_encode(BYTES("\x00\x00\x80"), OUT), "\x02\x02\x00\x80") && WROTE(x509_crl_number_encode(BYTES("\x00"), OUT), "\x02\x01\x00"));
    WANT(WROTE(x509_crl_number_encode(BYTES(longest), OUT), "\x02\x14\x7f" "0123456789abcdefghi"));
    WANT(x509_crl_number_encode(BYTES("\x05"), room, 2, &written) == X509_ROOM && written == 3);
    WANT(REFUSED(x509_crl_number_encode(BYTES(longer), OUT), X509_VALUE) && REFUSED(x509_crl_number_encode(nothing, 0, OUT), X509_VALUE));
}

/* Values that are written of numbers, and read again. */
static void encoded_moments(void)
{
    uint32_t reason = 77;
    uint64_t moment = 77;
    WANT(WROTE(x509_crl_reason_encode(10, OUT), "\x0a\x01\x0a") && WROTE(x509_crl_reason_encode(0, OUT), "\x0a\x01\x00"));
    WANT(x509_crl_reason(room, written, &reason) == X509_OK && reason == 0);
    WANT(x509_crl_reason_encode(1, room, 2, &written) == X509_ROOM && written == 3);
    WANT(REFUSED(x509_crl_reason_encode(7, OUT), X509_VALUE) && REFUSED(x509_crl_reason_encode(11, OUT), X509_VALUE));
    WANT(REFUSED(x509_crl_reason_encode(256, OUT), X509_VALUE));

    WANT(WROTE(x509_invalidity_date_encode(1767323045, OUT), "\x18\x0f" "20260102030405Z"));
    WANT(x509_invalidity_date(room, written, &moment) == X509_OK && moment == 1767323045);
    WANT(WROTE(x509_invalidity_date_encode(0, OUT), "\x18\x0f" "19700101000000Z"));
    WANT(WROTE(x509_invalidity_date_encode(253402300799, OUT), "\x18\x0f" "99991231235959Z"));
    WANT(x509_invalidity_date_encode(0, room, 16, &written) == X509_ROOM && written == 17);
    WANT(REFUSED(x509_invalidity_date_encode(253402300800, OUT), X509_VALUE) && REFUSED(x509_invalidity_date_encode(UINT64_MAX, OUT), X509_VALUE));

    x509_private_key_usage_period_view period = {1, 1767323045, 1, 1767323045};
    WANT(WROTE(x509_private_key_usage_period_encode(&period, OUT), "\x30\x22\x80\x0f" "20260102030405Z\x81\x0f" "20260102030405Z"));
    WANT(x509_private_key_usage_period_encode(&period, room, 35, &written) == X509_ROOM && written == 36);
    WANT(WROTE(x509_private_key_usage_period_encode(&(x509_private_key_usage_period_view){1, 0, 0, 0}, OUT), "\x30\x11\x80\x0f" "19700101000000Z"));
    WANT(WROTE(x509_private_key_usage_period_encode(&(x509_private_key_usage_period_view){0, 0, 1, 0}, OUT), "\x30\x11\x81\x0f" "19700101000000Z"));
    WANT(x509_private_key_usage_period(room, written, &period) == X509_OK && period.has_not_before == 0 && period.has_not_after == 1 && period.not_after == 0);
    const x509_private_key_usage_period_view bad[] = {{0, 0, 0, 0}, {1, 5, 1, 4}, {2, 0, 0, 0}, {0, 1, 1, 5}, {1, 253402300800, 0, 0}};
    for (size_t at = 0; at < sizeof bad / sizeof bad[0]; at++)
        WANT(REFUSED(x509_private_key_usage_period_encode(&bad[at], OUT), X509_VALUE));
}

/* General names, by hand (RFC 5280 4.2.1.6). */
#define DNS_NAME "\x82\x01" "a"
static void encoded_names(void)
{
    WANT(WROTE(x509_general_name_encode(X509_GENERAL_NAME_DNS, BYTES("a"), OUT), DNS_NAME));
    WANT(WROTE(x509_general_name_encode(X509_GENERAL_NAME_EMAIL, BYTES("a@b"), OUT), "\x81\x03" "a@b"));
    WANT(WROTE(x509_general_name_encode(X509_GENERAL_NAME_URI, BYTES("a:b"), OUT), "\x86\x03" "a:b"));
    WANT(WROTE(x509_general_name_encode(X509_GENERAL_NAME_URI, nothing, 0, OUT), "\x86\x00"));
    WANT(WROTE(x509_general_name_encode(X509_GENERAL_NAME_IP, BYTES("\x7f\x00\x00\x01"), OUT), "\x87\x04\x7f\x00\x00\x01"));
    WANT(WROTE(x509_general_name_encode(X509_GENERAL_NAME_DIRECTORY, BYTES("\x30\x00"), OUT), "\xa4\x02\x30\x00"));
    WANT(WROTE(x509_general_name_encode(X509_GENERAL_NAME_REGISTERED_ID, BYTES("\x2a\x03"), OUT), "\x88\x02\x2a\x03"));
    WANT(WROTE(x509_general_name_encode(X509_GENERAL_NAME_EDI_PARTY, BYTES("\xa1\x03\x0c\x01" "a"), OUT), "\xa5\x05\xa1\x03\x0c\x01" "a"));
    WANT(WROTE(x509_general_name_encode(X509_GENERAL_NAME_OTHER, BYTES("\x06\x02\x2a\x03\xa0\x02\x05\x00"), OUT), "\xa0\x08\x06\x02\x2a\x03\xa0\x02\x05\x00"));
    WANT(x509_general_name_encode(X509_GENERAL_NAME_DNS, BYTES("a"), room, 2, &written) == X509_ROOM && written == 3);
    const uint32_t unknown[] = {3, 9, 0x102, UINT32_MAX};
    for (size_t at = 0; at < sizeof unknown / sizeof unknown[0]; at++)
        WANT(REFUSED(x509_general_name_encode(unknown[at], BYTES("a"), OUT), X509_VALUE));
    WANT(REFUSED(x509_general_name_encode(X509_GENERAL_NAME_DNS, BYTES("\xff"), OUT), X509_MALFORMED));
    WANT(REFUSED(x509_general_name_encode(X509_GENERAL_NAME_DIRECTORY, BYTES("\x05\x00"), OUT), X509_MALFORMED));
    WANT(REFUSED(x509_general_name_encode(X509_GENERAL_NAME_REGISTERED_ID, BYTES("\x80"), OUT), X509_MALFORMED));
    WANT(REFUSED(x509_general_name_encode(X509_GENERAL_NAME_EDI_PARTY, BYTES("\x05\x00"), OUT), X509_MALFORMED));
    WANT(REFUSED(x509_general_name_encode(X509_GENERAL_NAME_OTHER, nothing, 0, OUT), X509_MALFORMED));

    WANT(WROTE(x509_other_name_encode(BYTES("\x2a\x03"), BYTES("\x05\x00"), OUT), "\xa0\x08\x06\x02\x2a\x03\xa0\x02\x05\x00"));
    WANT(x509_other_name_encode(BYTES("\x2a\x03"), BYTES("\x05\x00"), room, 9, &written) == X509_ROOM && written == 10);
    WANT(REFUSED(x509_other_name_encode(BYTES("\x80"), BYTES("\x05\x00"), OUT), X509_MALFORMED));
    WANT(REFUSED(x509_other_name_encode(BYTES("\x2a\x03"), BYTES("\x05"), OUT), X509_MALFORMED));
    WANT(REFUSED(x509_other_name_encode(BYTES("\x2a\x03"), nothing, 0, OUT), X509_MALFORMED));

    x509_general_name found;
    size_t at = 0;
    WANT(WROTE(x509_general_names_encode(BYTES(DNS_NAME "\x88\x02\x2a\x03"), OUT), "\x30\x07" DNS_NAME "\x88\x02\x2a\x03"));
    WANT(x509_general_names_next(room, written, &at, &found) == X509_OK && found.kind == X509_GENERAL_NAME_DNS && is_at(found.content, 4, 1));
    WANT(x509_general_names_next(room, written, &at, &found) == X509_OK && found.kind == X509_GENERAL_NAME_REGISTERED_ID && is_at(found.content, 7, 2));
    WANT(x509_general_names_encode(BYTES(DNS_NAME), room, 4, &written) == X509_ROOM && written == 5);
    WANT(REFUSED(x509_general_names_encode(nothing, 0, OUT), X509_VALUE) && REFUSED(x509_general_names_encode(BYTES(DNS_NAME "\x82"), OUT), X509_MALFORMED));
    WANT(REFUSED(x509_general_names_encode(BYTES("\x04\x00"), OUT), X509_MALFORMED));
}

/* Elements of an identifier octet and a content, by hand (X.690 8.1.2.2, 8.1.3, 8.8, 8.14.3, 10.1). */
static void encoded_elements(void)
{
    WANT(WROTE(x509_element_encode(0x05, nothing, 0, OUT), "\x05\x00"));
    WANT(WROTE(x509_element_encode(0x30, BYTES("\x06\x02\x2a\x03\x05\x00"), OUT), "\x30\x06\x06\x02\x2a\x03\x05\x00"));
    WANT(WROTE(x509_element_encode(0x82, BYTES("a"), OUT), DNS_NAME) && WROTE(x509_element_encode(0xbe, BYTES("\x05\x00"), OUT), "\xbe\x02\x05\x00"));
    WANT(x509_element_encode(0x30, BYTES("\x05\x00"), room, 3, &written) == X509_ROOM && written == 4);
    WANT(x509_element_encode(0x30, BYTES("\x05\x00"), room, 4, &written) == X509_OK && written == 4);

    /* as few length octets as there can be */
    static uint8_t octets[65536];
    static const struct {
        size_t len, header_len;
        const char *header;
    } headers[] = {{127, 2, "\x04\x7f"}, {128, 3, "\x04\x81\x80"}, {255, 3, "\x04\x81\xff"}, {256, 4, "\x04\x82\x01\x00"}, {65532, 4, "\x04\x82\xff\xfc"}};
    memset(octets, 7, sizeof octets);
    for (size_t at = 0; at < sizeof headers / sizeof headers[0]; at++) {
        WANT(x509_element_encode(0x04, octets, headers[at].len, OUT) == X509_OK && written == headers[at].header_len + headers[at].len);
        WANT(memcmp(room, headers[at].header, headers[at].header_len) == 0 && memcmp(room + headers[at].header_len, octets, headers[at].len) == 0);
    }
    WANT(x509_element_encode(0x04, octets, 65535, OUT) == X509_ROOM && written == 65539);
    WANT(x509_element_encode(0x04, octets, 65536, OUT) == X509_ROOM && written == 65541);

    /* 24 octets of the universal class, and of each of the others 2 * 31: 31 says that further octets follow (X.690 8.1.2.4) */
    int accepted = 0;
    for (uint32_t octet = 0; octet < 256; octet++)
        accepted += x509_element_encode(octet, nothing, 0, OUT) == X509_OK && written == 2 && room[0] == octet && room[1] == 0;
    WANT(accepted == 24 + 3 * 62);
    const uint32_t refused[] = {0, 0x07, 0x08, 0x0b, 0x0e, 0x10, 0x11, 0x1d, 0x1f, 0x24, 0x3f, 0x5f, 0x7f, 0x9f, 0xbf, 0xff, 0x105, UINT32_MAX};
    for (size_t at = 0; at < sizeof refused / sizeof refused[0]; at++)
        WANT(REFUSED(x509_element_encode(refused[at], BYTES("\x05\x00"), OUT), X509_VALUE));
}

/* Policies of certificates, and numbers and attributes of subjects, by hand (RFC 5280 4.2.1.4, 4.2.1.5, 4.2.1.8, RFC 7633 4, X.690 8.3, 8.9). */
#define QUALIFIER "\x30\x06\x06\x02\x2a\x03\x05\x00"
#define POLICY "\x30\x04\x06\x02\x2a\x03"
#define MAPPING "\x30\x08\x06\x02\x2a\x03\x06\x02\x2a\x04"
#define NUMBERS "\x30\x03\x02\x01\x05"
#define VALUES_OF "\x30\x08\x06\x02\x2a\x03\x31\x02\x05\x00"
static void encoded_notices(void)
{
    WANT(WROTE(x509_cps_uri_encode(BYTES("a:b"), OUT), "\x16\x03" "a:b") && WROTE(x509_cps_uri_encode(nothing, 0, OUT), "\x16\x00"));
    WANT(x509_cps_uri_encode(BYTES("a:b"), room, 4, &written) == X509_ROOM && written == 5);
    WANT(REFUSED(x509_cps_uri_encode(BYTES("a:\x80"), OUT), X509_MALFORMED));

    WANT(WROTE(x509_numbers_encode(BYTES("\x05\x00\x80"), (const size_t[]){1, 2}, 2, OUT), "\x30\x07\x02\x01\x05\x02\x02\x00\x80"));
    WANT(WROTE(x509_numbers_encode(BYTES("\x00\x00\x11"), (const size_t[]){3}, 1, OUT), "\x30\x03\x02\x01\x11"));
    WANT(WROTE(x509_numbers_encode(BYTES("\x00\xff"), (const size_t[]){1, 1}, 2, OUT), "\x30\x07\x02\x01\x00\x02\x02\x00\xff"));
    WANT(WROTE(x509_numbers_encode(nothing, 0, NULL, 0, OUT), "\x30\x00"));
    WANT(x509_numbers_encode(BYTES("\x05"), (const size_t[]){1}, 1, room, 4, &written) == X509_ROOM && written == 5);
    WANT(REFUSED(x509_numbers_encode(BYTES("\x05"), (const size_t[]){2}, 1, OUT), X509_FAILED));
    WANT(REFUSED(x509_numbers_encode(BYTES("\x05\x06"), (const size_t[]){1}, 1, OUT), X509_FAILED));
    WANT(REFUSED(x509_numbers_encode(BYTES("\x05"), (const size_t[]){1, SIZE_MAX}, 2, OUT), X509_FAILED));
    WANT(REFUSED(x509_numbers_encode(BYTES("\x05"), NULL, 0, OUT), X509_FAILED));
    WANT(REFUSED(x509_numbers_encode(BYTES("\x05"), (const size_t[]){0, 1}, 2, OUT), X509_VALUE));
    WANT(REFUSED(x509_numbers_encode(BYTES("\x05"), (const size_t[]){2, 0}, 2, OUT), X509_VALUE));

    x509_user_notice_view notice;
    WANT(WROTE(x509_user_notice_encode(BYTES("a"), BYTES(NUMBERS), BYTES("b"), OUT), "\x30\x0d\x30\x08\x0c\x01" "a" NUMBERS "\x0c\x01" "b"));
    WANT(x509_user_notice(room, written, &notice) == X509_OK && is_at(notice.organization, 4, 3) && is_at(notice.notice_numbers, 7, 5)
         && is_at(notice.explicit_text, 12, 3));
    WANT(WROTE(x509_user_notice_encode(BYTES("a"), BYTES("\x30\x00"), nothing, 0, OUT), "\x30\x07\x30\x05\x0c\x01" "a\x30\x00"));
    WANT(WROTE(x509_user_notice_encode(nothing, 0, nothing, 0, BYTES("\xc3\xbc"), OUT), "\x30\x04\x0c\x02\xc3\xbc"));
    WANT(WROTE(x509_user_notice_encode(nothing, 0, nothing, 0, nothing, 0, OUT), "\x30\x00"));
    WANT(x509_user_notice_encode(nothing, 0, nothing, 0, BYTES("b"), room, 4, &written) == X509_ROOM && written == 5);
    WANT(REFUSED(x509_user_notice_encode(BYTES("\xff"), BYTES(NUMBERS), nothing, 0, OUT), X509_FAILED));
    WANT(REFUSED(x509_user_notice_encode(nothing, 0, nothing, 0, BYTES("b\xc3"), OUT), X509_FAILED));
    WANT(REFUSED(x509_user_notice_encode(nothing, 0, BYTES(NUMBERS), BYTES("b"), OUT), X509_VALUE));
    WANT(REFUSED(x509_user_notice_encode(BYTES("a"), nothing, 0, BYTES("b"), OUT), X509_MALFORMED));
    WANT(REFUSED(x509_user_notice_encode(BYTES("a"), BYTES("\x30\x03\x02\x01\xff"), nothing, 0, OUT), X509_MALFORMED));
    /* 200 characters of two octets each, and one more */
    uint8_t text[402];
    for (size_t at = 0; at < sizeof text; at += 2)
        memcpy(text + at, "\xc3\xbc", 2);
    WANT(x509_user_notice_encode(nothing, 0, nothing, 0, text, 400, NULL, 0, &written) == X509_ROOM && written == 408);
    WANT(x509_user_notice_encode(text, 400, BYTES(NUMBERS), nothing, 0, NULL, 0, &written) == X509_ROOM && written == 417);
    WANT(REFUSED(x509_user_notice_encode(nothing, 0, nothing, 0, text, 402, OUT), X509_VALUE));
    WANT(REFUSED(x509_user_notice_encode(text, 402, BYTES(NUMBERS), nothing, 0, OUT), X509_VALUE));
}

/* Lists of timestamps, by hand (RFC 6962 3.3): each behind its length of two octets, and all of them behind theirs. */
static void encoded_timestamps(void)
{
    size_t at = 0;
    x509_span found;
    WANT(WROTE(x509_timestamps_encode(BYTES("abc"), (const size_t[]){1, 2}, 2, OUT), "\x04\x09\x00\x07\x00\x01" "a\x00\x02" "bc"));
    WANT(x509_timestamp_next(room, written, &at, &found) == X509_OK && is_at(found, 6, 1));
    WANT(x509_timestamp_next(room, written, &at, &found) == X509_OK && is_at(found, 9, 2));
    WANT(x509_timestamp_next(room, written, &at, &found) == X509_ABSENT);
    WANT(x509_timestamps_encode(BYTES("abc"), (const size_t[]){3}, 1, room, 8, &written) == X509_ROOM && written == 9);
    WANT(REFUSED(x509_timestamps_encode(nothing, 0, NULL, 0, OUT), X509_VALUE));
    WANT(REFUSED(x509_timestamps_encode(BYTES("abc"), (const size_t[]){3, 0}, 2, OUT), X509_VALUE));
    WANT(REFUSED(x509_timestamps_encode(BYTES("abc"), (const size_t[]){2}, 1, OUT), X509_FAILED));
    WANT(REFUSED(x509_timestamps_encode(BYTES("abc"), (const size_t[]){1, 3}, 2, OUT), X509_FAILED));
    /* 65,535 octets with the lengths, and one more */
    static const uint8_t many[65536];
    WANT(x509_timestamps_encode(many, 65533, (const size_t[]){65533}, 1, NULL, 0, &written) == X509_ROOM && written == 65542);
    WANT(x509_timestamps_encode(many, 65531, (const size_t[]){65530, 1}, 2, NULL, 0, &written) == X509_ROOM && written == 65542);
    WANT(REFUSED(x509_timestamps_encode(many, 65534, (const size_t[]){65534}, 1, OUT), X509_OVERLENGTH));
    WANT(REFUSED(x509_timestamps_encode(many, 65532, (const size_t[]){65531, 1}, 2, OUT), X509_OVERLENGTH));
    WANT(REFUSED(x509_timestamps_encode(many, 65536, (const size_t[]){65536}, 1, OUT), X509_OVERLENGTH));
}

static void encoded_policies(void)
{
    WANT(WROTE(x509_policy_qualifier_encode(BYTES("\x2a\x03"), BYTES("\x05\x00"), OUT), QUALIFIER));
    WANT(WROTE(x509_policy_qualifier_encode(BYTES("\x2a\x03"), nothing, 0, OUT), "\x30\x04\x06\x02\x2a\x03"));
    WANT(x509_policy_qualifier_encode(BYTES("\x2a\x03"), nothing, 0, room, 5, &written) == X509_ROOM && written == 6);
    WANT(REFUSED(x509_policy_qualifier_encode(BYTES("\x80"), nothing, 0, OUT), X509_MALFORMED));
    WANT(REFUSED(x509_policy_qualifier_encode(BYTES("\x2a\x03"), BYTES("\x05"), OUT), X509_MALFORMED));
    WANT(REFUSED(x509_policy_qualifier_encode(BYTES("\x2a\x03"), BYTES("\x05\x00\x05\x00"), OUT), X509_MALFORMED));

    x509_policy found;
    size_t at = 0;
    WANT(WROTE(x509_policy_encode(BYTES("\x2a\x03"), nothing, 0, OUT), POLICY));
    WANT(WROTE(x509_policy_encode(BYTES("\x2a\x03"), BYTES(QUALIFIER QUALIFIER), OUT), "\x30\x16\x06\x02\x2a\x03\x30\x10" QUALIFIER QUALIFIER));
    WANT(x509_policy_encode(BYTES("\x2a\x03"), nothing, 0, room, 5, &written) == X509_ROOM && written == 6);
    WANT(REFUSED(x509_policy_encode(nothing, 0, nothing, 0, OUT), X509_MALFORMED));
    WANT(REFUSED(x509_policy_encode(BYTES("\x2a\x03"), BYTES("\x30\x00"), OUT), X509_MALFORMED));
    WANT(WROTE(x509_certificate_policies_encode(BYTES(POLICY), OUT), "\x30\x06" POLICY));
    WANT(x509_certificate_policies_next(room, written, &at, &found) == X509_OK && is_at(found.identifier, 6, 2) && is_at(found.qualifiers, 0, 0));
    WANT(x509_certificate_policies_encode(BYTES(POLICY), room, 7, &written) == X509_ROOM && written == 8);
    WANT(REFUSED(x509_certificate_policies_encode(nothing, 0, OUT), X509_VALUE));
    WANT(REFUSED(x509_certificate_policies_encode(BYTES(POLICY POLICY), OUT), X509_VALUE));
    WANT(WROTE(x509_certificate_policies_encode(BYTES(POLICY "\x30\x04\x06\x02\x2a\x04"), OUT), "\x30\x0c" POLICY "\x30\x04\x06\x02\x2a\x04"));
    WANT(REFUSED(x509_certificate_policies_encode(BYTES(POLICY "\x30\x04\x06\x02\x2a\x04" POLICY), OUT), X509_VALUE));
    WANT(REFUSED(x509_certificate_policies_encode(BYTES(POLICY DNS_NAME), OUT), X509_MALFORMED));

    WANT(WROTE(x509_policy_mapping_encode(BYTES("\x2a\x03"), BYTES("\x2a\x04"), OUT), MAPPING));
    WANT(x509_policy_mapping_encode(BYTES("\x2a\x03"), BYTES("\x2a\x04"), room, 9, &written) == X509_ROOM && written == 10);
    WANT(REFUSED(x509_policy_mapping_encode(BYTES(X509_OID_ANY_POLICY), BYTES("\x2a\x04"), OUT), X509_VALUE));
    WANT(REFUSED(x509_policy_mapping_encode(BYTES("\x2a\x03"), BYTES(X509_OID_ANY_POLICY), OUT), X509_VALUE));
    WANT(REFUSED(x509_policy_mapping_encode(BYTES("\x80"), BYTES(X509_OID_ANY_POLICY), OUT), X509_MALFORMED));
    WANT(REFUSED(x509_policy_mapping_encode(BYTES("\x2a\x03"), nothing, 0, OUT), X509_MALFORMED));
    WANT(WROTE(x509_policy_mapping_encode(BYTES("\x55\x1d\x20"), BYTES("\x55\x1d\x20\x00\x00"), OUT),
               "\x30\x0c\x06\x03\x55\x1d\x20\x06\x05\x55\x1d\x20\x00\x00"));
    WANT(WROTE(x509_policy_mappings_encode(BYTES(MAPPING), OUT), "\x30\x0a" MAPPING));
    WANT(x509_policy_mappings_encode(BYTES(MAPPING), room, 11, &written) == X509_ROOM && written == 12);
    WANT(REFUSED(x509_policy_mappings_encode(BYTES(MAPPING "\x30\x0a\x06\x04\x55\x1d\x20\x00\x06\x02\x2a\x04"), OUT), X509_VALUE));
    WANT(REFUSED(x509_policy_mappings_encode(BYTES("\x30\x0a\x06\x02\x2a\x03\x06\x04\x55\x1d\x20\x00"), OUT), X509_VALUE));
    WANT(REFUSED(x509_policy_mappings_encode(nothing, 0, OUT), X509_VALUE) && REFUSED(x509_policy_mappings_encode(BYTES(POLICY), OUT), X509_MALFORMED));

    WANT(WROTE(x509_request_attribute_encode(BYTES("\x2a\x03"), BYTES("\x05\x00"), OUT), VALUES_OF));
    WANT(WROTE(x509_request_attribute_encode(BYTES("\x2a\x03"), BYTES("\x0c\x01" "a\x05\x00\x04\x00"), OUT),
               "\x30\x0d\x06\x02\x2a\x03\x31\x07\x04\x00\x05\x00\x0c\x01" "a"));
    WANT(x509_request_attribute_encode(BYTES("\x2a\x03"), BYTES("\x05\x00"), room, 9, &written) == X509_ROOM && written == 10);
    WANT(REFUSED(x509_request_attribute_encode(BYTES("\x2a\x03"), nothing, 0, OUT), X509_VALUE));
    WANT(REFUSED(x509_request_attribute_encode(BYTES("\x80"), BYTES("\x05\x00"), OUT), X509_MALFORMED));
    WANT(REFUSED(x509_request_attribute_encode(BYTES("\x2a\x03"), BYTES("\x05"), OUT), X509_MALFORMED));
    WANT(REFUSED(x509_request_attribute_encode(BYTES("\x2a\x03"), BYTES("\x05\x00\x04\x00\x05\x00"), OUT), X509_SET_DUPLICATE));
    WANT(WROTE(x509_subject_directory_attributes_encode(BYTES(VALUES_OF), OUT), "\x30\x0a" VALUES_OF));
    WANT(x509_subject_directory_attributes_encode(BYTES(VALUES_OF), room, 11, &written) == X509_ROOM && written == 12);
    WANT(REFUSED(x509_subject_directory_attributes_encode(nothing, 0, OUT), X509_VALUE));
    WANT(REFUSED(x509_subject_directory_attributes_encode(BYTES(POLICY), OUT), X509_MALFORMED));
}

/* What holds general names, by hand (RFC 5280 4.2.1.10, 4.2.1.13, 4.2.2.1, 5.2.5). */
#define ACCESS "\x30\x07\x06\x02\x2a\x03" DNS_NAME
#define SUBTREE "\x30\x03" DNS_NAME
#define ATTRIBUTE "\x30\x08\x06\x03\x55\x04\x03\x0c\x01" "a"
#define POINT "\x30\x07\xa0\x05\xa0\x03" DNS_NAME
static void encoded_places(void)
{
    WANT(WROTE(x509_access_encode(BYTES("\x2a\x03"), BYTES(DNS_NAME), OUT), ACCESS));
    WANT(x509_access_encode(BYTES("\x2a\x03"), BYTES(DNS_NAME), room, 8, &written) == X509_ROOM && written == 9);
    WANT(REFUSED(x509_access_encode(BYTES("\x80"), BYTES(DNS_NAME), OUT), X509_MALFORMED));
    WANT(REFUSED(x509_access_encode(BYTES("\x2a\x03"), BYTES("\x82\x01\xff"), OUT), X509_MALFORMED));
    WANT(WROTE(x509_info_access_encode(BYTES(ACCESS), OUT), "\x30\x09" ACCESS));
    WANT(x509_info_access_encode(BYTES(ACCESS), room, 4, &written) == X509_ROOM && written == 11);
    WANT(REFUSED(x509_info_access_encode(nothing, 0, OUT), X509_VALUE) && REFUSED(x509_info_access_encode(BYTES(DNS_NAME), OUT), X509_MALFORMED));

    WANT(WROTE(x509_subtree_encode(BYTES(DNS_NAME), OUT), SUBTREE) && REFUSED(x509_subtree_encode(nothing, 0, OUT), X509_MALFORMED));
    WANT(x509_subtree_encode(BYTES(DNS_NAME), room, 4, &written) == X509_ROOM && written == 5);
    WANT(WROTE(x509_name_constraints_encode(BYTES(SUBTREE SUBTREE), nothing, 0, OUT), "\x30\x0c\xa0\x0a" SUBTREE SUBTREE));
    WANT(WROTE(x509_name_constraints_encode(nothing, 0, BYTES(SUBTREE), OUT), "\x30\x07\xa1\x05" SUBTREE));
    WANT(WROTE(x509_name_constraints_encode(BYTES(SUBTREE), BYTES(SUBTREE), OUT), "\x30\x0e\xa0\x05" SUBTREE "\xa1\x05" SUBTREE));
    WANT(x509_name_constraints_encode(BYTES(SUBTREE), nothing, 0, room, 8, &written) == X509_ROOM && written == 9);
    WANT(REFUSED(x509_name_constraints_encode(nothing, 0, nothing, 0, OUT), X509_VALUE));
    WANT(REFUSED(x509_name_constraints_encode(BYTES(DNS_NAME), nothing, 0, OUT), X509_MALFORMED));
    WANT(REFUSED(x509_name_constraints_encode(nothing, 0, BYTES(DNS_NAME), OUT), X509_MALFORMED));

    const uint32_t compromised = X509_REASONS_KEY_COMPROMISE;
    WANT(WROTE(x509_distribution_point_encode(BYTES(DNS_NAME), nothing, 0, 0, 0, nothing, 0, OUT), POINT));
    WANT(WROTE(x509_distribution_point_encode(nothing, 0, BYTES("\x31\x0a" ATTRIBUTE), 0, 0, nothing, 0, OUT), "\x30\x0e\xa0\x0c\xa1\x0a" ATTRIBUTE));
    WANT(WROTE(x509_distribution_point_encode(nothing, 0, nothing, 0, 1, compromised, BYTES(DNS_NAME), OUT), "\x30\x09\x81\x02\x06\x40\xa2\x03" DNS_NAME));
    WANT(WROTE(x509_distribution_point_encode(BYTES(DNS_NAME), nothing, 0, 1, X509_REASONS_AA_COMPROMISE, BYTES(DNS_NAME), OUT),
               "\x30\x11\xa0\x05\xa0\x03" DNS_NAME "\x81\x03\x07\x00\x80\xa2\x03" DNS_NAME));
    WANT(x509_distribution_point_encode(BYTES(DNS_NAME), nothing, 0, 0, 0, nothing, 0, room, 8, &written) == X509_ROOM && written == 9);
    WANT(REFUSED(x509_distribution_point_encode(nothing, 0, nothing, 0, 1, compromised, nothing, 0, OUT), X509_VALUE));
    WANT(REFUSED(x509_distribution_point_encode(BYTES(DNS_NAME), BYTES("\x31\x0a" ATTRIBUTE), 0, 0, nothing, 0, OUT), X509_VALUE));
    const uint32_t unsaid[][2] = {{0, 2}, {2, 0}, {1, 0x200}, {1, 0x10001}};
    for (size_t at = 0; at < sizeof unsaid / sizeof unsaid[0]; at++)
        WANT(REFUSED(x509_distribution_point_encode(BYTES(DNS_NAME), nothing, 0, unsaid[at][0], unsaid[at][1], nothing, 0, OUT), X509_VALUE));
    WANT(REFUSED(x509_distribution_point_encode(BYTES("\x82"), nothing, 0, 0, 0, nothing, 0, OUT), X509_MALFORMED));
    WANT(REFUSED(x509_distribution_point_encode(nothing, 0, BYTES(ATTRIBUTE), 0, 0, nothing, 0, OUT), X509_MALFORMED));
    WANT(REFUSED(x509_distribution_point_encode(BYTES(DNS_NAME), nothing, 0, 0, 0, BYTES("\x82"), OUT), X509_MALFORMED));
    WANT(WROTE(x509_distribution_points_encode(BYTES(POINT POINT), OUT), "\x30\x12" POINT POINT));
    WANT(x509_distribution_points_encode(BYTES(POINT POINT), room, 4, &written) == X509_ROOM && written == 20);
    WANT(REFUSED(x509_distribution_points_encode(nothing, 0, OUT), X509_VALUE) && REFUSED(x509_distribution_points_encode(BYTES(DNS_NAME), OUT), X509_MALFORMED));

    const x509_issuing_distribution_point_view users = {.only_contains_user_certs = 1}, indirect = {.indirect_crl = 1},
                                               some = {.only_contains_ca_certs = 1, .has_only_some_reasons = 1, .only_some_reasons = compromised},
                                               attributes = {.only_contains_attribute_certs = 1}, none = {.indirect_crl = 0};
    WANT(WROTE(x509_issuing_distribution_point_encode(&users, nothing, 0, nothing, 0, OUT), "\x30\x03\x81\x01\xff"));
    WANT(WROTE(x509_issuing_distribution_point_encode(&some, nothing, 0, nothing, 0, OUT), "\x30\x07\x82\x01\xff\x83\x02\x06\x40"));
    WANT(WROTE(x509_issuing_distribution_point_encode(&attributes, nothing, 0, nothing, 0, OUT), "\x30\x03\x85\x01\xff"));
    WANT(WROTE(x509_issuing_distribution_point_encode(&indirect, BYTES(DNS_NAME), nothing, 0, OUT), "\x30\x0a\xa0\x05\xa0\x03" DNS_NAME "\x84\x01\xff"));
    WANT(WROTE(x509_issuing_distribution_point_encode(&none, nothing, 0, BYTES("\x31\x0a" ATTRIBUTE), OUT), "\x30\x0e\xa0\x0c\xa1\x0a" ATTRIBUTE));
    WANT(x509_issuing_distribution_point_encode(&users, nothing, 0, nothing, 0, room, 4, &written) == X509_ROOM && written == 5);
    const x509_issuing_distribution_point_view bad[] = {{.indirect_crl = 0},
                                                        {.only_contains_user_certs = 1, .only_contains_ca_certs = 1},
                                                        {.only_contains_user_certs = 1, .only_contains_attribute_certs = 1},
                                                        {.only_contains_ca_certs = 1, .only_contains_attribute_certs = 1},
                                                        {.indirect_crl = 2},
                                                        {.only_contains_user_certs = 2},
                                                        {.only_contains_ca_certs = 2},
                                                        {.only_contains_attribute_certs = 2},
                                                        {.has_only_some_reasons = 1, .only_some_reasons = 0x200},
                                                        {.indirect_crl = 1, .only_some_reasons = 2}};
    for (size_t at = 0; at < sizeof bad / sizeof bad[0]; at++)
        WANT(REFUSED(x509_issuing_distribution_point_encode(&bad[at], nothing, 0, nothing, 0, OUT), X509_VALUE));
    WANT(REFUSED(x509_issuing_distribution_point_encode(&users, BYTES(DNS_NAME), BYTES("\x31\x0a" ATTRIBUTE), OUT), X509_VALUE));
    WANT(REFUSED(x509_issuing_distribution_point_encode(&users, BYTES("\x82"), nothing, 0, OUT), X509_MALFORMED));
}
#undef POINT
#undef ATTRIBUTE
#undef SUBTREE
#undef ACCESS
#undef DNS_NAME
#undef REFUSED
#undef OUT

static void key_identifiers(void)
{
    x509_span octets = {7, 7};
    WANT(x509_subject_key_identifier(BYTES("\x04\x02\xab\xcd"), &octets) == X509_OK && is_at(octets, 2, 2));
    WANT(x509_subject_key_identifier(BYTES("\x04\x00"), &octets) == X509_OK && is_at(octets, 2, 0));
    WANT(x509_subject_key_identifier(BYTES("\x04\x02\xab"), &octets) == X509_MALFORMED && is_at(octets, 2, 0));

    x509_authority_key_identifier_view view = {{7, 7}, {7, 7}, {7, 7}};
    WANT(x509_authority_key_identifier(BYTES("\x30\x02\x83\x00"), &view) == X509_MALFORMED && is_at(view.issuer, 7, 7));
    WANT(x509_authority_key_identifier(BYTES("\x30\x0c\x80\x02\xab\xcd\xa1\x03\x82\x01\x61\x82\x01\x05"), &view) == X509_OK);
    WANT(is_at(view.key_identifier, 4, 2) && is_at(view.issuer, 6, 5) && is_at(view.serial_number, 13, 1));
    WANT(x509_authority_key_identifier(BYTES("\x30\x04\x80\x02\xab\xcd"), &view) == X509_OK);
    WANT(is_at(view.key_identifier, 4, 2) && is_at(view.issuer, 0, 0) && is_at(view.serial_number, 0, 0));
    WANT(x509_authority_key_identifier(BYTES("\x30\x00"), &view) == X509_OK && is_at(view.key_identifier, 0, 0));
}

static void accesses(void)
{
    /* by OCSP, at a:b */
    const char value[] = "\x30\x11\x30\x0f\x06\x08\x2b\x06\x01\x05\x05\x07\x30\x01\x86\x03\x61\x3a\x62";
    x509_access found;
    size_t at = 0;
    WANT(x509_access_next(BYTES(value), &at, &found) == X509_OK && at == 19);
    WANT(is_at(found.method, 6, 8) && found.location.kind == X509_GENERAL_NAME_URI);
    WANT(is_at(found.location.element, 14, 5) && is_at(found.location.content, 16, 3) && is_at(found.location.type_id, 0, 0));
    WANT(x509_access_next(BYTES(value), &at, &found) == X509_ABSENT && at == 19 && is_at(found.method, 6, 8));
    at = 0;
    WANT(x509_access_next(BYTES("\x30\x02\x30\x00"), &at, &found) == X509_MALFORMED && at == 0 && is_at(found.method, 6, 8));
}

static void policies(void)
{
    /* any policy, with the identifier of a practice statement and no address; and any policy alone */
    const char value[] = "\x30\x1e\x30\x14\x06\x04\x55\x1d\x20\x00\x30\x0c\x30\x0a\x06\x08\x2b\x06\x01\x05\x05\x07\x02\x01\x30\x06\x06\x04\x55\x1d\x20\x00";
    x509_policy policy;
    size_t at = 0;
    WANT(x509_certificate_policies_next(BYTES(value), &at, &policy) == X509_OK && at == 24);
    WANT(is_at(policy.identifier, 6, 4) && is_at(policy.qualifiers, 10, 14));
    WANT(x509_certificate_policies_next(BYTES(value), &at, &policy) == X509_OK && at == 32);
    WANT(is_at(policy.identifier, 28, 4) && is_at(policy.qualifiers, 0, 0));
    WANT(x509_certificate_policies_next(BYTES(value), &at, &policy) == X509_ABSENT && at == 32);
    x509_policy_qualifier qualifier;
    at = 0;
    WANT(x509_policy_qualifiers_next((const uint8_t *)value + 10, 14, &at, &qualifier) == X509_OK && at == 14);
    WANT(is_at(qualifier.identifier, 6, 8) && is_at(qualifier.qualifier, 0, 0));
    at = 0;
    WANT(x509_policy_qualifiers_next(BYTES("\x30\x08\x30\x06\x06\x01\x2a\x16\x01\x61"), &at, &qualifier) == X509_OK && at == 10);
    WANT(is_at(qualifier.identifier, 6, 1) && is_at(qualifier.qualifier, 7, 3));
    WANT(x509_policy_qualifiers_next(BYTES("\x30\x08\x30\x06\x06\x01\x2a\x16\x01\x61"), &at, &qualifier) == X509_ABSENT && at == 10
         && is_at(qualifier.qualifier, 7, 3));

    x509_policy_mapping mapping;
    at = 0;
    WANT(x509_policy_mappings_next(BYTES("\x30\x0c\x30\x0a\x06\x03\x55\x1d\x20\x06\x03\x55\x1d\x21"), &at, &mapping) == X509_OK && at == 14);
    WANT(is_at(mapping.issuer_policy, 6, 3) && is_at(mapping.subject_policy, 11, 3));
    WANT(x509_policy_mappings_next(BYTES("\x30\x0c\x30\x0a\x06\x03\x55\x1d\x20\x06\x03\x55\x1d\x21"), &at, &mapping) == X509_ABSENT && at == 14);
    at = 0;
    WANT(x509_policy_mappings_next(BYTES("\x30\x07\x30\x05\x06\x03\x55\x1d\x20"), &at, &mapping) == X509_MALFORMED && at == 0
         && mapping.issuer_policy.place == 6);

    x509_policy_constraints_view constraints = {7, 7, 7, 7};
    WANT(x509_policy_constraints(BYTES("\x30\x03\x82\x01\x03"), &constraints) == X509_MALFORMED && constraints.require_explicit_policy == 7);
    WANT(x509_policy_constraints(BYTES("\x30\x06\x80\x01\x03\x81\x01\x00"), &constraints) == X509_OK);
    WANT(constraints.has_require_explicit_policy == 1 && constraints.require_explicit_policy == 3);
    WANT(constraints.has_inhibit_policy_mapping == 1 && constraints.inhibit_policy_mapping == 0);
    WANT(x509_policy_constraints(BYTES("\x30\x03\x81\x01\x05"), &constraints) == X509_OK);
    WANT(constraints.has_require_explicit_policy == 0 && constraints.require_explicit_policy == 0 && constraints.inhibit_policy_mapping == 5);
    uint32_t certificates = 77;
    WANT(x509_inhibit_any_policy(BYTES("\x02\x01\xff"), &certificates) == X509_MALFORMED && certificates == 77);
    WANT(x509_inhibit_any_policy(BYTES("\x02\x05\x00\xff\xff\xff\xff"), &certificates) == X509_OK && certificates == 4294967295);
    WANT(x509_inhibit_any_policy(BYTES("\x02\x05\x01\x00\x00\x00\x00"), &certificates) == X509_MALFORMED && certificates == 4294967295);
}

static void points(void)
{
    x509_distribution_point point;
    size_t at = 0;
    /* the URI a, for keys that aren't secret, from the issuer b */
    WANT(x509_distribution_points_next(BYTES("\x30\x12\x30\x10\xa0\x05\xa0\x03\x86\x01\x61\x81\x02\x06\x40\xa2\x03\x82\x01\x62"), &at, &point) == X509_OK
         && at == 20);
    WANT(is_at(point.full_name, 6, 5) && is_at(point.relative_name, 0, 0) && is_at(point.crl_issuer, 15, 5));
    WANT(point.has_reasons == 1 && point.reasons == X509_REASONS_KEY_COMPROMISE);
    /* CN=a below the issuer's name */
    at = 0;
    WANT(x509_distribution_points_next(BYTES("\x30\x10\x30\x0e\xa0\x0c\xa1\x0a\x30\x08\x06\x03\x55\x04\x03\x0c\x01\x61"), &at, &point) == X509_OK && at == 18);
    WANT(is_at(point.full_name, 0, 0) && is_at(point.relative_name, 6, 12) && is_at(point.crl_issuer, 0, 0));
    WANT(point.has_reasons == 0 && point.reasons == 0);
    WANT(x509_distribution_points_next(BYTES("\x30\x10\x30\x0e\xa0\x0c\xa1\x0a\x30\x08\x06\x03\x55\x04\x03\x0c\x01\x61"), &at, &point) == X509_ABSENT
         && at == 18);
    at = 0;
    WANT(x509_distribution_points_next(BYTES("\x30\x06\x30\x04\x81\x02\x00\x40"), &at, &point) == X509_MALFORMED && at == 0
         && is_at(point.relative_name, 6, 12));

    x509_issuing_distribution_point_view view;
    WANT(x509_issuing_distribution_point(BYTES("\x30\x11\xa0\x05\xa0\x03\x86\x01\x61\x81\x01\xff\x83\x02\x06\x40\x84\x01\xff"), &view) == X509_OK);
    WANT(is_at(view.full_name, 4, 5) && is_at(view.relative_name, 0, 0) && view.only_contains_user_certs == 1 && view.only_contains_ca_certs == 0);
    WANT(view.has_only_some_reasons == 1 && view.only_some_reasons == X509_REASONS_KEY_COMPROMISE);
    WANT(view.indirect_crl == 1 && view.only_contains_attribute_certs == 0);
    WANT(x509_issuing_distribution_point(BYTES("\x30\x03\x81\x01\x00"), &view) == X509_MALFORMED && view.indirect_crl == 1);
    WANT(x509_issuing_distribution_point(BYTES("\x30\x06\x82\x01\xff\x85\x01\xff"), &view) == X509_OK);
    WANT(view.only_contains_ca_certs == 1 && view.only_contains_attribute_certs == 1 && view.only_contains_user_certs == 0 && view.has_only_some_reasons == 0);
    /* each flag alone */
    for (uint32_t at = 0; at < 4; at++) {
        const uint8_t alone[] = {0x30, 0x03, (const uint8_t[]){0x81, 0x82, 0x84, 0x85}[at], 0x01, 0xff};
        WANT(x509_issuing_distribution_point(alone, sizeof alone, &view) == X509_OK);
        WANT(view.only_contains_user_certs == (at == 0) && view.only_contains_ca_certs == (at == 1) && view.indirect_crl == (at == 2));
        WANT(view.only_contains_attribute_certs == (at == 3));
    }

    x509_span number = {7, 7};
    WANT(x509_crl_number(BYTES("\x02\x01\xff"), &number) == X509_MALFORMED && is_at(number, 7, 7));
    WANT(x509_crl_number(BYTES("\x02\x02\x01\x00"), &number) == X509_OK && is_at(number, 2, 2));
    WANT(x509_base_crl_number(BYTES("\x02\x01\x05"), &number) == X509_OK && is_at(number, 2, 1));
    uint32_t reason = 77;
    WANT(x509_crl_reason(BYTES("\x0a\x01\x07"), &reason) == X509_MALFORMED && reason == 77);
    WANT(x509_crl_reason(BYTES("\x0a\x01\x0a"), &reason) == X509_OK && reason == 10);
}

static void subtrees(void)
{
    /* the names below the DNS name a, but none from two to three steps below b */
    const char value[] = "\x30\x14\xa0\x05\x30\x03\x82\x01\x61\xa1\x0b\x30\x09\x82\x01\x62\x80\x01\x02\x81\x01\x03";
    x509_name_constraints_view view = {{7, 7}, {7, 7}};
    WANT(x509_name_constraints(BYTES("\x30\x02\xa2\x00"), &view) == X509_MALFORMED && is_at(view.permitted, 7, 7));
    WANT(x509_name_constraints(BYTES(value), &view) == X509_OK && is_at(view.permitted, 2, 7) && is_at(view.excluded, 9, 13));
    x509_subtree found;
    size_t at = 0;
    WANT(x509_subtrees_under_next(0, (const uint8_t *)value + 2, 7, &at, &found) == X509_OK && at == 7);
    WANT(found.base.kind == X509_GENERAL_NAME_DNS && is_at(found.base.element, 4, 3) && is_at(found.base.content, 6, 1));
    WANT(found.minimum == 0 && found.has_maximum == 0 && found.maximum == 0);
    WANT(x509_subtrees_under_next(0, (const uint8_t *)value + 2, 7, &at, &found) == X509_ABSENT && at == 7);
    at = 0;
    WANT(x509_subtrees_under_next(1, (const uint8_t *)value + 9, 13, &at, &found) == X509_OK && at == 13);
    WANT(is_at(found.base.content, 6, 1) && found.minimum == 2 && found.has_maximum == 1 && found.maximum == 3);
    WANT(x509_subtrees_under_next(31, (const uint8_t *)value + 9, 13, &at, &found) == X509_MALFORMED && at == 13 && found.minimum == 2);
    WANT(x509_name_constraints(BYTES("\x30\x07\xa1\x05\x30\x03\x82\x01" "a"), &view) == X509_OK && is_at(view.permitted, 0, 0) && is_at(view.excluded, 2, 7));
    WANT(x509_name_constraints(BYTES("\x30\x00"), &view) == X509_OK && is_at(view.permitted, 0, 0) && is_at(view.excluded, 0, 0));
}

static void texts(void)
{
    x509_span number = {7, 7};
    WANT(x509_serial_number(BYTES("\x02\x02\x00\x01"), &number) == X509_MALFORMED && is_at(number, 7, 7));
    WANT(x509_serial_number(BYTES("\x02\x03\x12\x34\xab"), &number) == X509_OK && is_at(number, 2, 3));
    written = 77;
    WANT(x509_serial_text(BYTES(""), room, sizeof room, &written) == X509_MALFORMED && written == 77);
    WANT(x509_serial_text(BYTES("\x00\x01"), room, sizeof room, &written) == X509_MALFORMED && written == 77);
    WANT(x509_serial_text(BYTES("\x12\x34\xab"), room, 7, &written) == X509_ROOM && written == 8);
    WANT(x509_serial_text(BYTES("\x12\x34\xab"), room, 8, &written) == X509_OK && is_written("12:34:AB"));
    WANT(x509_serial_text(BYTES("\x00\xff"), room, sizeof room, &written) == X509_OK && is_written("00:FF"));

    WANT(x509_serial_decimal(BYTES("\x00"), room, sizeof room, &written) == X509_OK && is_written("0"));
    WANT(x509_serial_decimal(BYTES("\x05"), room, 1, &written) == X509_OK && is_written("5"));
    WANT(x509_serial_decimal(BYTES("\x00\xff"), room, sizeof room, &written) == X509_OK && is_written("255"));
    WANT(x509_serial_decimal(BYTES("\x01\x00"), room, 2, &written) == X509_ROOM && written == 3);
    WANT(x509_serial_decimal(BYTES("\x03\xe8"), room, 4, &written) == X509_OK && is_written("1000"));
    WANT(x509_serial_decimal(BYTES("\xff"), room, sizeof room, &written) == X509_OK && is_written("-1"));
    WANT(x509_serial_decimal(BYTES("\x80"), room, sizeof room, &written) == X509_OK && is_written("-128"));
    WANT(x509_serial_decimal(BYTES("\xff\x00"), room, sizeof room, &written) == X509_OK && is_written("-256"));
    /* 2 ^ 159 - 1, and -2 ^ 167 */
    uint8_t octets[22] = {127};
    memset(octets + 1, 0xff, 19);
    WANT(x509_serial_decimal(octets, 20, room, sizeof room, &written) == X509_OK && is_written("730750818665451459101842416358141509827966271487"));
    octets[0] = 0x80;
    memset(octets + 1, 0, 21);
    WANT(x509_serial_decimal(octets, 21, room, sizeof room, &written) == X509_OK && is_written("-187072209578355573530071658587684226515959365500928"));
    written = 77;
    WANT(x509_serial_decimal(octets, 22, room, sizeof room, &written) == X509_VALUE && written == 77);
    WANT(x509_serial_decimal(BYTES("\x00\x01"), room, sizeof room, &written) == X509_MALFORMED && written == 77);
    WANT(x509_serial_decimal(BYTES("\xff\x80"), room, sizeof room, &written) == X509_MALFORMED && written == 77);
    WANT(x509_serial_decimal(nothing, 0, room, sizeof room, &written) == X509_MALFORMED && written == 77);

    WANT(WROTE(x509_oid_from_text(BYTES("2.5.29.15"), room, 3, &written), X509_OID_KEY_USAGE));
    WANT(x509_oid_from_text(BYTES("2.5.29.15"), room, 2, &written) == X509_ROOM && written == 3);
    static const struct { const char *text, *oid; size_t len; } oids[] = {
        {"2.5.4.6", "\x55\x04\x06", 3}, {"2.999.3", "\x88\x37\x03", 3}, {"0.39", "\x27", 1}, {"1.2.4294967295", "\x2a\x8f\xff\xff\xff\x7f", 6},
        {"1.3.6.1.4.1.11129.2.4.2", "\x2b\x06\x01\x04\x01\xd6\x79\x02\x04\x02", 10}};
    for (size_t at = 0; at < sizeof oids / sizeof oids[0]; at++) {
        WANT(wrote(x509_oid_from_text((const uint8_t *)oids[at].text, strlen(oids[at].text), room, sizeof room, &written), oids[at].oid, oids[at].len));
        WANT(x509_oid_text((const uint8_t *)oids[at].oid, oids[at].len, room, sizeof room, &written) == X509_OK && is_written(oids[at].text));
    }
    static const char *const no_oids[] = {"1.40", "3.1", "1.02", "2.", "2..5", "2", "+2.5", "2.5 "};
    for (size_t at = 0; at < sizeof no_oids / sizeof no_oids[0]; at++)
        WANT(x509_oid_from_text((const uint8_t *)no_oids[at], strlen(no_oids[at]), room, sizeof room, &written) == X509_FAILED);
    written = 77;
    WANT(x509_oid_from_text(BYTES("2.5.29."), room, sizeof room, &written) == X509_FAILED && written == 77);

    WANT(x509_time_text(0, room, 19, &written) == X509_ROOM && written == 20);
    WANT(x509_time_text(0, room, 20, &written) == X509_OK && is_written("1970-01-01T00:00:00Z"));
    WANT(x509_time_text(1767323045, room, sizeof room, &written) == X509_OK && is_written("2026-01-02T03:04:05Z"));
    WANT(x509_time_text(1009886460, room, sizeof room, &written) == X509_OK && is_written("2002-01-01T12:01:00Z"));
    WANT(x509_time_text(253402300799, room, sizeof room, &written) == X509_OK && is_written("9999-12-31T23:59:59Z"));
    written = 77;
    WANT(x509_time_text(253402300800, room, sizeof room, &written) == X509_VALUE && written == 77);
    WANT(x509_time_text(UINT64_MAX, room, sizeof room, &written) == X509_VALUE && written == 77);

    WANT(x509_status_text(X509_OK, room, 4, &written) == X509_OK && is_written("done"));
    WANT(x509_status_text(X509_OK, room, 3, &written) == X509_ROOM && written == 4);
    WANT(x509_status_text(X509_MEMORY, room, sizeof room, &written) == X509_OK && is_written("out of memory"));
    WANT(x509_status_text(X509_ROOM, room, sizeof room, &written) == X509_OK && is_written("the room is too small"));
    WANT(x509_status_text(X509_OVERLENGTH, room, sizeof room, &written) == X509_OK && is_written("too long"));
    WANT(x509_status_text(X509_MALFORMED, room, sizeof room, &written) == X509_OK && is_written("malformed"));
    WANT(x509_status_text(X509_FAULT, room, sizeof room, &written) == X509_OK && is_written("the path has a fault"));
    WANT(x509_status_text(X509_LIMIT, room, sizeof room, &written) == X509_OK && is_written("a limit is used up"));
    written = 77;
    WANT(x509_status_text(10, room, sizeof room, &written) == X509_FAILED && written == 77);
    WANT(x509_status_text(-3, room, sizeof room, &written) == X509_FAILED && written == 77);
    WANT(x509_status_text(INT32_MIN, room, sizeof room, &written) == X509_FAILED && written == 77);
    WANT(x509_status_text(INT32_MAX, room, sizeof room, &written) == X509_FAILED && written == 77);

    WANT(x509_version() == X509_VERSION && X509_VERSION == (X509_VERSION_MAJOR << 16 | X509_VERSION_MINOR << 8 | X509_VERSION_PATCH));
}

int main(int argc, char **argv)
{
    read_files(argc, argv);
    keys();
    anchors();
    timestamps();
    logged_parts();
    signed_timestamps();
    reissued_parts();
    log_entries();
    tree_heads();
    merkle_trees();
    attributes();
    first_attributes();
    matching_names();
    extensions();
    encoded();
    encoded_moments();
    encoded_names();
    encoded_elements();
    encoded_notices();
    encoded_timestamps();
    encoded_policies();
    encoded_places();
    key_identifiers();
    accesses();
    policies();
    points();
    subtrees();
    texts();
    return ended();
}
