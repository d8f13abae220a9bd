/* Refuses each allocation of each call of x509.h that takes memory in turn, alone and with all behind it: the call answers X509_MEMORY then, or what it
 * answers with all memory, what it is to fill in stays as it was when it is refused, and no block of memory stays behind. Of the calls that check a
 * certificate, a CRL or a CSR, and of the views of these, it tries that they take none.
 *
 * With ROWS and ANSWERS, crates/x509_test_rows/stdin and stdout, it does so with x509_reencode over each row; with all memory the row has to give its answer.
 * Of a row that asks for more than 400 allocations 400 are refused, spread evenly. What was counted goes to standard error.
 *
 * Link with -Wl,--wrap=malloc,--wrap=realloc,--wrap=free.
 *
 * usage: refuse_memory CERTIFICATE LIST REQUEST [ROWS ANSWERS] */
#include <limits.h>
#include <stdio.h>
#include <stdlib.h>
#include <string.h>
#include "x509.h"

/* how many allocations were asked for in this call, and how many blocks stand */
static long asked = 0, standing = 0;
/* the first allocation that is refused, counted from 0, and the first behind it that is given again */
static long refused_from = LONG_MAX, refused_to = LONG_MAX;

void *__real_malloc(size_t size);
void *__real_realloc(void *block, size_t size);
void __real_free(void *block);

static int is_given(void)
{
    const long at = asked++;
    return at < refused_from || at >= refused_to;
}

void *__wrap_malloc(size_t size)
{
    void *block = is_given() ? __real_malloc(size) : NULL;
    standing += block != NULL;
    return block;
}

void *__wrap_realloc(void *block, size_t size)
{
    void *other = is_given() ? __real_realloc(block, size) : NULL;
    standing += block == NULL && other != NULL;
    return other;
}

void __wrap_free(void *block)
{
    standing -= block != NULL;
    __real_free(block);
}

/* From here on the allocations from the one to the other are refused. */
static void refuse(long from, long to)
{
    asked = 0;
    refused_from = from;
    refused_to = to;
}

static void give_all(void)
{
    refuse(LONG_MAX, LONG_MAX);
}

static int failures = 0;

/* what is wrong, in the call or the line of that number; the first ones are printed */
static void wrong(const char *what, long number)
{
    if (failures++ < 20)
        printf("wrong: %s %ld\n", what, number);
}

/* ---- each call */

enum { CALLS = 130 };

static uint8_t certificate[65536], list[65536], request[65536], room[65536], signed_list[3 * 65536], searched[65536 + 10];
static size_t certificate_len, list_len, request_len;
static x509_certificate own;

/* What the calls fill in. */
static struct {
    x509_certificate view;
    x509_extension extension;
    x509_revocation revocation;
    x509_revocation_answer told;
    x509_signature signature;
    x509_path_fault fault;
    x509_path_answer answer;
    x509_path_certificate certificates[2];
    x509_found_path path;
    x509_span part;
    x509_request_attribute wanted;
    x509_attribute attribute;
    x509_authority_key_identifier_view authority;
    x509_policy policy;
    x509_distribution_point point;
    x509_name_constraints_view names;
    x509_crl crl;
    x509_crl_entry entry;
    x509_request csr;
    x509_key key;
    x509_rsa_key rsa;
    x509_user_notice_view notice;
    x509_anchor anchor;
    x509_timestamp timestamp;
    x509_log_leaf leaf;
    x509_log_precertificate submitted;
    x509_extension_entry member;
    x509_general_name general;
    x509_access access;
    x509_policy_qualifier qualifier;
    x509_issuing_distribution_point_view issuing;
    x509_subtree subtree;
    x509_element element;
    x509_algorithm algorithm;
    x509_path_controls controls;
    size_t count;
    size_t at;
    uint32_t matches;
    uint32_t may_sign;
    uint32_t crl_fault;
} filled;
static size_t signed_list_len;
/* the list, and behind it the name and the key of the certificate */
static x509_signed_crl given[2];
/* the certificate, and behind it a key that didn't sign it */
static x509_span whole;
static x509_bad_link bad;

/* A value that stands in the source, with its length. */
#define BYTES(text) (const uint8_t *)(text), sizeof(text) - 1

/* A timestamp of version 1, without extensions, with a signature of one octet. */
#define TIMESTAMP "\x00" "0123456789abcdef0123456789abcdef" "\x00\x00\x01\x8b\xcf\xe5\x68\x7b\x00\x00\x04\x03\x00\x01\xab"

/* A certificate with that timestamp and no other extension, and its precertificate. */
#define FIELDS \
    "\xa0\x03\x02\x01\x02\x02\x01\x2a\x30\x05\x06\x03\x2a\x03\x04\x30\x00\x30\x1e\x17\x0d" "260101000000Z" "\x17\x0d" "270101000000Z" \
    "\x30\x00\x30\x0b\x30\x05\x06\x03\x2a\x03\x04\x03\x02\x00\x61"
#define SIGNED "\x30\x05\x06\x03\x2a\x03\x04\x03\x02\x00\xaa"
#define ISSUED \
    "\x30\x81\x98\x30\x81\x8a" FIELDS \
    "\xa3\x48\x30\x46\x30\x44\x06\x0a\x2b\x06\x01\x04\x01\xd6\x79\x02\x04\x02\x04\x36\x04\x34\x00\x32\x00\x30" TIMESTAMP SIGNED
#define PRECERT \
    "\x30\x66\x30\x59" FIELDS \
    "\xa3\x17\x30\x15\x30\x13\x06\x0a\x2b\x06\x01\x04\x01\xd6\x79\x02\x04\x03\x01\x01\xff\x04\x02\x05\x00" SIGNED

/* The hashes of two leaves, of no byte and of a byte 0, and of the tree of both (RFC 6962 2.1). */
#define LEAF "\x6e\x34\x0b\x9c\xff\xb3\x7a\x98\x9c\xa5\x44\xe6\xbb\x78\x0a\x2c\x78\x90\x1d\x3f\xb3\x37\x38\x76\x85\x11\xa3\x06\x17\xaf\xa0\x1d"
#define OTHER_LEAF "\x96\xa2\x96\xd2\x24\xf2\x85\xc6\x7b\xee\x93\xc3\x0f\x8a\x30\x91\x57\xf0\xda\xa3\x5d\xc5\xb8\x7e\x41\x0b\x78\x63\x0a\x09\xcf\xc7"
#define ROOT "\xfa\xc5\x42\x03\xe7\xcc\x69\x6c\xf0\xdf\xcb\x42\xc9\x2a\x1d\x9d\xba\xf7\x0a\xd9\xe6\x21\xf4\xbd\x8d\x98\x66\x2f\x00\xe3\xc1\x25"

/* A leaf of a log, of a certificate of one byte (RFC 6962 3.4). */
#define LOG_LEAF "\x00\x00\x00\x00\x01\x8b\xcf\xe5\x68\x7b\x00\x00\x00\x00\x01\xab\x00\x00"

/* Octets that take memory, as up to 24 take none. */
#define THIRTY "aaaaaaaaaaaaaaaaaaaaaaaaaaaaaa"

/* A key `abc` of the algorithm 1.2.3.4, that algorithm, an extension, an entry of a CRL, the name C=US,O=T,CN=R, and the signed part of a CSR for the key. */
#define ALGORITHM "\x30\x05\x06\x03\x2a\x03\x04"
#define KEY "\x30\x0d" ALGORITHM "\x03\x04\x00" "abc"
#define EXTENSION "\x30\x08\x06\x02\x2a\x03\x04\x02\x05\x00"
#define ENTRY "\x30\x12\x02\x01\x05\x17\x0d" "260102030405Z"
#define ROOT_NAME "\x30\x25\x31\x0b\x30\x09\x06\x03\x55\x04\x06\x13\x02" "US" "\x31\x0a\x30\x08\x06\x03\x55\x04\x0a\x0c\x01" "T" \
                  "\x31\x0a\x30\x08\x06\x03\x55\x04\x03\x0c\x01" "R"
#define REQUEST "\x30\x27\x02\x01\x00\x30\x00" KEY "\xa0\x11\x30\x0f\x06\x09\x2a\x86\x48\x86\xf7\x0d\x01\x09\x0e\x31\x02\x30\x00"

/* The first second of the validity of the certificate; and constraints that permit each name of a directory. */
static const x509_path_settings FIRST_SECOND = {.moment = 1767323045};
static const x509_revocation_settings IN_FEBRUARY = {1769904000, 0};
/* the CertificatePolicies of 1.2.3 */
#define POLICIES "\x30\x06\x30\x04\x06\x02\x2a\x03"
#define CONSTRAINTS "\x30\x08\xa0\x06\x30\x04\xa4\x02\x30\x00"

/* a list of one entry, and its index */
#define LISTED "\x30\x29\x30\x27\x02\x08\x12\x34\x56\x78\x90\xab\xcd\xef\x17\x0d" "260120100000Z" "\x30\x0c\x30\x0a\x06\x03\x55\x1d\x15\x04\x03\x0a\x01\x01"
static uint32_t index_of_one[1];

static x509_status call(int number)
{
    filled.at = 0;
    switch (number) {
    case 0:
        return x509_certificate_check(certificate, certificate_len);
    case 1:
        return x509_certificate_reencode(certificate, certificate_len, room, sizeof room, &filled.count);
    case 2:
        return x509_certificate_view(certificate, certificate_len, &filled.view);
    case 3:
        return x509_certificate_extension(certificate, certificate_len, (const uint8_t *)"\x55\x1d\x0f", 3, &filled.extension);
    case 4:
        return x509_crl_check(list, list_len);
    case 5:
        return x509_crl_walk(list, list_len, &filled.count);
    case 6:
        return x509_crl_lookup(list, list_len, (const uint8_t *)"\x02\x08\x12\x34\x56\x78\x90\xab\xcd\xef", 10, &filled.revocation);
    case 7:
        return x509_reencode((const uint8_t *)"Certificate", 11, X509_RAW, certificate, certificate_len, room, sizeof room, &filled.count);
    case 8:
        return x509_name_from_text((const uint8_t *)"CN=a+OU=b,O=c", 13, room, sizeof room, &filled.count);
    case 9:
        return x509_name_text((const uint8_t *)"\x30\x0c\x31\x0a\x30\x08\x06\x03\x55\x04\x03\x0c\x01\x61", 14, room, sizeof room, &filled.count);
    case 10:
        return x509_request_check(request, request_len);
    case 11:
        return x509_certificate_signature(certificate, certificate_len, &filled.signature);
    case 12:
        /* a value of 30 octets, as up to 24 take no memory */
        return x509_name_next(BYTES("\x30\x29\x31\x27\x30\x25\x06\x03\x55\x04\x03\x0c\x1e"
                                    THIRTY),
                              &filled.at, &filled.part);
    case 13:
        return x509_authority_key_identifier(BYTES("\x30\x0c\x80\x02\xab\xcd\xa1\x03\x82\x01\x61\x82\x01\x05"), &filled.authority);
    case 14:
        return x509_certificate_policies_next(BYTES("\x30\x12\x30\x10\x06\x04\x55\x1d\x20\x00\x30\x08\x30\x06\x06\x01\x2a\x16\x01\x61"), &filled.at,
                                              &filled.policy);
    case 15:
        return x509_distribution_points_next(BYTES("\x30\x0b\x30\x09\xa0\x07\xa0\x05\x86\x03\x61\x3a\x62"), &filled.at, &filled.point);
    case 16:
        return x509_name_constraints(BYTES("\x30\x07\xa0\x05\x30\x03\x82\x01\x61"), &filled.names);
    case 17:
        return x509_serial_text(BYTES("\x12\x34\xab"), room, sizeof room, &filled.count);
    case 18:
        return x509_time_text(1767323045, room, sizeof room, &filled.count);
    case 19:
        return x509_crl_view(list, list_len, &filled.crl);
    case 20:
        return x509_crl_entry_next(BYTES("\x30\x29\x30\x27\x02\x08\x12\x34\x56\x78\x90\xab\xcd\xef\x17\x0d"
                                         "260120100000Z\x30\x0c\x30\x0a\x06\x03\x55\x1d\x15\x04\x03\x0a\x01\x01"),
                                   &filled.at, &filled.entry);
    case 21:
        return x509_request_view(request, request_len, &filled.csr);
    case 22:
        return x509_request_attribute_find(request, request_len, (const uint8_t *)"\x2a\x86\x48\x86\xf7\x0d\x01\x09\x0e", 9, &filled.wanted);
    case 23:
        return x509_key_view(certificate + own.subject_public_key_info.place, own.subject_public_key_info.len, &filled.key);
    case 24:
        return x509_anchor_view(certificate, certificate_len, &filled.anchor);
    case 25:
        return x509_timestamp_view(BYTES(TIMESTAMP), &filled.timestamp);
    case 26:
        return x509_extension_encode(BYTES("\x2a\x03"), 0, BYTES(THIRTY), room, sizeof room, &filled.count);
    case 27:
        return x509_crl_entry_encode(BYTES("\x02\x01\x05"), 1767323045, BYTES("\x30\x0a\x06\x03\x55\x1d\x15\x04\x03\x0a\x01\x01"), room, sizeof room,
                                     &filled.count);
    case 28:
        return x509_build_request(BYTES("\x30\x00"), BYTES(KEY), BYTES("\x30\x08\x06\x02\x2a\x03\x31\x02\x05\x00"), BYTES(EXTENSION), room, sizeof room,
                                  &filled.count);
    case 29:
        return x509_assemble(BYTES(REQUEST), BYTES(ALGORITHM), BYTES(THIRTY), room, sizeof room, &filled.count);
    case 30:
        return x509_build_crl(certificate, certificate_len, BYTES(ALGORITHM), BYTES("\x07"), 1767323045, 1, 1770001445, BYTES(ENTRY), BYTES(EXTENSION),
                              room, sizeof room, &filled.count);
    case 31:
        return x509_build_certificate(BYTES("\x02\x01\x05"), BYTES(ALGORITHM), BYTES("\x30\x00"), 1767323045, 1770001445, BYTES("\x30\x00"), BYTES(KEY),
                                      BYTES(EXTENSION), room, sizeof room, &filled.count);
    case 32:
        return x509_request_extensions(request, request_len, &filled.part);
    case 33:
        return x509_name_find(BYTES("\x30\x29\x31\x27\x30\x25\x06\x03\x55\x04\x03\x0c\x1e"
                                    THIRTY),
                              BYTES("\x55\x04\x03"), &filled.attribute);
    case 34:
        return x509_build_root(BYTES("\x02\x01\x05"), BYTES(ALGORITHM), 1767323045, 1770001445, BYTES(ROOT_NAME), BYTES(KEY), 1, BYTES(EXTENSION),
                               room, sizeof room, &filled.count);
    case 35:
        return x509_build_subordinate(BYTES("\x02\x01\x05"), BYTES(ALGORITHM), BYTES("\x30\x00"), BYTES(KEY), 1767323045, 1770001445, BYTES("\x30\x00"),
                                      BYTES(KEY), 1, 0, 1, 1, BYTES(EXTENSION), room, sizeof room, &filled.count);
    case 36:
        return x509_build_subscriber(BYTES("\x02\x01\x05"), BYTES(ALGORITHM), BYTES("\x30\x00"), BYTES(KEY), 1767323045, 1770001445, BYTES(ROOT_NAME),
                                     BYTES(KEY), 1, 1, 1, 1, BYTES(EXTENSION), room, sizeof room, &filled.count);
    case 37:
        return x509_build_device(BYTES("\x02\x01\x05"), BYTES(ALGORITHM), BYTES("\x30\x00"), BYTES(KEY), 1767323045, 1770001445, BYTES("\x30\x00"), BYTES(KEY),
                                 BYTES("\x30\x17\xa0\x15\x06\x08\x2b\x06\x01\x05\x05\x07\x08\x04\xa0\x09\x30\x07\x06\x02\x2a\x03\x04\x01\xab"),
                                 BYTES(EXTENSION), room, sizeof room, &filled.count);
    case 38:
        return x509_certificate_text(certificate, certificate_len, room, sizeof room, &filled.count);
    case 39:
        return x509_certificate_json(certificate, certificate_len, room, sizeof room, &filled.count);
    case 40:
        return x509_crl_text(list, list_len, room, sizeof room, &filled.count);
    case 41:
        return x509_crl_json(list, list_len, room, sizeof room, &filled.count);
    case 42:
        return x509_request_text(request, request_len, room, sizeof room, &filled.count);
    case 43:
        return x509_request_json(request, request_len, room, sizeof room, &filled.count);
    case 44:
        return x509_anchor_text(certificate, certificate_len, room, sizeof room, &filled.count);
    case 45:
        return x509_anchor_json(certificate, certificate_len, room, sizeof room, &filled.count);
    case 46:
        return x509_attribute_encode(BYTES("\x55\x04\x03"), 0x1e, BYTES(THIRTY), 1, room, sizeof room, &filled.count);
    case 47:
        return x509_relative_name_encode(BYTES("\x30\x25\x06\x03\x55\x04\x03\x0c\x1e" THIRTY "\x30\x08\x06\x03\x55\x04\x0a\x0c\x01" "T"),
                                         room, sizeof room, &filled.count);
    case 48:
        return x509_name_build(BYTES("\x31\x27\x30\x25\x06\x03\x55\x04\x03\x0c\x1e" THIRTY "\x31\x0a\x30\x08\x06\x03\x55\x04\x0a\x0c\x01" "T"),
                               room, sizeof room, &filled.count);
    case 49:
        return x509_name_escape(BYTES("a,b"), room, sizeof room, &filled.count);
    case 50:
        return x509_names_match(BYTES("\x30\x0c\x31\x0a\x30\x08\x06\x03\x55\x04\x03\x0c\x01" "a"),
                                BYTES("\x30\x0d\x31\x0b\x30\x09\x06\x03\x55\x04\x03\x0c\x02\xc3\xa4"), &filled.matches);
    case 51:
        return x509_path_validate(certificate, certificate_len, certificate, certificate_len, &certificate_len, 1, NULL, 0, BYTES(POLICIES), &FIRST_SECOND,
                                  sizeof FIRST_SECOND, room, sizeof room, &filled.answer);
    case 52:
        return x509_path_validate_under_anchor(certificate, certificate_len, certificate, certificate_len, &certificate_len, 1, BYTES(CONSTRAINTS), NULL, 0,
                                               &FIRST_SECOND, sizeof FIRST_SECOND, room, sizeof room, &filled.answer);
    case 53:
        return x509_path_validate_under_key(certificate + own.subject.place, own.subject.len, certificate + own.subject_public_key_info.place,
                                            own.subject_public_key_info.len, certificate, certificate_len, &certificate_len, 1, NULL, 0, NULL, 0, &FIRST_SECOND,
                                            sizeof FIRST_SECOND, room, sizeof room, &filled.answer);
    case 54:
        return x509_string_text(BYTES("\x1e\x1e" "\x00" "a\x00" "a\x00" "a\x00" "a\x00" "a\x00" "a\x00" "a\x00" "a\x00"
                                      "a\x00" "a\x00" "a\x00" "a\x00" "a\x00" "a\x00" "a"),
                                room, sizeof room, &filled.count);
    case 55:
        return x509_user_notice(BYTES("\x30\x20\x0c\x1e" THIRTY), &filled.notice);
    case 56:
        return x509_numbers_next(BYTES("\x30\x20\x02\x1e" THIRTY), &filled.at, &filled.part);
    case 57:
        return x509_subject_directory_attributes_next(BYTES("\x30\x29\x30\x27\x06\x03\x55\x04\x03\x31\x20\x0c\x1e" THIRTY), &filled.at, &filled.wanted);
    case 58:
        return x509_rsa_key_view(BYTES("\x30\x23\x02\x1e" THIRTY "\x02\x01\x03"), &filled.rsa);
    case 59:
        return x509_extensions_next(BYTES("\x30\x29\x30\x27\x06\x03\x55\x1d\x0e\x04\x20\x04\x1e" THIRTY), &filled.at, &filled.member);
    case 60:
        return x509_general_names_next(BYTES("\x30\x20\x82\x1e" THIRTY), &filled.at, &filled.general);
    case 61:
        return x509_general_names_under_next(1, BYTES("\xa1\x20\x82\x1e" THIRTY), &filled.at, &filled.general);
    case 62:
        return x509_subject_key_identifier(BYTES("\x04\x1e" THIRTY), &filled.part);
    case 63:
        return x509_access_next(BYTES("\x30\x2c\x30\x2a\x06\x08\x2b\x06\x01\x05\x05\x07\x30\x01\x86\x1e" THIRTY), &filled.at, &filled.access);
    case 64:
        return x509_certificate_policies_under_next(1, BYTES("\xa1\x12\x30\x10\x06\x04\x55\x1d\x20\x00\x30\x08\x30\x06\x06\x01\x2a\x16\x01\x61"), &filled.at,
                                                    &filled.policy);
    case 65:
        return x509_policy_qualifiers_next(BYTES("\x30\x27\x30\x25\x06\x03\x55\x04\x03\x0c\x1e" THIRTY), &filled.at, &filled.qualifier);
    case 66:
        return x509_issuing_distribution_point(BYTES("\x30\x09\xa0\x07\xa0\x05\x86\x03\x61\x3a\x62"), &filled.issuing);
    case 67:
        return x509_crl_number(BYTES("\x02\x1e" THIRTY), &filled.part);
    case 68:
        return x509_base_crl_number(BYTES("\x02\x1e" THIRTY), &filled.part);
    case 69:
        return x509_subtrees_under_next(0, BYTES("\xa0\x22\x30\x20\x82\x1e" THIRTY), &filled.at, &filled.subtree);
    case 70:
        return x509_oid_text(BYTES("\x55\x1d\x0f"), room, sizeof room, &filled.count);
    case 71:
        return x509_relative_name_next(BYTES("\x31\x27\x30\x25\x06\x03\x55\x04\x03\x0c\x1e" THIRTY), &filled.at, &filled.attribute);
    case 72:
        return x509_relative_name_under_next(1, BYTES("\xa1\x27\x30\x25\x06\x03\x55\x04\x03\x0c\x1e" THIRTY), &filled.at, &filled.attribute);
    case 73:
        /* as many octets as it may have */
        return x509_serial_number(BYTES("\x02\x15" "aaaaaaaaaaaaaaaaaaaaa"), &filled.part);
    case 74:
        return x509_request_attribute_next(BYTES("\xa0\x29\x30\x27\x06\x03\x55\x04\x03\x31\x20\x0c\x1e" THIRTY), &filled.at, &filled.wanted);
    case 75:
        return x509_attribute_value_next(BYTES("\x31\x20\x0c\x1e" THIRTY), &filled.at, &filled.element);
    case 76:
        return x509_algorithm_view(BYTES("\x30\x25\x06\x03\x2a\x03\x04\x0c\x1e" THIRTY), &filled.algorithm);
    case 77:
        return x509_path_controls_view(BYTES("\x30\x2b\x30\x29\x31\x27\x30\x25\x06\x03\x55\x04\x03\x0c\x1e" THIRTY), &filled.controls);
    case 78:
        return x509_crl_entry_find(BYTES(LISTED), BYTES("\x02\x08\x12\x34\x56\x78\x90\xab\xcd\xef"), &filled.entry);
    case 79:
        return x509_string_text(BYTES("\x1c\x04\x00\x00\x00" "a"), room, sizeof room, &filled.count);
    case 80:
        return x509_crl_issued_next(BYTES("\x30\x48\x30\x46\x02\x01\x05\x17\x0d"
                                          "260120100000Z\x30\x32\x30\x30\x06\x03\x55\x1d\x1d\x01\x01\xff\x04\x26\x30\x24\x82\x22"
                                          "aaaa" THIRTY),
                                    &filled.at, &filled.part, &filled.entry);
    case 81:
        return x509_may_sign_crls(certificate, certificate_len, &filled.may_sign);
    case 82:
        return x509_revocation_status(certificate, certificate_len, signed_list, signed_list_len, given, 2, &IN_FEBRUARY, sizeof IN_FEBRUARY, &filled.told);
    case 83:
        return x509_certificate_lint(certificate, certificate_len, room, sizeof room, &filled.count);
    case 84:
        return x509_crl_lint(list, list_len, room, sizeof room, &filled.count);
    case 85:
        return x509_request_lint(request, request_len, room, sizeof room, &filled.count);
    case 86:
        return x509_anchor_lint(certificate, certificate_len, room, sizeof room, &filled.count);
    case 87:
        return x509_logged_part(BYTES(ISSUED), room, sizeof room, &filled.count);
    case 88:
        return x509_logged_precertificate(BYTES(PRECERT), room, sizeof room, &filled.count);
    case 89:
        return x509_timestamp_signed_data(BYTES(TIMESTAMP), BYTES(ISSUED), BYTES(PRECERT), room, sizeof room, &filled.count);
    case 90:
        return x509_timestamp_signed_data_beside(BYTES(TIMESTAMP), BYTES(ISSUED), room, sizeof room, &filled.count);
    case 91:
        return x509_merkle_inclusion(BYTES(LEAF), 0, 2, BYTES(OTHER_LEAF), BYTES(ROOT));
    case 92:
        return x509_merkle_consistency(1, 2, BYTES(LEAF), BYTES(ROOT), BYTES(OTHER_LEAF));
    case 93:
        /* a key without parameters under one of its algorithm with an INTEGER */
        return x509_working_key(BYTES("\x30\x0d\x30\x08\x06\x03\x2a\x03\x04\x02\x01\x07\x03\x01\x00"),
                                BYTES("\x30\x0a\x30\x05\x06\x03\x2a\x03\x04\x03\x01\x00"), room, sizeof room, &filled.count);
    case 94:
        return x509_logged_precertificate_signed_by(BYTES(PRECERT), BYTES(ISSUED), room, sizeof room, &filled.count);
    case 95:
        return x509_log_leaf_view(BYTES(LOG_LEAF), &filled.leaf);
    case 96:
        return x509_log_precertificate_view(BYTES("\x00\x00\x01\xab\x00\x00\x04\x00\x00\x01\xac"), &filled.submitted);
    case 97:
        return x509_tree_head_signed_data(1, 2, BYTES(ROOT), room, sizeof room, &filled.count);
    case 98:
        return x509_crl_fault(certificate, certificate_len, signed_list, signed_list_len, given, 2, &IN_FEBRUARY, sizeof IN_FEBRUARY, 1, &filled.crl_fault);
    case 99:
        return x509_path_find(searched, certificate_len + 10, &whole, 1, &whole, 1, &whole, &bad, 1, NULL, 0, BYTES(POLICIES), &FIRST_SECOND, sizeof FIRST_SECOND,
                              8, NULL, 0, &filled.path);
    case 100:
        return x509_crl_index_find(BYTES(LISTED), index_of_one, 1, BYTES("\x02\x08\x12\x34\x56\x78\x90\xab\xcd\xef"), &filled.entry);
    case 101:
        return x509_crl_index(BYTES(LISTED), index_of_one, 1, &filled.count);
    case 102:
        return x509_extended_key_usage_encode(BYTES("\x2a\x03\x2a\x03\x04"), (const size_t[]){2, 3}, 2, room, sizeof room, &filled.count);
    case 103:
        return x509_subject_key_identifier_encode(BYTES(THIRTY), room, sizeof room, &filled.count);
    case 104:
        return x509_crl_number_encode(BYTES("\x01\x00"), room, sizeof room, &filled.count);
    case 105:
        return x509_authority_key_identifier_encode(1, BYTES(THIRTY), BYTES("\x30\x20\x82\x1e" THIRTY), BYTES("\x02\x01\x05"), room, sizeof room, &filled.count);
    case 106:
        return x509_general_name_encode(X509_GENERAL_NAME_DNS, BYTES(THIRTY), room, sizeof room, &filled.count);
    case 107:
        return x509_other_name_encode(BYTES("\x2a\x03"), BYTES("\x04\x1e" THIRTY), room, sizeof room, &filled.count);
    case 108:
        return x509_general_names_encode(BYTES("\x82\x1e" THIRTY), room, sizeof room, &filled.count);
    case 109:
        return x509_access_encode(BYTES("\x2a\x03"), BYTES("\x82\x1e" THIRTY), room, sizeof room, &filled.count);
    case 110:
        return x509_info_access_encode(BYTES("\x30\x24\x06\x02\x2a\x03\x82\x1e" THIRTY), room, sizeof room, &filled.count);
    case 111:
        return x509_subtree_encode(BYTES("\x82\x1e" THIRTY), room, sizeof room, &filled.count);
    case 112:
        return x509_name_constraints_encode(BYTES("\x30\x20\x82\x1e" THIRTY), BYTES("\x30\x20\x82\x1e" THIRTY), room, sizeof room, &filled.count);
    case 113:
        return x509_distribution_point_encode(BYTES("\x82\x1e" THIRTY), NULL, 0, 0, 0, BYTES("\x82\x1e" THIRTY), room, sizeof room, &filled.count);
    case 114:
        return x509_distribution_points_encode(BYTES("\x30\x24\xa0\x22\xa0\x20\x82\x1e" THIRTY), room, sizeof room, &filled.count);
    case 115:
        return x509_issuing_distribution_point_encode(&(x509_issuing_distribution_point_view){.indirect_crl = 1}, BYTES("\x82\x1e" THIRTY), NULL, 0, room,
                                                      sizeof room, &filled.count);
    case 116:
        return x509_path_validate_views(certificate, certificate_len, certificate, certificate_len, &certificate_len, 1, NULL, 0, NULL, 0, &FIRST_SECOND,
                                        sizeof FIRST_SECOND, room, sizeof room, &filled.answer, filled.certificates, 2);
    case 117:
        return x509_path_validate_views_under_anchor(certificate, certificate_len, certificate, certificate_len, &certificate_len, 1, NULL, 0, BYTES(POLICIES),
                                                     &FIRST_SECOND, sizeof FIRST_SECOND, room, sizeof room, &filled.answer, filled.certificates, 1);
    case 118:
        return x509_path_validate_views_under_key(certificate + own.subject.place, own.subject.len, certificate + own.subject_public_key_info.place,
                                                  own.subject_public_key_info.len, certificate, certificate_len, &certificate_len, 1, BYTES(CONSTRAINTS),
                                                  NULL, 0, &FIRST_SECOND, sizeof FIRST_SECOND, room, sizeof room, &filled.answer, filled.certificates, 1);
    case 119:
        return x509_cps_uri_encode(BYTES(THIRTY), room, sizeof room, &filled.count);
    case 120:
        return x509_numbers_encode(BYTES("\x05" THIRTY), (const size_t[]){1, 30}, 2, room, sizeof room, &filled.count);
    case 121:
        return x509_user_notice_encode(BYTES(THIRTY), BYTES("\x30\x20\x02\x1e" THIRTY), BYTES(THIRTY), room, sizeof room, &filled.count);
    case 122:
        return x509_policy_qualifier_encode(BYTES("\x2a\x03"), BYTES("\x04\x1e" THIRTY), room, sizeof room, &filled.count);
    case 123:
        return x509_policy_encode(BYTES("\x2a\x03"), BYTES("\x30\x24\x06\x02\x2a\x03\x04\x1e" THIRTY), room, sizeof room, &filled.count);
    case 124:
        return x509_certificate_policies_encode(BYTES("\x30\x2c\x06\x02\x2a\x03\x30\x26\x30\x24\x06\x02\x2a\x03\x04\x1e" THIRTY), room, sizeof room,
                                                &filled.count);
    case 125:
        return x509_policy_mappings_encode(BYTES("\x30\x08\x06\x02\x2a\x03\x06\x02\x2a\x04\x30\x08\x06\x02\x2a\x05\x06\x02\x2a\x06"), room, sizeof room,
                                           &filled.count);
    case 126:
        return x509_subject_directory_attributes_encode(BYTES("\x30\x26\x06\x02\x2a\x03\x31\x20\x04\x1e" THIRTY), room, sizeof room, &filled.count);
    case 127:
        return x509_request_attribute_encode(BYTES("\x2a\x03"), BYTES("\x04\x1e" THIRTY), room, sizeof room, &filled.count);
    case 128:
        return x509_timestamps_encode(BYTES("a" THIRTY), (const size_t[]){1, 30}, 2, room, sizeof room, &filled.count);
    default:
        /* in the first second of the validity */
        return x509_path_check(certificate, certificate_len, certificate, certificate_len, &certificate_len, 1, 1767323045, &filled.fault);
    }
}

/* whether a call that was refused these allocations ended with X509_MEMORY, changed nothing and left nothing, or did what it is for */
static int holds(int number, long from, long to)
{
    static uint8_t before[sizeof filled];
    filled.at = 0;
    memcpy(before, &filled, sizeof filled);
    const long old_standing = standing;
    refuse(from, to);
    const x509_status status = call(number);
    const int was_refused = asked > from;
    give_all();
    if (standing != old_standing)
        return 0;
    if (status == X509_OK)
        return !was_refused || to != LONG_MAX;
    return was_refused && status == X509_MEMORY && memcmp(before, &filled, sizeof filled) == 0;
}

/* whether the call takes no memory: it answers what it is for, whatever is refused */
static int takes_none(int number)
{
    return number == 0 || (number >= 2 && number <= 6) || number == 10 || number == 11 || number == 19 || number == 21 || number == 73 || number == 81 ||
           number == 101 || number == 104;
}

static void refuse_call(int number)
{
    give_all();
    if (call(number) != X509_OK || (asked == 0) != takes_none(number))
        wrong("call with all memory, or whether it takes some:", number);
    const long allocations = asked;
    for (long at = 0; at <= allocations; at++)
        if (!holds(number, at, LONG_MAX) || !holds(number, at, at + 1)) {
            wrong("call", number);
            return;
        }
}

/* ---- each row */

enum { MOST_PLACES = 400, UNTOUCHED = 77 };

typedef struct {
    const uint8_t *at;
    size_t len;
} bytes;

typedef struct {
    bytes name, value;
    uint32_t profile;
} row;

/* how many rows there were, how often one was asked for with too little memory, how many of these ended with X509_MEMORY; the most allocations
 * of a row, and how many rows had more than are tried */
static long rows = 0, runs = 0, ends = 0, most = 0, shortened = 0;

/* The bytes before the next such byte, which is passed over with them; `*is_there` says whether there was one. */
static bytes take_until(bytes *rest, uint8_t byte, int *is_there)
{
    const uint8_t *end = rest->len == 0 ? NULL : memchr(rest->at, byte, rest->len);
    const bytes front = {rest->at, end == NULL ? rest->len : (size_t)(end - rest->at)};
    const size_t passed = front.len + (end != NULL);
    *is_there = end != NULL;
    *rest = (bytes){rest->at + passed, rest->len - passed};
    return front;
}

static int is_text(bytes it, const char *text)
{
    return it.len == strlen(text) && memcmp(it.at, text, it.len) == 0;
}

static int digit(uint8_t c)
{
    return c >= '0' && c <= '9' ? c - '0' : c >= 'A' && c <= 'F' ? c - 'A' + 10 : c >= 'a' && c <= 'f' ? c - 'a' + 10 : -1;
}

/* Whether a line is a name, a profile and hex digits, with one space between each two; the value is put into the room. */
static int read_row(bytes line, row *read, uint8_t *value)
{
    int first, second;
    read->name = take_until(&line, ' ', &first);
    const bytes profile = take_until(&line, ' ', &second);
    read->profile = is_text(profile, "raw") ? X509_RAW : X509_RFC5280;
    if (!first || !second || line.len % 2 != 0 || (!is_text(profile, "raw") && !is_text(profile, "rfc5280")))
        return 0;
    for (size_t i = 0; i < line.len; i += 2) {
        if (digit(line.at[i]) < 0 || digit(line.at[i + 1]) < 0)
            return 0;
        value[i / 2] = (uint8_t)(digit(line.at[i]) * 16 + digit(line.at[i + 1]));
    }
    read->value = (bytes){value, line.len / 2};
    return 1;
}

/* Whether the answer says that the row gave these bytes, or was refused so and left `written` as it was. */
static int says(bytes answer, x509_status status, const uint8_t *out, size_t written)
{
    static const char *const refusals[] = {"", "Overlength", "Malformed", "Failed", "SetDuplicate", "Value"};
    char text[40];
    if (status != X509_OK) {
        snprintf(text, sizeof text, "refused: %s", status >= 1 && status <= 5 ? refusals[status] : "?");
        return written == UNTOUCHED && is_text(answer, text);
    }
    if (answer.len != 2 * written)
        return 0;
    for (size_t i = 0; i < answer.len; i++)
        if (answer.at[i] != "0123456789ABCDEF"[i % 2 == 0 ? out[i / 2] / 16 : out[i / 2] % 16])
            return 0;
    return 1;
}

/* Whether a row gives its answer, or X509_MEMORY where one of these allocations was refused; and leaves no block behind. */
static int row_holds(const row *it, bytes answer, uint8_t *out, size_t out_len, long from, long to)
{
    const long old_standing = standing;
    size_t written = UNTOUCHED;
    refuse(from, to);
    const x509_status status = x509_reencode(it->name.at, it->name.len, it->profile, it->value.at, it->value.len, out, out_len, &written);
    const int is_refused = status == X509_MEMORY && asked > from && written == UNTOUCHED;
    runs += from != LONG_MAX;
    ends += is_refused;
    return standing == old_standing && (is_refused || says(answer, status, out, written));
}

static void refuse_row(const row *it, bytes answer, uint8_t *out, size_t out_len, long line)
{
    rows++;
    if (!row_holds(it, answer, out, out_len, LONG_MAX, LONG_MAX))
        wrong("row with all memory, line", line);
    const long allocations = asked, places = allocations < MOST_PLACES ? allocations : MOST_PLACES;
    most = allocations > most ? allocations : most;
    shortened += places < allocations;
    for (long place = 0; place < places; place++) {
        const long at = place * allocations / places;
        if (!row_holds(it, answer, out, out_len, at, at + 1) || !row_holds(it, answer, out, out_len, at, LONG_MAX)) {
            wrong("row with an allocation refused, line", line);
            break;
        }
    }
    give_all();
}

/* All lines, one behind the other; what stands behind the last line feed is one too, unless it is empty. */
static void refuse_rows(bytes input, bytes answers)
{
    const size_t room_len = input.len + 1;
    uint8_t *value = malloc(room_len), *out = malloc(room_len);
    row read;
    int more;
    long line = 0;
    if (value == NULL || out == NULL)
        exit(2);
    while (input.len > 0) {
        const bytes text = take_until(&input, '\n', &more), answer = take_until(&answers, '\n', &more);
        line++;
        if (read_row(text, &read, value))
            refuse_row(&read, answer, out, room_len, line);
        else if (!is_text(answer, "refused: Failed"))
            wrong("no row, and another answer, line", line);
    }
    if (answers.len != 0 || ends == 0)
        wrong("more answers than lines, or none when out of memory; lines:", line);
    free(value);
    free(out);
    fprintf(stderr, "%ld lines, %ld rows, %ld runs with too little memory, of which %ld ended with X509_MEMORY; ", line, rows, runs, ends);
    fprintf(stderr, "the most allocations of a row are %ld, and %ld rows have more than %d\n", most, shortened, MOST_PLACES);
}

/* ---- files */

static size_t read_file(const char *path, uint8_t *into, size_t most_len)
{
    FILE *file = fopen(path, "rb");
    size_t len = file == NULL ? 0 : fread(into, 1, most_len, file);
    if (file != NULL)
        fclose(file);
    return len;
}

static bytes whole_file(const char *path)
{
    enum { MOST = 1 << 26 };
    uint8_t *into = malloc(MOST);
    return (bytes){into, into == NULL ? 0 : read_file(path, into, MOST)};
}

/* Puts the list twice for the call that asks it, signed by the certificate, whose name and key stand behind it. */
static void sign_list(void)
{
    const size_t name = list_len, key = list_len + own.subject.len;
    memcpy(signed_list, list, list_len);
    memcpy(signed_list + name, certificate + own.subject.place, own.subject.len);
    memcpy(signed_list + key, certificate + own.subject_public_key_info.place, own.subject_public_key_info.len);
    signed_list_len = key + own.subject_public_key_info.len;
    given[0] = given[1] = (x509_signed_crl){{0, list_len}, {name, own.subject.len}, {key, own.subject_public_key_info.len}, 1};
}

/* Puts the certificate for the call that finds a path to it under itself, and behind it a key. */
static void search_for_it(void)
{
    memcpy(searched, certificate, certificate_len);
    memcpy(searched + certificate_len, "\x30\x08\x30\x03\x06\x01\x2a\x03\x01\x00", 10);
    whole = (x509_span){0, certificate_len};
    bad = (x509_bad_link){whole, {certificate_len, 10}};
}

int main(int argc, char **argv)
{
    if (argc != 4 && argc != 6)
        return 2;
    certificate_len = read_file(argv[1], certificate, sizeof certificate);
    list_len = read_file(argv[2], list, sizeof list);
    request_len = read_file(argv[3], request, sizeof request);
    if (x509_certificate_view(certificate, certificate_len, &own) != X509_OK)
        return 2;
    sign_list();
    search_for_it();
    for (int number = 0; number < CALLS; number++)
        refuse_call(number);
    if (argc == 6) {
        const bytes input = whole_file(argv[4]), answers = whole_file(argv[5]);
        refuse_rows(input, answers);
        free((void *)input.at);
        free((void *)answers.at);
    }
    if (failures == 0)
        printf("all calls answer as they should\n");
    return failures != 0;
}
