/* Asks the calls that build for bytes that are known, and for their refusals.
 *
 * usage: as calls.h says */
#include "calls.h"

/* RFC 5280 4.1, 5.1.2.6 */
static void members(void)
{
    WANT(WROTE(x509_extension_encode(BYTES("\x55\x1d\x0f"), 1, BYTES("\x03\x02\x05\xa0"), room, sizeof room, &written),
               "\x30\x0e\x06\x03\x55\x1d\x0f\x01\x01\xff\x04\x04\x03\x02\x05\xa0"));
    WANT(WROTE(x509_extension_encode(BYTES("\x55\x1d\x0f"), 0, BYTES("\x03\x02\x05\xa0"), room, sizeof room, &written),
               "\x30\x0b\x06\x03\x55\x1d\x0f\x04\x04\x03\x02\x05\xa0"));
    WANT(x509_extension_encode(BYTES("\x55\x1d\x0f"), 0, BYTES("\x03\x02\x05\xa0"), room, 12, &written) == X509_ROOM && written == 13);
    written = 77;
    WANT(x509_extension_encode(BYTES("\x80"), 0, BYTES("\x05\x00"), room, sizeof room, &written) == X509_MALFORMED && written == 77);
    WANT(x509_extension_encode(nothing, 0, 0, nothing, 0, room, sizeof room, &written) == X509_MALFORMED && written == 77);
    WANT(WROTE(x509_crl_entry_encode(BYTES("\x02\x01\x05"), 1767323045, nothing, 0, room, sizeof room, &written),
               "\x30\x12\x02\x01\x05\x17\x0d" "260102030405Z"));
    WANT(WROTE(x509_crl_entry_encode(BYTES("\x02\x01\x05"), 1767323045, BYTES("\x30\x0a\x06\x03\x55\x1d\x15\x04\x03\x0a\x01\x01"), room, sizeof room, &written),
               "\x30\x20\x02\x01\x05\x17\x0d" "260102030405Z" "\x30\x0c\x30\x0a\x06\x03\x55\x1d\x15\x04\x03\x0a\x01\x01"));
    WANT(x509_crl_entry_encode(BYTES("\x02\x01\x05"), 1767323045, nothing, 0, room, 19, &written) == X509_ROOM && written == 20);
    written = 77;
    WANT(x509_crl_entry_encode(BYTES("\x02\x01\x05"), 253402300800, nothing, 0, room, sizeof room, &written) == X509_VALUE && written == 77);
    WANT(x509_crl_entry_encode(BYTES("\x02\x00"), 1767323045, nothing, 0, room, sizeof room, &written) == X509_MALFORMED);
    WANT(x509_crl_entry_encode(BYTES("\x02\x01\x05"), 1767323045, BYTES("\x30\x00"), room, sizeof room, &written) == X509_MALFORMED && written == 77);
}

/* A CSR with an empty subject, for the key `abc` of the algorithm 1.2.3.4, that asks for no extensions (RFC 2986 4.1, RFC 2985 5.4.2). */
#define KEY "\x30\x0d\x30\x05\x06\x03\x2a\x03\x04\x03\x04\x00" "abc"
#define ALGORITHM "\x30\x05\x06\x03\x2a\x03\x04"
#define REQUEST "\x30\x27\x02\x01\x00\x30\x00" KEY "\xa0\x11\x30\x0f\x06\x09\x2a\x86\x48\x86\xf7\x0d\x01\x09\x0e\x31\x02\x30\x00"

static void built_requests(void)
{
    WANT(WROTE(x509_build_request(BYTES("\x30\x00"), BYTES(KEY), nothing, 0, nothing, 0, room, sizeof room, &written), REQUEST));
    WANT(WROTE(x509_build_request(BYTES("\x30\x00"), BYTES(KEY), NULL, 0, NULL, 0, room, sizeof room, &written), REQUEST));
    WANT(x509_build_request(BYTES("\x30\x00"), BYTES(KEY), nothing, 0, nothing, 0, nothing, 0, &written) == X509_ROOM && written == sizeof REQUEST - 1);
    written = 77;
    WANT(x509_build_request(nothing, 0, BYTES(KEY), nothing, 0, nothing, 0, room, sizeof room, &written) == X509_MALFORMED && written == 77);
    WANT(x509_build_request(BYTES("\x30\x00"), BYTES("\x30\x00"), nothing, 0, nothing, 0, room, sizeof room, &written) == X509_MALFORMED);
    WANT(x509_build_request(BYTES("\x30\x00"), BYTES(KEY), nothing, 0, BYTES("\x30\x00"), room, sizeof room, &written) == X509_MALFORMED);
    /* the attribute 1.2.3 twice, and one that asks for extensions too */
    WANT(x509_build_request(BYTES("\x30\x00"), BYTES(KEY), BYTES("\x30\x08\x06\x02\x2a\x03\x31\x02\x05\x00" "\x30\x08\x06\x02\x2a\x03\x31\x02\x05\x00"),
                            nothing, 0, room, sizeof room, &written) == X509_SET_DUPLICATE && written == 77);
    WANT(x509_build_request(BYTES("\x30\x00"), BYTES(KEY), BYTES("\x30\x0f\x06\x09\x2a\x86\x48\x86\xf7\x0d\x01\x09\x0e\x31\x02\x30\x00"), nothing, 0,
                            room, sizeof room, &written) == X509_SET_DUPLICATE && written == 77);
    WANT(x509_build_request(BYTES("\x30\x00"), BYTES(KEY), BYTES("\x30\x0d\x06\x09\x2a\x86\x48\x86\xf7\x0d\x01\x09\x0e\x31\x00"), nothing, 0, room, sizeof room,
                            &written) == X509_SET_DUPLICATE && written == 77);
    WANT(WROTE(x509_assemble(BYTES(REQUEST), BYTES(ALGORITHM), nothing, 0, room, sizeof room, &written), "\x30\x33" REQUEST ALGORITHM "\x03\x01\x00"));
    WANT(x509_request_check(room, written) == X509_OK);
    WANT(WROTE(x509_assemble(BYTES(REQUEST), BYTES(ALGORITHM), BYTES("*"), room, sizeof room, &written), "\x30\x34" REQUEST ALGORITHM "\x03\x02\x00*"));
}

/* CN=a, a moment in UTCTime and one a month later, and a certificate of CN=a with them, for that key, whose SKI is ab:cd, with a signature of no bits. */
#define ISSUER "\x30\x0c\x31\x0a\x30\x08\x06\x03\x55\x04\x03\x0c\x01" "a"
#define THIS_UPDATE "\x17\x0d" "260102030405Z"
#define NEXT_UPDATE "\x17\x0d" "260202030405Z"
#define SKI "\x30\x0b\x06\x03\x55\x1d\x0e\x04\x04\x04\x02\xab\xcd"
#define VALIDITY "\x30\x1e" THIS_UPDATE NEXT_UPDATE
#define CERTIFICATE_PART "\x30\x6b\xa0\x03\x02\x01\x02\x02\x01\x01" ALGORITHM ISSUER VALIDITY ISSUER KEY "\xa3\x0f\x30\x0d" SKI
#define ISSUER_CERTIFICATE "\x30\x77" CERTIFICATE_PART ALGORITHM "\x03\x01\x00"
/* The same certificate, with that extension twice. */
#define TWO_KEY_IDENTIFIERS "\x30\x81\x84\x30\x78\xa0\x03\x02\x01\x02\x02\x01\x01" ALGORITHM ISSUER VALIDITY ISSUER KEY "\xa3\x1c\x30\x1a" SKI SKI \
    ALGORITHM "\x03\x01\x00"
/* The same part without extensions, of v1, and with the last moment of 9999 as its end. */
#define BARE_PART "\x30\x55\x02\x01\x01" ALGORITHM ISSUER VALIDITY ISSUER KEY
#define LONG_PART "\x30\x57\x02\x01\x01" ALGORITHM ISSUER "\x30\x20" THIS_UPDATE "\x18\x0f" "99991231235959Z" ISSUER KEY
/* The number 7 and that AKI as extensions of a CRL, an entry, and the bytes to be signed of a CRL with them, and without the entry and the next update
 * (RFC 5280 5.1.2, 5.2). */
#define CRL_EXTENSIONS "\x30\x0a\x06\x03\x55\x1d\x14\x04\x03\x02\x01\x07" "\x30\x0d\x06\x03\x55\x1d\x23\x04\x06\x30\x04\x80\x02\xab\xcd"
#define ENTRY "\x30\x12\x02\x01\x05" THIS_UPDATE
#define CRL "\x30\x6b\x02\x01\x01" ALGORITHM ISSUER THIS_UPDATE NEXT_UPDATE "\x30\x14" ENTRY "\xa0\x1d\x30\x1b" CRL_EXTENSIONS
#define EMPTY_CRL "\x30\x46\x02\x01\x01" ALGORITHM ISSUER THIS_UPDATE "\xa0\x1d\x30\x1b" CRL_EXTENSIONS
/* The delta CRL indicator 3, critical (RFC 5280 5.2.4), and the bytes to be signed with it. */
#define DELTA "\x30\x0d\x06\x03\x55\x1d\x1b\x01\x01\xff\x04\x03\x02\x01\x03"
#define DELTA_CRL "\x30\x55\x02\x01\x01" ALGORITHM ISSUER THIS_UPDATE "\xa0\x2c\x30\x2a" CRL_EXTENSIONS DELTA

enum { MOMENT = 1767323045, A_MONTH_LATER = 1770001445 };

/* The bytes to be signed of a CRL by that issuer; it has a next update where that isn't 0. */
static x509_status build_crl(const char *number, size_t number_len, uint64_t next_update, const char *entries, size_t entries_len, const char *extensions,
                             size_t extensions_len)
{
    return x509_build_crl(BYTES(ISSUER_CERTIFICATE), BYTES(ALGORITHM), (const uint8_t *)number, number_len, MOMENT, next_update != 0, next_update,
                          (const uint8_t *)entries, entries_len, (const uint8_t *)extensions, extensions_len, room, sizeof room, &written);
}

/* The bytes to be signed of the certificate of CN=a with that serial number, until then, and with these extensions. */
static x509_status build_certificate(const char *number, size_t number_len, uint64_t not_after, const char *extensions, size_t extensions_len)
{
    return x509_build_certificate((const uint8_t *)number, number_len, BYTES(ALGORITHM), BYTES(ISSUER), MOMENT, not_after, BYTES(ISSUER), BYTES(KEY),
                                  (const uint8_t *)extensions, extensions_len, room, sizeof room, &written);
}

static void built_certificates(void)
{
    WANT(WROTE(build_certificate("\x02\x01\x01", 3, A_MONTH_LATER, SKI, sizeof SKI - 1), CERTIFICATE_PART));
    WANT(WROTE(build_certificate("\x02\x01\x01", 3, A_MONTH_LATER, "", 0), BARE_PART));
    WANT(WROTE(build_certificate("\x02\x01\x01", 3, A_MONTH_LATER, NULL, 0), BARE_PART));
    WANT(WROTE(build_certificate("\x02\x01\x01", 3, 253402300799, "", 0), LONG_PART));
    WANT(WROTE(x509_assemble(BYTES(CERTIFICATE_PART), BYTES(ALGORITHM), nothing, 0, room, sizeof room, &written), ISSUER_CERTIFICATE));
    WANT(x509_build_certificate(BYTES("\x02\x01\x01"), BYTES(ALGORITHM), BYTES(ISSUER), MOMENT, A_MONTH_LATER, BYTES(ISSUER), BYTES(KEY), nothing, 0, room, 3,
                                &written) == X509_ROOM && written == sizeof BARE_PART - 1);
    written = 77;
    WANT(build_certificate("\x02\x01\x01", 3, 253402300800, "", 0) == X509_VALUE && written == 77);
    WANT(build_certificate("\x02\x00", 2, A_MONTH_LATER, "", 0) == X509_MALFORMED && written == 77);
    WANT(build_certificate("\x02\x01\x01", 3, A_MONTH_LATER, SKI, sizeof SKI - 2) == X509_MALFORMED && written == 77);
    WANT(x509_build_certificate(BYTES("\x02\x01\x01"), BYTES(ALGORITHM), BYTES(KEY), MOMENT, A_MONTH_LATER, BYTES(ISSUER), BYTES(KEY), nothing, 0, room,
                                sizeof room, &written) == X509_MALFORMED && written == 77);
    WANT(x509_build_certificate(BYTES("\x02\x01\x01"), BYTES(ALGORITHM), BYTES(ISSUER), MOMENT, A_MONTH_LATER, BYTES(ISSUER), BYTES(ISSUER), nothing, 0, room,
                                sizeof room, &written) == X509_MALFORMED && written == 77);
}

/* SHA-1 of "abc" (FIPS 180-4), and of no octets. */
#define ABC_DIGEST "\xa9\x99\x3e\x36\x47\x06\x81\x6a\xba\x3e\x25\x71\x78\x50\xc2\x6c\x9c\xd0\xd8\x9d"
#define EMPTY_DIGEST "\xda\x39\xa3\xee\x5e\x6b\x4b\x0d\x32\x55\xbf\xef\x95\x60\x18\x90\xaf\xd8\x07\x09"
/* C=US,O=T,CN=R, and what is kept of it for a subscriber. */
#define COUNTRY "\x31\x0b\x30\x09\x06\x03\x55\x04\x06\x13\x02" "US"
#define COMMON_NAME "\x31\x0a\x30\x08\x06\x03\x55\x04\x03\x0c\x01" "R"
#define ROOT_NAME "\x30\x25" COUNTRY "\x31\x0a\x30\x08\x06\x03\x55\x04\x0a\x0c\x01" "T" COMMON_NAME
#define KEPT_NAME "\x30\x19" COUNTRY COMMON_NAME
/* Another key of that algorithm, without bits; an RSA key and one of an elliptic curve, which the profiles tell by their OIDs. */
#define EMPTY_KEY "\x30\x0a" ALGORITHM "\x03\x01\x00"
#define RSA_KEY "\x30\x10\x30\x0b\x06\x09\x2a\x86\x48\x86\xf7\x0d\x01\x01\x01\x03\x01\x00"
#define EC_KEY "\x30\x0e\x30\x09\x06\x07\x2a\x86\x48\xce\x3d\x02\x01\x03\x01\x00"
/* The extensions of the profiles (RFC 5280 4.2.1). */
#define AKI_OF(digest) "\x30\x1f\x06\x03\x55\x1d\x23\x04\x18\x30\x16\x80\x14" digest
#define SKI_OF(digest) "\x30\x1d\x06\x03\x55\x1d\x0e\x04\x16\x04\x14" digest
#define AUTHORITY "\x30\x0f\x06\x03\x55\x1d\x13\x01\x01\xff\x04\x05\x30\x03\x01\x01\xff"
#define AUTHORITY_ABOVE_LEAVES "\x30\x12\x06\x03\x55\x1d\x13\x01\x01\xff\x04\x08\x30\x06\x01\x01\xff\x02\x01\x00"
#define NO_AUTHORITY "\x30\x0c\x06\x03\x55\x1d\x13\x01\x01\xff\x04\x02\x30\x00"
#define KEY_USAGE(unused_and_bits) "\x30\x0e\x06\x03\x55\x1d\x0f\x01\x01\xff\x04\x04\x03\x02" unused_and_bits
#define SERVER_AUTH "\x06\x08\x2b\x06\x01\x05\x05\x07\x03\x01"
#define CLIENT_AUTH "\x06\x08\x2b\x06\x01\x05\x05\x07\x03\x02"
#define FOR_SERVERS "\x30\x13\x06\x03\x55\x1d\x25\x04\x0c\x30\x0a" SERVER_AUTH
#define FOR_BOTH "\x30\x1d\x06\x03\x55\x1d\x25\x04\x16\x30\x14" SERVER_AUTH CLIENT_AUTH
/* an extension 1.2.3 that no profile has */
#define OTHER "\x30\x08\x06\x02\x2a\x03\x04\x02\x05\x00"
/* What stands in front of the issuer and behind it in each of these parts. */
#define V3 "\xa0\x03\x02\x01\x02\x02\x01\x01" ALGORITHM
#define ROOT_PART "\x30\x81\xf1" V3 ROOT_NAME VALIDITY ROOT_NAME KEY "\xa3\x63\x30\x61" AKI_OF(ABC_DIGEST) AUTHORITY KEY_USAGE("\x01\x06") SKI_OF(ABC_DIGEST)
#define ROOT_PART_WITH_OTHER "\x30\x81\xfb" V3 ROOT_NAME VALIDITY ROOT_NAME KEY "\xa3\x6d\x30\x6b" OTHER AKI_OF(ABC_DIGEST) AUTHORITY KEY_USAGE("\x01\x86") \
                             SKI_OF(ABC_DIGEST)
#define SUBORDINATE_PART "\x30\x81\xd7" V3 NAME VALIDITY NAME KEY "\xa3\x7b\x30\x79" AKI_OF(EMPTY_DIGEST) AUTHORITY_ABOVE_LEAVES KEY_USAGE("\x01\x06") \
                         SKI_OF(ABC_DIGEST) FOR_SERVERS
#define SUBSCRIBER_PART "\x30\x81\xbf" V3 NAME VALIDITY KEPT_NAME KEY "\xa3\x56\x30\x54" AKI_OF(EMPTY_DIGEST) FOR_SERVERS NO_AUTHORITY KEY_USAGE("\x07\x80")
#define DEVICE_PART "\x30\x81\x8f" V3 NAME VALIDITY NAME KEY "\xa3\x33\x30\x31" AKI_OF(EMPTY_DIGEST) KEY_USAGE("\x07\x80")
/* The name of a hardware module (RFC 4108 5) of type 1.2.3.4 with the serial number ab, as GeneralNames, and another name of that type; and the part with the
 * first. */
#define A_MODULE "\xa0\x15\x06\x08\x2b\x06\x01\x05\x05\x07\x08\x04\xa0\x09\x30\x07\x06\x02\x2a\x03\x04\x01\xab"
#define NOT_A_MODULE "\xa0\x0e\x06\x08\x2b\x06\x01\x05\x05\x07\x08\x04\xa0\x02\x05\x00"
#define REGISTERED "\x88\x03\x2a\x03\x05"
#define MODULE "\x30\x17" A_MODULE
#define NO_MODULE "\x30\x10" NOT_A_MODULE
#define MODULE_PART "\x30\x81\xb1" V3 NAME VALIDITY NAME KEY "\xa3\x55\x30\x53" AKI_OF(EMPTY_DIGEST) KEY_USAGE("\x07\x80") \
                    "\x30\x20\x06\x03\x55\x1d\x11\x04\x19" MODULE

#define NUMBER_AND_ALGORITHM BYTES("\x02\x01\x01"), BYTES(ALGORITHM)
#define ISSUER_AND_DATES BYTES(NAME), BYTES(EMPTY_KEY), MOMENT, A_MONTH_LATER
#define OUT room, sizeof room, &written

static void built_roots(void)
{
    WANT(WROTE(x509_build_root(NUMBER_AND_ALGORITHM, MOMENT, A_MONTH_LATER, BYTES(ROOT_NAME), BYTES(KEY), 0, nothing, 0, OUT), ROOT_PART));
    WANT(WROTE(x509_build_root(NUMBER_AND_ALGORITHM, MOMENT, A_MONTH_LATER, BYTES(ROOT_NAME), BYTES(KEY), 0, NULL, 0, OUT), ROOT_PART));
    WANT(WROTE(x509_build_root(NUMBER_AND_ALGORITHM, MOMENT, A_MONTH_LATER, BYTES(ROOT_NAME), BYTES(KEY), 1, BYTES(OTHER), OUT), ROOT_PART_WITH_OTHER));
    WANT(x509_build_root(NUMBER_AND_ALGORITHM, MOMENT, A_MONTH_LATER, BYTES(ROOT_NAME), BYTES(KEY), 0, nothing, 0, room, 9, &written) == X509_ROOM);
    WANT(written == sizeof ROOT_PART - 1);
    written = 77;
    /* CN=a lacks a country and an organization. */
    WANT(x509_build_root(NUMBER_AND_ALGORITHM, MOMENT, A_MONTH_LATER, BYTES(NAME), BYTES(KEY), 0, nothing, 0, OUT) == X509_FAILED && written == 77);
    WANT(x509_build_root(NUMBER_AND_ALGORITHM, MOMENT, 253402300800, BYTES(ROOT_NAME), BYTES(KEY), 0, nothing, 0, OUT) == X509_VALUE && written == 77);
    WANT(x509_build_root(NUMBER_AND_ALGORITHM, MOMENT, A_MONTH_LATER, BYTES(ROOT_NAME), BYTES(NAME), 0, nothing, 0, OUT) == X509_MALFORMED && written == 77);
    WANT(x509_build_root(NUMBER_AND_ALGORITHM, MOMENT, A_MONTH_LATER, BYTES(ROOT_NAME), BYTES(KEY), 0, BYTES("\x30\x00"), OUT) == X509_MALFORMED);
    WANT(WROTE(x509_assemble(BYTES(ROOT_PART), BYTES(ALGORITHM), nothing, 0, OUT), "\x30\x81\xfe" ROOT_PART ALGORITHM "\x03\x01\x00"));
    WANT(x509_certificate_check(room, written) == X509_OK);
}

static void built_subordinates(void)
{
    WANT(WROTE(x509_build_subordinate(NUMBER_AND_ALGORITHM, ISSUER_AND_DATES, BYTES(NAME), BYTES(KEY), 1, 0, 0, 0, nothing, 0, OUT), SUBORDINATE_PART));
    WANT(WROTE(x509_build_subordinate(NUMBER_AND_ALGORITHM, ISSUER_AND_DATES, BYTES(NAME), BYTES(KEY), 1, 0, 0, 0, NULL, 0, OUT), SUBORDINATE_PART));
    /* for clients too, and for OCSP responses */
    WANT(x509_build_subordinate(NUMBER_AND_ALGORITHM, ISSUER_AND_DATES, BYTES(NAME), BYTES(KEY), 0, 256, 1, 1, nothing, 0, OUT) == X509_OK);
    const char behind[] = AUTHORITY KEY_USAGE("\x01\x86") SKI_OF(ABC_DIGEST) FOR_BOTH;
    WANT(written > sizeof behind && memcmp(room + written - (sizeof behind - 1), behind, sizeof behind - 1) == 0);
    WANT(x509_build_subordinate(NUMBER_AND_ALGORITHM, ISSUER_AND_DATES, BYTES(NAME), BYTES(KEY), 1, 0, 0, 0, nothing, 0, room, sizeof SUBORDINATE_PART - 2,
                                &written) == X509_ROOM && written == sizeof SUBORDINATE_PART - 1);
    written = 77;
    WANT(x509_build_subordinate(NUMBER_AND_ALGORITHM, ISSUER_AND_DATES, BYTES(NAME), BYTES(KEY), 1, 256, 0, 0, nothing, 0, OUT) == X509_VALUE && written == 77);
    WANT(x509_build_subordinate(NUMBER_AND_ALGORITHM, BYTES(NAME), BYTES(NAME), MOMENT, A_MONTH_LATER, BYTES(NAME), BYTES(KEY), 1, 0, 0, 0, nothing, 0, OUT)
         == X509_MALFORMED && written == 77);
}

/* Whether the part that was written ends with a KeyUsage of these bits, behind the count of unused ones. */
static int ends_with_usage(x509_status status, uint8_t unused, uint8_t bits)
{
    uint8_t usage[] = KEY_USAGE("\x00\x00");
    usage[14] = unused;
    usage[15] = bits;
    return status == X509_OK && written > 16 && memcmp(room + written - 16, usage, 16) == 0;
}

static void built_subscribers(void)
{
    WANT(WROTE(x509_build_subscriber(NUMBER_AND_ALGORITHM, ISSUER_AND_DATES, BYTES(ROOT_NAME), BYTES(KEY), 0, 1, 1, 1, nothing, 0, OUT), SUBSCRIBER_PART));
    WANT(WROTE(x509_build_subscriber(NUMBER_AND_ALGORITHM, ISSUER_AND_DATES, BYTES(ROOT_NAME), BYTES(KEY), 0, 1, 1, 1, NULL, 0, OUT), SUBSCRIBER_PART));
    WANT(ends_with_usage(x509_build_subscriber(NUMBER_AND_ALGORITHM, ISSUER_AND_DATES, BYTES(NAME), BYTES(RSA_KEY), 0, 1, 1, 0, nothing, 0, OUT), 5, 0xa0));
    WANT(ends_with_usage(x509_build_subscriber(NUMBER_AND_ALGORITHM, ISSUER_AND_DATES, BYTES(NAME), BYTES(RSA_KEY), 0, 0, 1, 1, nothing, 0, OUT), 4, 0x90));
    WANT(ends_with_usage(x509_build_subscriber(NUMBER_AND_ALGORITHM, ISSUER_AND_DATES, BYTES(NAME), BYTES(RSA_KEY), 1, 1, 1, 1, nothing, 0, OUT), 4, 0xb0));
    WANT(ends_with_usage(x509_build_subscriber(NUMBER_AND_ALGORITHM, ISSUER_AND_DATES, BYTES(NAME), BYTES(EC_KEY), 0, 1, 1, 1, nothing, 0, OUT), 3, 0x88));
    WANT(ends_with_usage(x509_build_subscriber(NUMBER_AND_ALGORITHM, ISSUER_AND_DATES, BYTES(NAME), BYTES(EC_KEY), 1, 1, 0, 1, nothing, 0, OUT), 7, 0x80));
    const char behind[] = FOR_BOTH NO_AUTHORITY KEY_USAGE("\x07\x80");
    WANT(memcmp(room + written - (sizeof behind - 1), behind, sizeof behind - 1) == 0);
    WANT(x509_build_subscriber(NUMBER_AND_ALGORITHM, ISSUER_AND_DATES, BYTES(ROOT_NAME), BYTES(KEY), 0, 1, 1, 1, nothing, 0, room, sizeof SUBSCRIBER_PART - 2,
                               &written) == X509_ROOM && written == sizeof SUBSCRIBER_PART - 1);
    written = 77;
    WANT(x509_build_subscriber(NUMBER_AND_ALGORITHM, ISSUER_AND_DATES, BYTES(KEY), BYTES(KEY), 0, 0, 0, 0, nothing, 0, OUT) == X509_MALFORMED && written == 77);
}

static void built_devices(void)
{
    WANT(WROTE(x509_build_device(NUMBER_AND_ALGORITHM, ISSUER_AND_DATES, BYTES(NAME), BYTES(KEY), nothing, 0, nothing, 0, OUT), DEVICE_PART));
    WANT(WROTE(x509_build_device(NUMBER_AND_ALGORITHM, ISSUER_AND_DATES, BYTES(NAME), BYTES(KEY), NULL, 0, NULL, 0, OUT), DEVICE_PART));
    WANT(WROTE(x509_build_device(NUMBER_AND_ALGORITHM, ISSUER_AND_DATES, BYTES(NAME), BYTES(KEY), BYTES(MODULE), nothing, 0, OUT), MODULE_PART));
    WANT(x509_build_device(NUMBER_AND_ALGORITHM, ISSUER_AND_DATES, BYTES(NAME), BYTES(KEY), nothing, 0, nothing, 0, room, sizeof DEVICE_PART - 2, &written)
         == X509_ROOM && written == sizeof DEVICE_PART - 1);
    written = 77;
    WANT(x509_build_device(NUMBER_AND_ALGORITHM, ISSUER_AND_DATES, BYTES(NAME), BYTES(KEY), BYTES("\x30\x00"), nothing, 0, OUT) == X509_FAILED
         && written == 77);
    WANT(x509_build_device(NUMBER_AND_ALGORITHM, ISSUER_AND_DATES, BYTES(NAME), BYTES(KEY), BYTES("\x30\x03\x82\x01" "a"), nothing, 0, OUT) == X509_FAILED);
    WANT(x509_build_device(NUMBER_AND_ALGORITHM, ISSUER_AND_DATES, BYTES(NAME), BYTES(KEY), BYTES(NO_MODULE), nothing, 0, OUT) == X509_MALFORMED);
    /* behind a registered identifier: one, and another name of its type, which is read before it */
    WANT(x509_build_device(NUMBER_AND_ALGORITHM, ISSUER_AND_DATES, BYTES(NAME), BYTES(KEY), BYTES("\x30\x1c" REGISTERED A_MODULE), nothing, 0, OUT) == X509_OK);
    WANT(written > 28 && memcmp(room + written - 28, REGISTERED A_MODULE, 28) == 0);
    written = 77;
    WANT(x509_build_device(NUMBER_AND_ALGORITHM, ISSUER_AND_DATES, BYTES(NAME), BYTES(KEY), BYTES("\x30\x2c" REGISTERED NOT_A_MODULE A_MODULE), nothing, 0, OUT)
         == X509_MALFORMED);
    WANT(x509_build_device(NUMBER_AND_ALGORITHM, ISSUER_AND_DATES, BYTES(NAME), BYTES(KEY), BYTES("\x05\x00"), nothing, 0, OUT) == X509_MALFORMED
         && written == 77);
}

static void built_crls(void)
{
    const uint64_t too_late = 253402300800;
    WANT(x509_certificate_check(BYTES(ISSUER_CERTIFICATE)) == X509_OK);
    WANT(WROTE(build_crl("\x07", 1, A_MONTH_LATER, ENTRY, sizeof ENTRY - 1, "", 0), CRL));
    WANT(WROTE(build_crl("\x00\x07", 2, 0, "", 0, "", 0), EMPTY_CRL));
    WANT(WROTE(build_crl("\x07", 1, 0, NULL, 0, NULL, 0), EMPTY_CRL));
    WANT(WROTE(build_crl("\x07", 1, 0, "", 0, DELTA, sizeof DELTA - 1), DELTA_CRL));
    WANT(WROTE(x509_assemble(BYTES(EMPTY_CRL), BYTES(ALGORITHM), nothing, 0, OUT), "\x30\x52" EMPTY_CRL ALGORITHM "\x03\x01\x00"));
    WANT(x509_crl_check(room, written) == X509_OK);
    WANT(x509_build_crl(BYTES(ISSUER_CERTIFICATE), BYTES(ALGORITHM), BYTES("\x07"), MOMENT, 0, too_late, nothing, 0, nothing, 0, room, sizeof EMPTY_CRL - 2,
                        &written) == X509_ROOM && written == sizeof EMPTY_CRL - 1);
    written = 77;
    WANT(build_crl("", 0, 0, "", 0, "", 0) == X509_VALUE && written == 77);
    WANT(build_crl("\x07", 1, too_late, "", 0, "", 0) == X509_VALUE && written == 77);
    WANT(build_crl("\x07", 1, 0, "\x30", 1, "", 0) == X509_MALFORMED && written == 77);
    WANT(build_crl("\x07", 1, 0, "", 0, ENTRY, sizeof ENTRY - 1) == X509_MALFORMED && written == 77);
    /* an issuer's certificate with two SKIs */
    WANT(x509_build_crl(BYTES(TWO_KEY_IDENTIFIERS), BYTES(ALGORITHM), BYTES("\x07"), MOMENT, 0, 0, nothing, 0, nothing, 0, OUT) == X509_FAILED);
    WANT(x509_build_crl(BYTES(ISSUER), BYTES(ALGORITHM), BYTES("\x07"), MOMENT, 0, 0, nothing, 0, nothing, 0, OUT) == X509_MALFORMED);
    WANT(x509_build_crl(BYTES(ISSUER_CERTIFICATE), BYTES("\x05\x00"), BYTES("\x07"), MOMENT, 0, 0, nothing, 0, nothing, 0, OUT)
         == X509_MALFORMED && written == 77);
}

/* Whether what is signed, taken apart, is put together again as it was; and not with another algorithm, which `other` says. */
static void reassembled(const uint8_t *whole, size_t len, x509_status other)
{
    x509_span part;
    WANT(x509_signed_slice(whole, len, &part) == X509_OK);
    const uint8_t *const signed_part = whole + part.place, *const algorithm = signed_part + part.len;
    const size_t algorithm_len = 2u + algorithm[1];
    const uint8_t *bits = algorithm + algorithm_len;
    bits += bits[1] < 0x80 ? 3 : bits[1] == 0x81 ? 4 : 5; /* 03, the length, and 00 */
    const size_t bits_len = (size_t)(whole + len - bits);
    WANT(x509_assemble(signed_part, part.len, algorithm, algorithm_len, bits, bits_len, OUT) == X509_OK);
    WANT(written == len && memcmp(room, whole, len) == 0);
    WANT(x509_assemble(signed_part, part.len, algorithm, algorithm_len, bits, bits_len, room, len - 1, &written) == X509_ROOM && written == len);
    written = 77;
    WANT(x509_assemble(signed_part, part.len, BYTES(ALGORITHM), bits, bits_len, OUT) == other);
    WANT(other == X509_OK || written == 77);
    written = 77;
    WANT(x509_assemble(signed_part, part.len - 1, algorithm, algorithm_len, bits, bits_len, OUT) == X509_MALFORMED && written == 77);
    WANT(x509_assemble(signed_part, part.len, algorithm, algorithm_len - 1, bits, bits_len, OUT) == X509_MALFORMED && written == 77);
}

/* Two extensions of one OID (RFC 5280 4.2), those of a profile and of a CRL among them; and dates that are turned round. Nothing is written then. */
static void refused_combinations(void)
{
    static uint8_t before[sizeof room];
    memset(room, 9, sizeof room);
    memcpy(before, room, sizeof room);
    written = 77;
    WANT(build_certificate("\x02\x01\x01", 3, A_MONTH_LATER, SKI SKI, 2 * (sizeof SKI - 1)) == X509_REPEATED);
    WANT(build_certificate("\x02\x01\x01", 3, A_MONTH_LATER, OTHER SKI "\x30\x0b\x06\x02\x2a\x03\x01\x01\xff\x04\x02\x05\x00", 36) == X509_REPEATED);
    WANT(x509_build_root(NUMBER_AND_ALGORITHM, MOMENT, A_MONTH_LATER, BYTES(ROOT_NAME), BYTES(KEY), 0, BYTES(SKI), OUT) == X509_REPEATED);
    WANT(x509_build_root(NUMBER_AND_ALGORITHM, MOMENT, A_MONTH_LATER, BYTES(ROOT_NAME), BYTES(KEY), 0, BYTES(OTHER OTHER), OUT) == X509_REPEATED);
    WANT(x509_build_subordinate(NUMBER_AND_ALGORITHM, ISSUER_AND_DATES, BYTES(NAME), BYTES(KEY), 1, 0, 0, 0, BYTES(AUTHORITY), OUT) == X509_REPEATED);
    WANT(x509_build_subscriber(NUMBER_AND_ALGORITHM, ISSUER_AND_DATES, BYTES(NAME), BYTES(KEY), 0, 0, 0, 0, BYTES(FOR_SERVERS), OUT) == X509_REPEATED);
    WANT(x509_build_device(NUMBER_AND_ALGORITHM, ISSUER_AND_DATES, BYTES(NAME), BYTES(KEY), BYTES(MODULE), BYTES("\x30\x20\x06\x03\x55\x1d\x11\x04\x19" MODULE),
                           OUT) == X509_REPEATED);
    WANT(build_crl("\x07", 1, 0, "", 0, CRL_EXTENSIONS, 12) == X509_REPEATED);
    WANT(build_crl("\x07", 1, 0, "", 0, CRL_EXTENSIONS, sizeof CRL_EXTENSIONS - 1) == X509_REPEATED);
    WANT(build_crl("\x07", 1, 0, "", 0, DELTA DELTA, 2 * (sizeof DELTA - 1)) == X509_REPEATED);
    WANT(x509_build_request(BYTES("\x30\x00"), BYTES(KEY), nothing, 0, BYTES(SKI OTHER SKI), OUT) == X509_REPEATED);
    WANT(x509_crl_entry_encode(BYTES("\x02\x01\x05"), MOMENT, BYTES(OTHER OTHER), OUT) == X509_REPEATED);

    WANT(build_certificate("\x02\x01\x01", 3, MOMENT - 1, "", 0) == X509_VALUE);
    WANT(x509_build_root(NUMBER_AND_ALGORITHM, MOMENT, MOMENT - 1, BYTES(ROOT_NAME), BYTES(KEY), 0, nothing, 0, OUT) == X509_VALUE);
    WANT(x509_build_subordinate(NUMBER_AND_ALGORITHM, BYTES(NAME), BYTES(EMPTY_KEY), MOMENT, 0, BYTES(NAME), BYTES(KEY), 1, 0, 0, 0, nothing, 0, OUT)
         == X509_VALUE);
    WANT(x509_build_subscriber(NUMBER_AND_ALGORITHM, BYTES(NAME), BYTES(EMPTY_KEY), MOMENT, 0, BYTES(NAME), BYTES(KEY), 0, 0, 0, 0, nothing, 0, OUT)
         == X509_VALUE);
    WANT(x509_build_device(NUMBER_AND_ALGORITHM, BYTES(NAME), BYTES(EMPTY_KEY), MOMENT, 0, BYTES(NAME), BYTES(KEY), nothing, 0, nothing, 0, OUT) == X509_VALUE);
    WANT(build_crl("\x07", 1, MOMENT - 1, "", 0, "", 0) == X509_VALUE);
    WANT(written == 77 && memcmp(before, room, sizeof room) == 0);

    /* one moment twice is in order */
    WANT(build_certificate("\x02\x01\x01", 3, MOMENT, "", 0) == X509_OK);
    WANT(build_crl("\x07", 1, MOMENT, "", 0, "", 0) == X509_OK);
}

/* The attributes C=US, O=T and CN=a, and names of them, as OpenSSL encodes them too. */
#define US "\x30\x09\x06\x03\x55\x04\x06\x13\x02" "US"
#define T "\x30\x08\x06\x03\x55\x04\x0a\x0c\x01" "T"
#define A "\x30\x08\x06\x03\x55\x04\x03\x0c\x01" "a"
#define CN BYTES("\x55\x04\x03")
#define COUNTRY_TYPE BYTES("\x55\x04\x06")
#define EMAIL BYTES("\x2a\x86\x48\x86\xf7\x0d\x01\x09\x01")
#define QUALIFIER BYTES("\x55\x04\x2e")

/* RFC 5280 4.1.2.4 and appendix A.1 */
static void attributes(void)
{
    static char many[32769];
    memset(many, 'x', sizeof many);
    const uint8_t *const x = (const uint8_t *)many;
    WANT(WROTE(x509_attribute_encode(CN, 0, BYTES("a"), 1, OUT), A));
    WANT(WROTE(x509_attribute_encode(COUNTRY_TYPE, 0, BYTES("US"), 1, OUT), US));
    WANT(WROTE(x509_attribute_encode(CN, 0, BYTES("a,O=Evil"), 1, OUT), "\x30\x0f\x06\x03\x55\x04\x03\x0c\x08" "a,O=Evil"));
    WANT(WROTE(x509_attribute_encode(CN, 0x13, BYTES("a"), 1, OUT), "\x30\x08\x06\x03\x55\x04\x03\x13\x01" "a"));
    WANT(WROTE(x509_attribute_encode(CN, 0x0c, BYTES("\xc3\xbc"), 1, OUT), "\x30\x09\x06\x03\x55\x04\x03\x0c\x02\xc3\xbc"));
    WANT(WROTE(x509_attribute_encode(CN, 0x1e, BYTES("\xc3\xbc" "a"), 1, OUT), "\x30\x0b\x06\x03\x55\x04\x03\x1e\x04\x00\xfc\x00" "a"));
    WANT(WROTE(x509_attribute_encode(EMAIL, 0, BYTES("a@b"), 1, OUT), "\x30\x10\x06\x09\x2a\x86\x48\x86\xf7\x0d\x01\x09\x01\x16\x03" "a@b"));
    WANT(WROTE(x509_attribute_encode(QUALIFIER, 0, nothing, 0, 1, OUT), "\x30\x07\x06\x03\x55\x04\x2e\x13\x00"));
    WANT(WROTE(x509_attribute_encode(BYTES("\x2a\x03"), 0x16, nothing, 0, 1, OUT), "\x30\x06\x06\x02\x2a\x03\x16\x00"));
    WANT(WROTE(x509_attribute_encode(CN, 0, NULL, 0, 0, OUT), "\x30\x07\x06\x03\x55\x04\x03\x0c\x00"));
    WANT(x509_attribute_encode(CN, 0, BYTES("a"), 1, room, 9, &written) == X509_ROOM && written == 10);
    written = 77;
    /* an OID that is none, a text that isn't UTF-8, and unknown string types, TeletexString among them */
    WANT(x509_attribute_encode(BYTES("\x80"), 0, BYTES("a"), 1, OUT) == X509_MALFORMED);
    WANT(x509_attribute_encode(nothing, 0, 0, BYTES("a"), 1, OUT) == X509_MALFORMED);
    WANT(x509_attribute_encode(CN, 0, BYTES("\xff"), 1, OUT) == X509_FAILED);
    WANT(x509_attribute_encode(CN, 0, BYTES("\xed\xa0\x80"), 1, OUT) == X509_FAILED);
    WANT(x509_attribute_encode(CN, 0x14, BYTES("a"), 1, OUT) == X509_FAILED && x509_attribute_encode(CN, 0x10c, BYTES("a"), 1, OUT) == X509_FAILED);
    /* string types that the attribute doesn't allow */
    WANT(x509_attribute_encode(CN, 0x16, BYTES("a"), 1, OUT) == X509_FAILED);
    WANT(x509_attribute_encode(COUNTRY_TYPE, 0x0c, BYTES("US"), 1, OUT) == X509_FAILED
         && x509_attribute_encode(COUNTRY_TYPE, 0x1e, BYTES("US"), 1, OUT) == X509_FAILED);
    WANT(x509_attribute_encode(EMAIL, 0x0c, BYTES("a"), 1, OUT) == X509_FAILED && x509_attribute_encode(EMAIL, 0x13, BYTES("a"), 1, OUT) == X509_FAILED);
    /* characters outside of the alphabet: @ and _ in a PrintableString, U+00FC in an IA5String, U+1F600 in a BMPString */
    WANT(x509_attribute_encode(CN, 0x13, BYTES("a@b"), 0, OUT) == X509_VALUE && x509_attribute_encode(CN, 0x13, BYTES("a_b"), 0, OUT) == X509_VALUE);
    WANT(x509_attribute_encode(EMAIL, 0, BYTES("\xc3\xbc"), 0, OUT) == X509_VALUE
         && x509_attribute_encode(CN, 0x1e, BYTES("\xf0\x9f\x98\x80"), 0, OUT) == X509_VALUE);
    /* too few and too many characters */
    WANT(x509_attribute_encode(CN, 0, nothing, 0, 1, OUT) == X509_VALUE && x509_attribute_encode(CN, 0, x, 65, 1, OUT) == X509_VALUE);
    WANT(x509_attribute_encode(COUNTRY_TYPE, 0, BYTES("U"), 1, OUT) == X509_VALUE
         && x509_attribute_encode(COUNTRY_TYPE, 0, BYTES("USA"), 1, OUT) == X509_VALUE);
    WANT(x509_attribute_encode(EMAIL, 0, x, 256, 1, OUT) == X509_VALUE && x509_attribute_encode(BYTES("\x55\x04\x07"), 0, x, 129, 1, OUT) == X509_VALUE);
    WANT(x509_attribute_encode(BYTES("\x55\x04\x29"), 0, x, 32769, 1, OUT) == X509_VALUE && written == 77);
    WANT(x509_attribute_encode(CN, 0, x, 64, 1, OUT) == X509_OK && x509_attribute_encode(EMAIL, 0, x, 255, 1, OUT) == X509_OK);
    WANT(x509_attribute_encode(BYTES("\x55\x04\x29"), 0, x, 32768, 1, OUT) == X509_OK && x509_attribute_encode(CN, 0, x, 65, 0, OUT) == X509_OK);
}

static void names_of_values(void)
{
    /* a set is in the order of its encodings, however it is given (X.690 10.3) */
    WANT(WROTE(x509_relative_name_encode(BYTES(US), OUT), "\x31\x0b" US));
    WANT(WROTE(x509_relative_name_encode(BYTES(US T A), OUT), "\x31\x1f" A T US));
    WANT(WROTE(x509_relative_name_encode(BYTES(A T US), OUT), "\x31\x1f" A T US));
    WANT(x509_relative_name_encode(BYTES(US), room, 12, &written) == X509_ROOM && written == 13);
    written = 77;
    WANT(x509_relative_name_encode(BYTES(A US A), OUT) == X509_SET_DUPLICATE && x509_relative_name_encode(nothing, 0, OUT) == X509_VALUE);
    WANT(x509_relative_name_encode(NULL, 0, OUT) == X509_VALUE && x509_relative_name_encode(BYTES("\x30\x00"), OUT) == X509_MALFORMED && written == 77);

    WANT(WROTE(x509_name_build(BYTES("\x31\x0b" US "\x31\x0a" T "\x31\x0a" A), OUT), "\x30\x25\x31\x0b" US "\x31\x0a" T "\x31\x0a" A));
    WANT(WROTE(x509_name_build(nothing, 0, OUT), "\x30\x00"));
    WANT(WROTE(x509_name_build(NULL, 0, OUT), "\x30\x00"));
    WANT(x509_name_build(BYTES("\x31\x0a" A), room, 13, &written) == X509_ROOM && written == 14);
    written = 77;
    /* a set out of order, one of none, and an attribute without its set */
    WANT(x509_name_build(BYTES("\x31\x15" US A), OUT) == X509_MALFORMED && x509_name_build(BYTES("\x31\x0a" A "\x31\x00"), OUT) == X509_VALUE);
    WANT(x509_name_build(BYTES(A), OUT) == X509_MALFORMED && written == 77);
}

/* RFC 4514 2.4: what is escaped stands for one value, whatever it holds. */
static void escapes(void)
{
    static const char *const texts[][2] = {
        {"a", "a"}, {"a,O=Evil", "a\\,O=Evil"}, {" a ", "\\ a\\ "}, {"#a#", "\\#a#"}, {"a+b", "a\\+b"}, {"\\\"<;>", "\\\\\\\"\\<\\;\\>"},
        {"\x1b\x7f", "\\1b\\7f"}, {"\xc3\xbc", "\xc3\xbc"}, {"", ""}};
    for (size_t i = 0; i < sizeof texts / sizeof texts[0]; i++) {
        const size_t len = strlen(texts[i][0]);
        uint8_t text[64] = "CN=", name[64], value[64];
        size_t text_len, name_len;
        WANT(x509_name_escape((const uint8_t *)texts[i][0], len, text + 3, sizeof text - 3, &text_len) == X509_OK);
        WANT(text_len == strlen(texts[i][1]) && memcmp(text + 3, texts[i][1], text_len) == 0);
        WANT(x509_name_from_text(text, 3 + text_len, name, sizeof name, &name_len) == X509_OK);
        WANT(x509_attribute_encode(CN, 0, (const uint8_t *)texts[i][0], len, 0, value, sizeof value, &written) == X509_OK);
        WANT(name_len == written + 4 && memcmp(name + 4, value, written) == 0);
    }
    WANT(x509_name_escape(BYTES(","), room, 1, &written) == X509_ROOM && written == 2);
    written = 77;
    WANT(x509_name_escape(BYTES("\xff"), OUT) == X509_FAILED && written == 77);
}

static void assembled(void)
{
    reassembled(certificate, certificate_len, X509_FAILED);
    reassembled(list, list_len, X509_FAILED);
    reassembled(request, request_len, X509_OK);
    written = 77;
    WANT(x509_assemble(nothing, 0, nothing, 0, nothing, 0, OUT) == X509_MALFORMED && written == 77);
    WANT(x509_assemble(BYTES(NAME), BYTES(ALGORITHM), nothing, 0, OUT) == X509_MALFORMED && written == 77);
}

int main(int argc, char **argv)
{
    read_files(argc, argv);
    members();
    built_requests();
    built_certificates();
    built_roots();
    built_subordinates();
    built_subscribers();
    built_devices();
    built_crls();
    refused_combinations();
    attributes();
    names_of_values();
    escapes();
    assembled();
    return ended();
}
