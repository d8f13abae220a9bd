/* X.509 in strict DER.
 *
 * What each call answers is proved of the Rattle functions of the same names (crates/x509_c), over the definitions of the grammar; see
 * docs/PROMISES.md. This header repeats it in words.
 *
 * Memory. Bytes go in as a pointer and a length, which are lent for the call and aren't changed. Where the length is 0, the pointer may be
 * NULL; so may the pointer to a buffer of size 0, and that to a list of 0 lengths. No other pointer may be NULL. What a call fills in is the
 * caller's. A call keeps nothing, and frees what it takes from malloc; so calls may run at the same time in several threads, each on its own
 * output. The buffers and results of one call must not overlap its input.
 *
 * Status. Each call answers one of the numbers below, and no other than those that it lists. Where it isn't X509_OK, what the call fills in is
 * unchanged, apart from buffers, `*written` after X509_ROOM, and `*fault`, `*answer` and `*found` after X509_FAULT.
 *
 * Places are offsets from the first byte of the input, and lengths are numbers of bytes. Times are seconds since 1970-01-01T00:00:00Z. Dates
 * are those from 1970 to 9999: an input with an earlier one, which UTCTime has from 1950 on (RFC 5280 4.1.2.5.1), is X509_MALFORMED.
 *
 * Link as pkg-config tells of the package x509, by `cc main.c $(pkg-config --cflags --libs x509)`, or as CMake does, by find_package(x509) and x509::x509,
 * where the library is installed. Sections are those of the standard that is named in front of them, as RFC 5280 4.2; else of the one that is named last. */
#ifndef X509_H
#define X509_H

#include <stddef.h>
#include <stdint.h>

#ifdef __cplusplus
extern "C" {
#endif

typedef int x509_status;

/* The call succeeded. */
#define X509_OK 0
/* Out of memory. Each call that lists it may answer it, in place of any other answer. */
#define X509_MEMORY (-1)
/* The buffer is too small; `*written` is the length that is needed. */
#define X509_ROOM (-2)
/* The input, or the encoding of a value, is longer than 268,435,455 bytes. */
#define X509_OVERLENGTH 1
/* The bytes are not the DER encoding of such a value. */
#define X509_MALFORMED 2
/* A bad text; an unknown type or profile; a repeated extension of a CRL entry; lengths that don't add up. Each call says which. */
#define X509_FAILED 3
/* A relative distinguished name (RDN) has one attribute twice. */
#define X509_SET_DUPLICATE 4
/* A value is out of range, or has no encoding. */
#define X509_VALUE 5
/* What was asked for isn't there. */
#define X509_ABSENT 6
/* An extension that was asked for is there more than once; or what is to be built would have it more than once. */
#define X509_REPEATED 7
/* A certificate of a path has a fault. */
#define X509_FAULT 8
/* More would be tried than is allowed. */
#define X509_LIMIT 9

/* Profiles: the rules of RFC 5280, or none beyond the grammar. */
#define X509_RFC5280 0
#define X509_RAW 1

/* A part of the input. */
typedef struct {
    size_t place; /* its offset: how many bytes stand in front of it */
    size_t len;   /* how many bytes it has */
} x509_span;

/* ---- whole values
 *
 * A call that writes puts the bytes at the front of the buffer `out[0..room)`, where `room` is its size, and says in `*written` how many they
 * are. It may change all of the buffer: what stands after the bytes has no meaning, and so has the whole buffer after a status other than
 * X509_OK. With a buffer of size 0 the answer is X509_ROOM and the length that is needed; X509_OK and 0 where there are no bytes to write, as of
 * the text of the empty name. On a status other than X509_OK and X509_ROOM, `*written` is unchanged. */

/* Decodes a value of the type with that name, such as "Certificate" or "Name" (`name_len` bytes, no zero at the end), under a profile, and encodes it
 * again. X509_FAILED where the type or the profile is unknown. What was decoded is encoded as the same bytes, except that under the profile X509_RFC5280
 * a date of a validity that is a GeneralizedTime before 2050 becomes a UTCTime, so that a signature over the bytes isn't valid for what is written.
 *
 * The types: AccessDescription, AlgorithmIdentifier, Any, Attribute, AttributeTypeAndValue, AuthorityInfoAccessSyntax, AuthorityKeyIdentifier, BaseCrlNumber,
 * BasicConstraints, BitString, BmpString, CertPathControls, CertPolicies, CertReq, CertReqInfo, Certificate, CertificateIssuer, CertificateList,
 * CertificatePolicies, CrlDistributionPoints, CrlNumber, CrlReason, DirectoryString, DisplayText, DistributionPoint, DistributionPointName, EdiPartyName,
 * ExtendedKeyUsage, Extension, ExtensionReq, Extensions, FreshestCrl, GeneralName, GeneralNames, GeneralSubtree, GeneralizedTime, HardwareModuleName,
 * Ia5String, InhibitAnyPolicy, Int, IssuerAltName, IssuingDistributionPoint, KeyUsage, Name, NameConstraints, NoticeReference, ObjectIdentifier, OctetString,
 * OtherName, PkiPath, PolicyConstraints, PolicyInformation, PolicyMapping, PolicyMappings, PolicyQualifierInfo, PrintableString, PrivateKeyUsagePeriod,
 * RdnSequence, Reasons, RelativeDistinguishedName, RevokedCert, SerialNumber, SignedCertificateTimestampList, SubjectAltName, SubjectDirectoryAttributes,
 * SubjectInfoAccessSyntax, SubjectKeyIdentifier, SubjectPublicKeyInfo, TbsCertList, TbsCertificate, TeletexString, Time, TrustAnchorChoice, TrustAnchorInfo,
 * Uint, UserNotice, UtcTime, Utf8String, Validity, Version, VisibleString, bool, u128, u16, u32, u64, u8.
 *
 * Answers X509_OK, X509_ROOM, X509_MEMORY, X509_OVERLENGTH, X509_MALFORMED, X509_FAILED. */
x509_status x509_reencode(const uint8_t *name, size_t name_len, uint32_t profile, const uint8_t *in, size_t len,
                          uint8_t *out, size_t room, size_t *written);

/* X509_OK exactly where the bytes are one certificate, CRL or CSR (PKCS #10 request), with nothing after it. Certificates and CRLs are checked
 * under the rules of RFC 5280: a serial number has at most 21 content octets. Dates are from 1970 on, as said above. Whether a date is past,
 * signatures, trust, and the values of extensions aren't checked. No value is made, and no memory is taken.
 * Answers X509_OK, X509_OVERLENGTH, X509_MALFORMED. */
x509_status x509_certificate_check(const uint8_t *in, size_t len);
x509_status x509_crl_check(const uint8_t *in, size_t len);
x509_status x509_request_check(const uint8_t *in, size_t len);

/* Decodes a certificate under RFC 5280, and encodes it again, as x509_reencode does with "Certificate" under X509_RFC5280: a date of the validity
 * that is a GeneralizedTime before 2050 becomes a UTCTime, so the signed bytes are others then. Under X509_RAW that call gives the same bytes.
 * Answers X509_OK, X509_ROOM, X509_MEMORY, X509_OVERLENGTH, X509_MALFORMED. */
x509_status x509_certificate_reencode(const uint8_t *in, size_t len, uint8_t *out, size_t room, size_t *written);

/* Decodes a name, and writes its text (RFC 4514, UTF-8, no zero at the end). The octets 00 to 1F and 7F of values are escaped, such as \1b; the
 * control characters U+0080 to U+009F stand as they are.
 * Answers X509_OK, X509_ROOM, X509_MEMORY, X509_OVERLENGTH, X509_MALFORMED. */
x509_status x509_name_text(const uint8_t *in, size_t len, uint8_t *out, size_t room, size_t *written);

/* Reads the text of a name (UTF-8), and writes the name's DER encoding. X509_FAILED where it is a bad text, X509_SET_DUPLICATE where an RDN has
 * one attribute twice, X509_OVERLENGTH where what it says is too long. The empty text is that of the empty name.
 * Answers X509_OK, X509_ROOM, X509_MEMORY, X509_OVERLENGTH, X509_FAILED, X509_SET_DUPLICATE. */
x509_status x509_name_from_text(const uint8_t *text, size_t len, uint8_t *out, size_t room, size_t *written);

/* Where the bytes stand that the signature of a certificate, a CRL or a CSR is over: the first element of the outer SEQUENCE, if it is a
 * SEQUENCE. Neither is decoded any further. X509_MALFORMED else, and also where bytes follow the outer SEQUENCE, or where there are more than
 * 268,435,455 bytes. It takes no memory.
 * Answers X509_OK, X509_MALFORMED. */
x509_status x509_signed_slice(const uint8_t *in, size_t len, x509_span *part);

/* ---- object identifiers and algorithms
 *
 * Object identifiers by their content octets, as the calls take them and say where they stand: a call takes one by its bytes, the constant as a
 * `const uint8_t *`, and its length, as sizeof(X509_OID_KEY_USAGE) - 1. */

/* Of extensions (RFC 5280 4.2, 5.2, 5.3; RFC 3280 4.2.1.4; RFC 6960 4.2.2.2.1; RFC 6962 3.1, 3.3; RFC 7633). */
#define X509_OID_SUBJECT_DIRECTORY_ATTRIBUTES "\x55\x1d\x09" /* 2.5.29.9 */
#define X509_OID_SUBJECT_KEY_IDENTIFIER "\x55\x1d\x0e" /* 2.5.29.14 */
#define X509_OID_KEY_USAGE "\x55\x1d\x0f" /* 2.5.29.15 */
#define X509_OID_PRIVATE_KEY_USAGE_PERIOD "\x55\x1d\x10" /* 2.5.29.16 */
#define X509_OID_SUBJECT_ALT_NAME "\x55\x1d\x11" /* 2.5.29.17 */
#define X509_OID_ISSUER_ALT_NAME "\x55\x1d\x12" /* 2.5.29.18 */
#define X509_OID_BASIC_CONSTRAINTS "\x55\x1d\x13" /* 2.5.29.19 */
#define X509_OID_CRL_NUMBER "\x55\x1d\x14" /* 2.5.29.20 */
#define X509_OID_CRL_REASON "\x55\x1d\x15" /* 2.5.29.21 */
#define X509_OID_INVALIDITY_DATE "\x55\x1d\x18" /* 2.5.29.24 */
#define X509_OID_DELTA_CRL_INDICATOR "\x55\x1d\x1b" /* 2.5.29.27 */
#define X509_OID_ISSUING_DISTRIBUTION_POINT "\x55\x1d\x1c" /* 2.5.29.28 */
#define X509_OID_CERTIFICATE_ISSUER "\x55\x1d\x1d" /* 2.5.29.29 */
#define X509_OID_NAME_CONSTRAINTS "\x55\x1d\x1e" /* 2.5.29.30 */
#define X509_OID_CRL_DISTRIBUTION_POINTS "\x55\x1d\x1f" /* 2.5.29.31 */
#define X509_OID_CERTIFICATE_POLICIES "\x55\x1d\x20" /* 2.5.29.32 */
#define X509_OID_POLICY_MAPPINGS "\x55\x1d\x21" /* 2.5.29.33 */
#define X509_OID_AUTHORITY_KEY_IDENTIFIER "\x55\x1d\x23" /* 2.5.29.35 */
#define X509_OID_POLICY_CONSTRAINTS "\x55\x1d\x24" /* 2.5.29.36 */
#define X509_OID_EXTENDED_KEY_USAGE "\x55\x1d\x25" /* 2.5.29.37 */
#define X509_OID_FRESHEST_CRL "\x55\x1d\x2e" /* 2.5.29.46 */
#define X509_OID_INHIBIT_ANY_POLICY "\x55\x1d\x36" /* 2.5.29.54 */
#define X509_OID_AUTHORITY_INFO_ACCESS "\x2b\x06\x01\x05\x05\x07\x01\x01" /* 1.3.6.1.5.5.7.1.1 */
#define X509_OID_SUBJECT_INFO_ACCESS "\x2b\x06\x01\x05\x05\x07\x01\x0b" /* 1.3.6.1.5.5.7.1.11 */
#define X509_OID_TLS_FEATURE "\x2b\x06\x01\x05\x05\x07\x01\x18" /* 1.3.6.1.5.5.7.1.24 */
#define X509_OID_OCSP_NO_CHECK "\x2b\x06\x01\x05\x05\x07\x30\x01\x05" /* 1.3.6.1.5.5.7.48.1.5 */
#define X509_OID_SIGNED_CERTIFICATE_TIMESTAMPS "\x2b\x06\x01\x04\x01\xd6\x79\x02\x04\x02" /* 1.3.6.1.4.1.11129.2.4.2 */
#define X509_OID_PRECERT_POISON "\x2b\x06\x01\x04\x01\xd6\x79\x02\x04\x03" /* 1.3.6.1.4.1.11129.2.4.3 */

/* Of purposes (RFC 5280 4.2.1.12), means of access (4.2.2.1) and policies (4.2.1.4). */
#define X509_OID_SERVER_AUTH "\x2b\x06\x01\x05\x05\x07\x03\x01" /* 1.3.6.1.5.5.7.3.1 */
#define X509_OID_CLIENT_AUTH "\x2b\x06\x01\x05\x05\x07\x03\x02" /* 1.3.6.1.5.5.7.3.2 */
#define X509_OID_CODE_SIGNING "\x2b\x06\x01\x05\x05\x07\x03\x03" /* 1.3.6.1.5.5.7.3.3 */
#define X509_OID_EMAIL_PROTECTION "\x2b\x06\x01\x05\x05\x07\x03\x04" /* 1.3.6.1.5.5.7.3.4 */
#define X509_OID_TIME_STAMPING "\x2b\x06\x01\x05\x05\x07\x03\x08" /* 1.3.6.1.5.5.7.3.8 */
#define X509_OID_OCSP_SIGNING "\x2b\x06\x01\x05\x05\x07\x03\x09" /* 1.3.6.1.5.5.7.3.9 */
#define X509_OID_ANY_EXTENDED_KEY_USAGE "\x55\x1d\x25\x00" /* 2.5.29.37.0 */
#define X509_OID_OCSP "\x2b\x06\x01\x05\x05\x07\x30\x01" /* 1.3.6.1.5.5.7.48.1 */
#define X509_OID_CA_ISSUERS "\x2b\x06\x01\x05\x05\x07\x30\x02" /* 1.3.6.1.5.5.7.48.2 */
#define X509_OID_ANY_POLICY "\x55\x1d\x20\x00" /* 2.5.29.32.0 */
#define X509_OID_CPS "\x2b\x06\x01\x05\x05\x07\x02\x01" /* 1.3.6.1.5.5.7.2.1 */
#define X509_OID_USER_NOTICE "\x2b\x06\x01\x05\x05\x07\x02\x02" /* 1.3.6.1.5.5.7.2.2 */

/* Of attributes of names (RFC 5280 appendix A.1) and of CSRs (RFC 2985 5.4). */
#define X509_OID_COMMON_NAME "\x55\x04\x03" /* 2.5.4.3 */
#define X509_OID_SERIAL_NUMBER "\x55\x04\x05" /* 2.5.4.5 */
#define X509_OID_COUNTRY "\x55\x04\x06" /* 2.5.4.6 */
#define X509_OID_LOCALITY "\x55\x04\x07" /* 2.5.4.7 */
#define X509_OID_STATE_OR_PROVINCE "\x55\x04\x08" /* 2.5.4.8 */
#define X509_OID_ORGANIZATION "\x55\x04\x0a" /* 2.5.4.10 */
#define X509_OID_ORGANIZATIONAL_UNIT "\x55\x04\x0b" /* 2.5.4.11 */
#define X509_OID_EMAIL_ADDRESS "\x2a\x86\x48\x86\xf7\x0d\x01\x09\x01" /* 1.2.840.113549.1.9.1 */
#define X509_OID_DOMAIN_COMPONENT "\x09\x92\x26\x89\x93\xf2\x2c\x64\x01\x19" /* 0.9.2342.19200300.100.1.25 */
#define X509_OID_CHALLENGE_PASSWORD "\x2a\x86\x48\x86\xf7\x0d\x01\x09\x07" /* 1.2.840.113549.1.9.7 */
#define X509_OID_EXTENSION_REQUEST "\x2a\x86\x48\x86\xf7\x0d\x01\x09\x0e" /* 1.2.840.113549.1.9.14 */

/* Signature algorithms, each a whole AlgorithmIdentifier in DER, with its parameters, for the calls of building. */
#define X509_ALGORITHM_RSA_SHA256 "\x30\x0d\x06\x09\x2a\x86\x48\x86\xf7\x0d\x01\x01\x0b\x05\x00" /* RFC 4055 5 */
#define X509_ALGORITHM_RSA_SHA384 "\x30\x0d\x06\x09\x2a\x86\x48\x86\xf7\x0d\x01\x01\x0c\x05\x00"
#define X509_ALGORITHM_RSA_SHA512 "\x30\x0d\x06\x09\x2a\x86\x48\x86\xf7\x0d\x01\x01\x0d\x05\x00"
#define X509_ALGORITHM_ECDSA_SHA256 "\x30\x0a\x06\x08\x2a\x86\x48\xce\x3d\x04\x03\x02" /* RFC 5758 3.2 */
#define X509_ALGORITHM_ECDSA_SHA384 "\x30\x0a\x06\x08\x2a\x86\x48\xce\x3d\x04\x03\x03"
#define X509_ALGORITHM_ECDSA_SHA512 "\x30\x0a\x06\x08\x2a\x86\x48\xce\x3d\x04\x03\x04"
#define X509_ALGORITHM_ED25519 "\x30\x05\x06\x03\x2b\x65\x70" /* RFC 8410 3 */
#define X509_ALGORITHM_ED448 "\x30\x05\x06\x03\x2b\x65\x71"

/* ---- certificates */

/* Each span is a whole element, with its identifier and length octets. */
typedef struct {
    uint32_t version;                  /* 1, 2 or 3 */
    x509_span serial_number;           /* an INTEGER */
    x509_span issuer;                  /* a Name */
    x509_span subject;                 /* a Name */
    x509_span subject_public_key_info; /* the public key and its algorithm */
    x509_span extensions;              /* the SEQUENCE of extensions, from its 30 on, within the tag [3]; 0 and 0 where absent */
    uint64_t not_before;
    uint64_t not_after;
    x509_span inner_algorithm;         /* the algorithm within the signed part, which is to be that of its signature (RFC 5280 4.1.1.2); that isn't checked */
    x509_span issuer_unique_id;        /* the octets of the bits of the issuer's unique identifier (RFC 5280 4.1.2.8); 0 and 0 where absent */
    uint32_t issuer_unused_bits;       /* how many bits of the last of these octets are unused, 0 to 7 */
    x509_span subject_unique_id;       /* the same of the subject's unique identifier */
    uint32_t subject_unused_bits;
} x509_certificate;

/* Checks a certificate under RFC 5280, and says what it holds and where. No memory is taken.
 * Answers X509_OK, X509_OVERLENGTH, X509_MALFORMED. */
x509_status x509_certificate_view(const uint8_t *in, size_t len, x509_certificate *view);

typedef struct {
    uint32_t critical; /* 1 or 0 */
    x509_span value;   /* what the OCTET STRING holds: the DER encoding of the extension's value, which isn't decoded */
} x509_extension;

/* Checks a certificate under RFC 5280, and finds its extension with an OID, given by its content octets, such as "\x55\x1d\x0f" for 2.5.29.15.
 * X509_ABSENT where there is none, X509_REPEATED where there are two or more. Else refused as x509_certificate_check is. It takes no memory.
 * Answers X509_OK, X509_OVERLENGTH, X509_MALFORMED, X509_ABSENT, X509_REPEATED. */
x509_status x509_certificate_extension(const uint8_t *in, size_t len, const uint8_t *oid, size_t oid_len, x509_extension *found);

/* ---- values of extensions
 *
 * These calls take the bytes of an extension's value, as `value` of x509_extension, and say what it holds, so that no caller has to decode DER.
 *
 * The calls that end in _next walk over the members of a list, one a call. `value[0..len)` is the whole list, one element with nothing after it.
 * `*at` is 0 to begin. X509_OK fills in the next member and moves `*at` past it; X509_ABSENT at the end of the list, and `*at` is unchanged; so each member
 * comes once, in order. X509_MALFORMED where the bytes aren't one element with the list's tag, where no member stands at `*at`, or where `*at` is neither 0
 * nor a place in the list's content. Any other `*at` than 0 and what the last call left over the same bytes means what stands there. A member that can't be
 * decoded is refused when the walk comes to it: whoever wants all or nothing goes over the list once before, or asks x509_reencode with the type's name.
 * The cost of a step depends on the member, not on the list. Places are offsets in `value`. */

typedef struct {
    x509_span oid;     /* the content octets of its OID, such as "\x55\x1d\x0f" for 2.5.29.15 */
    uint32_t critical; /* 1 or 0 */
    x509_span value;   /* what the OCTET STRING holds: the DER encoding of the extension's value, which isn't decoded */
} x509_extension_entry;

/* The extensions of a certificate (`extensions` of its view), of a CRL or of a CSR, one after the other.
 * Answers X509_OK, X509_MEMORY, X509_OVERLENGTH, X509_MALFORMED, X509_ABSENT. */
x509_status x509_extensions_next(const uint8_t *value, size_t len, size_t *at, x509_extension_entry *found);

/* Key usages (RFC 5280 4.2.1.3): the named bit n as 1 << n. */
#define X509_KEY_USAGE_DIGITAL_SIGNATURE 0x001
#define X509_KEY_USAGE_NON_REPUDIATION 0x002 /* also called contentCommitment */
#define X509_KEY_USAGE_KEY_ENCIPHERMENT 0x004
#define X509_KEY_USAGE_DATA_ENCIPHERMENT 0x008
#define X509_KEY_USAGE_KEY_AGREEMENT 0x010
#define X509_KEY_USAGE_KEY_CERT_SIGN 0x020
#define X509_KEY_USAGE_CRL_SIGN 0x040
#define X509_KEY_USAGE_ENCIPHER_ONLY 0x080
#define X509_KEY_USAGE_DECIPHER_ONLY 0x100

/* Decodes a KeyUsage (2.5.29.15), and says its usages, a sum of the numbers above. X509_MALFORMED also where a bit is set that has no name. It takes no memory.
 * Answers X509_OK, X509_OVERLENGTH, X509_MALFORMED. */
x509_status x509_key_usage(const uint8_t *value, size_t len, uint32_t *uses);

typedef struct {
    uint32_t ca;           /* 1 where the subject is a certification authority, else 0 */
    uint32_t has_path_len; /* 1 where there is a path length constraint, else 0 */
    uint32_t path_len;     /* how many intermediate certificates may follow at most, 0 to 255; 0 where there is no constraint */
} x509_basic_constraints_view;

/* Decodes a BasicConstraints (2.5.29.19), and says what it holds. X509_MALFORMED also for a path length above 255. It takes no memory.
 * Answers X509_OK, X509_OVERLENGTH, X509_MALFORMED. */
x509_status x509_basic_constraints(const uint8_t *value, size_t len, x509_basic_constraints_view *view);

typedef struct {
    uint32_t has_not_before; /* 1 where a first moment is said, else 0 */
    uint64_t not_before;     /* 0 where it isn't said */
    uint32_t has_not_after;  /* 1 where a last moment is said, else 0 */
    uint64_t not_after;      /* 0 where it isn't said */
} x509_private_key_usage_period_view;

/* Reads a PrivateKeyUsagePeriod (2.5.29.16), and says in which period the private key may sign. It takes no memory.
 * Answers X509_OK, X509_OVERLENGTH, X509_MALFORMED. */
x509_status x509_private_key_usage_period(const uint8_t *value, size_t len, x509_private_key_usage_period_view *view);

/* Kinds of general names, by their tag numbers (RFC 5280 4.2.1.6). An X.400 address, 3, is X509_MALFORMED. */
#define X509_GENERAL_NAME_OTHER 0
#define X509_GENERAL_NAME_EMAIL 1
#define X509_GENERAL_NAME_DNS 2
#define X509_GENERAL_NAME_DIRECTORY 4
#define X509_GENERAL_NAME_EDI_PARTY 5
#define X509_GENERAL_NAME_URI 6
#define X509_GENERAL_NAME_IP 7
#define X509_GENERAL_NAME_REGISTERED_ID 8

typedef struct {
    uint32_t kind;     /* one of these numbers */
    x509_span element; /* the whole name */
    x509_span content; /* what it holds: the ASCII octets of an e-mail address, a DNS name or a URI, of which NUL and controls may be some; the octets of an
                        * address, of which there may be any number (4 are of IPv4, 16 of IPv6); a whole Name, for x509_name_text; the content octets of a
                        * registered OID; of the other two kinds their fields */
    x509_span type_id; /* of an otherName the content octets of its type's OID; else 0 and 0 */
    x509_span value;   /* of an otherName its value, a whole element; else 0 and 0 */
    x509_span name_assigner; /* of an ediPartyName the name of its assigner, a whole element, for x509_string_text; 0 and 0 where it has none, and else */
    x509_span party_name;    /* of an ediPartyName the name of the party, a whole element, for x509_string_text; else 0 and 0 */
} x509_general_name;

/* The names of a GeneralNames, one after the other, such as those of a SAN (2.5.29.17) or an IssuerAltName (2.5.29.18).
 * Answers X509_OK, X509_MEMORY, X509_OVERLENGTH, X509_MALFORMED, X509_ABSENT. */
x509_status x509_general_names_next(const uint8_t *value, size_t len, size_t *at, x509_general_name *found);

/* The same of a GeneralNames under an implicit tag [number] of the context-specific class, as within an AKI (2.5.29.35). X509_MALFORMED also where
 * the number is above 30.
 * Answers X509_OK, X509_MEMORY, X509_OVERLENGTH, X509_MALFORMED, X509_ABSENT. */
x509_status x509_general_names_under_next(uint32_t number, const uint8_t *value, size_t len, size_t *at, x509_general_name *found);

/* The purposes of an ExtendedKeyUsage (2.5.29.37), one after the other: the content octets of their OIDs. It takes no memory.
 * Answers X509_OK, X509_OVERLENGTH, X509_MALFORMED, X509_ABSENT. */
x509_status x509_extended_key_usage_next(const uint8_t *value, size_t len, size_t *at, x509_span *found);

/* Reads a SubjectKeyIdentifier (2.5.29.14), and says where its octets stand, of which there may be none.
 * Answers X509_OK, X509_MEMORY, X509_OVERLENGTH, X509_MALFORMED. */
x509_status x509_subject_key_identifier(const uint8_t *value, size_t len, x509_span *found);

/* Of what is left out both numbers are 0. What is there stands behind the first byte, also where it has no octets. */
typedef struct {
    x509_span key_identifier; /* the octets of the key's identifier */
    x509_span issuer;         /* the names of the issuer, a whole element, for x509_general_names_under_next with the number 1 */
    x509_span serial_number;  /* the content octets of the serial number, at most 21 */
} x509_authority_key_identifier_view;

/* Reads an AuthorityKeyIdentifier (2.5.29.35), and says where its parts stand. X509_MALFORMED also where the serial number has more than 21 content octets.
 * Answers X509_OK, X509_MEMORY, X509_OVERLENGTH, X509_MALFORMED. */
x509_status x509_authority_key_identifier(const uint8_t *value, size_t len, x509_authority_key_identifier_view *view);

typedef struct {
    x509_span method;           /* the content octets of the identifier of the means, as of 1.3.6.1.5.5.7.48.1 for OCSP */
    x509_general_name location; /* where */
} x509_access;

/* The descriptions of an AuthorityInfoAccess (1.3.6.1.5.5.7.1.1) or a SubjectInfoAccess (1.3.6.1.5.5.7.1.11), one after the other.
 * Answers X509_OK, X509_MEMORY, X509_OVERLENGTH, X509_MALFORMED, X509_ABSENT. */
x509_status x509_access_next(const uint8_t *value, size_t len, size_t *at, x509_access *found);

typedef struct {
    x509_span identifier; /* the content octets of the policy's identifier */
    x509_span qualifiers; /* what qualifies it, a whole SEQUENCE, for x509_policy_qualifiers_next; 0 and 0 where nothing does */
} x509_policy;

/* The policies of a CertificatePolicies (2.5.29.32), one after the other. A policy may come twice.
 * Answers X509_OK, X509_MEMORY, X509_OVERLENGTH, X509_MALFORMED, X509_ABSENT. */
x509_status x509_certificate_policies_next(const uint8_t *value, size_t len, size_t *at, x509_policy *found);

/* The same of a CertificatePolicies under an implicit tag [number] of the context-specific class, as within the constraints of a trust anchor.
 * X509_MALFORMED also where the number is above 30.
 * Answers X509_OK, X509_MEMORY, X509_OVERLENGTH, X509_MALFORMED, X509_ABSENT. */
x509_status x509_certificate_policies_under_next(uint32_t number, const uint8_t *value, size_t len, size_t *at, x509_policy *found);

typedef struct {
    x509_span identifier; /* the content octets of the qualifier's identifier, as of 1.3.6.1.5.5.7.2.1 for the address of a practice statement */
    x509_span qualifier;  /* a whole element, which isn't looked into; 0 and 0 where it is left out */
} x509_policy_qualifier;

/* What qualifies a policy, one after the other. The address of a practice statement, 1.3.6.1.5.5.7.2.1, is a text, for x509_string_text, and a user notice,
 * 1.3.6.1.5.5.7.2.2, is for x509_user_notice.
 * Answers X509_OK, X509_MEMORY, X509_OVERLENGTH, X509_MALFORMED, X509_ABSENT. */
x509_status x509_policy_qualifiers_next(const uint8_t *value, size_t len, size_t *at, x509_policy_qualifier *found);

/* Of what is left out both numbers are 0. */
typedef struct {
    x509_span organization;   /* who wrote the notices that are referred to, a whole element, for x509_string_text */
    x509_span notice_numbers; /* their numbers, a whole SEQUENCE, for x509_numbers_next */
    x509_span explicit_text;  /* the text of the notice, a whole element, for x509_string_text */
} x509_user_notice_view;

/* Reads a UserNotice (RFC 5280 4.2.1.4), and says where its parts stand.
 * Answers X509_OK, X509_MEMORY, X509_OVERLENGTH, X509_MALFORMED. */
x509_status x509_user_notice(const uint8_t *value, size_t len, x509_user_notice_view *view);

/* The numbers of a SEQUENCE OF INTEGER, one after the other, as those of a reference to notices, of TLS features (1.3.6.1.5.5.7.1.24; RFC 7633 4), or
 * the parameters of a DSA key (RFC 3279 2.3.2): the content octets of their INTEGERs, the most significant octet first, behind a 00 where the first bit
 * would be 1, as x509_serial_decimal takes them. X509_MALFORMED also for a number below 0.
 * Answers X509_OK, X509_MEMORY, X509_OVERLENGTH, X509_MALFORMED, X509_ABSENT. */
x509_status x509_numbers_next(const uint8_t *value, size_t len, size_t *at, x509_span *found);

typedef struct {
    x509_span issuer_policy;  /* the content octets of the identifier in the issuer's domain */
    x509_span subject_policy; /* those of the identifier in the subject's domain */
} x509_policy_mapping;

/* The pairs of a PolicyMappings (2.5.29.33), one after the other. It takes no memory.
 * Answers X509_OK, X509_OVERLENGTH, X509_MALFORMED, X509_ABSENT. */
x509_status x509_policy_mappings_next(const uint8_t *value, size_t len, size_t *at, x509_policy_mapping *found);

typedef struct {
    uint32_t has_require_explicit_policy; /* 1 where an explicit policy is asked for, else 0 */
    uint32_t require_explicit_policy;     /* after how many more certificates; 0 where it isn't asked for */
    uint32_t has_inhibit_policy_mapping;  /* 1 where policies aren't to be mapped any more, else 0 */
    uint32_t inhibit_policy_mapping;      /* after how many more certificates; 0 where they may be mapped */
} x509_policy_constraints_view;

/* Reads a PolicyConstraints (2.5.29.36), and says what it asks for. X509_MALFORMED also for a number above 4,294,967,295. It takes no memory.
 * Answers X509_OK, X509_OVERLENGTH, X509_MALFORMED. */
x509_status x509_policy_constraints(const uint8_t *value, size_t len, x509_policy_constraints_view *view);

/* Reads an InhibitAnyPolicy (2.5.29.54), and says after how many more certificates any policy isn't taken. X509_MALFORMED also for a number above
 * 4,294,967,295. It takes no memory.
 * Answers X509_OK, X509_OVERLENGTH, X509_MALFORMED. */
x509_status x509_inhibit_any_policy(const uint8_t *value, size_t len, uint32_t *certificates);

/* Reasons for which certificates are revoked, as sets (RFC 5280 4.2.1.13): the named bit n as 1 << n. */
#define X509_REASONS_UNUSED 0x001
#define X509_REASONS_KEY_COMPROMISE 0x002
#define X509_REASONS_CA_COMPROMISE 0x004
#define X509_REASONS_AFFILIATION_CHANGED 0x008
#define X509_REASONS_SUPERSEDED 0x010
#define X509_REASONS_CESSATION_OF_OPERATION 0x020
#define X509_REASONS_CERTIFICATE_HOLD 0x040
#define X509_REASONS_PRIVILEGE_WITHDRAWN 0x080
#define X509_REASONS_AA_COMPROMISE 0x100

/* Of what is left out both numbers of a span are 0. */
typedef struct {
    x509_span full_name;     /* the names of the point, a whole element, for x509_general_names_under_next with the number 0 */
    x509_span relative_name; /* its name relative to the issuer of the CRL, a whole element, for x509_relative_name_under_next with the number 1 */
    uint32_t has_reasons;    /* 1 where it is said for which reasons certificates are revoked there, else 0 */
    uint32_t reasons;        /* a sum of the numbers above; 0 where it isn't said, which means all */
    x509_span crl_issuer;    /* the names of the issuer of the CRL, a whole element, for x509_general_names_under_next with the number 2 */
} x509_distribution_point;

/* The points of a CRLDistributionPoints (2.5.29.31) or a FreshestCRL (2.5.29.46), one after the other.
 * Answers X509_OK, X509_MEMORY, X509_OVERLENGTH, X509_MALFORMED, X509_ABSENT. */
x509_status x509_distribution_points_next(const uint8_t *value, size_t len, size_t *at, x509_distribution_point *found);

/* The spans are as those of x509_distribution_point; what is said or not is 1 or 0. */
typedef struct {
    x509_span full_name;
    x509_span relative_name;
    uint32_t only_contains_user_certs;
    uint32_t only_contains_ca_certs;
    uint32_t has_only_some_reasons;
    uint32_t only_some_reasons; /* a sum of the numbers above; 0 where none are said, which means all */
    uint32_t indirect_crl;
    uint32_t only_contains_attribute_certs;
} x509_issuing_distribution_point_view;

/* Reads an IssuingDistributionPoint (2.5.29.28), and says of what certificates the CRL speaks.
 * Answers X509_OK, X509_MEMORY, X509_OVERLENGTH, X509_MALFORMED. */
x509_status x509_issuing_distribution_point(const uint8_t *value, size_t len, x509_issuing_distribution_point_view *view);

/* Reads a CRLNumber (2.5.29.20), or the BaseCRLNumber of a delta CRL (2.5.29.27), and says where the content octets of its INTEGER stand: the number, the most
 * significant octet first, behind a 00 where the first bit would be 1. X509_MALFORMED also for a number below 0.
 * Answers X509_OK, X509_MEMORY, X509_OVERLENGTH, X509_MALFORMED. */
x509_status x509_crl_number(const uint8_t *value, size_t len, x509_span *found);
x509_status x509_base_crl_number(const uint8_t *value, size_t len, x509_span *found);

/* Reads the reason code of an entry of a CRL (2.5.29.21), and says its number (RFC 5280 5.3.1): 0 to 10, but not 7. It takes no memory.
 * Answers X509_OK, X509_OVERLENGTH, X509_MALFORMED. */
x509_status x509_crl_reason(const uint8_t *value, size_t len, uint32_t *reason);

/* Reads the invalidity date of an entry of a CRL (2.5.29.24), since when the certificate is suspected to be invalid. It takes no memory.
 * Answers X509_OK, X509_OVERLENGTH, X509_MALFORMED. */
x509_status x509_invalidity_date(const uint8_t *value, size_t len, uint64_t *moment);

/* Of what is left out both numbers are 0. */
typedef struct {
    x509_span permitted; /* the permitted subtrees, a whole element, for x509_subtrees_under_next with the number 0 */
    x509_span excluded;  /* the excluded subtrees, a whole element, for x509_subtrees_under_next with the number 1 */
} x509_name_constraints_view;

/* Reads a NameConstraints (2.5.29.30), and says where its subtrees stand.
 * Answers X509_OK, X509_MEMORY, X509_OVERLENGTH, X509_MALFORMED. */
x509_status x509_name_constraints(const uint8_t *value, size_t len, x509_name_constraints_view *view);

typedef struct {
    x509_general_name base; /* the name at the root; of an address the octets of a mask stand behind it */
    uint32_t minimum;       /* how far below the root the subtree begins: 0 in certificates of RFC 5280, which isn't looked at here */
    uint32_t has_maximum;   /* 1 where it ends somewhere, which RFC 5280 doesn't allow, else 0 */
    uint32_t maximum;       /* where; 0 where it doesn't */
} x509_subtree;

/* The subtrees of a list of them under an implicit tag [number] of the context-specific class, one after the other. X509_MALFORMED also where the number is
 * above 30, and for a minimum or maximum above 4,294,967,295.
 * Answers X509_OK, X509_MEMORY, X509_OVERLENGTH, X509_MALFORMED, X509_ABSENT. */
x509_status x509_subtrees_under_next(uint32_t number, const uint8_t *value, size_t len, size_t *at, x509_subtree *found);

/* Writes the dotted text of the OID with these content octets, such as "2.5.29.15" (no zero at the end). X509_MALFORMED where no OID has them (X.690 8.19),
 * where there are more than 39, or where a subidentifier is above 4,294,967,295. Buffers are as said under whole values.
 * Answers X509_OK, X509_ROOM, X509_MEMORY, X509_MALFORMED. */
x509_status x509_oid_text(const uint8_t *oid, size_t oid_len, uint8_t *out, size_t room, size_t *written);

/* Writes the content octets of the OID with this dotted text, at most 39. X509_FAILED where it is a bad text, that of no OID. It takes no memory.
 * Answers X509_OK, X509_ROOM, X509_FAILED. */
x509_status x509_oid_from_text(const uint8_t *text, size_t len, uint8_t *out, size_t room, size_t *written);

/* ---- values of extensions, encoded
 *
 * These calls write the DER encoding of a value, as `value` of x509_extension_encode holds it, of what the caller says of it; the calls above say the same of
 * it again. A view is filled in as those calls fill it in: of what is left out both numbers are 0. X509_VALUE where no value is said, as by a 2 where a 1 or a 0
 * has to be, or one that RFC 5280 doesn't allow. Buffers are as said under whole values. */

/* Writes a BasicConstraints (RFC 5280 4.2.1.9). X509_VALUE also for a path length above 255, or where there is one and `ca` is 0. It takes no memory.
 * Answers X509_OK, X509_ROOM, X509_VALUE. */
x509_status x509_basic_constraints_encode(const x509_basic_constraints_view *view, uint8_t *out, size_t room, size_t *written);

/* Writes a KeyUsage (4.2.1.3) of a sum of the numbers above. X509_VALUE where it is 0, has a bit without a name, or has encipherOnly or decipherOnly without
 * keyAgreement. It takes no memory.
 * Answers X509_OK, X509_ROOM, X509_VALUE. */
x509_status x509_key_usage_encode(uint32_t uses, uint8_t *out, size_t room, size_t *written);

/* Writes an ExtendedKeyUsage (4.2.1.12) of `count` purposes: the content octets of their OIDs stand one after the other in oids[0..oids_len), and lens[i] is the
 * length of the i-th. X509_VALUE where there is none, X509_MALFORMED where no OID has the content octets of one, X509_FAILED where the lengths don't add up to
 * `oids_len`; where several of these are so, any of their answers may come.
 * Answers X509_OK, X509_ROOM, X509_MEMORY, X509_OVERLENGTH, X509_MALFORMED, X509_FAILED, X509_VALUE. */
x509_status x509_extended_key_usage_encode(const uint8_t *oids, size_t oids_len, const size_t *lens, size_t count, uint8_t *out, size_t room, size_t *written);

/* Writes a SubjectKeyIdentifier (4.2.1.2) of these octets, of which there may be none.
 * Answers X509_OK, X509_ROOM, X509_MEMORY, X509_OVERLENGTH. */
x509_status x509_subject_key_identifier_encode(const uint8_t *identifier, size_t len, uint8_t *out, size_t room, size_t *written);

/* Writes an AuthorityKeyIdentifier (4.2.1.1): with these octets of the identifier of the issuer's key where `has_key_identifier` isn't 0, and with the names of
 * the issuer, a whole GeneralNames, and the serial number, a whole INTEGER, of a certificate of that key; where these have no bytes, they are left out.
 * X509_VALUE where one of the two alone is there, or the list of names is empty (A.2); X509_MALFORMED where they are no such encodings.
 * Answers X509_OK, X509_ROOM, X509_MEMORY, X509_OVERLENGTH, X509_MALFORMED, X509_VALUE. */
x509_status x509_authority_key_identifier_encode(uint32_t has_key_identifier, const uint8_t *key_identifier, size_t key_identifier_len, const uint8_t *issuer,
                                                 size_t issuer_len, const uint8_t *serial_number, size_t serial_number_len, uint8_t *out, size_t room,
                                                 size_t *written);

/* Writes a PolicyConstraints (4.2.1.11). X509_VALUE also where neither number is there. It takes no memory.
 * Answers X509_OK, X509_ROOM, X509_VALUE. */
x509_status x509_policy_constraints_encode(const x509_policy_constraints_view *view, uint8_t *out, size_t room, size_t *written);

/* Writes an InhibitAnyPolicy (4.2.1.14) of any number of certificates. It takes no memory.
 * Answers X509_OK, X509_ROOM. */
x509_status x509_inhibit_any_policy_encode(uint32_t certificates, uint8_t *out, size_t room, size_t *written);

/* Writes a CRLNumber (5.2.3) of the octets of the number, the most significant first, zeros in front of which are left out. A BaseCRLNumber (5.2.4) has the same
 * encoding. X509_VALUE where there are no octets, or the content of the INTEGER would have more than 20.
 * Answers X509_OK, X509_ROOM, X509_MEMORY, X509_VALUE. */
x509_status x509_crl_number_encode(const uint8_t *number, size_t len, uint8_t *out, size_t room, size_t *written);

/* Writes the reason code of an entry of a CRL (5.3.1) with this number. X509_VALUE for one that isn't 0 to 6 or 8 to 10. It takes no memory.
 * Answers X509_OK, X509_ROOM, X509_VALUE. */
x509_status x509_crl_reason_encode(uint32_t reason, uint8_t *out, size_t room, size_t *written);

/* Writes the invalidity date of an entry of a CRL (5.3.2), in seconds since 1970-01-01T00:00:00Z. X509_VALUE after the year 9999. It takes no memory.
 * Answers X509_OK, X509_ROOM, X509_VALUE. */
x509_status x509_invalidity_date_encode(uint64_t moment, uint8_t *out, size_t room, size_t *written);

/* Writes a PrivateKeyUsagePeriod (2.5.29.16). X509_VALUE also where neither moment is there, where the last is before the first, or after the year 9999. It takes no
 * memory.
 * Answers X509_OK, X509_ROOM, X509_VALUE. */
x509_status x509_private_key_usage_period_encode(const x509_private_key_usage_period_view *view, uint8_t *out, size_t room, size_t *written);

/* Writes a GeneralName (4.2.1.6) of one of the kinds above that holds these octets: the ASCII octets of an e-mail address, a DNS name or a URI; the octets of an
 * address; a whole Name; the content octets of a registered OID; of the other two kinds their fields. X509_VALUE where there is no such kind, X509_MALFORMED where
 * no name of it holds these octets, as one of a text that isn't ASCII. How a DNS name or a URI is made, and how many octets an address has, isn't looked at.
 * Answers X509_OK, X509_ROOM, X509_MEMORY, X509_OVERLENGTH, X509_MALFORMED, X509_VALUE. */
x509_status x509_general_name_encode(uint32_t kind, const uint8_t *content, size_t len, uint8_t *out, size_t room, size_t *written);

/* Writes a GeneralName that is an otherName: of the type with an OID of these content octets, and with this value, a whole element.
 * Answers X509_OK, X509_ROOM, X509_MEMORY, X509_OVERLENGTH, X509_MALFORMED. */
x509_status x509_other_name_encode(const uint8_t *type_id, size_t type_id_len, const uint8_t *value, size_t value_len, uint8_t *out, size_t room, size_t *written);

/* Writes a GeneralNames, as a SAN, an IssuerAltName or the CertificateIssuer of an entry of a CRL holds it: `names` are encodings of the names one after the other.
 * X509_VALUE where there is none, X509_MALFORMED where they are no such encodings.
 * Answers X509_OK, X509_ROOM, X509_MEMORY, X509_OVERLENGTH, X509_MALFORMED, X509_VALUE. */
x509_status x509_general_names_encode(const uint8_t *names, size_t len, uint8_t *out, size_t room, size_t *written);

/* Writes an AccessDescription (4.2.2.1): by the method with an OID of these content octets, at this location, a whole GeneralName.
 * Answers X509_OK, X509_ROOM, X509_MEMORY, X509_OVERLENGTH, X509_MALFORMED. */
x509_status x509_access_encode(const uint8_t *method, size_t method_len, const uint8_t *location, size_t location_len, uint8_t *out, size_t room, size_t *written);

/* Writes an AuthorityInfoAccess or a SubjectInfoAccess (4.2.2): encodings of its AccessDescriptions are given one after the other. X509_VALUE where there is none.
 * Answers X509_OK, X509_ROOM, X509_MEMORY, X509_OVERLENGTH, X509_MALFORMED, X509_VALUE. */
x509_status x509_info_access_encode(const uint8_t *descriptions, size_t len, uint8_t *out, size_t room, size_t *written);

/* Writes the address of a practice statement (4.2.1.4), a CPSuri, of these ASCII octets: a qualifier of the type X509_OID_CPS. How a URI is made isn't looked
 * at.
 * Answers X509_OK, X509_ROOM, X509_MEMORY, X509_OVERLENGTH, X509_MALFORMED. */
x509_status x509_cps_uri_encode(const uint8_t *uri, size_t len, uint8_t *out, size_t room, size_t *written);

/* Writes a SEQUENCE of `count` INTEGERs, as TLS features (RFC 7633 4) and a reference to notices (4.2.1.4) have them: the octets of the numbers, the most
 * significant first, stand one after the other in octets[0..octets_len), and lens[i] is how many the i-th has; zeros in front are left out. There may be no
 * number. X509_VALUE where one has no octets, else X509_FAILED where the lengths don't add up to `octets_len`.
 * Answers X509_OK, X509_ROOM, X509_MEMORY, X509_OVERLENGTH, X509_FAILED, X509_VALUE. */
x509_status x509_numbers_encode(const uint8_t *octets, size_t octets_len, const size_t *lens, size_t count, uint8_t *out, size_t room, size_t *written);

/* Writes a UserNotice (4.2.1.4): with a reference to notices of this organization with these numbers, a whole SEQUENCE of INTEGERs, and with this text. Both
 * texts are UTF-8, and are written as UTF8Strings. What has no bytes is left out; an organization has numbers, of which there may be none in the SEQUENCE.
 * X509_FAILED where a text isn't UTF-8. X509_VALUE where one has more than 200 characters, or there are numbers without an organization. X509_MALFORMED where
 * the numbers are no such encoding.
 * Answers X509_OK, X509_ROOM, X509_MEMORY, X509_OVERLENGTH, X509_MALFORMED, X509_FAILED, X509_VALUE. */
x509_status x509_user_notice_encode(const uint8_t *organization, size_t organization_len, const uint8_t *numbers, size_t numbers_len, const uint8_t *text,
                                    size_t text_len, uint8_t *out, size_t room, size_t *written);

/* Writes a PolicyQualifierInfo (4.2.1.4): of the type with an OID of these content octets, and with this qualifier, a whole element, as
 * x509_cps_uri_encode and x509_user_notice_encode write one; one without a byte is left out.
 * Answers X509_OK, X509_ROOM, X509_MEMORY, X509_OVERLENGTH, X509_MALFORMED. */
x509_status x509_policy_qualifier_encode(const uint8_t *oid, size_t oid_len, const uint8_t *qualifier, size_t qualifier_len, uint8_t *out, size_t room,
                                         size_t *written);

/* Writes a PolicyInformation (4.2.1.4): of the policy with an OID of these content octets; encodings of what qualifies it are given one after the other, or
 * there are none.
 * Answers X509_OK, X509_ROOM, X509_MEMORY, X509_OVERLENGTH, X509_MALFORMED. */
x509_status x509_policy_encode(const uint8_t *oid, size_t oid_len, const uint8_t *qualifiers, size_t qualifiers_len, uint8_t *out, size_t room, size_t *written);

/* Writes a CertificatePolicies (4.2.1.4): encodings of its policies are given one after the other. X509_VALUE where there is none, or one is there twice.
 * Answers X509_OK, X509_ROOM, X509_MEMORY, X509_OVERLENGTH, X509_MALFORMED, X509_VALUE. */
x509_status x509_certificate_policies_encode(const uint8_t *policies, size_t len, uint8_t *out, size_t room, size_t *written);

/* Writes a pair of a PolicyMappings (4.2.1.5): of a policy of the issuer's domain and one of the subject's, with OIDs of these content octets. X509_MALFORMED
 * where no OID has the content octets of one; else X509_VALUE where one is anyPolicy. It takes no memory.
 * Answers X509_OK, X509_ROOM, X509_MALFORMED, X509_VALUE. */
x509_status x509_policy_mapping_encode(const uint8_t *issuer_policy, size_t issuer_policy_len, const uint8_t *subject_policy, size_t subject_policy_len,
                                       uint8_t *out, size_t room, size_t *written);

/* Writes a PolicyMappings (4.2.1.5): encodings of its pairs are given one after the other. X509_VALUE where there is none, or one has anyPolicy.
 * Answers X509_OK, X509_ROOM, X509_MEMORY, X509_OVERLENGTH, X509_MALFORMED, X509_VALUE. */
x509_status x509_policy_mappings_encode(const uint8_t *mappings, size_t len, uint8_t *out, size_t room, size_t *written);

/* Writes an attribute of a SubjectDirectoryAttributes (4.2.1.8) or of a CSR (RFC 2986 4.1): of the type with an OID of these content octets, and with the set
 * of these values, encodings of which are given one after the other, in any order. X509_VALUE where there is none, X509_SET_DUPLICATE where two are equal.
 * Answers X509_OK, X509_ROOM, X509_MEMORY, X509_OVERLENGTH, X509_MALFORMED, X509_SET_DUPLICATE, X509_VALUE. */
x509_status x509_request_attribute_encode(const uint8_t *oid, size_t oid_len, const uint8_t *values, size_t values_len, uint8_t *out, size_t room, size_t *written);

/* Writes a SubjectDirectoryAttributes (4.2.1.8): encodings of its attributes are given one after the other. X509_VALUE where there is none. That an attribute
 * given so has a value isn't looked at.
 * Answers X509_OK, X509_ROOM, X509_MEMORY, X509_OVERLENGTH, X509_MALFORMED, X509_VALUE. */
x509_status x509_subject_directory_attributes_encode(const uint8_t *attributes, size_t len, uint8_t *out, size_t room, size_t *written);

/* Writes a SignedCertificateTimestampList (RFC 6962 3.3) of `count` serialized timestamps: their octets stand one after the other in
 * timestamps[0..timestamps_len), and lens[i] is how many the i-th has. What a timestamp says isn't looked at. X509_VALUE where there is none, or one has no
 * octets; else X509_FAILED where the lengths don't add up to `timestamps_len`; else X509_OVERLENGTH where the timestamps, each with two octets for its length,
 * have more than 65,535 octets.
 * Answers X509_OK, X509_ROOM, X509_MEMORY, X509_OVERLENGTH, X509_FAILED, X509_VALUE. */
x509_status x509_timestamps_encode(const uint8_t *timestamps, size_t timestamps_len, const size_t *lens, size_t count, uint8_t *out, size_t room, size_t *written);

/* Writes the GeneralSubtree (4.2.1.10) of all names at and below this one, a whole GeneralName. That an address is one of a network, with its mask behind it, and
 * that a DNS name has no wildcard, isn't looked at.
 * Answers X509_OK, X509_ROOM, X509_MEMORY, X509_OVERLENGTH, X509_MALFORMED. */
x509_status x509_subtree_encode(const uint8_t *base, size_t len, uint8_t *out, size_t room, size_t *written);

/* Writes a NameConstraints (4.2.1.10): encodings of the permitted subtrees are given one after the other, and of the excluded ones; a list without a byte is left
 * out. X509_VALUE where both have none.
 * Answers X509_OK, X509_ROOM, X509_MEMORY, X509_OVERLENGTH, X509_MALFORMED, X509_VALUE. */
x509_status x509_name_constraints_encode(const uint8_t *permitted, size_t permitted_len, const uint8_t *excluded, size_t excluded_len, uint8_t *out, size_t room,
                                         size_t *written);

/* Writes a DistributionPoint (4.2.1.13): with its full names, encodings of them one after the other, or its name relative to the issuer of the CRL, a whole
 * RelativeDistinguishedName; with its reasons, as x509_distribution_point says them; and with the names of the issuer of the CRL, encodings of them one after the
 * other. What has no byte is left out. X509_VALUE where there are full names and a relative one, where there is no name at all, and where the reasons aren't said, as
 * by a 2, or one has no name.
 * Answers X509_OK, X509_ROOM, X509_MEMORY, X509_OVERLENGTH, X509_MALFORMED, X509_VALUE. */
x509_status x509_distribution_point_encode(const uint8_t *full_name, size_t full_name_len, const uint8_t *relative_name, size_t relative_name_len,
                                           uint32_t has_reasons, uint32_t reasons, const uint8_t *crl_issuer, size_t crl_issuer_len, uint8_t *out, size_t room,
                                           size_t *written);

/* Writes a CRLDistributionPoints (4.2.1.13) or a FreshestCRL (4.2.1.15): encodings of the points are given one after the other. X509_VALUE where there is none.
 * Answers X509_OK, X509_ROOM, X509_MEMORY, X509_OVERLENGTH, X509_MALFORMED, X509_VALUE. */
x509_status x509_distribution_points_encode(const uint8_t *points, size_t len, uint8_t *out, size_t room, size_t *written);

/* Writes an IssuingDistributionPoint (5.2.5): with its name as x509_distribution_point_encode takes it, and with what the view says beside its spans, which aren't
 * read. X509_VALUE also where nothing is said, or the CRL speaks of more than one of users, authorities and attribute certificates alone.
 * Answers X509_OK, X509_ROOM, X509_MEMORY, X509_OVERLENGTH, X509_MALFORMED, X509_VALUE. */
x509_status x509_issuing_distribution_point_encode(const x509_issuing_distribution_point_view *view, const uint8_t *full_name, size_t full_name_len,
                                                   const uint8_t *relative_name, size_t relative_name_len, uint8_t *out, size_t room, size_t *written);

/* Writes the element with this identifier octet, as 0x05 of a NULL, and these content octets (X.690 8.1.2.2, 8.1.3), for what no call above encodes. That the
 * type has a value with such content isn't looked at. X509_VALUE where no element begins with the octet here: one of the universal class but 0x01 to 0x06, 0x09,
 * 0x0a, 0x0c, 0x0d, 0x12 to 0x1c, 0x1e, 0x30 and 0x31, one of another class whose low five bits are 31, or a number above 255. It takes no memory.
 * Answers X509_OK, X509_ROOM, X509_OVERLENGTH, X509_VALUE. */
x509_status x509_element_encode(uint32_t identifier, const uint8_t *content, size_t len, uint8_t *out, size_t room, size_t *written);

/* ---- names
 *
 * A Name is a list of relative names, and each of these a set of attributes; these calls walk over both, as those under payloads do over lists. */

/* The relative names of a Name, one after the other: where each stands, a whole element. A relative name with two equal attributes, or with attributes out
 * of order, is X509_MALFORMED.
 * Answers X509_OK, X509_MEMORY, X509_OVERLENGTH, X509_MALFORMED, X509_ABSENT. */
x509_status x509_name_next(const uint8_t *name, size_t len, size_t *at, x509_span *found);

typedef struct {
    x509_span oid;     /* the content octets of the identifier of its type, as "\x55\x04\x03" for 2.5.4.3, CN */
    uint32_t tag;      /* the identifier octet of its value, as 0x0c for UTF8String */
    x509_span element; /* its value, a whole element */
    x509_span content; /* the content octets of its value, which aren't looked at: in a UTF8String they needn't be UTF-8 */
} x509_attribute;

/* The attributes of a relative name, one after the other. Their places are offsets in `rdn`. Whether they are in order, and all different, isn't looked at
 * here, but by x509_name_next.
 * Answers X509_OK, X509_MEMORY, X509_OVERLENGTH, X509_MALFORMED, X509_ABSENT. */
x509_status x509_relative_name_next(const uint8_t *rdn, size_t len, size_t *at, x509_attribute *found);

/* The same of a relative name under an implicit tag [number] of the context-specific class, as within a distribution point. X509_MALFORMED also where the
 * number is above 30.
 * Answers X509_OK, X509_MEMORY, X509_OVERLENGTH, X509_MALFORMED, X509_ABSENT. */
x509_status x509_relative_name_under_next(uint32_t number, const uint8_t *rdn, size_t len, size_t *at, x509_attribute *found);

/* Decodes a Name, and finds its first attribute of a type, in the order of the encoding. The OID of the type is given by its content octets, such as
 * "\x55\x04\x03" for 2.5.4.3, CN. Places are offsets in `name`. X509_ABSENT where there is none. x509_name_next walks over all of them.
 * Answers X509_OK, X509_MEMORY, X509_OVERLENGTH, X509_MALFORMED, X509_ABSENT. */
x509_status x509_name_find(const uint8_t *name, size_t len, const uint8_t *oid, size_t oid_len, x509_attribute *found);

/* Decodes two Names, and says whether they match (RFC 5280 7.1): `*matches` is 1 where they do, else 0. They have as many relative names, in order, and in each
 * as many attributes, in any order, each with a partner of its own of the same type whose value is the same element or the same text. Texts are
 * PrintableString, UTF8String, BMPString, UniversalString and IA5String, and a TeletexString of ASCII, compared without regard to case, to spaces at their
 * ends and to how many stand within, as RFC 4518 prepares them, with the data of Unicode 18; a text with a character that RFC 4518 2.4 prohibits matches only
 * the same element. An e-mail address and a domain component are compared without regard to the case of ASCII (RFC 5280 4.1.2.6, 7.3). Equal bytes, and texts
 * in ASCII, are compared without memory.
 * Refused as the first is that is no Name.
 * Answers X509_OK, X509_MEMORY, X509_OVERLENGTH, X509_MALFORMED. */
x509_status x509_names_match(const uint8_t *a, size_t a_len, const uint8_t *b, size_t b_len, uint32_t *matches);

/* Checks two Names, and says whether they are equal, byte for byte: `*equal` is 1 where they are, else 0. Refused as the first is that is no Name. It takes no
 * memory.
 * Answers X509_OK, X509_OVERLENGTH, X509_MALFORMED. */
x509_status x509_names_equal(const uint8_t *a, size_t a_len, const uint8_t *b, size_t b_len, uint32_t *equal);

/* Names of values. Here no character of a text is taken for a part of the name, as it is where a text of a name is put together by hand. Rooms are as said
 * under whole values.
 *
 * Writes an attribute: of the type with an OID, given by its content octets, and of a text (UTF-8), in the string type with this identifier octet: 0x0c
 * UTF8String, 0x13 PrintableString, 0x16 IA5String, 0x1e BMPString, or 0 for the one that the attribute wants, which is PrintableString or IA5String where it
 * allows that alone, else UTF8String. Where `is_bounded` isn't 0, the text has as many characters as RFC 5280 appendix A.1 says of the type, as 1 to 64 of a
 * common name and just 2 of a country; where the appendix says no SIZE, any number. X509_MALFORMED where no OID has the content octets. X509_FAILED where the
 * text isn't UTF-8, or the string type is none of these, or one that the attribute doesn't allow: of a country, a serial number and a DN qualifier all but
 * PrintableString, of an e-mail address and a domain component all but IA5String, of the other types of the appendix IA5String. X509_VALUE where a character
 * isn't one of the string type's, or there are too few or too many.
 * Answers X509_OK, X509_ROOM, X509_MEMORY, X509_OVERLENGTH, X509_MALFORMED, X509_FAILED, X509_VALUE. */
x509_status x509_attribute_encode(const uint8_t *oid, size_t oid_len, uint32_t string_type, const uint8_t *text, size_t text_len, uint32_t is_bounded,
                                  uint8_t *out, size_t room, size_t *written);

/* Writes a relative name: the set of these attributes, their encodings one after the other, in any order. X509_SET_DUPLICATE where two are equal, X509_VALUE
 * where there are none.
 * Answers X509_OK, X509_ROOM, X509_MEMORY, X509_OVERLENGTH, X509_MALFORMED, X509_SET_DUPLICATE, X509_VALUE. */
x509_status x509_relative_name_encode(const uint8_t *attributes, size_t attributes_len, uint8_t *out, size_t room, size_t *written);

/* Writes a Name: of these relative names, their encodings one after the other, of which the first is the topmost, as the country. Of none it is the empty name.
 * X509_VALUE where one of them has no attribute.
 * Answers X509_OK, X509_ROOM, X509_MEMORY, X509_OVERLENGTH, X509_MALFORMED, X509_VALUE. */
x509_status x509_name_build(const uint8_t *relative_names, size_t relative_names_len, uint8_t *out, size_t room, size_t *written);

/* Writes a text (UTF-8) as it stands for one value in the text of a name (RFC 4514 2.4): behind "CN=", x509_name_from_text reads just that text, whatever it
 * holds. X509_FAILED where it isn't UTF-8.
 * Answers X509_OK, X509_ROOM, X509_MEMORY, X509_FAILED. */
x509_status x509_name_escape(const uint8_t *text, size_t text_len, uint8_t *out, size_t room, size_t *written);

/* ---- texts; rooms are as said under whole values */

/* Reads a character string, a whole element, and writes its text (UTF-8, no zero at the end): of the types UTF8String, NumericString, PrintableString,
 * TeletexString, IA5String, VisibleString, UniversalString and BMPString, as `element` of x509_attribute, of x509_element, or what qualifies a policy. A
 * TeletexString is read in its characters up to 7F alone. Characters of control, NUL among them, stand as they are. X509_MALFORMED where it is an element of
 * another type, or has a character that its type hasn't.
 * Answers X509_OK, X509_ROOM, X509_MEMORY, X509_OVERLENGTH, X509_MALFORMED. */
x509_status x509_string_text(const uint8_t *element, size_t len, uint8_t *out, size_t room, size_t *written);

/* Reads a serial number under RFC 5280, as `serial_number` of x509_certificate, and says where the content octets of its INTEGER stand. X509_MALFORMED also
 * where there are more than 21.
 * Answers X509_OK, X509_MEMORY, X509_OVERLENGTH, X509_MALFORMED. */
x509_status x509_serial_number(const uint8_t *in, size_t len, x509_span *found);

/* Writes these content octets of an INTEGER in hex, as "00:FF" (no zero at the end): of a serial number, or of the number of a CRL. X509_MALFORMED where they
 * are none's (X.690 8.3): no octets, or more than there need to be.
 * Answers X509_OK, X509_ROOM, X509_MEMORY, X509_MALFORMED. */
x509_status x509_serial_text(const uint8_t *content, size_t len, uint8_t *out, size_t room, size_t *written);

/* Writes the number of these content octets of an INTEGER in decimal digits, as "255", or as "-1" where it is below 0 (no zero at the end). X509_MALFORMED as
 * x509_serial_text says; else X509_VALUE where there are more than 21 octets, which no serial number has under RFC 5280. It takes no memory.
 * Answers X509_OK, X509_ROOM, X509_MALFORMED, X509_VALUE. */
x509_status x509_serial_decimal(const uint8_t *content, size_t len, uint8_t *out, size_t room, size_t *written);

/* Writes the text of a moment, in seconds since 1970-01-01T00:00:00Z: 20 bytes, as "2026-01-02T03:04:05Z" (no zero at the end). X509_VALUE after
 * 9999-12-31T23:59:59Z.
 * Answers X509_OK, X509_ROOM, X509_MEMORY, X509_VALUE. */
x509_status x509_time_text(uint64_t moment, uint8_t *out, size_t room, size_t *written);

/* Reads the text of a moment, as x509_time_text writes it, and says how many seconds it is after 1970-01-01T00:00:00Z. X509_FAILED where it is a bad
 * text, that of no moment through 9999. It takes no memory.
 * Answers X509_OK, X509_FAILED. */
x509_status x509_time_from_text(const uint8_t *text, size_t len, uint64_t *moment);

/* Writes what a status means in a few words, such as "out of memory" (ASCII, no zero at the end). X509_FAILED where no status has the number. It takes
 * no memory.
 * Answers X509_OK, X509_ROOM, X509_FAILED. */
x509_status x509_status_text(x509_status status, uint8_t *out, size_t room, size_t *written);

/* The version of this header, and that of the library that is linked, as one number: 65,536 * MAJOR + 256 * MINOR + PATCH. */
#define X509_VERSION_MAJOR 0
#define X509_VERSION_MINOR 1
#define X509_VERSION_PATCH 0
#define X509_VERSION 0x000100
uint32_t x509_version(void);

/* ---- names of the peer */

/* What the text of a server's name is (RFC 9525 2). */
typedef struct {
    size_t name_len;      /* a DNS name: it is the first so many bytes of the text, which are all but a dot at its end; 0 of an address */
    uint32_t address_len; /* an IP address: how many octets it has, 4 or 16; 0 of a DNS name */
    uint8_t address[16];  /* these octets, in network byte order, and zeros behind them */
} x509_server_name;

/* Where the parts of an address of e-mail stand in its text. */
typedef struct {
    x509_span local; /* the local part, in front of the last '@' */
    x509_span host;  /* the DNS name behind it */
} x509_email_address;

/* Reads the text of a server's name (ASCII, no zero at the end). It is
 * - a DNS name: labels with dots between them, in all at most 253 bytes. A label is 1 to 63 letters, digits, '-' and '_', and neither begins nor ends with '-'
 *   (RFC 1034 3.5, RFC 1123 2.1). The last label isn't digits alone. One dot at the end, that of the root, is taken off. Internationalized labels are A-labels,
 *   such as "xn--bcher-kva";
 * - or an IPv4 address, four decimal numbers below 256 without leading zeros; or an IPv6 address (RFC 4291 2.2), which may stand in brackets.
 * X509_VALUE where it is none of these. It takes no memory.
 * Answers X509_OK, X509_VALUE. */
x509_status x509_server_name_view(const uint8_t *text, size_t len, x509_server_name *name);

/* Reads the text of an address of e-mail (ASCII, no zero at the end): a local part, '@', and a DNS name as above without a dot at its end. The local part is
 * one or more printed characters and spaces without quotes and backslashes, or a quoted string (RFC 5321 4.1.2). X509_VALUE where it is none. It takes no
 * memory.
 * Answers X509_OK, X509_VALUE. */
x509_status x509_email_address_view(const uint8_t *text, size_t len, x509_email_address *address);

/* Checks a certificate under RFC 5280, and says whether it is that of the server with this name (RFC 9525 6): `*matches` is 1 where its SubjectAltName has a name
 * of the server, else 0. The name is a text as x509_server_name_view reads it.
 * - A dNSName names a host where both are the same without regard to the case of ASCII. One that begins with "*." and has two labels or more behind it names
 *   each host that has these behind one label: "*.example.org" names "a.example.org", and neither "a.b.example.org" nor "example.org". A '*' elsewhere stands
 *   for nothing.
 * - An iPAddress names a host where both have the same octets.
 * Nothing else names a server, nor does the common name of the subject. A certificate without a SubjectAltName, with two, or with one that can't be decoded
 * names none. WHETHER THE CERTIFICATE IS TO BE TRUSTED is asked by x509_path_validate. It takes no memory.
 * X509_VALUE where the bytes are a certificate and the text is no server's name.
 * Answers X509_OK, X509_OVERLENGTH, X509_MALFORMED, X509_VALUE. */
x509_status x509_certificate_matches_name(const uint8_t *in, size_t len, const uint8_t *name, size_t name_len, uint32_t *matches);

/* The same of the mailbox with this address of e-mail, a text as x509_email_address_view reads it: `*matches` is 1 where the SubjectAltName has an rfc822Name
 * with the same local part, byte for byte, and the same host without regard to the case of ASCII (RFC 5280 7.5), else 0. An address in the subject names
 * nothing.
 * Answers X509_OK, X509_OVERLENGTH, X509_MALFORMED, X509_VALUE. */
x509_status x509_certificate_matches_email(const uint8_t *in, size_t len, const uint8_t *address, size_t address_len, uint32_t *matches);

/* ---- paths */

/* What is to be verified of a certificate: that these bits are a signature of the signed part, by that algorithm, for the public key of the
 * certificate above. */
typedef struct {
    x509_span signed_part; /* what is signed: a whole TBSCertificate */
    x509_span algorithm;   /* a whole AlgorithmIdentifier */
    x509_span bits;        /* the octets of the signature's bits: what its BIT STRING holds after the first octet */
    uint32_t unused_bits;  /* how many bits of the last of these octets are unused, 0 to 7 */
} x509_signature;

/* Checks a certificate under RFC 5280, and says what is to be verified of it. No memory is taken.
 * Answers X509_OK, X509_OVERLENGTH, X509_MALFORMED. */
x509_status x509_certificate_signature(const uint8_t *in, size_t len, x509_signature *signature);

/* The time is before the first second of a certificate's validity, or after the last one (RFC 5280 4.1.2.5). */
#define X509_NOT_YET_VALID 1
#define X509_EXPIRED 2

/* Checks a certificate under RFC 5280, and says on which side of its validity a moment is, in seconds since 1970-01-01T00:00:00Z: X509_NOT_YET_VALID, X509_EXPIRED,
 * or 0 where it is within. Where the validity ends before it begins, X509_NOT_YET_VALID comes first. X509_VALUE where `moment` is after 9999-12-31T23:59:59Z.
 * No memory is taken, and `*side` is unchanged unless the answer is X509_OK.
 * Answers X509_OK, X509_OVERLENGTH, X509_MALFORMED, X509_VALUE. */
x509_status x509_certificate_out_of_date(const uint8_t *in, size_t len, uint64_t moment, uint32_t *side);

/* What is wrong with a certificate of a path. Of several faults of one certificate the one with the lowest number is reported. */

/* The bytes are not the encoding of a certificate. */
#define X509_PATH_DECODE 1
/* The algorithm in the signed part isn't the one outside it (RFC 5280 4.1.1.2). */
#define X509_PATH_ALGORITHM 2
/* The issuer isn't the subject of the certificate above, byte for byte. */
#define X509_PATH_ISSUER 3
/* The time is before the first or after the last second of the validity; x509_certificate_out_of_date tells which of the two. */
#define X509_PATH_MOMENT 4
/* The signature isn't accepted. x509_path_check never answers it: it is for the caller, who verifies signatures. */
#define X509_PATH_SIGNATURE 5
/* Two extensions have one OID. */
#define X509_PATH_REPEATED 6
/* A critical extension is none of BasicConstraints, KeyUsage, ExtendedKeyUsage and SAN, or one of these that can't be decoded. */
#define X509_PATH_CRITICAL 7
/* Asked of all but the last: there is no BasicConstraints that can be decoded and has cA set. */
#define X509_PATH_NOT_CA 8
/* Asked of all but the last: there is a KeyUsage without keyCertSign, or one that can't be decoded. */
#define X509_PATH_KEY_USAGE 9
/* Asked of all but the last: more certificates that aren't self-issued follow one above than its path length constraint allows. */
#define X509_PATH_PATH_LEN 10

typedef struct {
    size_t place;    /* the index of the certificate in the path, from 0 */
    uint32_t reason; /* one of X509_PATH_DECODE to X509_PATH_PATH_LEN */
} x509_path_fault;

/* Checks a path of `count` certificates, topmost first, at a time, under the subject and the public key of the anchor's certificate, of which
 * nothing else is checked, BUT NOT THE SIGNATURES. These the caller verifies: of each certificate what x509_certificate_signature says, with the key
 * (`subject_public_key_info` of x509_certificate_view) of the certificate above it, and with the anchor's for the first. Without that X509_OK gives no
 * security. It is the part of RFC 5280 6.1 that is quickly checked: names are compared byte for byte; policies, name constraints and revocation aren't
 * checked. x509_path_validate is all of 6.1, and the call to take where nothing speaks against it.
 *
 * The certificates stand one after the other in path[0..path_len), and lens[i] is the length of the i-th.
 *
 * X509_FAILED where the lengths don't add up to `path_len`, X509_VALUE where `moment` is after 9999-12-31T23:59:59Z, and X509_OVERLENGTH or
 * X509_MALFORMED where decoding the anchor's certificate answers that; where several of these are bad, any of their answers may come. Else X509_ABSENT
 * where `count` is 0. Else X509_FAULT where there is a fault: `*fault` is the lowest place that has a fault other than a signature's, and the first
 * of its faults there. Else X509_OK: there is no fault, except perhaps of signatures.
 * Answers X509_OK, X509_MEMORY, X509_OVERLENGTH, X509_MALFORMED, X509_FAILED, X509_VALUE, X509_ABSENT, X509_FAULT. */
x509_status x509_path_check(const uint8_t *anchor, size_t anchor_len, const uint8_t *path, size_t path_len, const size_t *lens, size_t count,
                            uint64_t moment, x509_path_fault *fault);

/* Further reasons, of x509_path_validate and the calls like it alone. */

/* An extension can't be decoded that is one of those of X509_PATH_CRITICAL, a NameConstraints, a CertificatePolicies, a PolicyMappings, a PolicyConstraints or
 * an InhibitAnyPolicy, critical or not. It comes in front of X509_PATH_CRITICAL, which is told here of a critical extension that is none of these, and of a
 * critical ExtendedKeyUsage where no purpose is asked for. */
#define X509_PATH_EXTENSION 11
/* A name isn't within what the name constraints above permit, or is within what they exclude, or they have a subtree of its form with a minimum other than 0,
 * a maximum, or a base that is none. Asked of the last, and of those that aren't self-issued. */
#define X509_PATH_NAMES 12
/* Asked of all but the last: there is a NameConstraints that can't be used: a list of its subtrees is there and empty. */
#define X509_PATH_CONSTRAINTS 13
/* A policy is in a CertificatePolicies twice. */
#define X509_PATH_REPEATED_POLICY 14
/* No policy is left under which the path is valid, and one is asked for. */
#define X509_PATH_POLICY 15
/* Asked of all but the last: a PolicyMappings maps any-policy, or something to it. */
#define X509_PATH_POLICY_MAPPING 16
/* Each purpose that is asked for is one that this certificate doesn't allow, or one above: an ExtendedKeyUsage is there, and has neither it nor
 * anyExtendedKeyUsage (RFC 5280 4.2.1.12). Asked of the last, and where purposes are chained of all. */
#define X509_PATH_PURPOSE 17
/* Asked of the last: there is a KeyUsage without all bits that are asked for (4.2.1.3). */
#define X509_PATH_USAGE 18
/* There are extensions, and the version isn't 3 (4.1.2.9). X509_PATH_NOT_CA is told here also of an authority of version 1 or 2 (6.1.4 (k)). */
#define X509_PATH_VERSION 19

/* What may be asked of a path, added up. A policy is asked for (RFC 5280 6.1.1 (f)). */
#define X509_PATH_EXPLICIT_POLICY 1
/* Policies may not be mapped (6.1.1 (e)). */
#define X509_PATH_INHIBIT_POLICY_MAPPING 2
/* Any-policy in a certificate counts for nothing (6.1.1 (g)). */
#define X509_PATH_INHIBIT_ANY_POLICY 4
/* Purposes are asked of the last certificate alone; else one purpose has to be allowed by all certificates of the path. */
#define X509_PATH_UNCHAINED 8
/* Certificates of version 1, which have no extensions, are authorities (6.1.4 (k)), which the caller then knows of those given. */
#define X509_PATH_VERSION_1_AUTHORITIES 16
/* Names of servers in the last certificate's common names are asked under name constraints, as those of its SAN are (4.2.1.10), which RFC 5280 doesn't have:
 * a host, a wildcard of hosts or an IP address that a common name is, each where the SAN has no dNSName, or no iPAddress (RFC 6125 6.4.4). It is for callers
 * that take a peer by its common name. */
#define X509_PATH_CONSTRAIN_COMMON_NAMES 32

/* The purposes of RFC 5280 (4.2.1.12). */
#define X509_PURPOSE_SERVER_AUTH 1
#define X509_PURPOSE_CLIENT_AUTH 2
#define X509_PURPOSE_CODE_SIGNING 4
#define X509_PURPOSE_EMAIL_PROTECTION 8
#define X509_PURPOSE_TIME_STAMPING 16
#define X509_PURPOSE_OCSP_SIGNING 32

/* What is asked of a path. A caller hands over its size too, so that later versions of this library can ask for more: what stands behind what the library knows
 * has to be zeros, which ask for nothing, or the answer is X509_VALUE. So set all of it to zeros first. */
typedef struct {
    uint64_t moment;      /* the time at which the path is to be valid */
    uint64_t flags;       /* X509_PATH_EXPLICIT_POLICY and the others; any other number is X509_VALUE */
    uint64_t key_usage;   /* what the last certificate's KeyUsage has to have, if there is one: the named bit n as 1 << n, as of x509_key_usage */
    uint64_t purposes;    /* X509_PURPOSE_SERVER_AUTH and the others, added up: one of them is asked for, any; 0 and no own one: none is */
    uint64_t purpose_len; /* how many bytes a purpose of the caller's own has, which is asked for as those are; 0 where there is none */
    uint8_t purpose[64];  /* the content octets of its OID; what follows them isn't looked at */
} x509_path_settings;

/* What is answered to a path: its first fault, or what it gives. Of the other all numbers are 0. */
typedef struct {
    size_t place;        /* the index of the certificate in the path, from 0 */
    uint32_t reason;     /* one of X509_PATH_DECODE to X509_PATH_VERSION */
    x509_span name;      /* a whole Name, in the bytes of the last certificate, which begin at 0 */
    x509_span key;       /* a whole SubjectPublicKeyInfo, in the bytes of the last certificate */
    size_t policies_len; /* how many bytes the policies have, whether they fit into the buffer or not */
} x509_path_answer;

/* Validates a path of `count` certificates, topmost first, under an anchor's certificate (RFC 5280 6.1, RFC 5937): its subject, its public key, its name
 * constraints, its path length constraint, the policies of its CertificatePolicies, which are merged with those of the caller, and the flags about policies
 * that its PolicyConstraints and its InhibitAnyPolicy set, whatever the numbers in them. Nothing else of it is checked. BUT NOT THE SIGNATURES, which the
 * caller verifies as x509_path_check says; without that X509_OK gives no security.
 *
 * It is x509_path_check with these differences: issuers and subjects are compared as x509_names_match does, also where it is asked whether a certificate is
 * self-issued; name constraints hold, those of the anchor, those of `name_constraints`, which are the initial permitted and excluded subtrees (6.1.1 (h), (i))
 * as the encoding of a NameConstraints, or none where there are no bytes, and those of each certificate above; policies are followed, where `policies` are
 * those that the caller accepts (6.1.1 (c)) as the encoding of a CertificatePolicies, whose qualifiers aren't looked at, or any where there are no bytes;
 * critical extensions of the types that X509_PATH_EXTENSION names are no fault, and each of them has to be such that can be decoded; what `settings` ask of
 * purposes and key usage holds; and only version 3 has extensions and is an authority by them. Of several faults of one certificate the one with the lowest
 * number is reported, but X509_PATH_VERSION comes behind X509_PATH_SIGNATURE, X509_PATH_EXTENSION behind X509_PATH_REPEATED, and X509_PATH_USAGE and then
 * X509_PATH_PURPOSE behind X509_PATH_PATH_LEN.
 *
 * Not asked is whether the last certificate is that of a host, a mailbox or another peer: the caller compares its names. Nor is any certificate asked for its
 * revocation: x509_revocation_status is for that.
 *
 * The certificates stand one after the other in path[0..path_len), and lens[i] is the length of the i-th. `settings_size` is the size of `*settings`.
 *
 * X509_FAILED where the lengths don't add up to `path_len`, or where the anchor's subject is empty (RFC 5937 3.2) or it has one of the extensions that are
 * followed more than once; X509_VALUE where
 * there are no settings, as said there, or `moment` is after 9999-12-31T23:59:59Z; X509_OVERLENGTH or X509_MALFORMED where decoding the anchor's certificate,
 * one of its extensions, the name constraints or the policies answers that; where several of these are bad, any of their answers may come. Else X509_ABSENT
 * where `count` is 0. Else X509_VALUE where the name constraints of the anchor or of the caller can't be used, as X509_PATH_CONSTRAINTS says. Else X509_FAULT
 * where there is a fault: `*answer` is the lowest place that has one other than a signature's, and the first of its faults there. Else X509_OK: there is no
 * fault, except perhaps of signatures, and `*answer` says where the name and the key of the last certificate stand. The policies under which the path is valid
 * (6.1.6) are put into out[0..room), where they fit, as the encoding of a CertificatePolicies without qualifiers, which x509_certificate_policies_next goes
 * over; any-policy may be one of them, and none is no fault where none is asked for. X509_OVERLENGTH also where that encoding would be more than 268,435,455
 * bytes.
 * Answers X509_OK, X509_MEMORY, X509_OVERLENGTH, X509_MALFORMED, X509_FAILED, X509_VALUE, X509_ABSENT, X509_FAULT. */
x509_status x509_path_validate(const uint8_t *anchor, size_t anchor_len, const uint8_t *path, size_t path_len, const size_t *lens, size_t count,
                               const uint8_t *name_constraints, size_t name_constraints_len, const uint8_t *policies, size_t policies_len,
                               const x509_path_settings *settings, size_t settings_size, uint8_t *out, size_t room, x509_path_answer *answer);

/* The same under a name and a public key that are trusted, a whole Name and a whole SubjectPublicKeyInfo.
 * Answers X509_OK, X509_MEMORY, X509_OVERLENGTH, X509_MALFORMED, X509_FAILED, X509_VALUE, X509_ABSENT, X509_FAULT. */
x509_status x509_path_validate_under_key(const uint8_t *name, size_t name_len, const uint8_t *key, size_t key_len, const uint8_t *path, size_t path_len,
                                         const size_t *lens, size_t count, const uint8_t *name_constraints, size_t name_constraints_len,
                                         const uint8_t *policies, size_t policies_len, const x509_path_settings *settings, size_t settings_size,
                                         uint8_t *out, size_t room, x509_path_answer *answer);

/* The same under a trust anchor (RFC 5914, RFC 5937 2), the encoding of a TrustAnchorChoice, as x509_anchor_view reads: of a certificate or a TBSCertificate as
 * x509_path_validate says; of a description its key, and the name, the name constraints, the path length constraint, the policies and the flags about them of
 * its constraints on paths; where one of the last four isn't there, that of the certificate there, if it has one, whose subject, key and key identifier have to
 * be the description's (RFC 5914 2.5). X509_FAILED also where a description has no name, or an empty one, or a certificate of another anchor, or an extension
 * of its own that is critical, or one of the types that are followed in a certificate (BasicConstraints, NameConstraints, CertificatePolicies,
 * PolicyConstraints, InhibitAnyPolicy): these aren't followed there.
 * Answers X509_OK, X509_MEMORY, X509_OVERLENGTH, X509_MALFORMED, X509_FAILED, X509_VALUE, X509_ABSENT, X509_FAULT. */
x509_status x509_path_validate_under_anchor(const uint8_t *anchor, size_t anchor_len, const uint8_t *path, size_t path_len, const size_t *lens, size_t count,
                                            const uint8_t *name_constraints, size_t name_constraints_len, const uint8_t *policies, size_t policies_len,
                                            const x509_path_settings *settings, size_t settings_size, uint8_t *out, size_t room,
                                            x509_path_answer *answer);

/* A certificate of a path. Each place is one in the bytes of this certificate, which begin at 0. */
typedef struct {
    x509_certificate view;    /* what x509_certificate_view says of it */
    x509_signature signature; /* what is to be verified of it, as x509_certificate_signature says */
} x509_path_certificate;

/* The same three, which of a valid path also say what each certificate holds and what is to be verified of it. NOR DO THEY VERIFY SIGNATURES, but the caller
 * who does asks no other call about the certificates: the first is verified under the anchor's key, each other one under `view.subject_public_key_info` of the
 * one above it, as x509_working_key says.
 *
 * On X509_OK certificates[0..count) are filled in, topmost first, where `certificate_room`, which is how many places there are, isn't below `count`. Else, and
 * where the answer is another, all places are unchanged: of a path with a fault x509_certificate_view and x509_certificate_signature say the same of the
 * certificates in front of it.
 * Answers X509_OK, X509_MEMORY, X509_OVERLENGTH, X509_MALFORMED, X509_FAILED, X509_VALUE, X509_ABSENT, X509_FAULT. */
x509_status x509_path_validate_views(const uint8_t *anchor, size_t anchor_len, const uint8_t *path, size_t path_len, const size_t *lens, size_t count,
                                     const uint8_t *name_constraints, size_t name_constraints_len, const uint8_t *policies, size_t policies_len,
                                     const x509_path_settings *settings, size_t settings_size, uint8_t *out, size_t room, x509_path_answer *answer,
                                     x509_path_certificate *certificates, size_t certificate_room);

/* Under a name and a public key, as x509_path_validate_under_key.
 * Answers X509_OK, X509_MEMORY, X509_OVERLENGTH, X509_MALFORMED, X509_FAILED, X509_VALUE, X509_ABSENT, X509_FAULT. */
x509_status x509_path_validate_views_under_key(const uint8_t *name, size_t name_len, const uint8_t *key, size_t key_len, const uint8_t *path,
                                               size_t path_len, const size_t *lens, size_t count, const uint8_t *name_constraints,
                                               size_t name_constraints_len, const uint8_t *policies, size_t policies_len,
                                               const x509_path_settings *settings, size_t settings_size, uint8_t *out, size_t room,
                                               x509_path_answer *answer, x509_path_certificate *certificates, size_t certificate_room);

/* Under a trust anchor, as x509_path_validate_under_anchor.
 * Answers X509_OK, X509_MEMORY, X509_OVERLENGTH, X509_MALFORMED, X509_FAILED, X509_VALUE, X509_ABSENT, X509_FAULT. */
x509_status x509_path_validate_views_under_anchor(const uint8_t *anchor, size_t anchor_len, const uint8_t *path, size_t path_len, const size_t *lens,
                                                  size_t count, const uint8_t *name_constraints, size_t name_constraints_len, const uint8_t *policies,
                                                  size_t policies_len, const x509_path_settings *settings, size_t settings_size, uint8_t *out,
                                                  size_t room, x509_path_answer *answer, x509_path_certificate *certificates,
                                                  size_t certificate_room);

/* A certificate, and a key under which its signature doesn't hold: where each stands in the bytes that are handed over with them. */
typedef struct {
    x509_span certificate; /* a whole certificate */
    x509_span key;         /* a whole SubjectPublicKeyInfo, as it is used: what x509_working_key gives of the key above the certificate, where that inherits its
                            * parameters; the caller puts such a one behind the certificates */
} x509_bad_link;

/* A path that was found, or one that isn't valid where there is none. */
typedef struct {
    size_t anchor;   /* the index of the anchor in `anchors`; of several that are trusted for the same, the first; `anchor_count` where the fault is one that the
                      * leaf has in whatever path */
    size_t count;    /* how many candidates stand in the path, whether their indices fit into the buffer or not */
    size_t place;    /* after X509_FAULT the index of the certificate in the path that has a fault, from 0; `count` is that of the leaf; else 0 */
    uint32_t reason; /* after X509_FAULT one of X509_PATH_DECODE to X509_PATH_VERSION, or 0 where the name constraints of the anchor or of the caller can't be
                      * used; else 0 */
} x509_found_path;

/* Finds a path from one of the anchors over candidates to a certificate, the leaf: one that x509_path_validate accepts under the anchor's certificate, of any
 * of the candidates, in any number and order, none of them twice nor the leaf itself, and at most `max_depth` of them (8 do for most). No valid path has fewer
 * certificates. Of candidates with one subject the one whose SubjectKeyIdentifier the certificate below names in its AuthorityKeyIdentifier is tried first,
 * and then the others, from the latest notBefore on. BUT NOT THE SIGNATURES: any bits are taken for the signature of a certificate under the key above it,
 * unless the two are listed in `bad`. So the caller verifies the signatures of the path that is found, as x509_path_check says. Where one doesn't hold, the
 * caller adds the certificate and the key to `bad`, and asks again; each round adds one that wasn't there, so that it ends, with a path whose signatures hold,
 * or with another answer. Without that X509_OK gives no security. Nothing is kept between the calls.
 *
 * All certificates, and the keys of `bad`, are parts of bytes[0..len). What is trusted of an anchor x509_path_validate says, and `name_constraints`,
 * `policies`, `settings` and `settings_size` are as there. Candidates that are no certificates are passed over. The indices of the candidates in the path,
 * topmost first, without the leaf, are put into path[0..room) where they fit, which `max_depth` of them always do; of several candidates with the same bytes
 * the first is told. Which policies the path is valid under says x509_path_validate.
 *
 * X509_VALUE where there are no settings, as x509_path_validate says, or `max_depth` is more than 255; X509_FAILED where a part isn't within the bytes, or an
 * anchor's subject is empty or it has one of the extensions that are followed more than once; X509_OVERLENGTH or X509_MALFORMED where decoding an anchor, one
 * of its extensions, the leaf, a certificate or a key of `bad`, the name constraints or the policies answers that; where several of these are bad, any of their
 * answers may come. Else X509_FAULT, before any search, where the leaf has a fault in whatever path it is the last: X509_PATH_ALGORITHM, X509_PATH_MOMENT,
 * X509_PATH_VERSION, X509_PATH_REPEATED, X509_PATH_EXTENSION, X509_PATH_CRITICAL, X509_PATH_USAGE or X509_PATH_PURPOSE; the first of these, in this order, is
 * told, `anchor` is `anchor_count`, `count` and `place` are 0, and path[0..room) is unchanged. Else X509_OK where there is such a path. Else X509_ABSENT where
 * no candidates lead by their names from an anchor to the leaf: an issuer isn't known. Else X509_FAULT: there is no such path, and what is told is one that
 * leads there by its names, with a fault that it has; of those it is one that has the fewest certificates left from the fault on. Its fault is the first at the
 * lowest place that has one other than a signature's, or X509_PATH_SIGNATURE of a certificate that is listed in `bad` with the key above it. In the place of
 * the last three answers X509_LIMIT, only where trying all paths puts more than 200,000 candidates above others or validates more than 1,000 paths: whether
 * there is a path isn't known. `*found` and path[0..room) are unchanged unless the answer is X509_OK or X509_FAULT.
 * Answers X509_OK, X509_MEMORY, X509_OVERLENGTH, X509_MALFORMED, X509_FAILED, X509_VALUE, X509_ABSENT, X509_FAULT, X509_LIMIT. */
x509_status x509_path_find(const uint8_t *bytes, size_t len, const x509_span *anchors, size_t anchor_count, const x509_span *candidates, size_t candidate_count,
                           const x509_span *leaf, const x509_bad_link *bad, size_t bad_count, const uint8_t *name_constraints, size_t name_constraints_len,
                           const uint8_t *policies, size_t policies_len, const x509_path_settings *settings, size_t settings_size, uint32_t max_depth,
                           size_t *path, size_t room, x509_found_path *found);

/* ---- CRLs */

/* Checks a CRL of v1 or v2 under RFC 5280, and says how many entries it has. It takes no memory.
 * Answers X509_OK, X509_OVERLENGTH, X509_MALFORMED. */
x509_status x509_crl_walk(const uint8_t *in, size_t len, size_t *entries);

typedef struct {
    uint64_t date;  /* when it was revoked */
    int32_t reason; /* the reason code of RFC 5280 5.3.1; -1 where the entry has none */
} x509_revocation;

/* Checks a CRL and a serial number (the DER encoding of an INTEGER, as the view of a certificate has it), and says what the first entry with
 * that number says. X509_ABSENT where there is none. The issuer isn't compared. Else refused as the CRL is, or as the serial number is, or as the
 * entry's reason code is: X509_MALFORMED, or X509_FAILED where that extension is repeated. It takes no memory, however many entries there are.
 * Answers X509_OK, X509_OVERLENGTH, X509_MALFORMED, X509_FAILED, X509_ABSENT. */
x509_status x509_crl_lookup(const uint8_t *in, size_t len, const uint8_t *serial_number, size_t serial_number_len,
                            x509_revocation *revocation);

/* The spans are whole elements; of what is left out both numbers are 0. What is said or not is 1 or 0. */
typedef struct {
    uint32_t version;          /* 1 where it is left out, as in a CRL of v1; else 1, 2 or 3, of which RFC 5280 5.1.2.1 wants 2 */
    x509_span inner_algorithm; /* the algorithm within the signed part, which is to be that of `signature` (RFC 5280 5.1.1.2); that isn't checked */
    x509_span issuer;          /* a Name */
    uint64_t this_update;
    uint32_t has_next_update;
    uint64_t next_update; /* 0 where it is left out */
    x509_span entries;    /* the SEQUENCE of entries, for x509_crl_entry_next */
    x509_span extensions; /* the SEQUENCE of extensions, from its 30 on, within the tag [0]; for x509_extensions_next */
    x509_signature signature;
} x509_crl;

/* Checks a CRL of v1 or v2 under RFC 5280, and says what it holds and where. It takes no memory.
 * Answers X509_OK, X509_OVERLENGTH, X509_MALFORMED. */
x509_status x509_crl_view(const uint8_t *in, size_t len, x509_crl *view);

typedef struct {
    x509_span serial_number; /* an INTEGER, a whole element, as in the view of a certificate */
    uint64_t date;           /* when it was revoked */
    x509_span extensions;    /* the SEQUENCE of its extensions, for x509_extensions_next, such as a reason code (2.5.29.21); 0 and 0 where absent */
} x509_crl_entry;

/* The entries of a CRL, one after the other; `value` is `entries` of its view, and the walk is as said under values of extensions. All steps together
 * take time in proportion to the bytes. Of the extensions of an entry x509_crl_reason reads the reason code, x509_invalidity_date the invalidity date, and
 * x509_general_names_next the issuer (2.5.29.29), which is in force for that entry and those behind it up to the next one that has it (RFC 5280 5.3.3).
 * Answers X509_OK, X509_MEMORY, X509_OVERLENGTH, X509_MALFORMED, X509_ABSENT. */
x509_status x509_crl_entry_next(const uint8_t *value, size_t len, size_t *at, x509_crl_entry *found);

/* The same, and who issued the certificate of each entry of an indirect CRL (RFC 5280 5.3.3). `*issuer` is 0 and 0 to begin. Of an entry that has a
 * CertificateIssuer (2.5.29.29) it becomes the place of that extension's value, for x509_general_names_next; else it stays. So behind each step it says whose
 * names are in force for the entry: those of the last one up to there that has the extension, or of the issuer of the CRL, where both numbers are 0.
 * X509_FAILED where an entry has the extension twice or more, and X509_MALFORMED also where it holds no names; `*at` and `*issuer` are unchanged then.
 * Answers X509_OK, X509_MEMORY, X509_OVERLENGTH, X509_MALFORMED, X509_FAILED, X509_ABSENT. */
x509_status x509_crl_issued_next(const uint8_t *value, size_t len, size_t *at, x509_span *issuer, x509_crl_entry *found);

/* Finds the first entry with a serial number (the DER encoding of an INTEGER, as the view of a certificate has it); `value` is `entries` of the view of a CRL,
 * which isn't checked once more, so that a CRL is checked once for many look-ups: of the entries in front of the one that is found no more is read than their
 * lengths and numbers. Places are offsets in `value`. X509_ABSENT where no entry has the number; the issuer isn't compared. Else refused as the serial number
 * is. Of bytes that are no list of entries any entry may be found, or none, or the answer is X509_MALFORMED.
 * Answers X509_OK, X509_MEMORY, X509_OVERLENGTH, X509_MALFORMED, X509_ABSENT. */
x509_status x509_crl_entry_find(const uint8_t *value, size_t len, const uint8_t *serial_number, size_t serial_number_len, x509_crl_entry *found);

/* Makes an index of a list of entries, for a CRL that is asked often; `value` is `entries` of the view of a CRL, which is checked once more. A number for each
 * entry goes to the front of index[0..room): its place in the content of the list, in the order of the bytes of the serial numbers. `*written` is how many
 * entries there are, at X509_ROOM too, which is answered where they are more than `room`. Unless the answer is X509_OK, index[0..room) is unchanged. The time
 * for n entries grows with n log n. It takes no memory. X509_MALFORMED where the bytes are no list of entries, as where `entries` is 0 and 0.
 * Answers X509_OK, X509_ROOM, X509_OVERLENGTH, X509_MALFORMED. */
x509_status x509_crl_index(const uint8_t *value, size_t len, uint32_t *index, size_t room, size_t *written);

/* Finds the first entry with a serial number by an index, index[0..count), which is what x509_crl_index made of these bytes: what x509_crl_entry_find answers of
 * them is answered, in a time that grows with the logarithm of how many entries there are. Neither the bytes nor the index is checked: of the list no more is
 * read than some of its numbers and the entry that is found. By any other numbers, as those of another list, nothing is read outside the bytes, and X509_OK
 * fills in an entry with that serial number that stands in them, though it may not be the first, or stand within another value; else the answer is X509_ABSENT
 * or X509_MALFORMED, whatever the list has.
 * Answers X509_OK, X509_MEMORY, X509_OVERLENGTH, X509_MALFORMED, X509_ABSENT. */
x509_status x509_crl_index_find(const uint8_t *value, size_t len, const uint32_t *index, size_t count, const uint8_t *serial_number, size_t serial_number_len,
                                x509_crl_entry *found);

/* ---- revocation */

/* Says whether the key of a certificate may sign CRLs (RFC 5280 4.2.1.3, 6.3.3 (f)): `*may_sign` is 1 where the certificate has no KeyUsage, or one that can be
 * decoded, with cRLSign; else 0. Whether the certificate is valid isn't checked. It takes no memory.
 * Answers X509_OK, X509_OVERLENGTH, X509_MALFORMED. */
x509_status x509_may_sign_crls(const uint8_t *certificate, size_t certificate_len, uint32_t *may_sign);

/* A CRL, and the name and the public key of its signer: where each stands in the bytes that are handed over with them. */
typedef struct {
    x509_span crl;     /* a whole CRL */
    x509_span name;    /* a whole Name, as `subject` of x509_certificate */
    x509_span key;     /* a whole SubjectPublicKeyInfo */
    uint32_t verified; /* 1 where the caller has verified the CRL's signature with that key. With any other number the CRL says nothing, and isn't looked at */
} x509_signed_crl;

/* A flag of what is asked: a CRL is in date that doesn't say by when the next one will be issued, which RFC 5280 5.1.2.5 wants each to say. */
#define X509_REVOCATION_WITHOUT_NEXT_UPDATE 1
/* Another, added to it: delta CRLs are used (RFC 5280 5.2.4). They are given among the others, and the newest one that fits a complete CRL is asked before it:
 * it has its issuer, its IssuingDistributionPoint and its AuthorityKeyIdentifier, a base that isn't later and a number that is, and is in date. Its signer has
 * to be that of the complete one (6.3.3 (h)): so verify it with that key. */
#define X509_REVOCATION_USE_DELTAS 2

/* What is asked of CRLs. It is handed over with its size, and what stands behind what the library knows has to be zeros, as said of x509_path_settings. */
typedef struct {
    uint64_t moment; /* the time at which the certificate is or isn't revoked */
    uint64_t flags;  /* a sum of these flags, or 0; any other number is X509_VALUE */
} x509_revocation_settings;

/* What CRLs say of a certificate: not that it is revoked, and they don't cover all reasons; that it isn't; or that it is. */
#define X509_UNDETERMINED 0
#define X509_UNREVOKED 1
#define X509_REVOKED 2

/* What doesn't belong to the status is 0. */
typedef struct {
    uint32_t status;  /* one of these numbers */
    uint32_t reason;  /* where it is revoked, the reason code (RFC 5280 5.3.1), 0 to 10, but not 7; 0, unspecified, also where the entry has none that can
                       * be decoded */
    size_t crl;       /* which CRL says that it is revoked: its index in `crls`, from 0 */
    uint64_t date;    /* when it was revoked */
    uint32_t reasons; /* where it is undetermined, the reasons that no CRL covered, a sum of the numbers X509_REASONS_KEY_COMPROMISE to
                       * X509_REASONS_AA_COMPROMISE */
} x509_revocation_answer;

/* Says what CRLs say of a certificate at a time (RFC 5280 6.3.3), BUT NOT WHETHER THEIR SIGNATURES AND SIGNERS ARE GOOD. Of each CRL the caller does three
 * things before:
 * - chooses its signer: the issuer of the certificate, or another certificate, or a trust anchor, whose subject is the CRL's issuer. Of another certificate the
 *   path has to be valid, as x509_path_validate says, under the anchor of the certificate's own path, and x509_may_sign_crls has to say 1 (6.3.3 (f)); so also
 *   of the issuer;
 * - verifies that `signature.bits` of x509_crl_view are a signature of `signature.signed_part`, the bytes as they stand, by `signature.algorithm`, for the
 *   signer's key;
 * - sets `verified` to 1 where they are. A CRL with 0 there, as in a struct that was set to zeros, counts for nothing, and so does one with any other number.
 *
 * The CRLs, and the names and the keys of their signers, are parts of in[0..len), which may have other bytes too, and two CRLs may share a part. They are asked
 * in the order of `crls`, up to the first that revokes the certificate, or until no reason is left; one that covers no reason that those before it left isn't
 * used. Of several complete CRLs for one scope, of one issuer, with one IssuingDistributionPoint or none, and verified with one key, the newest counts wherever
 * it stands: that with the higher CRL number, or with the same number, or none, and a later thisUpdate (5.2.3). A CRL is used where it is in date; the signer's
 * name is its issuer, as x509_names_match compares; the algorithm in its signed part is the one outside; it is that of a distribution point of the certificate,
 * or of its issuer; the certificate is within the scope that its IssuingDistributionPoint states; it is no delta CRL, but where these are used and it fits one;
 * and neither it nor one of its entries has a critical extension that isn't known. crates/x509_revocation says each of these in full. `settings_size` is the
 * size of `*settings`. An attacker who withholds a CRL makes the status X509_UNDETERMINED: so treat that as your policy says, and not as X509_UNREVOKED.
 *
 * X509_VALUE where there are no settings, as said there, or `moment` is after 9999-12-31T23:59:59Z; X509_OVERLENGTH or X509_MALFORMED where decoding the
 * certificate answers that; of the CRLs that are verified X509_FAILED where a part isn't within the bytes, and X509_OVERLENGTH or X509_MALFORMED where decoding
 * the CRL, the name or the key answers that; where several of these are bad, any of their answers may come.
 * Answers X509_OK, X509_MEMORY, X509_OVERLENGTH, X509_MALFORMED, X509_FAILED, X509_VALUE. */
x509_status x509_revocation_status(const uint8_t *certificate, size_t certificate_len, const uint8_t *in, size_t len, const x509_signed_crl *crls, size_t count,
                                   const x509_revocation_settings *settings, size_t settings_size, x509_revocation_answer *answer);

/* Why a CRL says nothing of a certificate, in the order in which it is asked. 0: it says of one reason or more whether the certificate is revoked. */
#define X509_CRL_WITHOUT_FAULT 0
/* The moment is before its thisUpdate (RFC 5280 5.1.2.4). */
#define X509_CRL_NOT_YET_VALID 1
/* The moment is after its nextUpdate, or it has none, and the settings don't take such a CRL (5.1.2.5). */
#define X509_CRL_EXPIRED 2
/* It has a critical extension that isn't an IssuingDistributionPoint or a delta CRL indicator, or can't be decoded (5.2). */
#define X509_CRL_CRITICAL 3
/* The algorithm in its signed part isn't the one outside it (5.1.1.2). */
#define X509_CRL_ALGORITHM 4
/* It is a delta CRL, which says nothing but with a complete one (5.2.4). */
#define X509_CRL_DELTA 5
/* It has an IssuingDistributionPoint that can't be decoded, or several (5.2.5). */
#define X509_CRL_ISSUING_POINT 6
/* Its issuer isn't the certificate's, nor in the cRLIssuer of a distribution point for which it is an indirect CRL (6.3.3 (b) (1)). */
#define X509_CRL_ISSUER 7
/* Its IssuingDistributionPoint says that it isn't about such certificates, but about those of authorities alone, say (6.3.3 (b) (2) (ii) to (iv)). */
#define X509_CRL_SCOPE 8
/* It is that of none of the certificate's distribution points, or for none of the reasons there (6.3.3 (b) (2) (i), (d)). */
#define X509_CRL_POINT 9
/* The signer's name isn't its issuer (6.3.3 (f)). */
#define X509_CRL_SIGNER 10
/* `verified` isn't 1 (6.3.3 (g)). */
#define X509_CRL_SIGNATURE 11
/* An entry has a critical extension that isn't known or can't be decoded, or a CertificateIssuer that can't be used (5.3). */
#define X509_CRL_ENTRY 12
/* A newer CRL for the same scope takes its place (6.3.3 (a)). */
#define X509_CRL_REPLACED 13

/* Says why the CRL at `index` of `crls`, from 0, says nothing of a certificate: `*fault` is the first of the numbers above that there is of it, beside those
 * that are verified. All else is given as to x509_revocation_status, after which it may be asked of each CRL, above all where the status is X509_UNDETERMINED.
 * The CRL itself may be one that isn't verified. One without a fault isn't used there only where those before it left no reason that it covers (6.3.3 (e)); of
 * a delta CRL it isn't said to which complete one it fits.
 *
 * X509_VALUE also where no CRL is at `index`; of the CRL there, verified or not, X509_FAILED where a part isn't within the bytes, and X509_OVERLENGTH or
 * X509_MALFORMED where decoding the CRL, the name or the key answers that; else as said of x509_revocation_status.
 * Answers X509_OK, X509_MEMORY, X509_OVERLENGTH, X509_MALFORMED, X509_FAILED, X509_VALUE. */
x509_status x509_crl_fault(const uint8_t *certificate, size_t certificate_len, const uint8_t *in, size_t len, const x509_signed_crl *crls, size_t count,
                           const x509_revocation_settings *settings, size_t settings_size, size_t index, uint32_t *fault);

/* ---- CSRs (PKCS #10 requests) */

/* Each span is a whole element. */
typedef struct {
    uint32_t version;                  /* 1 */
    x509_span subject;                 /* a Name */
    x509_span subject_public_key_info; /* the public key and its algorithm, for x509_key_view */
    x509_span attributes;              /* the attributes under the tag [0], for x509_request_attribute_next */
    x509_signature signature;          /* what is to be verified, with the CSR's own key */
} x509_request;

/* Checks a CSR, and says what it holds and where. No memory is taken.
 * Answers X509_OK, X509_OVERLENGTH, X509_MALFORMED. */
x509_status x509_request_view(const uint8_t *in, size_t len, x509_request *view);

typedef struct {
    x509_span oid;    /* the content octets of the OID of its type, as of 1.2.840.113549.1.9.7 for a challenge password */
    x509_span values; /* its values, a whole SET, for x509_attribute_value_next */
} x509_request_attribute;

/* The attributes of a CSR, one after the other; `value` is `attributes` of its view, and the walk is as said under values of extensions. Whether they
 * are in order, and all different, isn't looked at here, but by x509_request_view.
 * Answers X509_OK, X509_MEMORY, X509_OVERLENGTH, X509_MALFORMED, X509_ABSENT. */
x509_status x509_request_attribute_next(const uint8_t *value, size_t len, size_t *at, x509_request_attribute *found);

/* Decodes a CSR, and finds its attribute of a type, whose OID is given by its content octets. X509_ABSENT where there is none, X509_REPEATED where there
 * are two or more. Else refused as x509_request_check is.
 * Answers X509_OK, X509_MEMORY, X509_OVERLENGTH, X509_MALFORMED, X509_ABSENT, X509_REPEATED. */
x509_status x509_request_attribute_find(const uint8_t *in, size_t len, const uint8_t *oid, size_t oid_len, x509_request_attribute *found);

typedef struct {
    uint32_t tag;      /* its identifier octet, as 0x0c for UTF8String */
    x509_span element; /* the whole element */
    x509_span content; /* its content octets, which aren't looked at */
} x509_element;

/* The attributes of a SubjectDirectoryAttributes (2.5.29.9), one after the other.
 * Answers X509_OK, X509_MEMORY, X509_OVERLENGTH, X509_MALFORMED, X509_ABSENT. */
x509_status x509_subject_directory_attributes_next(const uint8_t *value, size_t len, size_t *at, x509_request_attribute *found);

/* The values of an attribute, a SET, one after the other. Whether they are in order, and all different, isn't looked at.
 * Answers X509_OK, X509_MEMORY, X509_OVERLENGTH, X509_MALFORMED, X509_ABSENT. */
x509_status x509_attribute_value_next(const uint8_t *value, size_t len, size_t *at, x509_element *found);

/* Decodes a CSR, and says where the extensions stand that it asks for, a whole SEQUENCE, for x509_extensions_next: the value of its attribute extensionRequest
 * (1.2.840.113549.1.9.14; RFC 2985 5.4.2). X509_ABSENT where it has no such attribute, X509_REPEATED where it has two or more, X509_FAILED where the attribute
 * hasn't just one value, X509_MALFORMED where that value is no list of extensions. Else refused as x509_request_check is.
 * Answers X509_OK, X509_MEMORY, X509_OVERLENGTH, X509_MALFORMED, X509_FAILED, X509_ABSENT, X509_REPEATED. */
x509_status x509_request_extensions(const uint8_t *in, size_t len, x509_span *found);

/* ---- keys and algorithms */

/* Kinds of public keys, by the OID of their algorithm, and of elliptic curves by the name of the curve. */
#define X509_KEY_OTHER 0
#define X509_KEY_RSA 1     /* rsaEncryption (RFC 3279 2.3.1) */
#define X509_KEY_RSA_PSS 2 /* id-RSASSA-PSS (RFC 4055 1.2) */
#define X509_KEY_DSA 3     /* id-dsa (RFC 3279 2.3.2) */
#define X509_KEY_EC_P256 4 /* id-ecPublicKey with secp256r1 (RFC 5480 2.1.1.1) */
#define X509_KEY_EC_P384 5 /* with secp384r1 */
#define X509_KEY_EC_P521 6 /* with secp521r1 */
#define X509_KEY_EC_OTHER 7 /* with another curve, or with one that isn't named */
#define X509_KEY_ED25519 8 /* RFC 8410 3 */
#define X509_KEY_ED448 9
#define X509_KEY_X25519 10
#define X509_KEY_X448 11

typedef struct {
    uint32_t kind;        /* one of these numbers */
    x509_span oid;        /* the content octets of the OID of its algorithm */
    x509_span parameters; /* the parameters of its algorithm, a whole element, looked at for the name of a curve alone; 0 and 0 where absent */
    x509_span bits;       /* the octets of the key: what its BIT STRING holds after the first octet */
    uint32_t unused_bits; /* how many bits of the last of these octets are unused, 0 to 7 */
    x509_span curve;      /* of a key of an elliptic curve the content octets of the OID of the curve; 0 and 0 where the curve isn't named, and of other keys */
    uint32_t size;        /* how many bits it has, as 2048; 0 where that isn't known */
} x509_key;

/* Decodes a SubjectPublicKeyInfo, such as `subject_public_key_info` of x509_certificate, and says what it holds and where. The key isn't looked into, but for
 * its size: its bits are the point of an elliptic curve (RFC 5480 2.2), or what x509_rsa_key_view reads.
 *
 * The size is the bits of the modulus of an RSA key (RFC 8017 A.1.1), of the prime of a DSA key whose algorithm has parameters (RFC 3279 2.3.2), and of the
 * field of these curves: secp192r1, secp224r1, secp256r1, secp256k1, secp384r1, secp521r1, and brainpoolP256r1, brainpoolP384r1, brainpoolP512r1; 256 of
 * Ed25519 and X25519, 456 of Ed448, 448 of X448, as their octets have (OpenSSL says 253 of X25519). It is 0 of other keys, and where the numbers can't be read.
 * Answers X509_OK, X509_MEMORY, X509_OVERLENGTH, X509_MALFORMED. */
x509_status x509_key_view(const uint8_t *in, size_t len, x509_key *view);

/* Writes a SubjectPublicKeyInfo as it is used under the key above it (RFC 5280 6.1.4 (d) to (f)), another one, into out[0..room), and says how long it is in
 * `*written`: where the parameters of its algorithm are left out or NULL, and the key above is of the same algorithm and has parameters, the key with these;
 * else the key as it is. Who verifies the signatures of a path that x509_path_validate judges verifies the first under the anchor's key, and each other one
 * under the key of the certificate above it, as that is used under the key further up: the first such key above is the anchor's, and each further one is what
 * this call wrote.
 *
 * X509_ROOM where it doesn't fit, and `*written` is how long it is. X509_OVERLENGTH also where it would be more than 268,435,455 bytes.
 * Answers X509_OK, X509_MEMORY, X509_ROOM, X509_OVERLENGTH, X509_MALFORMED. */
x509_status x509_working_key(const uint8_t *above, size_t above_len, const uint8_t *key, size_t key_len, uint8_t *out, size_t room, size_t *written);

/* The numbers are the content octets of their INTEGERs: the most significant octet first, behind a 00 where the first bit would be 1. */
typedef struct {
    x509_span modulus;
    x509_span public_exponent;
    uint32_t modulus_bits; /* how many bits the modulus has, as 2048 */
} x509_rsa_key;

/* Decodes an RSAPublicKey (RFC 8017 A.1.1), which the bits of a key of the kind X509_KEY_RSA or X509_KEY_RSA_PSS are, and says where its parts stand. The
 * numbers aren't below 0; whether they are good ones isn't checked.
 * Answers X509_OK, X509_MEMORY, X509_OVERLENGTH, X509_MALFORMED. */
x509_status x509_rsa_key_view(const uint8_t *in, size_t len, x509_rsa_key *view);

/* Kinds of signature algorithms, by their OIDs. */
#define X509_SIGNATURE_OTHER 0
#define X509_SIGNATURE_RSA_SHA1 1 /* RFC 3279 2.2.1 */
#define X509_SIGNATURE_RSA_SHA224 2 /* RFC 4055 5 */
#define X509_SIGNATURE_RSA_SHA256 3
#define X509_SIGNATURE_RSA_SHA384 4
#define X509_SIGNATURE_RSA_SHA512 5
#define X509_SIGNATURE_RSA_PSS 6  /* id-RSASSA-PSS (RFC 4055 3.1), of which the parameters name the hash */
#define X509_SIGNATURE_DSA_SHA1 7 /* RFC 3279 2.2.2 */
#define X509_SIGNATURE_DSA_SHA224 8 /* RFC 5758 3.1 */
#define X509_SIGNATURE_DSA_SHA256 9
#define X509_SIGNATURE_ECDSA_SHA1 10 /* RFC 3279 2.2.3 */
#define X509_SIGNATURE_ECDSA_SHA224 11 /* RFC 5758 3.2 */
#define X509_SIGNATURE_ECDSA_SHA256 12
#define X509_SIGNATURE_ECDSA_SHA384 13
#define X509_SIGNATURE_ECDSA_SHA512 14
#define X509_SIGNATURE_ED25519 15 /* RFC 8410 3 */
#define X509_SIGNATURE_ED448 16

typedef struct {
    uint32_t kind;        /* one of these numbers */
    x509_span oid;        /* the content octets of its OID */
    x509_span parameters; /* its parameters, a whole element, which isn't looked at; 0 and 0 where there are none */
} x509_algorithm;

/* Decodes an AlgorithmIdentifier, such as `algorithm` of x509_signature, and says what it holds and where.
 * Answers X509_OK, X509_MEMORY, X509_OVERLENGTH, X509_MALFORMED. */
x509_status x509_algorithm_view(const uint8_t *in, size_t len, x509_algorithm *view);

/* ---- trust anchors (RFC 5914) */

/* What a trust anchor is. */
#define X509_ANCHOR_CERTIFICATE 0
#define X509_ANCHOR_TBS_CERTIFICATE 1 /* a certificate without its signature */
#define X509_ANCHOR_INFO 2            /* a TrustAnchorInfo: a key and what is asked of paths */

/* Of what is left out both numbers are 0. The last four are of a TrustAnchorInfo alone. */
typedef struct {
    uint32_t kind;                     /* one of these numbers */
    x509_span element;                 /* the Certificate, TBSCertificate or TrustAnchorInfo, a whole element, within its tag */
    x509_span name;                    /* a whole Name: of the subject, or that in the constraints on paths */
    x509_span subject_public_key_info; /* the public key and its algorithm, for x509_key_view */
    x509_span extensions;              /* the SEQUENCE of extensions, for x509_extensions_next */
    x509_span key_identifier;          /* the octets of the key identifier; of a certificate an extension holds it (2.5.29.14) */
    x509_span title;                   /* the title, UTF-8 */
    x509_span title_language;          /* the language of the title, as "en" */
    x509_span controls;                /* the constraints on paths, a whole CertPathControls, for x509_path_controls_view */
} x509_anchor;

/* Decodes a TrustAnchorChoice (RFC 5914 3) under RFC 5280, and says what it holds and where.
 * Answers X509_OK, X509_MEMORY, X509_OVERLENGTH, X509_MALFORMED. */
x509_status x509_anchor_view(const uint8_t *in, size_t len, x509_anchor *view);

/* Flags about policies (RFC 5914 2.5): the named bit n as 1 << n. */
#define X509_POLICY_FLAGS_INHIBIT_POLICY_MAPPING 1
#define X509_POLICY_FLAGS_REQUIRE_EXPLICIT_POLICY 2
#define X509_POLICY_FLAGS_INHIBIT_ANY_POLICY 4

/* Of what is left out both numbers of a span are 0. What is said or not is 1 or 0. */
typedef struct {
    x509_span name;        /* a whole Name */
    x509_span certificate; /* a certificate of the anchor, a whole element under the tag [0]: with 30 in place of its first octet, a0, it is a Certificate */
    x509_span policies;    /* the policies for which a path may be valid, a whole element, for x509_certificate_policies_under_next with the number 1 */
    uint32_t has_policy_flags;
    uint32_t policy_flags; /* a sum of the numbers above; 0 where there are none */
    x509_span permitted;   /* the permitted subtrees of names, a whole element, for x509_subtrees_under_next with the number 0 */
    x509_span excluded;    /* the excluded subtrees of names, a whole element, for x509_subtrees_under_next with the number 1 */
    uint32_t has_path_len;
    uint32_t path_len; /* how many intermediate certificates may follow at most; 0 where it isn't said */
} x509_path_controls;

/* Decodes a CertPathControls (RFC 5914 2.5) under RFC 5280, as `controls` of x509_anchor, and says what it holds and where.
 * Answers X509_OK, X509_MEMORY, X509_OVERLENGTH, X509_MALFORMED. */
x509_status x509_path_controls_view(const uint8_t *value, size_t len, x509_path_controls *view);

/* ---- documents
 *
 * These calls decode an object and write its document, which says all that the object has, with its extensions and entries, in UTF-8 (no zero at the
 * end). They go by the grammar alone, as under X509_RAW. X509_OVERLENGTH exactly where the input is too long; within that length X509_MALFORMED
 * exactly where it is the encoding of no such object. A trust anchor is a TrustAnchorChoice (RFC 5914 3); a certificate is one. The value of an
 * extension is written in hex where it can't be decoded, as "undecodable", and where its OID isn't known, as "unknown". crates/x509_text/specs
 * defines which lines there are.
 *
 * Those that end in _text write lines: a label, a colon and a text, such as "serial: 05", behind two spaces for each line that it stands under, and
 * with a line feed at its end. No text of an object forges a line or turns its order round: of each control character, separator of lines and mark of
 * direction the bytes of its UTF-8 are written, as "\0a".
 *
 * Those that end in _json write the same lines as JSON (RFC 8259): an array of objects such as {"depth": 0, "label": "serial", "text": "05"}, in which
 * such a character is written as "\u000a". So JSON gives each text back as it is, while "\0a" in a line may be three characters of the text.
 *
 * Buffers are as said under whole values; and a buffer is unchanged after each status but X509_OK.
 * Answers X509_OK, X509_ROOM, X509_MEMORY, X509_OVERLENGTH, X509_MALFORMED. */
x509_status x509_certificate_text(const uint8_t *in, size_t len, uint8_t *out, size_t room, size_t *written);
x509_status x509_certificate_json(const uint8_t *in, size_t len, uint8_t *out, size_t room, size_t *written);
x509_status x509_crl_text(const uint8_t *in, size_t len, uint8_t *out, size_t room, size_t *written);
x509_status x509_crl_json(const uint8_t *in, size_t len, uint8_t *out, size_t room, size_t *written);
x509_status x509_request_text(const uint8_t *in, size_t len, uint8_t *out, size_t room, size_t *written);
x509_status x509_request_json(const uint8_t *in, size_t len, uint8_t *out, size_t room, size_t *written);
x509_status x509_anchor_text(const uint8_t *in, size_t len, uint8_t *out, size_t room, size_t *written);
x509_status x509_anchor_json(const uint8_t *in, size_t len, uint8_t *out, size_t room, size_t *written);

/* ---- rules
 *
 * These calls decode an object by the grammar alone, as under X509_RAW, and write which rules it breaks that no grammar has: those on certificates and CRLs
 * (RFC 5280), on CSRs (RFC 2986, 2985) and on trust anchors (RFC 5914; of one that is a certificate or a TBSCertificate, those on certificates) that
 * docs/RULES.md lists, in UTF-8 (no zero at the end). There is a line for each rule that is broken, in the order of the rules, an object of JSON (RFC 8259)
 * such as
 *
 *     {"object": "certificate", "rule": "serial_number_not_positive", "severity": "error", "section": "RFC 5280 4.1.2.2",
 *      "place": "tbsCertificate.serialNumber", "seen": "00"}
 *
 * in one line, with a line feed at its end; where no rule is broken, nothing. The severity is "error" where the standard says MUST or has a size or a type,
 * "warning" where it says SHOULD, and "not judged" where it allows what isn't read here. `seen` is empty where nothing is told of what stands at the place.
 * X509_OVERLENGTH exactly where the input is too long; within that length X509_MALFORMED exactly where it is the encoding of no such object.
 *
 * Buffers are as said under whole values; and a buffer is unchanged after each status but X509_OK.
 * Answers X509_OK, X509_ROOM, X509_MEMORY, X509_OVERLENGTH, X509_MALFORMED. */
x509_status x509_certificate_lint(const uint8_t *in, size_t len, uint8_t *out, size_t room, size_t *written);
x509_status x509_crl_lint(const uint8_t *in, size_t len, uint8_t *out, size_t room, size_t *written);
x509_status x509_request_lint(const uint8_t *in, size_t len, uint8_t *out, size_t room, size_t *written);
x509_status x509_anchor_lint(const uint8_t *in, size_t len, uint8_t *out, size_t room, size_t *written);

/* The texts of a finding, without their quotation marks. */
typedef struct {
    x509_span object;   /* what the object is called: "certificate", "crl", "csr" or "anchor" */
    x509_span rule;     /* the name of the rule */
    x509_span severity; /* "error", "warning" or "not judged" */
    x509_span section;  /* the standard and its section, as "RFC 5280 4.1.2.2" */
    x509_span place;    /* where in the object the rule is broken, in the field names of the standard */
    x509_span seen;     /* what is seen there, in hex; of no bytes where nothing is told */
} x509_finding;

/* The findings of such lines, one after the other: where the texts of one stand. `*at` is 0 to begin, and is moved behind the line. X509_ABSENT at the end of
 * the lines, so at once where no rule is broken. X509_MALFORMED where no line of these members, without a quotation mark in a text, stands at `*at`, or where
 * `*at` is behind the end; so bytes that no call wrote do no harm. It takes no memory.
 * Answers X509_OK, X509_MALFORMED, X509_ABSENT. */
x509_status x509_finding_next(const uint8_t *lines, size_t len, size_t *at, x509_finding *found);

/* ---- signed certificate timestamps, SCTs */

/* The serialized timestamps of a SignedCertificateTimestampList (1.3.6.1.4.1.11129.2.4.2; RFC 6962 3.3), one after the other: where their octets stand,
 * without the two that say how many they are. `*at` is 0 to begin; it is moved as said under values of extensions. What a timestamp says isn't looked
 * at, so that those of an unknown version can be passed over. X509_ABSENT at the end of the list, of an empty list at once. X509_MALFORMED where the
 * bytes aren't an OCTET STRING that holds such a list, where `*at` is neither 0 nor a place in it, or where no serialized timestamp stands there. It
 * takes no memory.
 * Answers X509_OK, X509_MALFORMED, X509_ABSENT. */
x509_status x509_timestamp_next(const uint8_t *value, size_t len, size_t *at, x509_span *found);

/* The numbers of algorithms are those of TLS 1.2 (RFC 5246 7.4.1.4.1; RFC 8422 5.1.3): hashes 0 to 6 and 8 (intrinsic), such as 4 for SHA-256;
 * signatures 0 to 3, 7 and 8, such as 3 for ECDSA. */
typedef struct {
    uint32_t version;             /* 0, which is v1 */
    x509_span log_id;             /* the ID of the log, 32 octets */
    uint64_t timestamp;           /* milliseconds since 1970-01-01T00:00:00Z */
    x509_span extensions;         /* the octets of extensions, of which v1 has none */
    uint32_t hash;                /* the hash algorithm of the signature */
    uint32_t signature_algorithm; /* its signature algorithm */
    x509_span signature;          /* its octets */
} x509_timestamp;

/* Decodes a serialized timestamp, as x509_timestamp_next finds it, and says what it holds and where; places are offsets in `in`. X509_MALFORMED where it
 * isn't one of version 1, with known algorithms and nothing behind it.
 * Answers X509_OK, X509_MEMORY, X509_MALFORMED. */
x509_status x509_timestamp_view(const uint8_t *in, size_t len, x509_timestamp *view);

/* Writes what the signature of a timestamp within a certificate is over (RFC 6962 3.2, precert_entry): of a serialized timestamp, as x509_timestamp_next finds
 * it in the certificate, whose issuer has the second certificate. The caller verifies it with the log's key, by the algorithms and the signature that
 * x509_timestamp_view tells. Whether the issuer issued the certificate, and whether the certificate has that timestamp, isn't looked at. X509_ABSENT where the
 * certificate has no list of timestamps, X509_REPEATED where it has two or more; nothing is written then. X509_MALFORMED where the timestamp is none as
 * x509_timestamp_view takes it, or one of the others is no certificate under RFC 5280. X509_OVERLENGTH where a certificate is longer than x509_check takes, or
 * the signed part without timestamps has more than 16,777,215 bytes. Where several are bad, any of these. Rooms are as said under whole values.
 * Answers X509_OK, X509_ROOM, X509_MEMORY, X509_OVERLENGTH, X509_MALFORMED, X509_ABSENT, X509_REPEATED. */
x509_status x509_timestamp_signed_data(const uint8_t *timestamp, size_t timestamp_len, const uint8_t *certificate, size_t certificate_len,
                                       const uint8_t *issuer, size_t issuer_len, uint8_t *out, size_t room, size_t *written);

/* The same of a timestamp that came beside the certificate, in the TLS handshake or in an OCSP response (RFC 6962 3.3, x509_entry): the certificate is taken
 * as it stands, and not looked at. X509_MALFORMED where the timestamp is none as x509_timestamp_view takes it, X509_OVERLENGTH where the certificate has no
 * bytes, or more than 16,777,215.
 * Answers X509_OK, X509_ROOM, X509_MEMORY, X509_OVERLENGTH, X509_MALFORMED. */
x509_status x509_timestamp_signed_data_beside(const uint8_t *timestamp, size_t timestamp_len, const uint8_t *certificate, size_t certificate_len, uint8_t *out,
                                              size_t room, size_t *written);

/* Writes the signed part that a log has of a certificate (RFC 6962 3.2): its TBSCertificate without the list of timestamps, all else byte for byte as it
 * stands, but for the lengths above it; and of a precertificate, which the authority itself signed, its TBSCertificate without the poison
 * (1.3.6.1.4.1.11129.2.4.3). Where the two agree but for these extensions, they are the same bytes. X509_ABSENT where it hasn't that extension, X509_REPEATED
 * where it has it twice or more; nothing is written then. X509_MALFORMED where it is no certificate under RFC 5280. Rooms are as said under whole values.
 * Answers X509_OK, X509_ROOM, X509_MEMORY, X509_OVERLENGTH, X509_MALFORMED, X509_ABSENT, X509_REPEATED. */
x509_status x509_logged_part(const uint8_t *certificate, size_t certificate_len, uint8_t *out, size_t room, size_t *written);
x509_status x509_logged_precertificate(const uint8_t *precertificate, size_t precertificate_len, uint8_t *out, size_t room, size_t *written);

/* The same of a precertificate that a precertificate signing certificate signed (RFC 6962 3.1; its extended key usage has 1.3.6.1.4.1.11129.2.4.4): without
 * the poison, with the issuer of the signing certificate, and, where the precertificate has an authority key identifier (2.5.29.35), with the value that this
 * extension has in the signing certificate (3.2); all else byte for byte as it stands. Whether that certificate is one, and signed the precertificate, isn't
 * looked at. X509_ABSENT where the precertificate hasn't the poison, or has one authority key identifier and the signing certificate none; X509_REPEATED where
 * the precertificate has either of the two extensions twice or more, or has an authority key identifier, and the signing certificate two or more; nothing is
 * written then. X509_MALFORMED where one of them is no certificate under RFC 5280, X509_OVERLENGTH where one is longer than x509_check takes, or what is to be
 * written is. Rooms are as said under whole values.
 * Answers X509_OK, X509_ROOM, X509_MEMORY, X509_OVERLENGTH, X509_MALFORMED, X509_ABSENT, X509_REPEATED. */
x509_status x509_logged_precertificate_signed_by(const uint8_t *precertificate, size_t precertificate_len, const uint8_t *signing, size_t signing_len,
                                                 uint8_t *out, size_t room, size_t *written);

/* The entries of logs (RFC 6962 3.4, 4.6), and what is signed of their trees. A log's JSON has these bytes in base64. Places are offsets in `in`. */

typedef struct {
    uint32_t version;           /* 0, which is v1 */
    uint32_t leaf_type;         /* 0, timestamped_entry */
    uint64_t timestamp;         /* milliseconds since 1970-01-01T00:00:00Z */
    uint32_t entry_type;        /* 0, x509_entry, or 1, precert_entry */
    x509_span issuer_key_hash;  /* of a precertificate the SHA-256 digest of its issuer's key, 32 bytes; of a certificate empty, at 0 */
    x509_span certificate;      /* the certificate; of a precertificate its TBSCertificate, as x509_logged_part writes it */
    x509_span extensions;       /* the bytes of extensions, of which v1 has none */
} x509_log_leaf;

/* Decodes a leaf of a log's tree, a MerkleTreeLeaf (RFC 6962 3.4): `leaf_input` of get-entries. What the certificate says isn't looked at.
 * x509_merkle_leaf_hash of the same bytes is the hash by which the leaf is in the tree. X509_MALFORMED where it isn't one of version 1, of a certificate or a
 * precertificate, with nothing behind it; then the view is as it was.
 * Answers X509_OK, X509_MEMORY, X509_MALFORMED. */
x509_status x509_log_leaf_view(const uint8_t *in, size_t len, x509_log_leaf *view);

typedef struct {
    x509_span precertificate; /* the precertificate that was submitted */
    x509_span chain;          /* its chain, as x509_log_chain_next takes it: the issuer of the precertificate first */
} x509_log_precertificate;

/* Decodes what a log gives beside the entry of a precertificate, a PrecertChainEntry (RFC 6962 3.1): `extra_data` of get-entries, where the leaf is of entry
 * type 1. X509_MALFORMED where it isn't one, with nothing behind it; then the view is as it was.
 * Answers X509_OK, X509_MEMORY, X509_MALFORMED. */
x509_status x509_log_precertificate_view(const uint8_t *in, size_t len, x509_log_precertificate *view);

/* Steps over the certificates of a chain, ASN.1Cert<0..2^24-1> (RFC 6962 3.1): `extra_data` of get-entries, where the leaf is of entry type 0, and the chain of
 * a precertificate. `*at` is 0 to begin; X509_OK fills in where the next certificate stands, without its length, and moves `*at` behind it. X509_ABSENT at the
 * end. X509_MALFORMED where the bytes are no such chain, where `*at` is neither 0 nor a place in it, or where no certificate of a byte or more stands there.
 * What the certificate says isn't looked at. It takes no memory.
 * Answers X509_OK, X509_MALFORMED, X509_ABSENT. */
x509_status x509_log_chain_next(const uint8_t *in, size_t len, size_t *at, x509_span *found);

/* Writes what the signature of a tree head is over, a TreeHeadSignature of version 1 (RFC 6962 3.5), of what get-sth gives (4.3): the timestamp in milliseconds,
 * the size of the tree and its root hash. The caller verifies it with the log's key. X509_MALFORMED where the hash hasn't 32 bytes. Rooms are as said under
 * whole values.
 * Answers X509_OK, X509_ROOM, X509_MEMORY, X509_MALFORMED. */
x509_status x509_tree_head_signed_data(uint64_t timestamp, uint64_t tree_size, const uint8_t *root_hash, size_t root_hash_len, uint8_t *out, size_t room,
                                       size_t *written);

/* Proofs of the trees of logs (RFC 6962 2.1), over SHA-256. A hash has 32 bytes; those of a path and of a proof stand one behind the other, as a log gives
 * them. What is hashed of an entry is its MerkleTreeLeaf (3.4). */

/* Writes the hash of a leaf: of a byte 0 and the entry. Rooms are as said under whole values; it takes no memory.
 * Answers X509_OK, X509_ROOM. */
x509_status x509_merkle_leaf_hash(const uint8_t *entry, size_t entry_len, uint8_t *out, size_t room, size_t *written);

/* Verifies an audit path (2.1.1): that the leaf with that hash, at the index from 0 on, is in the tree of `size` leaves with that root. X509_FAILED where the
 * path doesn't lead there, so also where it has too few or too many hashes or the tree has no such leaf, and where one of these is no hash.
 * Answers X509_OK, X509_MEMORY, X509_FAILED. */
x509_status x509_merkle_inclusion(const uint8_t *leaf_hash, size_t leaf_hash_len, uint64_t index, uint64_t size, const uint8_t *path, size_t path_len,
                                  const uint8_t *root, size_t root_len);

/* Verifies a consistency proof (2.1.2): that the first leaves of the tree of `new_size` leaves with the new root are those of the tree of `old_size` leaves
 * with the old root. Of two equal sizes the proof is empty, and the roots are one. X509_FAILED where the proof doesn't lead to both, so also where the old
 * size is 0 or above the new one, and where one of these is no hash.
 * Answers X509_OK, X509_MEMORY, X509_FAILED. */
x509_status x509_merkle_consistency(uint64_t old_size, uint64_t new_size, const uint8_t *old_root, size_t old_root_len, const uint8_t *new_root,
                                    size_t new_root_len, const uint8_t *proof, size_t proof_len);

/* ---- building
 *
 * A certificate, a CRL and a CSR are built in two steps, since the private key stays with the caller: the x509_build_ calls write the bytes to be signed,
 * the caller signs them, and x509_assemble puts them and the signature together. That the signature is one of these bytes isn't checked.
 *
 * Names are whole Names, as x509_name_build and x509_name_from_text write them; keys are SubjectPublicKeyInfo and algorithms AlgorithmIdentifier, in DER. A
 * list of extensions or attributes is given as the encodings of its members one after the other, as x509_extension_encode writes them; a length of 0 is the
 * empty list. X509_REPEATED where what is to be built would have two extensions of one OID in one list (RFC 5280 4.2); nothing is written then. Where several
 * inputs are bad, any of their answers may come. Rooms are as said under whole values. */

/* Writes an extension: with an OID, given by its content octets, critical where `critical` isn't 0, and holding these bytes, the encoding of its value, which
 * isn't decoded. X509_MALFORMED where no OID has the content octets.
 * Answers X509_OK, X509_ROOM, X509_MEMORY, X509_OVERLENGTH, X509_MALFORMED. */
x509_status x509_extension_encode(const uint8_t *oid, size_t oid_len, uint32_t critical, const uint8_t *value, size_t value_len,
                                  uint8_t *out, size_t room, size_t *written);

/* Writes an entry of a CRL: of the certificate with this serial number (the DER encoding of an INTEGER, as the view of a certificate has it), revoked at that
 * time, with these extensions. X509_VALUE where the time is after 9999-12-31T23:59:59Z.
 * Answers X509_OK, X509_ROOM, X509_MEMORY, X509_OVERLENGTH, X509_MALFORMED, X509_VALUE, X509_REPEATED. */
x509_status x509_crl_entry_encode(const uint8_t *serial_number, size_t serial_number_len, uint64_t date, const uint8_t *extensions, size_t extensions_len,
                                  uint8_t *out, size_t room, size_t *written);

/* Writes the bytes to be signed of a CSR (RFC 2986 4.1): for that subject and key, with these attributes, in any order, and with one that asks for these
 * extensions, which stands there where there are none too. X509_SET_DUPLICATE where two attributes are equal, or one asks for extensions itself.
 * Answers X509_OK, X509_ROOM, X509_MEMORY, X509_OVERLENGTH, X509_MALFORMED, X509_SET_DUPLICATE, X509_REPEATED. */
x509_status x509_build_request(const uint8_t *subject, size_t subject_len, const uint8_t *key, size_t key_len, const uint8_t *attributes, size_t attributes_len,
                               const uint8_t *extensions, size_t extensions_len, uint8_t *out, size_t room, size_t *written);

/* Writes the bytes to be signed of a certificate (TBSCertificate, RFC 5280 4.1): with that serial number (the DER encoding of an INTEGER), for a signature by
 * that algorithm, by that issuer, from the one moment to the other, which are UTCTime through 2049 and else GeneralizedTime, for that subject and key, and with
 * these extensions in their order. It is of v3 where there are extensions, else of v1, and has no unique identifiers. That the certificate keeps the further
 * rules of RFC 5280 isn't looked at. X509_VALUE where a date is after 9999-12-31T23:59:59Z, or `not_after` is before `not_before`.
 * Answers X509_OK, X509_ROOM, X509_MEMORY, X509_OVERLENGTH, X509_MALFORMED, X509_VALUE, X509_REPEATED. */
x509_status x509_build_certificate(const uint8_t *serial_number, size_t serial_number_len, const uint8_t *algorithm, size_t algorithm_len,
                                   const uint8_t *issuer, size_t issuer_len, uint64_t not_before, uint64_t not_after,
                                   const uint8_t *subject, size_t subject_len, const uint8_t *key, size_t key_len,
                                   const uint8_t *extensions, size_t extensions_len, uint8_t *out, size_t room, size_t *written);

/* The next four write the bytes to be signed of certificates of one kind each, with the extensions that the kind has: those that are said there, in that order.
 * `extensions` are put in front of them, as they are; X509_REPEATED also where one of them is one that the kind has. A key identifier is the SHA-1 digest of a
 * key's octets (RFC 5280 4.2.1.2). Dates are as said above. What is asked for by a number is asked for where it isn't 0.
 *
 * A root authority (CA/Browser Forum, Baseline Requirements 7.1.2.1), which is its own issuer and signs with its own key: AKI; BasicConstraints of an
 * authority, without a path length constraint; KeyUsage with keyCertSign and cRLSign, and with digitalSignature where it signs OCSP responses; SKI. X509_FAILED
 * where an authority can't have that subject: it has a country, an organization and a common name, and may have state, locality, street address and postal
 * code; each is alone in its relative name, is there once, and stands in the order of 7.1.4.2.
 * Answers X509_OK, X509_ROOM, X509_MEMORY, X509_OVERLENGTH, X509_MALFORMED, X509_FAILED, X509_VALUE, X509_REPEATED. */
x509_status x509_build_root(const uint8_t *serial_number, size_t serial_number_len, const uint8_t *algorithm, size_t algorithm_len,
                            uint64_t not_before, uint64_t not_after, const uint8_t *subject, size_t subject_len, const uint8_t *key, size_t key_len,
                            uint32_t signs_ocsp_responses, const uint8_t *extensions, size_t extensions_len, uint8_t *out, size_t room, size_t *written);

/* An authority for TLS below another one, which has that name and that key (7.1.2.6): AKI of the issuer's key; BasicConstraints of an authority, with that path
 * length constraint where `has_path_len` isn't 0; KeyUsage as of a root; SKI; ExtendedKeyUsage with serverAuth, and with clientAuth where asked for. X509_VALUE
 * also where the path length constraint is above 255.
 * Answers X509_OK, X509_ROOM, X509_MEMORY, X509_OVERLENGTH, X509_MALFORMED, X509_VALUE, X509_REPEATED. */
x509_status x509_build_subordinate(const uint8_t *serial_number, size_t serial_number_len, const uint8_t *algorithm, size_t algorithm_len,
                                   const uint8_t *issuer, size_t issuer_len, const uint8_t *issuer_key, size_t issuer_key_len,
                                   uint64_t not_before, uint64_t not_after, const uint8_t *subject, size_t subject_len,
                                   const uint8_t *key, size_t key_len, uint32_t has_path_len, uint32_t path_len,
                                   uint32_t signs_ocsp_responses, uint32_t client_auth, const uint8_t *extensions, size_t extensions_len,
                                   uint8_t *out, size_t room, size_t *written);

/* A TLS server of which control of its domains was validated (7.1.2.7): of the subject only the country and the common names are kept. AKI of the issuer's key;
 * ExtendedKeyUsage with serverAuth, and with clientAuth where asked for; BasicConstraints of no authority; KeyUsage with digitalSignature, and where asked for
 * of an RSA key with keyEncipherment and dataEncipherment, of an elliptic curve key with keyAgreement. The SAN isn't made: it is one of `extensions`.
 * Answers X509_OK, X509_ROOM, X509_MEMORY, X509_OVERLENGTH, X509_MALFORMED, X509_VALUE, X509_REPEATED. */
x509_status x509_build_subscriber(const uint8_t *serial_number, size_t serial_number_len, const uint8_t *algorithm, size_t algorithm_len,
                                  const uint8_t *issuer, size_t issuer_len, const uint8_t *issuer_key, size_t issuer_key_len,
                                  uint64_t not_before, uint64_t not_after, const uint8_t *subject, size_t subject_len, const uint8_t *key, size_t key_len,
                                  uint32_t client_auth, uint32_t key_encipherment, uint32_t key_agreement, uint32_t data_encipherment,
                                  const uint8_t *extensions, size_t extensions_len, uint8_t *out, size_t room, size_t *written);

/* A device (IEEE 802.1AR 8): AKI of the issuer's key; KeyUsage with digitalSignature; a SAN of `names`, a whole GeneralNames, which is left out where there are
 * no bytes, and is critical where the subject is the empty name. One of the names has to be that of a hardware module (RFC 4108 5): X509_FAILED where none says
 * that it is, X509_MALFORMED where the first that says so isn't one.
 * Answers X509_OK, X509_ROOM, X509_MEMORY, X509_OVERLENGTH, X509_MALFORMED, X509_FAILED, X509_VALUE, X509_REPEATED. */
x509_status x509_build_device(const uint8_t *serial_number, size_t serial_number_len, const uint8_t *algorithm, size_t algorithm_len,
                              const uint8_t *issuer, size_t issuer_len, const uint8_t *issuer_key, size_t issuer_key_len,
                              uint64_t not_before, uint64_t not_after, const uint8_t *subject, size_t subject_len,
                              const uint8_t *key, size_t key_len, const uint8_t *names, size_t names_len,
                              const uint8_t *extensions, size_t extensions_len, uint8_t *out, size_t room, size_t *written);

/* Writes the bytes to be signed of a CRL of v2 (TBSCertList, RFC 5280 5.1.2): issued at that time by the subject of the issuer's certificate, for a signature
 * by that algorithm, with that next update where `has_next_update` isn't 0, with these entries, and with these extensions behind two: the CRL number, whose
 * octets stand most significant first, and the AKI, which is the SKI in the issuer's certificate, and where that has none, the SHA-1 digest of its public key
 * (RFC 5280 4.2.1.2). `issuer` is a certificate, and entries are given as extensions are, as x509_crl_entry_encode writes them. X509_FAILED where the issuer's
 * certificate has two SKIs; X509_VALUE where the number has no octets, a time is after 9999-12-31T23:59:59Z, or the next update is before this one;
 * X509_REPEATED also where `extensions` has a CRL number or an AKI. The extensions of entries aren't looked at here, but by x509_crl_entry_encode.
 * Answers X509_OK, X509_ROOM, X509_MEMORY, X509_OVERLENGTH, X509_MALFORMED, X509_FAILED, X509_VALUE, X509_REPEATED. */
x509_status x509_build_crl(const uint8_t *issuer, size_t issuer_len, const uint8_t *algorithm, size_t algorithm_len, const uint8_t *number, size_t number_len,
                           uint64_t this_update, uint32_t has_next_update, uint64_t next_update, const uint8_t *entries, size_t entries_len,
                           const uint8_t *extensions, size_t extensions_len, uint8_t *out, size_t room, size_t *written);

/* Writes the certificate, the CRL or the CSR of a signed part, an algorithm and a signature (its octets, all bits of which are used): SEQUENCE { part,
 * algorithm, BIT STRING }, in which the bytes of the part and of the algorithm stand as they are. X509_FAILED where the part is that of a certificate or of a
 * CRL with another algorithm inside (RFC 5280 4.1.1.2, 5.1.1.2). X509_MALFORMED where the algorithm is no AlgorithmIdentifier, or the part none of the three
 * kinds under RFC 5280.
 * Answers X509_OK, X509_ROOM, X509_MEMORY, X509_OVERLENGTH, X509_MALFORMED, X509_FAILED. */
x509_status x509_assemble(const uint8_t *part, size_t part_len, const uint8_t *algorithm, size_t algorithm_len, const uint8_t *signature, size_t signature_len,
                          uint8_t *out, size_t room, size_t *written);

#ifdef __cplusplus
}
#endif
#endif
