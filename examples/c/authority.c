/* A small authority: a root (RSA), an intermediate (P-256), a server (Ed25519) by its CSR, and CRLs of the intermediate. The library writes what is to be
 * signed, puts the whole together, and encodes what extensions hold; the keys and the signatures are OpenSSL's libcrypto's.
 *
 * It writes root.der, intermediate.der, server.der and request.der into the folder, with the CRLs before.der, which is empty, and after.der, which
 * revokes the server. It ends with 0 where all of them are written, and with 1 else.
 *
 * Link with libx509_c.a liblibc_c.a -lcrypto.
 *
 * usage: authority FOLDER */
#include <openssl/evp.h>
#include <openssl/rsa.h>
#include <openssl/x509.h>
#include <stdint.h>
#include <stdio.h>
#include <stdlib.h>
#include <string.h>
#include "x509.h"

/* Bytes that are to be freed; NULL where there are none. */
typedef struct {
    uint8_t *bytes;
    size_t len;
} buffer;

/* Bytes of another's, for as long as those stand. */
typedef struct {
    const uint8_t *bytes;
    size_t len;
} octets;

#define OCTETS(text) {(const uint8_t *)(text), sizeof(text) - 1}

static const octets RSA_SHA256 = OCTETS(X509_ALGORITHM_RSA_SHA256);
static const octets ECDSA_SHA256 = OCTETS(X509_ALGORITHM_ECDSA_SHA256);
static const octets ED25519 = OCTETS(X509_ALGORITHM_ED25519);

static const octets OID_SUBJECT_KEY_IDENTIFIER = OCTETS(X509_OID_SUBJECT_KEY_IDENTIFIER);
static const octets OID_KEY_USAGE = OCTETS(X509_OID_KEY_USAGE);
static const octets OID_SUBJECT_ALT_NAME = OCTETS(X509_OID_SUBJECT_ALT_NAME);
static const octets OID_BASIC_CONSTRAINTS = OCTETS(X509_OID_BASIC_CONSTRAINTS);
static const octets OID_CRL_REASON = OCTETS(X509_OID_CRL_REASON);
static const octets OID_AUTHORITY_KEY_IDENTIFIER = OCTETS(X509_OID_AUTHORITY_KEY_IDENTIFIER);
static const octets OID_EXTENDED_KEY_USAGE = OCTETS(X509_OID_EXTENDED_KEY_USAGE);

/* 2026-01-01T00:00:00Z and 2035-12-31T23:59:59Z */
static const uint64_t START = 1767225600, END = 2082758399;

static octets of(buffer it)
{
    return (octets){it.bytes, it.len};
}

static octets part_of(octets whole, x509_span span)
{
    return (octets){whole.bytes + span.place, span.len};
}

static void drop(buffer *it)
{
    free(it->bytes);
    *it = (buffer){NULL, 0};
}

/* Puts bytes behind those of a buffer. */
static int append(buffer *to, octets added)
{
    if (added.len > SIZE_MAX - 1 - to->len)
        return 0;
    uint8_t *bytes = realloc(to->bytes, to->len + added.len + 1);
    if (bytes == NULL)
        return 0;
    if (added.len > 0)
        memcpy(bytes + to->len, added.bytes, added.len);
    *to = (buffer){bytes, to->len + added.len};
    return 1;
}

/* ---- calls that write: a first one with no buffer says how much is needed */

typedef x509_status call(void *with, uint8_t *out, size_t room, size_t *written);

/* Fills a buffer that was empty. Says on stderr what was refused. */
static int fill(const char *what, call *write, void *with, buffer *out)
{
    size_t written = 0;
    x509_status status = write(with, NULL, 0, &written);
    if (status == X509_ROOM) {
        out->bytes = malloc(written);
        status = out->bytes == NULL ? X509_MEMORY : write(with, out->bytes, written, &written);
    }
    if (status == X509_OK) {
        out->len = written;
        return 1;
    }
    drop(out);
    uint8_t text[128];
    size_t len = 0;
    if (x509_status_text(status, text, sizeof text, &len) != X509_OK)
        len = 0;
    fprintf(stderr, "authority: %s: status %d, %.*s\n", what, status, (int)len, (const char *)text);
    return 0;
}

static x509_status write_name(void *with, uint8_t *out, size_t room, size_t *written)
{
    const char *text = with;
    return x509_name_from_text((const uint8_t *)text, strlen(text), out, room, written);
}

typedef struct {
    octets oid, value;
    uint32_t critical;
} extension_parts;

static x509_status write_extension(void *with, uint8_t *out, size_t room, size_t *written)
{
    const extension_parts *it = with;
    return x509_extension_encode(it->oid.bytes, it->oid.len, it->critical, it->value.bytes, it->value.len, out, room, written);
}

typedef struct {
    octets serial_number, algorithm, issuer, subject, key, extensions;
} certificate_parts;

static x509_status write_certificate(void *with, uint8_t *out, size_t room, size_t *written)
{
    const certificate_parts *it = with;
    return x509_build_certificate(it->serial_number.bytes, it->serial_number.len, it->algorithm.bytes, it->algorithm.len, it->issuer.bytes,
                                  it->issuer.len, START, END, it->subject.bytes, it->subject.len, it->key.bytes, it->key.len, it->extensions.bytes,
                                  it->extensions.len, out, room, written);
}

typedef struct {
    octets subject, key, extensions;
} request_parts;

static x509_status write_request(void *with, uint8_t *out, size_t room, size_t *written)
{
    const request_parts *it = with;
    return x509_build_request(it->subject.bytes, it->subject.len, it->key.bytes, it->key.len, NULL, 0, it->extensions.bytes, it->extensions.len, out, room,
                              written);
}

typedef struct {
    octets serial_number, extensions;
} entry_parts;

static x509_status write_entry(void *with, uint8_t *out, size_t room, size_t *written)
{
    const entry_parts *it = with;
    return x509_crl_entry_encode(it->serial_number.bytes, it->serial_number.len, START, it->extensions.bytes, it->extensions.len, out, room, written);
}

typedef struct {
    octets issuer, algorithm, number, entries;
} crl_parts;

static x509_status write_crl(void *with, uint8_t *out, size_t room, size_t *written)
{
    const crl_parts *it = with;
    return x509_build_crl(it->issuer.bytes, it->issuer.len, it->algorithm.bytes, it->algorithm.len, it->number.bytes, it->number.len, START, 1, END,
                          it->entries.bytes, it->entries.len, NULL, 0, out, room, written);
}

typedef struct {
    octets part, algorithm, signature;
} signed_parts;

static x509_status write_signed(void *with, uint8_t *out, size_t room, size_t *written)
{
    const signed_parts *it = with;
    return x509_assemble(it->part.bytes, it->part.len, it->algorithm.bytes, it->algorithm.len, it->signature.bytes, it->signature.len, out, room, written);
}

/* ---- keys */

/* A key, its SubjectPublicKeyInfo and the algorithm that it signs by; `digest` is NULL for Ed25519. */
typedef struct {
    EVP_PKEY *key;
    buffer public_key;
    octets algorithm;
    const char *digest;
} signer;

static void drop_signer(signer *it)
{
    EVP_PKEY_free(it->key);
    drop(&it->public_key);
    it->key = NULL;
}

/* Makes the signer of a key that may be NULL, and takes the key. */
static int make_signer(EVP_PKEY *key, octets algorithm, const char *digest, signer *out)
{
    *out = (signer){key, {NULL, 0}, algorithm, digest};
    unsigned char *der = NULL;
    const int len = key == NULL ? -1 : i2d_PUBKEY(key, &der);
    const int is_made = len > 0 && append(&out->public_key, (octets){der, (size_t)len});
    OPENSSL_free(der);
    return is_made;
}

/* The octets of a signature of the message. */
static int sign(const signer *by, octets message, buffer *out)
{
    EVP_MD_CTX *context = EVP_MD_CTX_new();
    size_t len = 0;
    int is_good = context != NULL && EVP_DigestSignInit_ex(context, NULL, by->digest, NULL, NULL, by->key, NULL) == 1 &&
                  EVP_DigestSign(context, NULL, &len, message.bytes, message.len) == 1;
    if (is_good) {
        out->bytes = malloc(len);
        is_good = out->bytes != NULL && EVP_DigestSign(context, out->bytes, &len, message.bytes, message.len) == 1;
        out->len = len;
    }
    EVP_MD_CTX_free(context);
    if (!is_good)
        drop(out);
    return is_good;
}

/* Signs a part, which it drops, and puts the whole together. */
static int finish(const char *what, const signer *by, buffer *part, buffer *out)
{
    buffer signature = {NULL, 0};
    int is_made = 0;
    if (sign(by, of(*part), &signature)) {
        signed_parts parts = {of(*part), by->algorithm, of(signature)};
        is_made = fill(what, write_signed, &parts, out);
    }
    drop(&signature);
    drop(part);
    return is_made;
}

/* ---- values of extensions */

/* Adds an extension with the value that a call writes. */
static int add_value(buffer *to, octets oid, uint32_t critical, call *write, void *with)
{
    buffer value = {NULL, 0}, made = {NULL, 0};
    int is_added = fill("the value of an extension", write, with, &value);
    extension_parts parts = {oid, of(value), critical};
    is_added = is_added && fill("an extension", write_extension, &parts, &made) && append(to, of(made));
    drop(&made);
    drop(&value);
    return is_added;
}

static x509_status write_constraints(void *with, uint8_t *out, size_t room, size_t *written)
{
    return x509_basic_constraints_encode(with, out, room, written);
}

static x509_status write_usage(void *with, uint8_t *out, size_t room, size_t *written)
{
    const uint32_t *uses = with;
    return x509_key_usage_encode(*uses, out, room, written);
}

/* One purpose, by the content octets of its OID. */
static x509_status write_purpose(void *with, uint8_t *out, size_t room, size_t *written)
{
    const octets *oid = with;
    return x509_extended_key_usage_encode(oid->bytes, oid->len, &oid->len, 1, out, room, written);
}

static x509_status write_identifier(void *with, uint8_t *out, size_t room, size_t *written)
{
    const octets *it = with;
    return x509_subject_key_identifier_encode(it->bytes, it->len, out, room, written);
}

/* The identifier of the key alone. */
static x509_status write_authority(void *with, uint8_t *out, size_t room, size_t *written)
{
    const octets *it = with;
    return x509_authority_key_identifier_encode(1, it->bytes, it->len, NULL, 0, NULL, 0, out, room, written);
}

/* Whose certificate it is, and what its key may be used for (RFC 5280 4.2.1.9, 4.2.1.3). */
static int add_uses(buffer *to, x509_basic_constraints_view constraints, uint32_t uses)
{
    return add_value(to, OID_BASIC_CONSTRAINTS, 1, write_constraints, &constraints) && add_value(to, OID_KEY_USAGE, 1, write_usage, &uses);
}

static x509_status write_dns_name(void *with, uint8_t *out, size_t room, size_t *written)
{
    const octets *name = with;
    return x509_general_name_encode(X509_GENERAL_NAME_DNS, name->bytes, name->len, out, room, written);
}

static x509_status write_names(void *with, uint8_t *out, size_t room, size_t *written)
{
    const buffer *names = with;
    return x509_general_names_encode(names->bytes, names->len, out, room, written);
}

/* A SAN of one DNS name (RFC 5280 4.2.1.6). */
static int add_dns_name(buffer *to, const char *name)
{
    buffer names = {NULL, 0};
    octets text = {(const uint8_t *)name, strlen(name)};
    const int is_added = fill("a name", write_dns_name, &text, &names) && add_value(to, OID_SUBJECT_ALT_NAME, 0, write_names, &names);
    drop(&names);
    return is_added;
}

/* The SHA-1 digest of the bits of a public key (RFC 5280 4.2.1.2); its length, or 0. */
static size_t identify(octets key, unsigned char digest[EVP_MAX_MD_SIZE])
{
    x509_key view;
    size_t len = 0;
    if (x509_key_view(key.bytes, key.len, &view) != X509_OK)
        return 0;
    const octets bits = part_of(key, view.bits);
    return EVP_Q_digest(NULL, "SHA1", NULL, bits.bytes, bits.len, digest, &len) == 1 ? len : 0;
}

static int add_subject_key(buffer *to, octets key)
{
    unsigned char digest[EVP_MAX_MD_SIZE];
    octets told = {digest, identify(key, digest)};
    return told.len > 0 && add_value(to, OID_SUBJECT_KEY_IDENTIFIER, 0, write_identifier, &told);
}

static int add_authority_key(buffer *to, octets key)
{
    unsigned char digest[EVP_MAX_MD_SIZE];
    octets told = {digest, identify(key, digest)};
    return told.len > 0 && add_value(to, OID_AUTHORITY_KEY_IDENTIFIER, 0, write_authority, &told);
}

static x509_status write_reason(void *with, uint8_t *out, size_t room, size_t *written)
{
    const uint32_t *reason = with;
    return x509_crl_reason_encode(*reason, out, room, written);
}

/* Why a certificate is revoked, by its number (RFC 5280 5.3.1). */
enum { KEY_COMPROMISE = 1 };

static int add_reason(buffer *to, uint32_t reason)
{
    return add_value(to, OID_CRL_REASON, 0, write_reason, &reason);
}

/* ---- what the authority makes; each takes `extensions`, which it drops */

/* A name and a key, of which the one is certified by the other or by one above. */
typedef struct {
    buffer name;
    signer by;
} party;

/* The DER of a serial number, which libcrypto writes. */
static int write_number(long number, buffer *out)
{
    ASN1_INTEGER *told = ASN1_INTEGER_new();
    unsigned char *der = NULL;
    int len = -1;
    if (told != NULL && ASN1_INTEGER_set(told, number) == 1)
        len = i2d_ASN1_INTEGER(told, &der);
    ASN1_INTEGER_free(told);
    const int is_written = len > 0 && append(out, (octets){der, (size_t)len});
    OPENSSL_free(der);
    return is_written;
}

/* The certificate for a subject and its key. */
static int certify(const party *issuer, long serial, octets subject, octets key, buffer *extensions, buffer *out)
{
    buffer number = {NULL, 0}, part = {NULL, 0};
    int is_made = write_number(serial, &number) && add_authority_key(extensions, of(issuer->by.public_key)) && add_subject_key(extensions, key);
    certificate_parts parts = {of(number), issuer->by.algorithm, of(issuer->name), subject, key, of(*extensions)};
    is_made = is_made && fill("a certificate", write_certificate, &parts, &part) && finish("a certificate", &issuer->by, &part, out);
    drop(&number);
    drop(extensions);
    return is_made;
}

static int certify_authority(const party *issuer, long serial, const party *subject, x509_basic_constraints_view constraints, buffer *out)
{
    buffer extensions = {NULL, 0};
    if (add_uses(&extensions, constraints, X509_KEY_USAGE_KEY_CERT_SIGN | X509_KEY_USAGE_CRL_SIGN))
        return certify(issuer, serial, of(subject->name), of(subject->by.public_key), &extensions, out);
    drop(&extensions);
    return 0;
}

static int request(const party *subject, const char *name, buffer *out)
{
    buffer extensions = {NULL, 0}, part = {NULL, 0};
    int is_made = add_dns_name(&extensions, name);
    request_parts parts = {of(subject->name), of(subject->by.public_key), of(extensions)};
    is_made = is_made && fill("a CSR", write_request, &parts, &part) && finish("a CSR", &subject->by, &part, out);
    drop(&extensions);
    return is_made;
}

/* Adds the extensions that a CSR asks for (RFC 2985 5.4.2); builders always write a list of them. */
static int add_asked(buffer *to, octets csr)
{
    x509_extension_entry entry;
    x509_span asked;
    if (x509_request_extensions(csr.bytes, csr.len, &asked) != X509_OK)
        return 0;
    const octets list = part_of(csr, asked);
    x509_status status;
    for (size_t at = 0; (status = x509_extensions_next(list.bytes, list.len, &at, &entry)) == X509_OK;) {
        buffer made = {NULL, 0};
        extension_parts parts = {part_of(list, entry.oid), part_of(list, entry.value), entry.critical};
        const int is_added = fill("an extension", write_extension, &parts, &made) && append(to, of(made));
        drop(&made);
        if (!is_added)
            return 0;
    }
    return status == X509_ABSENT;
}

/* Whether libcrypto takes the CSR's signature for its own key. */
static int is_signed_by_itself(octets csr)
{
    const unsigned char *at = csr.bytes;
    X509_REQ *read = csr.len > INT32_MAX ? NULL : d2i_X509_REQ(NULL, &at, (long)csr.len);
    EVP_PKEY *key = read == NULL ? NULL : X509_REQ_get0_pubkey(read);
    const int is_signed = key != NULL && X509_REQ_verify(read, key) == 1;
    X509_REQ_free(read);
    return is_signed;
}

/* The certificate of a server, for the subject, the key and the names of a CSR. */
static int certify_server(const party *issuer, long serial, octets csr, buffer *out)
{
    x509_request view;
    buffer extensions = {NULL, 0};
    octets purpose = OCTETS(X509_OID_SERVER_AUTH);
    if (x509_request_view(csr.bytes, csr.len, &view) == X509_OK && is_signed_by_itself(csr) &&
        add_uses(&extensions, (x509_basic_constraints_view){0, 0, 0}, X509_KEY_USAGE_DIGITAL_SIGNATURE) &&
        add_value(&extensions, OID_EXTENDED_KEY_USAGE, 0, write_purpose, &purpose) && add_asked(&extensions, csr))
        return certify(issuer, serial, part_of(csr, view.subject), part_of(csr, view.subject_public_key_info), &extensions, out);
    drop(&extensions);
    return 0;
}

/* A CRL of an issuer with this certificate; of `revoked`, a certificate, it has an entry, where there is one. */
static int list(octets issuer, const signer *by, uint8_t number, octets revoked, buffer *out)
{
    buffer entry = {NULL, 0}, extensions = {NULL, 0}, part = {NULL, 0};
    int is_made = 1;
    if (revoked.len > 0) {
        x509_certificate view;
        is_made = x509_certificate_view(revoked.bytes, revoked.len, &view) == X509_OK && add_reason(&extensions, KEY_COMPROMISE);
        if (is_made) {
            entry_parts parts = {part_of(revoked, view.serial_number), of(extensions)};
            is_made = fill("an entry", write_entry, &parts, &entry);
        }
    }
    crl_parts parts = {issuer, by->algorithm, {&number, 1}, of(entry)};
    is_made = is_made && fill("a CRL", write_crl, &parts, &part) && finish("a CRL", by, &part, out);
    drop(&entry);
    drop(&extensions);
    return is_made;
}

/* ---- the chain */

enum { ROOT, INTERMEDIATE, SERVER, PARTIES };
enum { ROOT_DER, INTERMEDIATE_DER, REQUEST_DER, SERVER_DER, BEFORE_DER, AFTER_DER, FILES };

static const char *const FILE_NAMES[FILES] = {"root.der", "intermediate.der", "request.der", "server.der", "before.der", "after.der"};

static int make_parties(party *parties)
{
    static char names[PARTIES][64] = {"CN=Root,O=Test,C=US", "CN=Intermediate,O=Test,C=US", "CN=www.example.org"};
    for (int at = 0; at < PARTIES; at++)
        if (!fill("a name", write_name, names[at], &parties[at].name))
            return 0;
    return make_signer(EVP_RSA_gen(2048), RSA_SHA256, "SHA256", &parties[ROOT].by) &&
           make_signer(EVP_EC_gen("P-256"), ECDSA_SHA256, "SHA256", &parties[INTERMEDIATE].by) &&
           make_signer(EVP_PKEY_Q_keygen(NULL, NULL, "ED25519"), ED25519, NULL, &parties[SERVER].by);
}

static int make(const party *parties, buffer *made)
{
    const party *root = &parties[ROOT], *middle = &parties[INTERMEDIATE];
    return certify_authority(root, 1, root, (x509_basic_constraints_view){1, 0, 0}, &made[ROOT_DER]) &&
           certify_authority(root, 2, middle, (x509_basic_constraints_view){1, 1, 0}, &made[INTERMEDIATE_DER]) &&
           request(&parties[SERVER], "www.example.org", &made[REQUEST_DER]) &&
           certify_server(middle, 3, of(made[REQUEST_DER]), &made[SERVER_DER]) &&
           list(of(made[INTERMEDIATE_DER]), &middle->by, 1, (octets){NULL, 0}, &made[BEFORE_DER]) &&
           list(of(made[INTERMEDIATE_DER]), &middle->by, 2, of(made[SERVER_DER]), &made[AFTER_DER]);
}

static int put(const char *folder, const char *name, buffer it)
{
    char path[4096];
    const int len = snprintf(path, sizeof path, "%s/%s", folder, name);
    FILE *file = len > 0 && (size_t)len < sizeof path ? fopen(path, "wb") : NULL;
    if (file == NULL)
        return 0;
    const int is_put = fwrite(it.bytes, 1, it.len, file) == it.len;
    return fclose(file) == 0 && is_put;
}

int main(int argc, char **argv)
{
    if (argc != 2) {
        fprintf(stderr, "usage: authority FOLDER\n");
        return 1;
    }
    party parties[PARTIES] = {0};
    buffer made[FILES] = {0};
    int is_done = make_parties(parties) && make(parties, made);
    for (int at = 0; at < FILES && is_done; at++)
        is_done = put(argv[1], FILE_NAMES[at], made[at]);
    if (!is_done)
        fprintf(stderr, "authority: not all was made\n");
    for (int at = 0; at < FILES; at++)
        drop(&made[at]);
    for (int at = 0; at < PARTIES; at++) {
        drop_signer(&parties[at].by);
        drop(&parties[at].name);
    }
    return is_done ? 0 : 1;
}
