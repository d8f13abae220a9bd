/* What the programs share that verify signatures by OpenSSL's libcrypto. */
#ifndef VERIFYING_H
#define VERIFYING_H

#include <openssl/core_names.h>
#include <openssl/err.h>
#include <openssl/evp.h>
#include <openssl/rsa.h>
#include <openssl/x509.h>
#include <stdint.h>
#include <stdio.h>
#include <stdlib.h>
#include <string.h>
#include "x509.h"

typedef struct {
    const uint8_t *bytes;
    size_t len;
} octets;

/* A signature algorithm: its whole AlgorithmIdentifier, the type of its keys and the fewest bits that these may have, its digest, and whether its
 * padding is that of PSS. */
typedef struct {
    const char *identifier;
    size_t len;
    const char *key;
    int bits;
    const char *digest;
    int is_pss;
} algorithm;

/* How DER spells an AlgorithmIdentifier: of a digest; of RSA with the padding of PKCS #1 v1.5 (RFC 4055 5) and of PSS, of which the digest is also that of
 * the mask, and the salt as long as it (RFC 4055 3.1); of ECDSA (RFC 5758 3.2); of Ed25519 (RFC 8410 3). */
#define SHA(last) "\x30\x0d\x06\x09\x60\x86\x48\x01\x65\x03\x04\x02" last "\x05\x00"
#define PKCS1(last) "\x30\x0d\x06\x09\x2a\x86\x48\x86\xf7\x0d\x01\x01" last "\x05\x00"
#define PSS(sha, salt)                                                                                                              \
    "\x30\x41\x06\x09\x2a\x86\x48\x86\xf7\x0d\x01\x01\x0a\x30\x34\xa0\x0f" SHA(sha)                                                 \
    "\xa1\x1c\x30\x1a\x06\x09\x2a\x86\x48\x86\xf7\x0d\x01\x01\x08" SHA(sha) "\xa2\x03\x02\x01" salt
#define ECDSA(last) "\x30\x0a\x06\x08\x2a\x86\x48\xce\x3d\x04\x03" last
#define ED25519 "\x30\x05\x06\x03\x2b\x65\x70"
#define ROW(identifier, ...) {identifier, sizeof identifier - 1, __VA_ARGS__}

/* The algorithms that are taken. A signature by another one, as by SHA-1, isn't accepted. */
static const algorithm ALGORITHMS[] = {
    ROW(PKCS1("\x0b"), "RSA", 2048, "SHA256", 0),
    ROW(PKCS1("\x0c"), "RSA", 2048, "SHA384", 0),
    ROW(PKCS1("\x0d"), "RSA", 2048, "SHA512", 0),
    ROW(PSS("\x01", "\x20"), "RSA", 2048, "SHA256", 1),
    ROW(PSS("\x02", "\x30"), "RSA", 2048, "SHA384", 1),
    ROW(PSS("\x03", "\x40"), "RSA", 2048, "SHA512", 1),
    ROW(ECDSA("\x02"), "EC", 256, "SHA256", 0),
    ROW(ECDSA("\x03"), "EC", 256, "SHA384", 0),
    ROW(ECDSA("\x04"), "EC", 256, "SHA512", 0),
    ROW(ED25519, "ED25519", 0, NULL, 0),
};

static inline const algorithm *find_algorithm(octets identifier)
{
    for (size_t row = 0; row < sizeof ALGORITHMS / sizeof *ALGORITHMS; row++)
        if (identifier.len == ALGORITHMS[row].len && memcmp(identifier.bytes, ALGORITHMS[row].identifier, identifier.len) == 0)
            return &ALGORITHMS[row];
    return NULL;
}

/* How libcrypto writes a key: with a curve by its name, and with both coordinates of a point (RFC 5480 2.1.1, 2.2). */
static inline int write_key(EVP_PKEY *key, unsigned char **out)
{
    if (EVP_PKEY_is_a(key, "EC") &&
        (!EVP_PKEY_set_utf8_string_param(key, OSSL_PKEY_PARAM_EC_ENCODING, OSSL_PKEY_EC_ENCODING_GROUP) ||
         !EVP_PKEY_set_utf8_string_param(key, OSSL_PKEY_PARAM_EC_POINT_CONVERSION_FORMAT, OSSL_PKEY_EC_POINT_CONVERSION_FORMAT_UNCOMPRESSED)))
        return -1;
    return i2d_PUBKEY(key, out);
}

/* The key of a whole SubjectPublicKeyInfo; NULL where libcrypto reads none, or would write the one that it reads as other bytes. */
static inline EVP_PKEY *read_key(octets info)
{
    const unsigned char *at = info.bytes;
    EVP_PKEY *key = d2i_PUBKEY(NULL, &at, (long)info.len);
    unsigned char *again = NULL;
    const int len = key == NULL ? -1 : write_key(key, &again);
    const int is_same = len >= 0 && (size_t)len == info.len && memcmp(again, info.bytes, info.len) == 0;
    OPENSSL_free(again);
    if (is_same)
        return key;
    EVP_PKEY_free(key);
    return NULL;
}

/* Whether libcrypto accepts the bits as a signature of the message, by that algorithm, for that key. */
static inline int accepts(const algorithm *by, EVP_PKEY *key, octets message, octets bits)
{
    if (!EVP_PKEY_is_a(key, by->key) || EVP_PKEY_get_bits(key) < by->bits)
        return 0;
    EVP_MD_CTX *context = EVP_MD_CTX_new();
    EVP_PKEY_CTX *inner = NULL; /* a part of the context */
    int is_good = context != NULL && EVP_DigestVerifyInit_ex(context, &inner, by->digest, NULL, NULL, key, NULL) == 1;
    if (is_good && by->is_pss)
        is_good = EVP_PKEY_CTX_set_rsa_padding(inner, RSA_PKCS1_PSS_PADDING) == 1 &&
                  EVP_PKEY_CTX_set_rsa_pss_saltlen(inner, RSA_PSS_SALTLEN_DIGEST) == 1;
    is_good = is_good && EVP_DigestVerify(context, bits.bytes, bits.len, message.bytes, message.len) == 1;
    EVP_MD_CTX_free(context);
    return is_good;
}

static inline octets part_of(octets whole, x509_span span)
{
    return (octets){whole.bytes + span.place, span.len};
}

/* Whether libcrypto accepts what is to be verified of a certificate or of a CRL, for the key of a whole SubjectPublicKeyInfo. */
static inline int is_signature(octets whole, const x509_signature *signature, octets info)
{
    const algorithm *by = find_algorithm(part_of(whole, signature->algorithm));
    ERR_set_mark();
    EVP_PKEY *key = read_key(info);
    /* The bits of each of these algorithms are whole octets. */
    const int is_good = by != NULL && key != NULL && signature->unused_bits == 0 &&
                        accepts(by, key, part_of(whole, signature->signed_part), part_of(whole, signature->bits));
    EVP_PKEY_free(key);
    ERR_pop_to_mark(); /* the thread's errors are as they were */
    return is_good;
}

/* Allocates the bytes of a file; none where it can't be read. */
static inline octets read_octets(const char *name)
{
    octets found = {NULL, 0};
    FILE *file = fopen(name, "rb");
    uint8_t *bytes = NULL;
    if (file != NULL && fseek(file, 0, SEEK_END) == 0) {
        const long len = ftell(file);
        bytes = len > 0 ? malloc((size_t)len) : NULL;
        rewind(file);
        if (bytes != NULL && fread(bytes, 1, (size_t)len, file) == (size_t)len)
            found = (octets){bytes, (size_t)len};
        else
            free(bytes);
    }
    if (file != NULL)
        fclose(file);
    return found;
}

#endif
