/* Makes a call about timestamps (SCTs) or a log's tree so many times, for counts of instructions: time_timestamps.py runs it.
 *
 * FOLDER has certificate.der, issuer.der, sct.bin, the first timestamp in the certificate's list, logs.cnf with the key of its log, as CTLOG_STORE_load_file
 * takes it, and path.bin: the hash of a leaf, the root of a tree of 2^30 leaves, and the leaf's audit path in that tree, whose index is 715827882. WHAT is
 *
 *   logged_part   x509_logged_part: the signed part of the certificate without the list, from its DER
 *   signed_data   x509_timestamp_signed_data: what the timestamp is a signature of, from the DER of the certificate and of the issuer
 *   inclusion     x509_merkle_inclusion: the audit path
 *   validate      OpenSSL's SCT_validate of certificates that are decoded already, at a moment before the timestamp's: it looks up the log, hashes its key and
 *                 the issuer's, and cuts the signed part out of a copy of the certificate; then it ends, in front of the digest and the signature
 *   decode        OpenSSL's d2i_X509 of both certificates, and of the list in the one
 *   nodes         OpenSSL's SHA256 of 30 nodes of a tree, each of 65 bytes
 *
 * usage: timestamps LIBRARY FOLDER WHAT COUNT, linked with -lcrypto -ldl */
#include <dlfcn.h>
#include <openssl/ct.h>
#include <openssl/sha.h>
#include <openssl/x509.h>
#include <openssl/x509v3.h>
#include <stdio.h>
#include <stdlib.h>
#include <string.h>
#include "x509.h"

enum { MOST = 1 << 16, HASH = 32, HEIGHT = 30, NODE = 1 + 2 * HASH, MOST_NAME = 4096 };

typedef struct {
    uint8_t bytes[MOST];
    size_t len;
} octets;

static octets certificate, issuer, sct, path;
static char logs_file[MOST_NAME];
static void *library;
static uint8_t out[MOST];

static void must(int is_so, const char *what)
{
    if (!is_so) {
        fprintf(stderr, "timestamps: %s\n", what);
        exit(1);
    }
}

static void read_file(const char *folder, const char *name, octets *into)
{
    char at[MOST_NAME];
    snprintf(at, sizeof at, "%s/%s", folder, name);
    FILE *file = fopen(at, "rb");
    must(file != NULL, at);
    into->len = fread(into->bytes, 1, sizeof into->bytes, file);
    fclose(file);
}

/* The call of the library of that name. */
#define CALL(name) ((__typeof__(name) *)found_call(#name))

static void *found_call(const char *name)
{
    void *found = dlsym(library, name);
    must(found != NULL, name);
    return found;
}

static void logged_part(long count)
{
    __typeof__(x509_logged_part) *call = CALL(x509_logged_part);
    for (size_t written = 0; count > 0; count--)
        must(call(certificate.bytes, certificate.len, out, sizeof out, &written) == X509_OK, "no part");
}

static void signed_data(long count)
{
    __typeof__(x509_timestamp_signed_data) *call = CALL(x509_timestamp_signed_data);
    for (size_t written = 0; count > 0; count--)
        must(call(sct.bytes, sct.len, certificate.bytes, certificate.len, issuer.bytes, issuer.len, out, sizeof out, &written) == X509_OK, "no data");
}

static void inclusion(long count)
{
    __typeof__(x509_merkle_inclusion) *call = CALL(x509_merkle_inclusion);
    for (const uint8_t *leaf = path.bytes; count > 0; count--)
        must(call(leaf, HASH, 715827882, 1u << HEIGHT, leaf + 2 * HASH, HEIGHT * HASH, leaf + HASH, HASH) == X509_OK, "not in the tree");
}

static X509 *decoded(const octets *it)
{
    const uint8_t *at = it->bytes;
    X509 *found = d2i_X509(NULL, &at, (long)it->len);
    must(found != NULL, "no certificate");
    return found;
}

static STACK_OF(SCT) *list_of(const X509 *it)
{
    STACK_OF(SCT) *found = X509_get_ext_d2i(it, NID_ct_precert_scts, NULL, NULL);
    must(found != NULL && sk_SCT_num(found) > 0, "no list");
    return found;
}

static void decode(long count)
{
    for (; count > 0; count--) {
        X509 *whole = decoded(&certificate), *above = decoded(&issuer);
        SCT_LIST_free(list_of(whole));
        X509_free(whole);
        X509_free(above);
    }
}

static void validate(long count)
{
    CTLOG_STORE *logs = CTLOG_STORE_new();
    must(logs != NULL && CTLOG_STORE_load_file(logs, logs_file) == 1, "no logs");
    X509 *whole = decoded(&certificate), *above = decoded(&issuer);
    STACK_OF(SCT) *list = list_of(whole);
    CT_POLICY_EVAL_CTX *context = CT_POLICY_EVAL_CTX_new();
    must(context != NULL && CT_POLICY_EVAL_CTX_set1_cert(context, whole) == 1 && CT_POLICY_EVAL_CTX_set1_issuer(context, above) == 1, "no context");
    CT_POLICY_EVAL_CTX_set_shared_CTLOG_STORE(context, logs);
    SCT *it = sk_SCT_value(list, 0);
    CT_POLICY_EVAL_CTX_set_time(context, SCT_get_timestamp(it));
    must(SCT_validate(it, context) == 1, "not signed");
    CT_POLICY_EVAL_CTX_set_time(context, 0);
    for (; count > 0; count--)
        must(SCT_validate(it, context) == 0 && SCT_get_validation_status(it) == SCT_VALIDATION_STATUS_INVALID, "valid");
    CT_POLICY_EVAL_CTX_free(context);
    SCT_LIST_free(list);
    X509_free(whole);
    X509_free(above);
    CTLOG_STORE_free(logs);
}

static void nodes(long count)
{
    uint8_t node[NODE] = {1};
    for (; count > 0; count--)
        for (int at = 0; at < HEIGHT; at++)
            SHA256(node, sizeof node, node + 1);
}

int main(int argc, char **argv)
{
    static const struct {
        const char *name;
        void (*run)(long count);
    } all[] = {{"logged_part", logged_part}, {"signed_data", signed_data}, {"inclusion", inclusion},
               {"validate", validate},       {"decode", decode},           {"nodes", nodes}};
    must(argc == 5, "usage: timestamps LIBRARY FOLDER WHAT COUNT");
    library = dlopen(argv[1], RTLD_NOW);
    must(library != NULL, "the library can't be opened");
    read_file(argv[2], "certificate.der", &certificate);
    read_file(argv[2], "issuer.der", &issuer);
    read_file(argv[2], "sct.bin", &sct);
    read_file(argv[2], "path.bin", &path);
    snprintf(logs_file, sizeof logs_file, "%s/logs.cnf", argv[2]);
    for (size_t at = 0; at < sizeof all / sizeof all[0]; at++)
        if (strcmp(all[at].name, argv[3]) == 0) {
            all[at].run(strtol(argv[4], NULL, 10));
            return 0;
        }
    must(0, "no such call");
}
