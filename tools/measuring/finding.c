/* Finds a path so many times, for counts of instructions: time_finding.py runs it.
 *
 * FOLDER has roots.bin, candidates.bin and leaf.bin, each of certificates one behind the other, with the length of each in four octets in front, the most
 * significant first. WHAT is
 *
 *   find         x509_path_find under the roots, over the candidates, to the leaf, from their DER; signatures are left to the caller
 *   openssl      OpenSSL's X509_verify_cert with the roots in a store that is made once; the candidates and the leaf are decoded each time
 *   openssl-all  the same, and the store is made of the roots each time too
 *   decode       OpenSSL's d2i_X509 of the candidates and the leaf alone
 *
 * usage: finding LIBRARY FOLDER WHAT COUNT, linked with -lcrypto -ldl */
#include <dlfcn.h>
#include <openssl/x509.h>
#include <openssl/x509_vfy.h>
#include <openssl/x509v3.h>
#include <stdio.h>
#include <stdlib.h>
#include <string.h>
#include "x509.h"

enum { MOST = 1 << 22, MOST_CERTIFICATES = 512, MOST_NAME = 4096, DEPTH = 8 };

typedef struct {
    x509_span spans[MOST_CERTIFICATES];
    size_t count;
} list;

static uint8_t bytes[MOST];
static size_t len;
static list roots, candidates, leaf;
static const uint64_t MOMENT = 1795996800; /* 2026-11-30T00:00:00Z */

static void must(int is_so, const char *what)
{
    if (!is_so) {
        fprintf(stderr, "finding: %s\n", what);
        exit(1);
    }
}

static void read_list(const char *folder, const char *name, list *into)
{
    char at[MOST_NAME];
    uint8_t size[4];
    snprintf(at, sizeof at, "%s/%s", folder, name);
    FILE *file = fopen(at, "rb");
    must(file != NULL, at);
    while (fread(size, 1, sizeof size, file) == sizeof size) {
        const size_t one = (size_t)size[0] << 24 | (size_t)size[1] << 16 | (size_t)size[2] << 8 | size[3];
        must(into->count < MOST_CERTIFICATES && one <= MOST - len && fread(bytes + len, 1, one, file) == one, "a file that is too long, or cut");
        into->spans[into->count++] = (x509_span){len, one};
        len += one;
    }
    fclose(file);
}

static X509 *decoded(x509_span span)
{
    const unsigned char *at = bytes + span.place;
    X509 *found = d2i_X509(NULL, &at, (long)span.len);
    must(found != NULL, "OpenSSL decodes no certificate");
    return found;
}

static void find(void *library)
{
    x509_status (*call)(const uint8_t *, size_t, const x509_span *, size_t, const x509_span *, size_t, const x509_span *, const x509_bad_link *, size_t, const uint8_t *,
                        size_t, const uint8_t *, size_t, const x509_path_settings *, size_t, uint32_t, size_t *, size_t, x509_found_path *);
    *(void **)&call = dlsym(library, "x509_path_find");
    must(call != NULL, "the library has no x509_path_find");
    const x509_path_settings settings = {.moment = MOMENT, .purposes = X509_PURPOSE_SERVER_AUTH};
    x509_found_path found = {0, 0, 0, 0};
    size_t path[DEPTH];
    const x509_status status = call(bytes, len, roots.spans, roots.count, candidates.spans, candidates.count, leaf.spans, NULL, 0, NULL, 0, NULL, 0, &settings,
                                    sizeof settings, DEPTH, path, DEPTH, &found);
    must(status == X509_OK && found.count == 1, "no path, or another");
}

static void by_openssl(X509_STORE *store, int is_verified)
{
    STACK_OF(X509) *given = sk_X509_new_null();
    X509 *last = decoded(leaf.spans[0]);
    for (size_t at = 0; at < candidates.count; at++)
        sk_X509_push(given, decoded(candidates.spans[at]));
    if (is_verified) {
        X509_STORE_CTX *context = X509_STORE_CTX_new();
        must(X509_STORE_CTX_init(context, store, last, given) == 1, "OpenSSL makes no context");
        X509_VERIFY_PARAM_set_time(X509_STORE_CTX_get0_param(context), (time_t)MOMENT);
        X509_STORE_CTX_set_purpose(context, X509_PURPOSE_SSL_SERVER);
        must(X509_verify_cert(context) == 1, X509_verify_cert_error_string(X509_STORE_CTX_get_error(context)));
        X509_STORE_CTX_free(context);
    }
    sk_X509_pop_free(given, X509_free);
    X509_free(last);
}

/* The roots, decoded. */
static X509_STORE *made_store(void)
{
    X509_STORE *store = X509_STORE_new();
    for (size_t at = 0; at < roots.count; at++) {
        X509 *root = decoded(roots.spans[at]);
        must(X509_STORE_add_cert(store, root) == 1, "OpenSSL takes no root");
        X509_free(root);
    }
    return store;
}

int main(int argc, char **argv)
{
    must(argc == 5, "usage: finding LIBRARY FOLDER WHAT COUNT");
    void *library = dlopen(argv[1], RTLD_NOW);
    must(library != NULL, "no library");
    read_list(argv[2], "roots.bin", &roots);
    read_list(argv[2], "candidates.bin", &candidates);
    read_list(argv[2], "leaf.bin", &leaf);
    X509_STORE *store = made_store();
    for (long count = strtol(argv[4], NULL, 10); count > 0; count--) {
        if (strcmp(argv[3], "find") == 0) {
            find(library);
            continue;
        }
        if (strcmp(argv[3], "openssl-all") == 0) {
            X509_STORE_free(store);
            store = made_store();
        }
        by_openssl(store, strcmp(argv[3], "decode") != 0);
    }
    X509_STORE_free(store);
    return 0;
}
