/* Asks OpenSSL's SCT_validate about the timestamps (SCTs) of a certificate (RFC 6962 3.2, 3.3), and prints a line for each, in their order.
 *
 * FOLDER has certificate.der and issuer.der, and logs.cnf, which names the keys of the logs as CTLOG_STORE_load_file takes them. Where it has list.der, an
 * OCTET STRING with a SignedCertificateTimestampList, the timestamps are those, of a precertificate; else those in the certificate's extension. MOMENT is
 * that until which logs may have signed, in milliseconds since 1970-01-01T00:00:00Z.
 *
 * The lines are `valid`, `invalid`, `unknown log`, `unknown version`, or `unverified`, as of a certificate of which OpenSSL makes no entry; or one line,
 * `no certificate`, or `no list` where there is none, or more than one, or it can't be decoded. It ends with 0, and with 2 where it can't ask.
 *
 * usage: openssl_timestamps FOLDER MOMENT, linked with -lcrypto */
#include <openssl/ct.h>
#include <openssl/err.h>
#include <openssl/x509.h>
#include <openssl/x509v3.h>
#include <stdio.h>
#include <stdlib.h>
#include <string.h>

enum { MOST_NAME = 4096, MOST_BYTES = 1 << 20 };

static uint8_t bytes[MOST_BYTES];

/* Reads a file of the folder; its length, or -1 where there is none. */
static long read_file(const char *folder, const char *name)
{
    char path[MOST_NAME];
    snprintf(path, sizeof path, "%s/%s", folder, name);
    FILE *file = fopen(path, "rb");
    if (file == NULL)
        return -1;
    const size_t len = fread(bytes, 1, sizeof bytes, file);
    fclose(file);
    return (long)len;
}

/* The certificate that all the bytes of a file are; NULL where they are none. */
static X509 *read_certificate(const char *folder, const char *name)
{
    const long len = read_file(folder, name);
    const uint8_t *at = bytes;
    X509 *found = len < 0 ? NULL : d2i_X509(NULL, &at, len);
    if (found != NULL && at != bytes + len) {
        X509_free(found);
        return NULL;
    }
    return found;
}

/* The timestamps of the file, or of the certificate; NULL where there is no list. */
static STACK_OF(SCT) *read_list(const char *folder, const X509 *certificate)
{
    const long len = read_file(folder, "list.der");
    if (len < 0)
        return X509_get_ext_d2i(certificate, NID_ct_precert_scts, NULL, NULL);
    const uint8_t *at = bytes;
    STACK_OF(SCT) *list = d2i_SCT_LIST(NULL, &at, len);
    for (int place = 0; list != NULL && place < sk_SCT_num(list); place++)
        if (SCT_get_version(sk_SCT_value(list, place)) == SCT_VERSION_V1
            && SCT_set_log_entry_type(sk_SCT_value(list, place), CT_LOG_ENTRY_TYPE_PRECERT) != 1) {
            SCT_LIST_free(list);
            return NULL;
        }
    return list;
}

static const char *status_of(SCT *sct, const CT_POLICY_EVAL_CTX *context)
{
    if (SCT_validate(sct, context) < 0)
        return NULL;
    switch (SCT_get_validation_status(sct)) {
    case SCT_VALIDATION_STATUS_VALID: return "valid";
    case SCT_VALIDATION_STATUS_INVALID: return "invalid";
    case SCT_VALIDATION_STATUS_UNKNOWN_LOG: return "unknown log";
    case SCT_VALIDATION_STATUS_UNKNOWN_VERSION: return "unknown version";
    case SCT_VALIDATION_STATUS_UNVERIFIED: return "unverified";
    default: return NULL;
    }
}

/* Prints the lines; whether each timestamp can be asked about. */
static int tell_all(const STACK_OF(SCT) *list, const CT_POLICY_EVAL_CTX *context)
{
    for (int place = 0; place < sk_SCT_num(list); place++) {
        const char *status = status_of(sk_SCT_value(list, place), context);
        if (status == NULL)
            return 0;
        puts(status);
    }
    return 1;
}

/* Tells of the certificate; whether OpenSSL can be asked. */
static int tell(const char *folder, CTLOG_STORE *logs, X509 *certificate, X509 *issuer, uint64_t moment)
{
    STACK_OF(SCT) *list = read_list(folder, certificate);
    if (list == NULL) {
        puts("no list");
        return 1;
    }
    CT_POLICY_EVAL_CTX *context = CT_POLICY_EVAL_CTX_new();
    int is_asked = context != NULL && CT_POLICY_EVAL_CTX_set1_cert(context, certificate) == 1 && CT_POLICY_EVAL_CTX_set1_issuer(context, issuer) == 1;
    if (is_asked) {
        CT_POLICY_EVAL_CTX_set_shared_CTLOG_STORE(context, logs);
        CT_POLICY_EVAL_CTX_set_time(context, moment);
        is_asked = tell_all(list, context);
    }
    CT_POLICY_EVAL_CTX_free(context);
    SCT_LIST_free(list);
    return is_asked;
}

int main(int argc, char **argv)
{
    if (argc != 3) {
        fprintf(stderr, "usage: openssl_timestamps FOLDER MOMENT\n");
        return 2;
    }
    char path[MOST_NAME];
    snprintf(path, sizeof path, "%s/logs.cnf", argv[1]);
    CTLOG_STORE *logs = CTLOG_STORE_new();
    int is_asked = logs != NULL && CTLOG_STORE_load_file(logs, path) == 1;
    X509 *certificate = read_certificate(argv[1], "certificate.der"), *issuer = read_certificate(argv[1], "issuer.der");
    if (is_asked && (certificate == NULL || issuer == NULL))
        puts("no certificate");
    else if (is_asked)
        is_asked = tell(argv[1], logs, certificate, issuer, strtoull(argv[2], NULL, 10));
    if (!is_asked)
        ERR_print_errors_fp(stderr);
    X509_free(certificate);
    X509_free(issuer);
    CTLOG_STORE_free(logs);
    return is_asked ? 0 : 2;
}
