/* Validates paths by mbedtls 2.28, for counts of instructions: time_validating.py compiles and runs it. WHAT is
 *
 *   path   mbedtls_x509_crt_verify under the anchor, which is decoded once; the path is decoded each time
 *   crl    the same, with the CRL, which is decoded each time
 *   again  mbedtls_x509_crt_is_revoked alone, of a certificate and a CRL that are decoded once
 *
 * linked with -lmbedx509 -lmbedcrypto */
#include "validating.h"
#include <mbedtls/x509_crl.h>
#include <mbedtls/x509_crt.h>
#include <time.h>

static mbedtls_x509_crt root, kept;
static mbedtls_x509_crl kept_crl;

/* mbedtls asks the C library what time it is: it is always that moment. */
time_t time(time_t *into)
{
    if (into != NULL)
        *into = (time_t)MOMENT;
    return (time_t)MOMENT;
}

static void prepare(void)
{
    mbedtls_x509_crt_init(&root);
    must(mbedtls_x509_crt_parse_der(&root, anchor.at, anchor.len) == 0, "mbedtls takes no anchor");
}

static void prepare_kept(void)
{
    mbedtls_x509_crt_init(&kept);
    mbedtls_x509_crl_init(&kept_crl);
    must(mbedtls_x509_crt_parse_der(&kept, certificates[count - 1].at, certificates[count - 1].len) == 0, "mbedtls decodes no certificate");
    must(mbedtls_x509_crl_parse_der(&kept_crl, crl.at, crl.len) == 0, "mbedtls decodes no CRL");
}

static int ask(mbedtls_x509_crl *list)
{
    mbedtls_x509_crt chain;
    uint32_t flags = 0;
    int status = 0;
    mbedtls_x509_crt_init(&chain);
    /* the leaf first */
    for (size_t left = count; left > 0 && status == 0; left--)
        status = mbedtls_x509_crt_parse_der(&chain, certificates[left - 1].at, certificates[left - 1].len);
    if (status == 0)
        status = mbedtls_x509_crt_verify(&chain, &root, list, NULL, &flags, NULL, NULL);
    if (status != 0)
        snprintf(why, sizeof why, "-0x%x, with flags 0x%x", (unsigned)-status, (unsigned)flags);
    mbedtls_x509_crt_free(&chain);
    return status == 0;
}

static int ask_path(void)
{
    return ask(NULL);
}

static int ask_crl(void)
{
    mbedtls_x509_crl list;
    mbedtls_x509_crl_init(&list);
    snprintf(why, sizeof why, "no CRL");
    const int is_so = mbedtls_x509_crl_parse_der(&list, crl.at, crl.len) == 0 && ask(&list);
    mbedtls_x509_crl_free(&list);
    return is_so;
}

static int ask_again(void)
{
    snprintf(why, sizeof why, "revoked");
    return !mbedtls_x509_crt_is_revoked(&kept, &kept_crl);
}

int main(int argc, char **argv)
{
    static const what all[] = {{"path", prepare, ask_path}, {"crl", prepare, ask_crl}, {"again", prepare_kept, ask_again}, {0}};
    return run(argc, argv, all);
}
