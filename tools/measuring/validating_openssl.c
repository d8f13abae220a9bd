/* Validates paths by OpenSSL 3, for counts of instructions: time_validating.py compiles and runs it. WHAT is
 *
 *   path   X509_verify_cert under a store of the anchor, which is made once; the path is decoded each time
 *   crl    the same, and the CRL is decoded each time, and asked about the last certificate
 *   again  X509_CRL_get0_by_cert alone, of certificates and a CRL that are decoded once; the first time sorts the CRL
 *
 * linked with -lcrypto */
#include "validating.h"
#include <openssl/x509.h>
#include <openssl/x509_vfy.h>
#include <openssl/x509v3.h>

static X509_STORE *store;
static X509_VERIFY_PARAM *asked;
static X509 *kept;
static X509_CRL *kept_crl;

static X509 *decoded(octets from)
{
    const unsigned char *at = from.at;
    return d2i_X509(NULL, &at, (long)from.len);
}

static X509_CRL *decoded_crl(void)
{
    const unsigned char *at = crl.at;
    return d2i_X509_CRL(NULL, &at, (long)crl.len);
}

static void prepare(void)
{
    X509 *root = decoded(anchor);
    store = X509_STORE_new();
    asked = X509_VERIFY_PARAM_new();
    must(store != NULL && asked != NULL && root != NULL && X509_STORE_add_cert(store, root) == 1, "OpenSSL takes no anchor");
    X509_free(root);
    X509_VERIFY_PARAM_set_time(asked, (time_t)MOMENT);
    if (policy.len != 0) {
        const unsigned char *at = policy.at;
        X509_VERIFY_PARAM_set_flags(asked, X509_V_FLAG_POLICY_CHECK | X509_V_FLAG_EXPLICIT_POLICY);
        X509_VERIFY_PARAM_add0_policy(asked, d2i_ASN1_OBJECT(NULL, &at, (long)policy.len));
    }
}

static void prepare_crl(void)
{
    prepare();
    X509_VERIFY_PARAM_set_flags(asked, X509_V_FLAG_CRL_CHECK);
}

static void prepare_kept(void)
{
    kept = decoded(certificates[count - 1]);
    kept_crl = decoded_crl();
    must(kept != NULL && kept_crl != NULL, "OpenSSL decodes no certificate, or no CRL");
}

static int is_valid(X509 *last, STACK_OF(X509) *above, STACK_OF(X509_CRL) *lists)
{
    X509_STORE_CTX *context = X509_STORE_CTX_new();
    must(X509_STORE_CTX_init(context, store, last, above) == 1 && X509_VERIFY_PARAM_set1(X509_STORE_CTX_get0_param(context), asked) == 1, "no context");
    if (lists != NULL)
        X509_STORE_CTX_set0_crls(context, lists);
    const int is_so = X509_verify_cert(context) == 1;
    if (!is_so)
        snprintf(why, sizeof why, "%s", X509_verify_cert_error_string(X509_STORE_CTX_get_error(context)));
    X509_STORE_CTX_free(context);
    return is_so;
}

static int ask(STACK_OF(X509_CRL) *lists)
{
    STACK_OF(X509) *above = sk_X509_new_null();
    X509 *last = decoded(certificates[count - 1]);
    int is_so = last != NULL;
    for (size_t place = 0; place + 1 < count && is_so; place++) {
        X509 *one = decoded(certificates[place]);
        is_so = one != NULL && sk_X509_push(above, one) > 0;
    }
    snprintf(why, sizeof why, "d2i_X509");
    is_so = is_so && is_valid(last, above, lists);
    sk_X509_pop_free(above, X509_free);
    X509_free(last);
    return is_so;
}

static int ask_path(void)
{
    return ask(NULL);
}

static int ask_crl(void)
{
    STACK_OF(X509_CRL) *lists = sk_X509_CRL_new_null();
    X509_CRL *list = decoded_crl();
    snprintf(why, sizeof why, "d2i_X509_CRL");
    const int is_so = list != NULL && sk_X509_CRL_push(lists, list) > 0 && ask(lists);
    sk_X509_CRL_pop_free(lists, X509_CRL_free);
    return is_so;
}

static int ask_again(void)
{
    X509_REVOKED *found = NULL;
    snprintf(why, sizeof why, "revoked");
    return X509_CRL_get0_by_cert(kept_crl, &found, kept) == 0;
}

int main(int argc, char **argv)
{
    static const what all[] = {{"path", prepare, ask_path}, {"crl", prepare_crl, ask_crl}, {"again", prepare_kept, ask_again}, {0}};
    return run(argc, argv, all);
}
