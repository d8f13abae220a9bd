/* Says whether CRLs of a certificate's issuer say that it is revoked at a moment, where OpenSSL's libcrypto verifies their signatures. That the issuer's
 * certificate is valid, as `path validate` says, is looked at before. Of several CRLs for one scope the newest counts.
 *
 * It prints `unrevoked`; `undetermined`, where the CRLs don't say so of all reasons; `revoked CRL REASON DATE`, with the place of the CRL, from 0, the reason
 * code and the date in seconds since 1970-01-01T00:00:00Z; or `refused STATUS`. It ends with 0 where the certificate is unrevoked, and with 1 else.
 *
 * Link with libx509_c.a liblibc_c.a -lcrypto.
 *
 * usage: revoked MOMENT CERTIFICATE ISSUER CRL.., the moment in seconds since 1970-01-01T00:00:00Z, the others files of DER */
#include <stdio.h>
#include <stdlib.h>
#include <string.h>
#include "verifying.h"

/* A certificate, that of its issuer, whose path is valid, and CRLs of the issuer. */
typedef struct {
    octets certificate, issuer;
    const octets *crls;
    size_t count;
    uint64_t moment;
} question;

/* What CRLs say of a certificate whose issuer's path is valid. The issuer stands in front in `in`, which has room for it and for all CRLs. */
static x509_status ask(const question *it, uint8_t *in, x509_signed_crl *given, x509_revocation_answer *answer)
{
    const x509_revocation_settings settings = {it->moment, 0};
    x509_certificate by;
    x509_crl view;
    uint32_t may_sign = 0;
    x509_status status = x509_certificate_view(it->issuer.bytes, it->issuer.len, &by);
    if (status == X509_OK)
        status = x509_may_sign_crls(it->issuer.bytes, it->issuer.len, &may_sign);
    if (status != X509_OK)
        return status;
    memcpy(in, it->issuer.bytes, it->issuer.len);
    size_t len = it->issuer.len;
    for (size_t at = 0; at < it->count; at++) {
        const octets crl = it->crls[at];
        status = x509_crl_view(crl.bytes, crl.len, &view);
        if (status != X509_OK)
            return status;
        const int is_signed = may_sign == 1 && is_signature(crl, &view.signature, part_of(it->issuer, by.subject_public_key_info));
        given[at] = (x509_signed_crl){{len, crl.len}, by.subject, by.subject_public_key_info, is_signed ? 1 : 0};
        memcpy(in + len, crl.bytes, crl.len);
        len += crl.len;
    }
    return x509_revocation_status(it->certificate.bytes, it->certificate.len, in, len, given, it->count, &settings, sizeof settings, answer);
}

/* Prints the answer, and says with what the program ends. */
static int tell(x509_status status, const x509_revocation_answer *answer)
{
    if (status != X509_OK)
        printf("refused %d\n", status);
    else if (answer->status == X509_REVOKED)
        printf("revoked %zu %u %llu\n", answer->crl, (unsigned)answer->reason, (unsigned long long)answer->date);
    else
        printf("%s\n", answer->status == X509_UNREVOKED ? "unrevoked" : "undetermined");
    return status == X509_OK && answer->status == X509_UNREVOKED ? 0 : 1;
}

int main(int argc, char **argv)
{
    char *end = NULL;
    const uint64_t moment = argc >= 4 ? strtoull(argv[1], &end, 10) : 0;
    if (argc < 4 || argv[1][0] < '0' || argv[1][0] > '9' || *end != 0) {
        fprintf(stderr, "usage: revoked MOMENT CERTIFICATE ISSUER CRL..\n");
        return 1;
    }
    const size_t count = (size_t)argc - 2;
    octets *files = calloc(count, sizeof *files);
    x509_signed_crl *given = calloc(count, sizeof *given);
    size_t len = 0;
    for (size_t at = 0; files != NULL && at < count; at++) {
        files[at] = read_octets(argv[at + 2]);
        len += files[at].len;
    }
    uint8_t *in = malloc(len + 1);
    int ended = 1;
    if (files != NULL && given != NULL && in != NULL) {
        x509_revocation_answer answer = {0, 0, 0, 0, 0};
        const question asked = {files[0], files[1], files + 2, count - 2, moment};
        ended = tell(ask(&asked, in, given, &answer), &answer);
    } else {
        fprintf(stderr, "revoked: there is too little memory\n");
    }
    for (size_t at = 0; files != NULL && at < count; at++)
        free((void *)files[at].bytes);
    free(files);
    free(given);
    free(in);
    return ended;
}
