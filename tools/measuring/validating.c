/* Validates paths by the C library, for counts of instructions: time_validating.py compiles and runs it, with the path of the library in the environment as
 * LIBRARY. WHAT is
 *
 *   path   x509_path_validate_views of the certificates, which are first put one after the other: it says of each what is to be verified and under which key;
 *          that of the anchor is found once, by x509_certificate_view. Nothing is verified
 *   crl    the same, and then whether the CRL says that the last is revoked: x509_crl_view, x509_may_sign_crls, x509_revocation_status
 *   again  x509_crl_index_find alone, of the serial number of the last, in a CRL whose index is there
 *   check  x509_path_check in place of x509_path_validate_views
 *
 * linked with -ldl */
#include <dlfcn.h>
#include "validating.h"
#include "x509.h"

static void *library;
static uint8_t *whole; /* the path, and behind it the CRL */
static size_t path_len, lens[MOST_CERTIFICATES];
static x509_path_certificate told[MOST_CERTIFICATES];
static octets anchor_key;
static x509_crl list;
static uint32_t *indexed;
static size_t indexed_count;
static octets serial_number;

/* The call of the library of that name. */
#define CALL(name) ((__typeof__(name) *)found_call(#name))

static void *found_call(const char *name)
{
    void *found = dlsym(library, name);
    must(found != NULL, name);
    return found;
}

/* The calls that are counted, found once. */
static __typeof__(x509_path_validate_views) *validate;
static __typeof__(x509_path_check) *check;
static __typeof__(x509_certificate_view) *view_of;
static __typeof__(x509_crl_view) *crl_view_of;
static __typeof__(x509_may_sign_crls) *may_sign;
static __typeof__(x509_revocation_status) *status_of;
static __typeof__(x509_crl_index_find) *find_by_index;

static void prepare(void)
{
    validate = CALL(x509_path_validate_views);
    check = CALL(x509_path_check);
    view_of = CALL(x509_certificate_view);
    crl_view_of = CALL(x509_crl_view);
    may_sign = CALL(x509_may_sign_crls);
    status_of = CALL(x509_revocation_status);
    find_by_index = CALL(x509_crl_index_find);
    for (size_t at = 0; at < count; at++)
        path_len += lens[at] = certificates[at].len;
    whole = malloc(path_len + crl.len + 1);
    must(whole != NULL, "too little memory");
    x509_certificate view;
    must(view_of(anchor.at, anchor.len, &view) == X509_OK, "no anchor");
    anchor_key = (octets){anchor.at + view.subject_public_key_info.place, view.subject_public_key_info.len};
}

static void prepare_index(void)
{
    prepare();
    x509_certificate last;
    must(view_of(certificates[count - 1].at, lens[count - 1], &last) == X509_OK, "no certificate");
    must(crl_view_of(crl.at, crl.len, &list) == X509_OK, "no CRL");
    serial_number = (octets){certificates[count - 1].at + last.serial_number.place, last.serial_number.len};
    indexed = malloc(crl.len);
    must(indexed != NULL, "too little memory");
    must(CALL(x509_crl_index)(crl.at + list.entries.place, list.entries.len, indexed, crl.len / sizeof *indexed, &indexed_count) == X509_OK, "no index");
}

static void gather(void)
{
    uint8_t *at = whole;
    for (size_t place = 0; place < count; place++) {
        memcpy(at, certificates[place].at, lens[place]);
        at += lens[place];
    }
}

static int refused(const char *call, int status, size_t place, unsigned reason)
{
    snprintf(why, sizeof why, "%s answers %d, of certificate %zu for reason %u", call, status, place, reason);
    return 0;
}

/* Whether there is something to be verified of each certificate, and a key to verify it with. */
static int has_parts(void)
{
    size_t key_len = anchor_key.len;
    for (size_t place = 0; place < count; key_len = told[place++].view.subject_public_key_info.len)
        if (key_len == 0 || told[place].signature.signed_part.len == 0 || told[place].signature.algorithm.len == 0)
            return refused("a part of a signature", X509_OK, place, 0);
    return 1;
}

static int ask_path(void)
{
    static uint8_t out[1 << 16];
    const x509_path_settings settings = {.moment = MOMENT, .flags = policies.len == 0 ? 0 : X509_PATH_EXPLICIT_POLICY};
    x509_path_answer answer = {0};
    gather();
    const x509_status status = validate(anchor.at, anchor.len, whole, path_len, lens, count, NULL, 0, policies.at, policies.len, &settings, sizeof settings,
                                        out, sizeof out, &answer, told, count);
    return status == X509_OK ? has_parts() : refused("x509_path_validate_views", status, answer.place, answer.reason);
}

static int ask_check(void)
{
    x509_path_fault fault = {0};
    gather();
    const x509_status status = check(anchor.at, anchor.len, whole, path_len, lens, count, MOMENT, &fault);
    return status == X509_OK ? 1 : refused("x509_path_check", status, fault.place, fault.reason);
}

static int ask_crl(void)
{
    if (!ask_path())
        return 0;
    must(count > 1, "a CRL, and no issuer in the path");
    memcpy(whole + path_len, crl.at, crl.len);
    const size_t last = path_len - lens[count - 1], above = last - lens[count - 2];
    const x509_certificate *const issuer = &told[count - 2].view;
    x509_crl view;
    uint32_t is_signer = 0;
    x509_status status = crl_view_of(whole + path_len, crl.len, &view);
    if (status == X509_OK)
        status = may_sign(whole + above, lens[count - 2], &is_signer);
    if (status != X509_OK || !is_signer)
        return refused("a call for the CRL", status, 0, 0);
    const x509_signed_crl given = {{path_len, crl.len},
                                   {above + issuer->subject.place, issuer->subject.len},
                                   {above + issuer->subject_public_key_info.place, issuer->subject_public_key_info.len},
                                   1};
    const x509_revocation_settings settings = {.moment = MOMENT};
    x509_revocation_answer answer = {0};
    status = status_of(whole + last, lens[count - 1], whole, path_len + crl.len, &given, 1, &settings, sizeof settings, &answer);
    return status == X509_OK && answer.status == X509_UNREVOKED ? 1 : refused("x509_revocation_status", status, 0, answer.status);
}

static int ask_again(void)
{
    x509_crl_entry found;
    const x509_status status =
        find_by_index(crl.at + list.entries.place, list.entries.len, indexed, indexed_count, serial_number.at, serial_number.len, &found);
    return status == X509_ABSENT ? 1 : refused("x509_crl_index_find", status, 0, 0);
}

int main(int argc, char **argv)
{
    static const what all[] = {{"path", prepare, ask_path}, {"crl", prepare, ask_crl}, {"again", prepare_index, ask_again}, {"check", prepare, ask_check}, {0}};
    const char *name = getenv("LIBRARY");
    library = name == NULL ? NULL : dlopen(name, RTLD_NOW);
    must(library != NULL, "LIBRARY in the environment is no library");
    return run(argc, argv, all);
}
