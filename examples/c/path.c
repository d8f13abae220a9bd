/* Checks a path of certificates, topmost first, at a moment, under the subject and the key of an anchor's certificate. The library checks all but the
 * signatures, and says what is to be verified of each certificate; here OpenSSL's libcrypto verifies that. Policies, name constraints and revocation
 * aren't looked at, nor for whom and for which use the last certificate is.
 *
 * With `validate` in front it validates the path: names are compared as they match (RFC 5280 7.1), and name constraints hold, those of the anchor too. Of a
 * valid path that call says what is to be verified of each certificate.
 *
 * It prints `holds`; or `fault PLACE REASON`, the lowest place that has a fault, from 0, and the first of its faults in the order of x509.h; or
 * `refused STATUS`. It ends with 0 where the path holds, and with 1 else.
 *
 * Link with libx509_c.a liblibc_c.a -lcrypto.
 *
 * usage: path [validate] MOMENT ANCHOR CERTIFICATE.., the moment in seconds since 1970-01-01T00:00:00Z, the others files of DER */
#include <stdio.h>
#include <stdlib.h>
#include <string.h>
#include "verifying.h"

/* ---- a path */

/* A path, at a moment, and whether it is validated; and a place for what each of its certificates says. */
typedef struct {
    octets anchor, path;
    const size_t *lens;
    size_t count;
    uint64_t moment;
    int is_validated;
    x509_path_certificate *certificates;
} question;

/* X509_OK where the path holds apart from signatures; X509_FAULT where it has a fault, with the first; else why it wasn't checked. Of a path that is validated
 * and holds all places are filled in. */
static x509_status ask(const question *it, x509_path_fault *fault)
{
    if (!it->is_validated)
        return x509_path_check(it->anchor.bytes, it->anchor.len, it->path.bytes, it->path.len, it->lens, it->count, it->moment, fault);
    const x509_path_settings settings = {.moment = it->moment};
    x509_path_answer answer = {0, 0, {0, 0}, {0, 0}, 0};
    const x509_status status = x509_path_validate_views(it->anchor.bytes, it->anchor.len, it->path.bytes, it->path.len, it->lens, it->count, NULL, 0, NULL, 0,
                                                        &settings, sizeof settings, NULL, 0, &answer, it->certificates, it->count);
    *fault = (x509_path_fault){answer.place, answer.reason};
    return status;
}

/* Fills in the places in front of `end`. */
static x509_status read_certificates(const question *it, size_t end)
{
    const uint8_t *at = it->path.bytes;
    x509_status status = X509_OK;
    for (size_t place = 0; place < end && status == X509_OK; place++) {
        status = x509_certificate_view(at, it->lens[place], &it->certificates[place].view);
        if (status == X509_OK)
            status = x509_certificate_signature(at, it->lens[place], &it->certificates[place].signature);
        at += it->lens[place];
    }
    return status;
}

/* The first place in front of `end` of a certificate that isn't signed by the key of the one above it, the first by that of the anchor; `end` where each is. */
static size_t first_unsigned(const question *it, octets key, size_t end)
{
    const uint8_t *at = it->path.bytes;
    size_t place = 0;
    for (; place < end; place++) {
        const octets certificate = {at, it->lens[place]};
        if (!is_signature(certificate, &it->certificates[place].signature, key))
            break;
        key = part_of(certificate, it->certificates[place].view.subject_public_key_info);
        at += it->lens[place];
    }
    return place;
}

/* As `ask`, with signatures. */
static x509_status check(const question *it, x509_path_fault *fault)
{
    const x509_status status = ask(it, fault);
    if (status != X509_OK && status != X509_FAULT)
        return status;
    /* A signature's fault comes first where it stands above the other, or at its place and in front of it in the order. */
    const size_t end = status == X509_OK ? it->count : fault->place + (fault->reason > X509_PATH_SIGNATURE);
    x509_certificate anchor;
    x509_status read = x509_certificate_view(it->anchor.bytes, it->anchor.len, &anchor);
    if (read == X509_OK && !(it->is_validated && status == X509_OK))
        read = read_certificates(it, end);
    if (read != X509_OK)
        return read;
    const size_t place = first_unsigned(it, part_of(it->anchor, anchor.subject_public_key_info), end);
    if (place == end)
        return status;
    *fault = (x509_path_fault){place, X509_PATH_SIGNATURE};
    return X509_FAULT;
}

/* Prints the answer, and says with what the program ends. */
static int tell(x509_status status, x509_path_fault fault)
{
    static const char *const reasons[] = {"?",         "Decode", "Algorithm",   "Issuer",         "Moment", "Signature",     "Repeated", "Critical", "NotCa",  "KeyUsage", "PathLen",
                                          "Extension", "Names",  "Constraints", "RepeatedPolicy", "Policy", "PolicyMapping", "Purpose",  "Usage",    "Version"};
    if (status == X509_OK)
        printf("holds\n");
    else if (status == X509_FAULT)
        printf("fault %zu %s\n", fault.place, reasons[fault.reason <= X509_PATH_VERSION ? fault.reason : 0]);
    else
        printf("refused %d\n", status);
    return status == X509_OK ? 0 : 1;
}

/* ---- words and files */

/* A certificate has at most LIMIT bytes (X509_OVERLENGTH). */
enum { LIMIT = 268435455, CHUNK = 65536 };

typedef struct {
    uint8_t *bytes;
    size_t len, room;
} buffer;

static int has_room(buffer *it)
{
    if (it->room - it->len >= CHUNK)
        return 1;
    if (it->room > SIZE_MAX / 2 - CHUNK)
        return 0;
    uint8_t *bytes = realloc(it->bytes, it->room * 2 + CHUNK);
    if (bytes == NULL)
        return 0;
    it->bytes = bytes;
    it->room = it->room * 2 + CHUNK;
    return 1;
}

/* Puts the bytes of a file behind those of a buffer. Of a file that is longer than any certificate some are put there, which are too many too. */
static int read_file(buffer *to, const char *name)
{
    FILE *file = fopen(name, "rb");
    if (file == NULL)
        return 0;
    const size_t start = to->len;
    size_t got = 1;
    while (got > 0 && to->len - start <= LIMIT && has_room(to)) {
        got = fread(to->bytes + to->len, 1, CHUNK, file);
        to->len += got;
    }
    const int is_read = (got == 0 && !ferror(file)) || to->len - start > LIMIT;
    fclose(file);
    return is_read;
}

/* The files of a path, one behind the other, and their lengths. */
static int read_files(buffer *path, size_t *lens, size_t count, char **names)
{
    for (size_t at = 0; at < count; at++) {
        const size_t start = path->len;
        if (!read_file(path, names[at]))
            return 0;
        lens[at] = path->len - start;
    }
    return 1;
}

/* Reads 1 to 19 decimal digits, which are below 2^64. */
static int read_moment(const char *text, uint64_t *moment)
{
    const size_t len = strlen(text);
    *moment = 0;
    for (size_t at = 0; at < len && len <= 19; at++)
        *moment = *moment * 10 + (uint64_t)(text[at] - '0');
    return len >= 1 && len <= 19 && strspn(text, "0123456789") == len;
}

int main(int argc, char **argv)
{
    uint64_t moment = 0;
    const int is_validated = argc > 1 && strcmp(argv[1], "validate") == 0;
    argc -= is_validated;
    argv += is_validated;
    if (argc < 3 || !read_moment(argv[1], &moment)) {
        fprintf(stderr, "usage: path [validate] MOMENT ANCHOR CERTIFICATE..\n");
        return 1;
    }
    const size_t count = (size_t)argc - 3;
    size_t *lens = calloc(count + 1, sizeof *lens);
    x509_path_certificate *certificates = calloc(count + 1, sizeof *certificates);
    buffer anchor = {NULL, 0, 0}, path = {NULL, 0, 0};
    int ended = 1;
    if (lens != NULL && certificates != NULL && read_file(&anchor, argv[2]) && read_files(&path, lens, count, argv + 3)) {
        x509_path_fault fault = {0, 0};
        const question asked = {{anchor.bytes, anchor.len}, {path.bytes, path.len}, lens, count, moment, is_validated, certificates};
        const x509_status status = check(&asked, &fault);
        ended = tell(status, fault);
    } else {
        fprintf(stderr, "path: a file can't be read, or there is too little memory\n");
    }
    free(lens);
    free(certificates);
    free(anchor.bytes);
    free(path.bytes);
    return ended;
}
