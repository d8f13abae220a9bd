/* Asks the C library both ways whether bytes are a certificate, a CRL or a CSR: by the call that checks them without a value, and by x509_reencode,
 * which decodes them to one. The statuses have to be the same, apart from X509_ROOM, which is X509_OK here; so have those of x509_certificate_view,
 * x509_certificate_extension, x509_crl_walk, x509_crl_view and x509_crl_lookup where the bytes are refused. Of those that are accepted these calls have to
 * answer what a walk over the extensions or the entries comes to.
 *
 * It asks about the bytes of each row of ROWS, crates/x509_test_rows/stdin, as each of the three, and then about COUNT spoilt encodings: rows of the three
 * types and the FILES, one after the other, of which one to three bytes were changed, put in or taken out, or the end cut off, as a generator with the
 * SEED says. It prints how many were asked, how many are accepted and how many answers differ, with the first of those, and ends with 1 where there is one.
 *
 * usage: compare_checks ROWS COUNT SEED [FILES] */
#include <stdint.h>
#include <stdio.h>
#include <stdlib.h>
#include <string.h>
#include "x509.h"

enum { MOST_BYTES = 1 << 20, MOST_BASES = 1 << 15, MOST_EDITS = 3, MOST_LOOKED_UP = 4 };

typedef struct {
    const char *name;
    x509_status (*check)(const uint8_t *in, size_t len);
} type;

static const type types[] = {
    {"Certificate", x509_certificate_check},
    {"CertificateList", x509_crl_check},
    {"CertReq", x509_request_check},
};
enum { TYPES = sizeof types / sizeof types[0] };

typedef struct {
    int type;
    size_t len;
    uint8_t *bytes;
} base;

static base bases[MOST_BASES];
static size_t base_count = 0;
static long asked = 0, accepted = 0, different = 0;

/* the generator is xorshift64 */
static uint64_t state = 0;

static uint64_t below(uint64_t bound)
{
    state ^= state << 13;
    state ^= state >> 7;
    state ^= state << 17;
    return state % bound;
}

static void differs(const char *name, const uint8_t *bytes, size_t len, x509_status one, x509_status other)
{
    if (different++ >= 10)
        return;
    printf("differs: %s: %d and %d: ", name, one, other);
    for (size_t at = 0; at < len; at++)
        printf("%02X", bytes[at]);
    printf("\n");
}

/* Whether the call for the extension with an OID answers the status, or of a certificate that is accepted each extension that a walk comes to. */
static int finds_extensions(const uint8_t *bytes, size_t len, x509_status decoded)
{
    x509_certificate view;
    x509_extension found;
    x509_extension_entry extension;
    x509_status status = x509_certificate_view(bytes, len, &view);
    if (status != decoded)
        return 0;
    if (decoded != X509_OK || view.extensions.len == 0)
        return x509_certificate_extension(bytes, len, (const uint8_t *)"\x55\x1d\x0f", 3, &found) == (decoded == X509_OK ? X509_ABSENT : decoded);
    const size_t place = view.extensions.place;
    size_t at = 0;
    while ((status = x509_extensions_next(bytes + place, view.extensions.len, &at, &extension)) == X509_OK) {
        const x509_status answer = x509_certificate_extension(bytes, len, bytes + place + extension.oid.place, extension.oid.len, &found);
        if (answer != X509_REPEATED && (answer != X509_OK || found.critical != extension.critical || found.value.len != extension.value.len ||
                                        found.value.place != place + extension.value.place))
            return 0;
    }
    return status == X509_ABSENT;
}

/* Whether the calls for the number of entries and for the entry with a serial number answer the status, or of a CRL that is accepted what a walk comes to:
 * as many entries, of which the first is found by its number, and none of the next few is absent. */
static int finds_entries(const uint8_t *bytes, size_t len, x509_status decoded)
{
    x509_crl view;
    x509_crl_entry entry;
    x509_revocation found;
    size_t entries = 0, count = 0, at = 0;
    if (x509_crl_walk(bytes, len, &entries) != decoded || x509_crl_view(bytes, len, &view) != decoded)
        return 0;
    if (decoded != X509_OK)
        return x509_crl_lookup(bytes, len, (const uint8_t *)"\x02\x01\x05", 3, &found) == decoded;
    x509_status status = X509_ABSENT;
    const uint8_t *list = bytes + view.entries.place;
    while (view.entries.len != 0 && (status = x509_crl_entry_next(list, view.entries.len, &at, &entry)) == X509_OK) {
        const x509_status answer =
            count < MOST_LOOKED_UP ? x509_crl_lookup(bytes, len, list + entry.serial_number.place, entry.serial_number.len, &found) : X509_OK;
        if (answer == X509_ABSENT || (count == 0 && answer == X509_OK && found.date != entry.date))
            return 0;
        count++;
    }
    return status == X509_ABSENT && count == entries;
}

static void ask(int number, const uint8_t *bytes, size_t len)
{
    const char *name = types[number].name;
    size_t written = 0;
    const x509_status checked = types[number].check(bytes, len);
    x509_status decoded = x509_reencode((const uint8_t *)name, strlen(name), X509_RFC5280, bytes, len, NULL, 0, &written);
    if (decoded == X509_ROOM)
        decoded = X509_OK;
    asked++;
    accepted += checked == X509_OK;
    if (checked != decoded)
        differs(name, bytes, len, checked, decoded);
    else if (number == 0 && !finds_extensions(bytes, len, decoded))
        differs("the view or the extensions", bytes, len, checked, decoded);
    else if (number == 1 && !finds_entries(bytes, len, decoded))
        differs("the entries", bytes, len, checked, decoded);
}

static void keep(int number, const uint8_t *bytes, size_t len)
{
    uint8_t *copy = malloc(len + MOST_EDITS);
    if (copy == NULL || base_count == MOST_BASES) {
        printf("too many bytes\n");
        exit(2);
    }
    memcpy(copy, bytes, len);
    bases[base_count++] = (base){number, len, copy};
}

/* the type with that name, or -1 */
static int type_of(const char *name)
{
    for (int number = 0; number < TYPES; number++)
        if (strcmp(types[number].name, name) == 0)
            return number;
    return -1;
}

static size_t from_hex(const char *text, uint8_t *bytes)
{
    size_t len = 0;
    unsigned octet;
    while (len < MOST_BYTES && sscanf(text + 2 * len, "%2x", &octet) == 1)
        bytes[len++] = (uint8_t)octet;
    return len;
}

/* Asks about each row, and keeps those of the three types that are accepted. */
static void ask_rows(const char *path)
{
    static char line[2 * MOST_BYTES + 256];
    static uint8_t bytes[MOST_BYTES];
    FILE *rows = fopen(path, "r");
    if (rows == NULL) {
        printf("no file %s\n", path);
        exit(2);
    }
    while (fgets(line, sizeof line, rows) != NULL) {
        const char *name = strtok(line, " \n"), *profile = strtok(NULL, " \n"), *hexed = strtok(NULL, " \n");
        if (name == NULL || profile == NULL || hexed == NULL)
            continue;
        const size_t len = from_hex(hexed, bytes);
        for (int number = 0; number < TYPES; number++)
            ask(number, bytes, len);
        const int number = type_of(name);
        if (number >= 0 && types[number].check(bytes, len) == X509_OK)
            keep(number, bytes, len);
    }
    fclose(rows);
}

/* Keeps a file as what it is accepted as. */
static void keep_file(const char *path)
{
    static uint8_t bytes[MOST_BYTES];
    FILE *file = fopen(path, "rb");
    const size_t len = file == NULL ? 0 : fread(bytes, 1, sizeof bytes, file);
    for (int number = 0; number < TYPES; number++)
        if (types[number].check(bytes, len) == X509_OK) {
            keep(number, bytes, len);
            fclose(file);
            return;
        }
    printf("neither of the three: %s\n", path);
    exit(2);
}

/* Changes a byte, puts one in, takes one out, or cuts the end off. */
static size_t spoil(uint8_t *bytes, size_t len)
{
    const size_t place = below(len == 0 ? 1 : len);
    const uint64_t way = below(16);
    if (len == 0 || way == 0) {
        memmove(bytes + place + 1, bytes + place, len - place);
        bytes[place] = (uint8_t)below(256);
        return len + 1;
    }
    if (way == 1) {
        memmove(bytes + place, bytes + place + 1, len - place - 1);
        return len - 1;
    }
    if (way == 2)
        return place;
    bytes[place] = way < 8 ? (uint8_t)(bytes[place] ^ 1u << below(8)) : (uint8_t)below(256);
    return len;
}

int main(int argc, char **argv)
{
    static uint8_t bytes[MOST_BYTES + MOST_EDITS];
    if (argc < 4) {
        printf("usage: compare_checks ROWS COUNT SEED [FILES]\n");
        return 2;
    }
    ask_rows(argv[1]);
    printf("rows: %ld asked, %ld accepted, %ld different\n", asked, accepted, different);
    for (int at = 4; at < argc; at++)
        keep_file(argv[at]);
    const long count = atol(argv[2]), before = asked, good = accepted;
    state = strtoull(argv[3], NULL, 10) * 2 + 1;
    for (long number = 0; number < count && base_count > 0; number++) {
        const base *from = &bases[(size_t)number % base_count];
        size_t len = from->len;
        memcpy(bytes, from->bytes, len);
        for (uint64_t edits = 1 + below(MOST_EDITS); edits > 0; edits--)
            len = spoil(bytes, len);
        ask(from->type, bytes, len);
    }
    printf("spoilt, of %zu encodings: %ld asked, %ld accepted, %ld different\n", base_count, asked - before, accepted - good, different);
    return different != 0;
}
