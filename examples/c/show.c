/* Prints the subject, the dates, the key usage and the alternative names of a certificate, and checks that writing it gives its bytes. */
#include <stdio.h>
#include <stdlib.h>
#include <string.h>
#include <time.h>
#include "payload.h"
#include "x509.h"

static int refuse(const char *what, x509_status status)
{
    printf("%s: refused with %d\n", what, status);
    return 1;
}

static uint8_t *read_file(const char *path, size_t *len)
{
    FILE *file = fopen(path, "rb");
    long size = -1;
    if (file != NULL && fseek(file, 0, SEEK_END) == 0)
        size = ftell(file);
    if (size < 0 || fseek(file, 0, SEEK_SET) != 0) {
        if (file != NULL)
            fclose(file);
        return NULL;
    }
    uint8_t *bytes = malloc(size == 0 ? 1 : (size_t)size);
    *len = bytes == NULL ? 0 : fread(bytes, 1, (size_t)size, file);
    fclose(file);
    return bytes;
}

/* Prints UTF-8, with each octet of a control character (U+0000 to U+001F, U+007F to U+009F) as RFC 4514 escapes it: a backslash and two hex digits. */
static void print_utf8(const char *what, const uint8_t *text, size_t len)
{
    printf("%s: ", what);
    for (size_t at = 0; at < len; at++) {
        const int is_long = text[at] == 0xc2 && at + 1 < len && text[at + 1] < 0xa0;
        if (is_long)
            printf("\\%02x", text[at++]);
        if (is_long || text[at] < 0x20 || text[at] == 0x7f)
            printf("\\%02x", text[at]);
        else
            putchar(text[at]);
    }
    putchar('\n');
}

static void print_date(const char *what, uint64_t seconds)
{
    time_t moment = (time_t)seconds;
    char text[64];
    strftime(text, sizeof text, "%Y-%m-%dT%H:%M:%SZ", gmtime(&moment));
    printf("%s: %s\n", what, text);
}

static x509_status print_subject_and_dates(const uint8_t *bytes, size_t len)
{
    x509_certificate view;
    x509_status status = x509_certificate_view(bytes, len, &view);
    if (status != X509_OK)
        return status;
    const uint8_t *name = bytes + view.subject.place;
    size_t written = 0;
    status = x509_name_text(name, view.subject.len, NULL, 0, &written); /* no buffer: says how much is needed */
    if (status != X509_OK && status != X509_ROOM)
        return status;
    uint8_t *text = malloc(written + 1);
    if (text == NULL)
        return X509_MEMORY;
    status = x509_name_text(name, view.subject.len, text, written, &written);
    if (status == X509_OK) {
        print_utf8("subject", text, written);
        print_date("not before", view.not_before);
        print_date("not after", view.not_after);
    }
    free(text);
    return status;
}

/* Prints what an extension holds; or, where it is no value of its type, the refusal alone. */
static int print_extension(const char *what, const uint8_t *bytes, size_t len, const char *oid, x509_status (*check)(octets), void (*print)(octets))
{
    x509_extension found;
    x509_status status = x509_certificate_extension(bytes, len, (const uint8_t *)oid, 3, &found);
    if (status == X509_ABSENT) {
        printf("%s: none\n", what);
        return 0;
    }
    if (status != X509_OK)
        return refuse(what, status);
    const octets payload = part_of((octets){bytes, len}, found.value);
    status = check(payload);
    if (status != X509_OK)
        return refuse(what, status);
    printf("%s:%s", what, found.critical ? " critical," : "");
    print(payload);
    putchar('\n');
    return 0;
}

/* Under X509_RAW what was read is written as the same bytes. Under X509_RFC5280 its dates may be spelled otherwise. */
static int write_again(const uint8_t *bytes, size_t len)
{
    const uint8_t *const type = (const uint8_t *)"Certificate";
    size_t written = 0;
    uint8_t *copy = malloc(len);
    if (copy == NULL)
        return refuse("written again", X509_MEMORY);
    x509_status small = x509_reencode(type, 11, X509_RAW, bytes, len, copy, len - 1, &written);
    if (small != X509_ROOM || written != len) {
        free(copy);
        return refuse("too little room", small);
    }
    x509_status status = x509_reencode(type, 11, X509_RAW, bytes, len, copy, len, &written);
    int same = status == X509_OK && written == len && memcmp(copy, bytes, len) == 0;
    free(copy);
    if (status != X509_OK)
        return refuse("written again", status);
    printf("written again: %s\n", same ? "the same bytes" : "other bytes");
    return same ? 0 : 1;
}

int main(int argc, char **argv)
{
    size_t len = 0;
    uint8_t *bytes = argc == 2 ? read_file(argv[1], &len) : NULL;
    if (bytes == NULL) {
        fprintf(stderr, "usage: show FILE\n");
        return 2;
    }
    x509_status status = print_subject_and_dates(bytes, len);
    int failed = status != X509_OK ? refuse("certificate", status) : 0;
    if (!failed) {
        failed |= print_extension("key usage", bytes, len, "\x55\x1d\x0f", check_key_usage, print_key_usage);
        failed |= print_extension("alternative names", bytes, len, "\x55\x1d\x11", check_names, print_names);
        failed |= write_again(bytes, len);
    }
    free(bytes);
    return failed;
}
