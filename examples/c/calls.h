/* What the programs share that ask each call of x509.h for an answer that is known. */
#ifndef CALLS_H
#define CALLS_H

#include <stdio.h>
#include <stdlib.h>
#include <string.h>
#include "x509.h"

static int failures = 0;

static inline void want(const char *what, int is_so)
{
    if (!is_so) {
        printf("wrong: %s\n", what);
        failures++;
    }
}

#define WANT(condition) want(#condition, condition)

/* A value that stands in the source, with its length. */
#define BYTES(text) (const uint8_t *)(text), sizeof(text) - 1

static uint8_t certificate[65536], list[65536], request[65536], room[65536];
/* no bytes, and no room */
static uint8_t nothing[1];
static size_t certificate_len, list_len, request_len, written;

static inline size_t read_file(const char *path, uint8_t *bytes)
{
    FILE *file = fopen(path, "rb");
    size_t len = file == NULL ? 0 : fread(bytes, 1, 65536, file);
    if (file != NULL)
        fclose(file);
    return len;
}

/* Reads the files of a program that is used so: NAME CERTIFICATE LIST REQUEST. */
static inline void read_files(int argc, char **argv)
{
    if (argc != 4)
        exit(2);
    certificate_len = read_file(argv[1], certificate);
    list_len = read_file(argv[2], list);
    request_len = read_file(argv[3], request);
}

static inline int ended(void)
{
    if (failures == 0)
        printf("all calls answer as they should\n");
    return failures != 0;
}

static inline int is_at(x509_span span, size_t place, size_t len)
{
    return span.place == place && span.len == len;
}

/* The bytes that a call wrote are these. */
static inline int wrote(x509_status status, const char *bytes, size_t len)
{
    return status == X509_OK && written == len && memcmp(room, bytes, len) == 0;
}

#define WROTE(status, bytes) wrote(status, bytes, sizeof(bytes) - 1)

static inline int is_written(const char *text)
{
    return written == strlen(text) && memcmp(room, text, written) == 0;
}

/* The DER of the name CN=a, by hand. */
#define NAME "\x30\x0c\x31\x0a\x30\x08\x06\x03\x55\x04\x03\x0c\x01" "a"

#endif
