/* Says how much stack x509_reencode takes, over the rows of crates/x509_test_rows/stdin (a type, a profile, bytes in hex): the most of each type, and the type
 * that takes the most. Each row is encoded again by a thread whose stack is filled beforehand; what a thread takes that does nothing isn't counted.
 *
 * usage: stack ROWS */
#include <pthread.h>
#include <stdio.h>
#include <stdlib.h>
#include <string.h>
#include "x509.h"

enum { STACK = 256 << 10, FILL = 0xA5, LONGEST = 1 << 18, TYPES = 256 };

static uint8_t *stack, bytes[LONGEST], out[LONGEST];

typedef struct {
    char name[64];
    size_t rows, most;
} type;

typedef struct {
    const char *name;
    uint32_t profile;
    size_t len;
} row;

static void *encode_again(void *given)
{
    const row *it = given;
    size_t written = 0;
    if (it != NULL)
        x509_reencode((const uint8_t *)it->name, strlen(it->name), it->profile, bytes, it->len, out, sizeof out, &written);
    return NULL;
}

static void must(int failed, const char *what)
{
    if (failed) {
        fprintf(stderr, "stack: %s\n", what);
        exit(1);
    }
}

/* How many octets of the stack a thread changes that encodes the row again. */
static size_t taken(row *it)
{
    pthread_t thread;
    pthread_attr_t attributes;
    memset(stack, FILL, STACK);
    must(pthread_attr_init(&attributes), "no attributes");
    must(pthread_attr_setstack(&attributes, stack, STACK), "no stack");
    must(pthread_create(&thread, &attributes, encode_again, it), "no thread");
    must(pthread_join(thread, NULL), "no end");
    pthread_attr_destroy(&attributes);
    size_t kept = 0;
    while (kept < STACK && stack[kept] == FILL)
        kept++;
    return STACK - kept;
}

/* The bytes that the digits give, into `bytes`; how many there are. */
static size_t bytes_of(const char *digits)
{
    size_t len = 0;
    unsigned octet;
    for (; len < sizeof bytes && sscanf(digits, "%2x", &octet) == 1; digits += 2)
        bytes[len++] = (uint8_t)octet;
    return len;
}

static type *type_of(type *types, const char *name)
{
    for (size_t i = 0; i < TYPES; i++) {
        if (types[i].name[0] == '\0')
            snprintf(types[i].name, sizeof types[i].name, "%s", name);
        if (strcmp(types[i].name, name) == 0)
            return &types[i];
    }
    must(1, "too many types");
    return NULL;
}

int main(int count, char **words)
{
    static type types[TYPES];
    char *line = NULL, name[64], profile[16];
    size_t room = 0;
    int at = 0;
    must(count != 2, "usage: stack ROWS");
    FILE *rows = fopen(words[1], "r");
    must(rows == NULL, "no rows");
    must(posix_memalign((void **)&stack, 4096, STACK), "out of memory");
    const size_t nothing = taken(NULL);
    while (getline(&line, &room, rows) > 0) {
        if (sscanf(line, "%63s %15s %n", name, profile, &at) != 2)
            continue;
        row it = {name, strcmp(profile, "raw") == 0 ? X509_RAW : X509_RFC5280, bytes_of(line + at)};
        type *kind = type_of(types, name);
        const size_t most = taken(&it) - nothing;
        kind->rows++;
        if (most > kind->most)
            kind->most = most;
    }
    const type *deepest = types;
    for (const type *it = types; it < types + TYPES && it->name[0] != '\0'; it++) {
        printf("%-36s %5zu rows %7zu bytes\n", it->name, it->rows, it->most);
        if (it->most > deepest->most)
            deepest = it;
    }
    printf("the most: %s, %zu bytes; a thread that does nothing takes %zu\n", deepest->name, deepest->most, nothing);
    free(line);
    free(stack);
    fclose(rows);
    return 0;
}
