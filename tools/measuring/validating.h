/* What the programs in C have in common that time_validating.py runs: `PROGRAM CASE WHAT COUNT`. CASE is a file of validating_inputs.py. WHAT is asked so many
 * times, and then the last answer is printed: "yes" where the path is valid and the last certificate isn't revoked, else "no" and why. */
#include <stdint.h>
#include <stdio.h>
#include <stdlib.h>
#include <string.h>

static const uint64_t MOMENT = 1795996800; /* 2026-11-30T00:00:00Z */
enum { MOST_CERTIFICATES = 4096 };

typedef struct {
    const uint8_t *at;
    size_t len;
} octets;

/* The case: the path is topmost first, and without the anchor; what isn't there has the length 0. */
static octets anchor, crl, policies, policy, certificates[MOST_CERTIFICATES];
static size_t count;
static char why[256];

typedef struct {
    const char *name;
    void (*prepare)(void); /* what is done once, in front of all that are asked */
    int (*ask)(void);      /* 1 for "yes"; else it says why */
} what;

static void must(int is_so, const char *text)
{
    if (!is_so) {
        fprintf(stderr, "validating: %s\n", text);
        exit(1);
    }
}

static void read_case(const char *name)
{
    FILE *file = fopen(name, "rb");
    must(file != NULL, name);
    uint8_t head[5];
    while (fread(head, 1, sizeof head, file) == sizeof head) {
        const size_t len = (size_t)head[1] << 24 | (size_t)head[2] << 16 | (size_t)head[3] << 8 | head[4];
        uint8_t *found = malloc(len + 1);
        must(found != NULL && fread(found, 1, len, file) == len && count < MOST_CERTIFICATES, "too little memory, or a file that is too long, or cut");
        octets *into = head[0] == 'a' ? &anchor : head[0] == 'l' ? &crl : head[0] == 'p' ? &policies : head[0] == 'o' ? &policy : &certificates[count++];
        *into = (octets){found, len};
    }
    fclose(file);
    must(count > 0, "a case without certificates");
}

static int run(int argc, char **argv, const what *all)
{
    must(argc == 4, "usage: PROGRAM CASE WHAT COUNT");
    while (all->name != NULL && strcmp(all->name, argv[2]) != 0)
        all++;
    must(all->name != NULL, "nothing of this name can be asked");
    read_case(argv[1]);
    all->prepare();
    int is_so = 0;
    for (long left = strtol(argv[3], NULL, 10); left > 0; left--)
        is_so = all->ask();
    if (is_so)
        puts("yes");
    else
        printf("no: %s\n", why);
    return 0;
}
