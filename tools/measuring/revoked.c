/* Looks up serial numbers in a CRL of many entries, for counts of instructions: of two runs with another COUNT the difference is what so many calls take.
 *
 * The CRL is built and signed with zeros, under the subject and the key of CERTIFICATE. Its entries are those of ENTRIES serial numbers of 16 octets, in no
 * order; each third has a reason code. WHAT is
 *
 *   check      x509_crl_check of the whole CRL
 *   index      x509_crl_index of its list of entries
 *   by_index   x509_crl_index_find, of a number that an entry has, another each time
 *   absent     x509_crl_index_find, of a number that none has, another each time
 *   walk       x509_crl_entry_find, of the same numbers as by_index
 *
 * usage: valgrind --tool=callgrind revoked LIBRARY CERTIFICATE ENTRIES WHAT COUNT, linked with -ldl */
#include <dlfcn.h>
#include <stdio.h>
#include <stdlib.h>
#include <string.h>
#include "x509.h"

enum { NUMBER = 2 + 16, MOST_ENTRY = 64, MOST_CERTIFICATE = 1 << 16, FRONT = 1024 };

/* ECDSA with SHA-256 (RFC 5758 3.2) */
static const uint8_t ALGORITHM[] = {0x30, 0x0a, 0x06, 0x08, 0x2a, 0x86, 0x48, 0xce, 0x3d, 0x04, 0x03, 0x02};
/* keyCompromise, as an extension (RFC 5280 5.3.1) */
static const uint8_t REASON[] = {0x30, 0x0a, 0x06, 0x03, 0x55, 0x1d, 0x15, 0x04, 0x03, 0x0a, 0x01, 0x01};

static void *library;
static uint8_t *crl, *list;
static size_t crl_len, list_len, entries;
static uint32_t *numbers;

static void must(int is_so, const char *what)
{
    if (!is_so) {
        fprintf(stderr, "revoked: %s\n", what);
        exit(1);
    }
}

static void *room_for(size_t count, size_t size)
{
    void *found = calloc(count + 1, size);
    must(found != NULL, "too little memory");
    return found;
}

/* The call of the library of that name. */
#define CALL(name) ((__typeof__(name) *)found_call(#name))

static void *found_call(const char *name)
{
    void *found = dlsym(library, name);
    must(found != NULL, name);
    return found;
}

/* A step of the generator splitmix64. */
static uint64_t mixed(uint64_t at)
{
    at = (at + 1) * UINT64_C(0x9e3779b97f4a7c15);
    at = (at ^ (at >> 30)) * UINT64_C(0xbf58476d1ce4e5b9);
    at = (at ^ (at >> 27)) * UINT64_C(0x94d049bb133111eb);
    return at ^ (at >> 31);
}

/* The serial number of an entry, an INTEGER of 16 octets: no two entries have the same, and none has one from `entries` on. */
static void put_number(uint8_t *bytes, size_t entry)
{
    const uint64_t halves[] = {mixed(entry), entry};
    bytes[0] = 0x02;
    bytes[1] = NUMBER - 2;
    for (int at = 0; at < 16; at++)
        bytes[2 + at] = (uint8_t)(halves[at / 8] >> (56 - at % 8 * 8));
    bytes[2] = (uint8_t)(0x40 | (bytes[2] & 0x3f));
}

static void make_crl(const char *path)
{
    static uint8_t certificate[MOST_CERTIFICATE];
    FILE *file = fopen(path, "rb");
    must(file != NULL, path);
    const size_t len = fread(certificate, 1, sizeof certificate, file);
    fclose(file);
    const size_t most = entries * MOST_ENTRY;
    uint8_t *members = room_for(most, 1), *part = room_for(most + FRONT, 1), number[NUMBER];
    static const uint8_t signature[64];
    size_t members_len = 0, part_len = 0, written = 0;
    for (size_t at = 0; at < entries; at++) {
        put_number(number, at);
        must(CALL(x509_crl_entry_encode)(number, NUMBER, 1767225600 + at % 1000000, REASON, at % 3 == 0 ? sizeof REASON : 0, members + members_len,
                                         most - members_len, &written) == X509_OK, "no entry");
        members_len += written;
    }
    must(CALL(x509_build_crl)(certificate, len, ALGORITHM, sizeof ALGORITHM, (const uint8_t *)"\1", 1, 1769904000, 1, 1772323200, members, members_len, NULL, 0,
                              part, most + FRONT, &part_len) == X509_OK, "no signed part");
    crl = room_for(part_len + FRONT, 1);
    must(CALL(x509_assemble)(part, part_len, ALGORITHM, sizeof ALGORITHM, signature, sizeof signature, crl, part_len + FRONT, &crl_len) == X509_OK, "no CRL");
    x509_crl view;
    must(CALL(x509_crl_view)(crl, crl_len, &view) == X509_OK, "not a CRL");
    list = crl + view.entries.place;
    list_len = view.entries.len;
    numbers = room_for(entries, sizeof *numbers);
    free(members);
    free(part);
}

static void make_index(void)
{
    size_t written = 0;
    must(CALL(x509_crl_index)(list, list_len, numbers, entries, &written) == X509_OK && written == entries, "no index");
}

static void check(long count)
{
    __typeof__(x509_crl_check) *call = CALL(x509_crl_check);
    for (; count > 0; count--)
        must(call(crl, crl_len) == X509_OK, "not a CRL");
}

static void index_it(long count)
{
    for (; count > 0; count--)
        make_index();
}

/* Looks up the numbers of entries, or of none. */
static void by_index_of(long count, size_t first, x509_status wanted)
{
    __typeof__(x509_crl_index_find) *call = CALL(x509_crl_index_find);
    uint8_t number[NUMBER];
    x509_crl_entry found;
    make_index();
    for (uint64_t at = 0; at < (uint64_t)count; at++) {
        put_number(number, first + (size_t)(mixed(at) % entries));
        must(call(list, list_len, numbers, entries, number, NUMBER, &found) == wanted, "another answer");
        must(wanted != X509_OK || memcmp(list + found.serial_number.place, number, NUMBER) == 0, "another entry");
    }
}

static void by_index(long count)
{
    by_index_of(count, 0, X509_OK);
}

static void absent(long count)
{
    by_index_of(count, entries, X509_ABSENT);
}

static void walk(long count)
{
    __typeof__(x509_crl_entry_find) *call = CALL(x509_crl_entry_find);
    uint8_t number[NUMBER];
    x509_crl_entry found;
    make_index();
    for (uint64_t at = 0; at < (uint64_t)count; at++) {
        put_number(number, (size_t)(mixed(at) % entries));
        must(call(list, list_len, number, NUMBER, &found) == X509_OK && memcmp(list + found.serial_number.place, number, NUMBER) == 0, "another entry");
    }
}

int main(int argc, char **argv)
{
    static const struct {
        const char *name;
        void (*run)(long count);
    } all[] = {{"check", check}, {"index", index_it}, {"by_index", by_index}, {"absent", absent}, {"walk", walk}};
    must(argc == 6, "usage: revoked LIBRARY CERTIFICATE ENTRIES WHAT COUNT");
    library = dlopen(argv[1], RTLD_NOW);
    must(library != NULL, "the library can't be opened");
    entries = strtoul(argv[3], NULL, 10);
    must(entries > 0 && entries <= 4000000, "1 to 4,000,000 entries");
    make_crl(argv[2]);
    for (size_t at = 0; at < sizeof all / sizeof all[0]; at++)
        if (strcmp(all[at].name, argv[4]) == 0) {
            all[at].run(strtol(argv[5], NULL, 10));
            return 0;
        }
    must(0, "no such call");
}
