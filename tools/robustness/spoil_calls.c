/* Asks each call of x509.h about COUNT spoilt inputs. The table of the calls is calls_table.h, which calls_table.py makes of the header.
 *
 * What is spoilt: the rows of ROWS (crates/x509_test_rows/stdin), the FILES, and what calls find in these or make of them; for each input of a call
 * those that the call accepts, or that have the type which the parameter wants. Of one input of the call, or sometimes of two, one to three bytes are
 * changed, put in or taken out, the end is cut off, or a part is put in a second time, as a generator with the SEED says; one of sixteen stays as it is.
 * An input ends where a page ends that no byte may be read behind, or begins where one begins that no byte may be read before; so does a buffer.
 *
 * Looked at is what the header says of all calls: the status is one of those that it lists for the call, and not X509_MEMORY; what is filled in is
 * unchanged where the status isn't X509_OK; places lie within the input; a walk moves on, and ends; a buffer of the length that was told is filled, one
 * byte less is X509_ROOM, `written` is unchanged by other statuses, and the bytes are the same each time; inputs are unchanged. What is said of each
 * certificate of a path is what the calls about one say, and the path's answer is that of the call that says nothing of them. Of 10,000 inputs or more
 * each call has to accept some and to refuse some. With THREADS above 1 each thread asks all of that at the same time, and the answers have to be the same.
 *
 * It prints how many calls were made, and ends with 1 where one didn't answer as it should.
 *
 * usage: spoil_calls ROWS COUNT SEED THREADS [FILES] */
#define _GNU_SOURCE
#include <pthread.h>
#include <stddef.h>
#include <stdint.h>
#include <stdio.h>
#include <stdlib.h>
#include <string.h>
#include <sys/mman.h>
#include "x509.h"

enum { MOST_INPUTS = 10, MOST_NUMBERS = 8, MOST_LENS = 4, MOST_SPANS = 5, MOST_FIELDS = 32, MOST_THREADS = 64 };
enum { HAS_LENS = 1, WRITES = 2, WALKS = 4, WRITES_ASIDE = 8, CARRIES = 16, HAS_CRLS = 32, FINDS = 64, INDEXES = 128, IS_BY_INDEX = 256, VIEWS = 512 };

/* statuses are from -2 to 9 */
#define ANSWERS(status) (1u << ((status) + 2))

typedef struct {
    const uint8_t *bytes;
    size_t len;
} octets;

typedef struct {
    octets in[MOST_INPUTS];
    uint64_t number[MOST_NUMBERS];
    uint32_t view[24]; /* what is said by a struct: its numbers one after the other */
    const size_t *lens;
    const x509_signed_crl *crls;
    size_t count;
    const x509_span *spans[2], *leaf; /* anchors and candidates */
    size_t span_counts[2], bad_count;
    const x509_bad_link *bad;
    size_t *places;
    uint32_t *index;
    const uint32_t *by; /* an index */
    size_t by_count;
    x509_path_certificate *certificates;
    size_t certificate_room;
    uint8_t *out;
    size_t room, *written, *at;
    x509_span *issuer;
    void *found;
} arguments;

/* A number or a span of what a call fills in. */
typedef struct {
    size_t at, size;
    int is_span;
} field;

typedef struct {
    const char *name;
    x509_status (*ask)(const arguments *);
    const char *inputs[MOST_INPUTS];
    int input_count;
    const char *numbers[MOST_NUMBERS];
    int number_count;
    int flags;
    size_t found_size;
    const field *fields;
    int field_count;
    unsigned answers;
} call;

#include "calls_table.h"

/* ---- the generator, xorshift64 */

static uint64_t below(uint64_t *state, uint64_t bound)
{
    *state ^= *state << 13;
    *state ^= *state >> 7;
    *state ^= *state << 17;
    return *state % bound;
}

/* ---- bases: bytes that are good for some call */

/* Of what a call accepts it is given the first FRONT, among which are the files, and a quarter of the others, or all where these are FEW; of what it finds
 * FOUND are kept each time. */
enum { MOST_BASES = 1 << 16, MOST_BYTES = 4096, POOL = 1024, KIND = 32, FRONT = 64, FEW = 64, FOUND = 256 };

typedef struct {
    char kind[KIND]; /* the type of a row; else "" */
    size_t len;
    const uint8_t *bytes;
} base;

static base bases[MOST_BASES];
static size_t base_count = 0;
static uint32_t hashes[4 * MOST_BASES]; /* numbers of bases, from 1, by their hashes */

static void stop(const char *why)
{
    printf("%s\n", why);
    exit(2);
}

static uint64_t digest_of(uint64_t digest, const void *bytes, size_t len)
{
    for (size_t at = 0; at < len; at++)
        digest = (digest ^ ((const uint8_t *)bytes)[at]) * 0x100000001b3;
    return digest;
}

/* Keeps bytes with a type's name, once, and says their number; MOST_BASES where they aren't kept. */
static size_t keep(const char *kind, const uint8_t *bytes, size_t len)
{
    if (len > MOST_BYTES || base_count == MOST_BASES || strlen(kind) >= KIND)
        return MOST_BASES;
    size_t place = digest_of(digest_of(0xcbf29ce484222325, kind, strlen(kind)), bytes, len) % (4 * MOST_BASES);
    for (; hashes[place] != 0; place = (place + 1) % (4 * MOST_BASES)) {
        const base *it = &bases[hashes[place] - 1];
        if (it->len == len && strcmp(it->kind, kind) == 0 && (len == 0 || memcmp(it->bytes, bytes, len) == 0))
            return hashes[place] - 1;
    }
    uint8_t *copy = malloc(len + 1);
    if (copy == NULL)
        stop("too little memory");
    if (len > 0)
        memcpy(copy, bytes, len);
    bases[base_count] = (base){"", len, copy};
    strcpy(bases[base_count].kind, kind);
    hashes[place] = (uint32_t)++base_count;
    return base_count - 1;
}

/* Numbers of bases. */
typedef struct {
    const char *name;
    size_t len;
    uint32_t bases[POOL];
} pool;

enum { MOST_POOLS = 200 };
static pool pools[MOST_POOLS];
static size_t pool_count = 0;

static pool *pool_of(const char *name)
{
    for (size_t at = 0; at < pool_count; at++)
        if (strcmp(pools[at].name, name) == 0)
            return &pools[at];
    if (pool_count == MOST_POOLS)
        stop("too many pools");
    pools[pool_count].name = name;
    return &pools[pool_count++];
}

static void put(pool *to, size_t number)
{
    if (to->len < POOL)
        to->bases[to->len++] = (uint32_t)number;
}

/* Which pool an input is of: that of what the call with one input accepts, or `found:` and the call whose first span it is, or `kind:` and the type of rows,
 * or `paths`, certificates that are a path under themselves, `constraints` and `policies`, NameConstraints, CertificatePolicies and no bytes, `settings` of
 * a path or of CRLs, `hash`, or `hashes`, none too. For a call with one input it is its own. */
typedef struct {
    const char *call, *input, *pool;
} source;

static const source SOURCES[] = {
    {"x509_reencode", "name", "kind:typename"},
    {"x509_build_crl", "issuer", "x509_certificate_check"},
    {"x509_build_crl", "number", "x509_oid_text"},
    {"x509_merkle_inclusion", "path", "hashes"},
    {NULL, "path", "paths"},
    {NULL, "anchor", "x509_certificate_check"},
    {NULL, "name_constraints", "constraints"},
    {NULL, "policies", "policies"},
    {NULL, "settings", "settings"},
    {"x509_timestamp_signed_data", "certificate", "x509_logged_part"},
    {"x509_timestamp_signed_data", "issuer", "x509_certificate_check"},
    {"x509_logged_precertificate_signed_by", "precertificate", "x509_logged_precertificate"},
    {NULL, "signing", "x509_certificate_check"},
    {NULL, "root_hash", "hash"},
    {NULL, "timestamp", "x509_timestamp_view"},
    {NULL, "leaf_hash", "hash"},
    {NULL, "root", "hash"},
    {NULL, "old_root", "hash"},
    {NULL, "new_root", "hash"},
    {NULL, "proof", "hashes"},
    {NULL, "certificate", "x509_certificate_check"},
    {"x509_revocation_status", "in", "x509_crl_check"},
    {"x509_crl_fault", "in", "x509_crl_check"},
    {"x509_path_find", "bytes", "x509_certificate_check"},
    {"x509_certificate_extension", "in", "x509_certificate_check"},
    {"x509_certificate_extension", "oid", "found:x509_extensions_next"},
    {"x509_crl_lookup", "in", "x509_crl_check"},
    {"x509_crl_lookup", "serial_number", "found:x509_crl_entry_next"},
    {"x509_crl_entry_find", "value", "x509_crl_entry_next"},
    {"x509_crl_entry_find", "serial_number", "found:x509_crl_entry_next"},
    {"x509_crl_index_find", "value", "x509_crl_index"},
    {"x509_crl_index_find", "serial_number", "found:x509_crl_entry_next"},
    {"x509_request_attribute_find", "in", "x509_request_check"},
    {"x509_request_attribute_find", "oid", "found:x509_request_attribute_next"},
    {"x509_name_find", "oid", "found:x509_relative_name_next"},
    {"x509_names_match", "a", "x509_name_text"},
    {"x509_names_match", "b", "x509_name_text"},
    {"x509_names_equal", "a", "x509_name_text"},
    {"x509_names_equal", "b", "x509_name_text"},
    {"x509_authority_key_identifier_encode", "key_identifier", "x509_oid_text"},
    {"x509_authority_key_identifier_encode", "issuer", "x509_general_names_next"},
    {NULL, "issuer_policy", "x509_oid_text"},
    {NULL, "subject_policy", "x509_oid_text"},
    {"x509_user_notice_encode", "organization", "x509_name_escape"},
    {"x509_user_notice_encode", "numbers", "x509_numbers_next"},
    {NULL, "qualifier", "x509_string_text"},
    {NULL, "qualifiers", "kind:PolicyQualifierInfo"},
    {NULL, "values", "x509_string_text"},
    {NULL, "type_id", "x509_oid_text"},
    {NULL, "method", "x509_oid_text"},
    {NULL, "location", "found:x509_general_names_next"},
    {NULL, "permitted", "kind:GeneralSubtree"},
    {NULL, "excluded", "kind:GeneralSubtree"},
    {NULL, "full_name", "found:x509_general_names_next"},
    {NULL, "relative_name", "x509_relative_name_next"},
    {NULL, "crl_issuer", "found:x509_general_names_next"},
    {"x509_certificate_matches_name", "in", "x509_certificate_check"},
    {"x509_certificate_matches_name", "name", "x509_server_name_view"},
    {"x509_certificate_matches_email", "in", "x509_certificate_check"},
    {"x509_certificate_matches_email", "address", "x509_email_address_view"},
    {NULL, "name", "x509_name_text"},
    {NULL, "names", "x509_general_names_next"},
    {NULL, "issuer", "x509_name_text"},
    {NULL, "subject", "x509_name_text"},
    {NULL, "oid", "x509_oid_text"},
    {NULL, "text", "x509_name_escape"},
    {NULL, "serial_number", "x509_serial_number"},
    {NULL, "algorithm", "x509_algorithm_view"},
    {"x509_working_key", "above", "x509_key_view"},
    {NULL, "key", "x509_key_view"},
    {NULL, "issuer_key", "x509_key_view"},
    {NULL, "extensions", "kind:extensions"},
    {NULL, "entries", "kind:entries"},
    {NULL, "attributes", "kind:Attribute"},
    {NULL, "value", "x509_extensions_next"},
    {NULL, "part", "x509_signed_slice part"},
    {NULL, "signature", "x509_oid_text"},
};

static const char *source_of(const call *of, int input)
{
    if (of->input_count == 1)
        return of->name;
    for (size_t at = 0; at < sizeof SOURCES / sizeof *SOURCES; at++)
        if ((SOURCES[at].call == NULL || strcmp(SOURCES[at].call, of->name) == 0) && strcmp(SOURCES[at].input, of->inputs[input]) == 0)
            return SOURCES[at].pool;
    if (strcmp(of->name, "x509_reencode") == 0)
        return "kind:row";
    printf("%s: ", of->name);
    stop(of->inputs[input]);
    return NULL;
}

/* The number of the input with that name; -1 where the call has none. */
static int input_of(const call *of, const char *name)
{
    for (int input = 0; input < of->input_count; input++)
        if (strcmp(of->inputs[input], name) == 0)
            return input;
    return -1;
}

/* ---- one asking: its memory and what it looks at */

enum { PAGE = 4096, ARENA = 32 * PAGE };

/* Bytes between two pages that can't be touched. */
typedef struct {
    uint8_t *front;
} arena;

static arena new_arena(void)
{
    uint8_t *whole = mmap(NULL, ARENA + 2 * PAGE, PROT_NONE, MAP_PRIVATE | MAP_ANONYMOUS, -1, 0);
    if (whole == MAP_FAILED || mprotect(whole + PAGE, ARENA, PROT_READ | PROT_WRITE) != 0)
        stop("no pages");
    return (arena){whole + PAGE};
}

/* Where so many bytes stand: in front of the page behind, or behind the one in front. */
static uint8_t *place(arena it, size_t len, int is_front)
{
    return is_front ? it.front : it.front + ARENA - len;
}

typedef struct {
    arena in[MOST_INPUTS], out, found, given, certificates;
    octets kept[MOST_INPUTS]; /* the inputs once more */
    uint8_t copies[MOST_INPUTS][ARENA];
    uint64_t state, digest;
    long asked, failures;
    long accepted[CALL_COUNT], refused[CALL_COUNT];
    size_t lens[MOST_LENS];
    x509_signed_crl crls[MOST_LENS];
    x509_span spans[2][MOST_SPANS], leaf;
    x509_bad_link bad[2];
    const call *now;
} asker;

static void wrong(asker *by, const char *what, const arguments *with, x509_status status)
{
    if (by->failures++ >= 10)
        return;
    printf("wrong: %s: %s, status %d", by->now->name, what, status);
    for (int input = 0; input < by->now->input_count; input++) {
        printf("\n    %s ", by->now->inputs[input]);
        for (size_t at = 0; at < with->in[input].len && at < 512; at++)
            printf("%02x", with->in[input].bytes[at]);
    }
    for (int number = 0; number < by->now->number_count; number++)
        printf("\n    %s %llu", by->now->numbers[number], (unsigned long long)with->number[number]);
    printf("\n");
}

/* Makes the call, and looks at what is said of all calls. */
static x509_status ask(asker *by, const arguments *with)
{
    const call *now = by->now;
    uint8_t before[sizeof(x509_crl) + sizeof(x509_anchor)];
    if (now->found_size > sizeof before)
        stop("a larger struct");
    if (with->found != NULL) {
        memset(with->found, 0xa5, now->found_size);
        memset(before, 0xa5, now->found_size);
    }
    const x509_span carried = with->issuer == NULL ? (x509_span){0, 0} : *with->issuer;
    const x509_status status = now->ask(with);
    by->asked++;
    by->digest = digest_of(by->digest, &status, sizeof status);
    if (status < X509_ROOM || status > X509_LIMIT || (now->answers & ANSWERS(status)) == 0 || status == X509_MEMORY)
        wrong(by, "a status that isn't listed, or memory", with, status);
    if (with->found != NULL && status != X509_OK && status != X509_FAULT && memcmp(with->found, before, now->found_size) != 0)
        wrong(by, "what it fills in has changed", with, status);
    for (int input = 0; input < now->input_count; input++)
        if (with->in[input].len > 0 && memcmp(with->in[input].bytes, by->kept[input].bytes, with->in[input].len) != 0)
            wrong(by, "an input has changed", with, status);
    if (now->flags & CARRIES) {
        by->digest = digest_of(by->digest, with->issuer, sizeof *with->issuer);
        if (status != X509_OK ? memcmp(with->issuer, &carried, sizeof carried) != 0
                              : with->issuer->place > with->in[0].len || with->issuer->len > with->in[0].len - with->issuer->place)
            wrong(by, "what a walk carries has changed, or lies outside of the input", with, status);
    }
    for (int at = 0; status == X509_OK && at < now->field_count; at++) {
        const uint8_t *found = (const uint8_t *)with->found + now->fields[at].at;
        by->digest = digest_of(by->digest, found, now->fields[at].size);
        x509_span span;
        if (!now->fields[at].is_span)
            continue;
        memcpy(&span, found, sizeof span);
        /* places in a path are those of its last certificate */
        const size_t len = with->count > 0 ? with->lens[with->count - 1] : with->in[0].len;
        if (span.place > len || span.len > len - span.place)
            wrong(by, "a place outside of the input", with, status);
    }
    return status;
}

/* A call that writes: the length that is needed, a buffer of it, one that is larger, and one that is smaller. */
static x509_status ask_room(asker *by, arguments *with, int is_front)
{
    size_t written = 77;
    with->written = &written;
    with->out = NULL;
    with->room = 0;
    const x509_status status = ask(by, with);
    const size_t needed = written;
    if (status != X509_ROOM && !(status == X509_OK && needed == 0)) {
        if (status == X509_OK || written != 77)
            wrong(by, "written has changed, or bytes without a buffer", with, status);
        return status;
    }
    if (needed > ARENA / 2)
        return status;
    with->room = needed;
    with->out = place(by->out, needed, is_front);
    if (ask(by, with) != X509_OK || written != needed)
        wrong(by, "refused with the room that it wanted", with, status);
    const uint64_t digest = digest_of(0, with->out, needed);
    by->digest = digest_of(by->digest, &digest, sizeof digest);
    if (needed > 0 && below(&by->state, 4) == 0) {
        with->room = needed - 1;
        with->out = place(by->out, needed - 1, is_front);
        written = 77;
        if (ask(by, with) != X509_ROOM || written != needed)
            wrong(by, "another answer with a byte too few", with, status);
        with->room = needed + 9;
        with->out = place(by->out, needed + 9, is_front);
        if (ask(by, with) != X509_OK || written != needed || digest_of(0, with->out, needed) != digest)
            wrong(by, "other bytes in a larger buffer", with, status);
    }
    return X509_OK;
}

/* Whether numbers of a buffer are those that it was filled with. */
static int is_unchanged(const uint32_t *numbers, size_t count)
{
    for (size_t at = 0; at < count; at++)
        if (numbers[at] != 0xa5a5a5a5)
            return 0;
    return 1;
}

/* A call that makes an index: how many places it has, a buffer for so many, and one for one less, which stays as it is. */
static x509_status ask_index(asker *by, arguments *with)
{
    size_t written = 77;
    with->written = &written;
    with->index = NULL;
    with->room = 0;
    const x509_status status = ask(by, with);
    const size_t needed = written;
    if (status != X509_ROOM && !(status == X509_OK && needed == 0)) {
        if (status == X509_OK || written != 77)
            wrong(by, "written has changed, or places without a buffer", with, status);
        return status;
    }
    if (needed > with->in[0].len)
        wrong(by, "more places than bytes", with, status);
    for (size_t less = 0; less <= (needed > 0); less++) {
        with->room = needed - less;
        with->index = (uint32_t *)(void *)place(by->out, with->room * sizeof *with->index, 0);
        memset(with->index, 0xa5, with->room * sizeof *with->index);
        written = 77;
        if (ask(by, with) != (less ? X509_ROOM : X509_OK) || written != needed)
            wrong(by, "another answer with such a room", with, status);
        if (less && !is_unchanged(with->index, with->room))
            wrong(by, "a buffer that is too small has changed", with, status);
        for (size_t at = 0; !less && at < needed; at++)
            if (with->index[at] >= with->in[0].len)
                wrong(by, "a place outside of the input", with, status);
        by->digest = digest_of(by->digest, with->index, with->room * sizeof *with->index);
    }
    return X509_OK;
}

/* A look-up by an index, mostly that of the list, by which is found what is found without; else by any numbers. */
static x509_status ask_by_index(asker *by, arguments *with)
{
    uint32_t index[64];
    size_t count = 0;
    const octets list = with->in[0], number = with->in[1];
    const int is_own = x509_crl_index(list.bytes, list.len, index, 64, &count) == X509_OK && below(&by->state, 4) != 0;
    if (!is_own) {
        count = (size_t)below(&by->state, 5);
        for (size_t at = 0; at < count; at++)
            index[at] = below(&by->state, 8) == 0 ? UINT32_MAX - (uint32_t)below(&by->state, 4) : (uint32_t)below(&by->state, list.len + 3);
    }
    /* behind what can't be touched, as the other inputs */
    uint32_t *given = (uint32_t *)(void *)place(by->given, count * sizeof *given, 0);
    memcpy(given, index, count * sizeof *given);
    with->by = count == 0 && below(&by->state, 2) == 0 ? NULL : given;
    with->by_count = count;
    const x509_status status = ask(by, with);
    if (memcmp(given, index, count * sizeof *given) != 0)
        wrong(by, "an index has changed", with, status);
    x509_crl_entry other;
    memset(&other, 0xa5, sizeof other);
    if (is_own && (x509_crl_entry_find(list.bytes, list.len, number.bytes, number.len, &other) != status || memcmp(&other, with->found, sizeof other) != 0))
        wrong(by, "another answer than without an index", with, status);
    x509_span span;
    memcpy(&span, with->found, sizeof span);
    if (status == X509_OK && (span.len != number.len || memcmp(list.bytes + span.place, number.bytes, span.len) != 0))
        wrong(by, "an entry with another number", with, status);
    return status;
}

/* A walk from the front to where it stops, and one step from anywhere. */
static x509_status ask_walk(asker *by, arguments *with)
{
    const size_t len = with->in[0].len;
    size_t at = 0, steps = 0;
    x509_status first = X509_OK, status = X509_OK;
    x509_span issuer = {0, 0};
    with->at = &at;
    with->issuer = &issuer;
    for (; status == X509_OK; steps++) {
        const size_t last = at;
        status = ask(by, with);
        if (steps == 0)
            first = status;
        if (status == X509_OK ? at <= last || at > len : at != last)
            wrong(by, "a step that doesn't move on, or that moves where it is refused", with, status);
        if (steps > len) {
            wrong(by, "a walk without an end", with, status);
            break;
        }
    }
    const uint64_t where = below(&by->state, 8);
    const size_t start = where == 0 ? SIZE_MAX - (size_t)below(&by->state, 4) : (size_t)below(&by->state, len + 3);
    at = start;
    issuer = (x509_span){0, 0};
    status = ask(by, with);
    if (status == X509_OK ? at <= start || at > len : at != start)
        wrong(by, "a step from anywhere that doesn't move on", with, status);
    return first;
}

/* Whether a path is told that may be: its anchor and its candidates are some that are there; or a fault of the last certificate alone, under no anchor. */
static int may_be_told(const arguments *with, x509_status status, const x509_found_path *found)
{
    if (status == X509_FAULT && found->anchor == with->span_counts[0])
        return found->count == 0 && found->place == 0 && found->reason >= X509_PATH_ALGORITHM && found->reason <= X509_PATH_VERSION &&
               found->reason != X509_PATH_SIGNATURE && found->reason != X509_PATH_ISSUER;
    return found->anchor < with->span_counts[0] && found->count <= with->span_counts[1] && found->count <= with->number[0] && found->place <= found->count &&
           found->reason <= X509_PATH_VERSION && (status != X509_OK || (found->place == 0 && found->reason == 0)) &&
           (found->reason != X509_PATH_SIGNATURE || with->bad_count != 0);
}

/* A call that finds a path: what is told of one may be, and the buffer is unchanged where its candidates don't fit or there is none. */
static x509_status ask_path(asker *by, arguments *with)
{
    with->room = (size_t)below(&by->state, 4);
    with->places = (size_t *)(void *)place(by->out, with->room * sizeof *with->places, 0);
    memset(with->places, 0xa5, with->room * sizeof *with->places);
    const x509_status status = ask(by, with);
    size_t written = 0;
    if (status == X509_OK || status == X509_FAULT) {
        x509_found_path found;
        memcpy(&found, with->found, sizeof found);
        written = found.count <= with->room ? found.count : 0;
        if (!may_be_told(with, status, &found))
            wrong(by, "a path that is none", with, status);
    }
    for (size_t at = 0; at < with->room; at++)
        if (at < written ? with->places[at] >= with->span_counts[1] : with->places[at] != SIZE_MAX / 255 * 0xa5)
            wrong(by, "a candidate that is none, or a buffer that has changed", with, status);
    return status;
}

/* Whether this is said of a certificate: that its parts lie within it, and what the calls about one certificate say. */
static int is_said(asker *by, octets certificate, const x509_path_certificate *told)
{
    x509_path_certificate alone;
    if (x509_certificate_view(certificate.bytes, certificate.len, &alone.view) != X509_OK ||
        x509_certificate_signature(certificate.bytes, certificate.len, &alone.signature) != X509_OK)
        return 0;
    for (size_t at = 0; at < sizeof CERTIFICATE_FIELDS / sizeof *CERTIFICATE_FIELDS; at++) {
        const field *it = &CERTIFICATE_FIELDS[at];
        const uint8_t *said = (const uint8_t *)told + it->at;
        by->digest = digest_of(by->digest, said, it->size);
        if (memcmp(said, (const uint8_t *)&alone + it->at, it->size) != 0)
            return 0;
        x509_span span;
        if (it->is_span)
            memcpy(&span, said, sizeof span);
        if (it->is_span && (span.place > certificate.len || span.len > certificate.len - span.place))
            return 0;
    }
    return 1;
}

/* The call that asks the same and says nothing of certificates. */
static const call *plain_call(const call *of)
{
    static const char views[] = "_views";
    const char *at = strstr(of->name, views);
    if (at == NULL)
        stop(of->name);
    const size_t front = (size_t)(at - of->name);
    for (int number = 0; number < CALL_COUNT; number++)
        if (strncmp(CALLS[number].name, of->name, front) == 0 && strcmp(CALLS[number].name + front, at + sizeof views - 1) == 0)
            return &CALLS[number];
    stop(of->name);
    return NULL;
}

/* A call that says what the certificates of a valid path hold, where there is room for all, and else nothing; its answer is that of the plain one. */
static x509_status ask_views(asker *by, arguments *with)
{
    const call *plain = plain_call(by->now);
    const octets path = with->in[input_of(by->now, "path")];
    x509_path_answer answer;
    with->certificate_room = (size_t)below(&by->state, 4);
    const size_t size = with->certificate_room * sizeof *with->certificates;
    uint8_t *places = place(by->certificates, size, 0);
    memset(places, 0xa5, size);
    with->certificates = size == 0 && below(&by->state, 2) == 0 ? NULL : (x509_path_certificate *)(void *)places;
    const x509_status status = ask(by, with);
    const size_t filled = status == X509_OK && with->count <= with->certificate_room ? with->count : 0;
    for (size_t at = 0, front = 0; at < filled; front += with->lens[at++])
        if (!is_said(by, (octets){path.bytes + front, with->lens[at]}, &with->certificates[at]))
            wrong(by, "other words of a certificate than alone", with, status);
    for (size_t at = filled * sizeof *with->certificates; at < size; at++)
        if (places[at] != 0xa5) {
            wrong(by, "words of a certificate where there is no room, or no valid path", with, status);
            break;
        }
    arguments again = *with;
    again.found = &answer;
    memset(&answer, 0xa5, sizeof answer);
    if (plain->found_size != sizeof answer || by->now->found_size != sizeof answer)
        stop("another answer");
    if (plain->ask(&again) != status)
        wrong(by, "another status than without words of certificates", with, status);
    for (int at = 0; at < by->now->field_count; at++)
        if (memcmp((const uint8_t *)&answer + by->now->fields[at].at, (const uint8_t *)with->found + by->now->fields[at].at, by->now->fields[at].size) != 0)
            wrong(by, "another answer than without words of certificates", with, status);
    return status;
}

static x509_status ask_any(asker *by, arguments *with, int is_front)
{
    /* its alignment divides its size, and that of the pages */
    with->found = by->now->found_size > 0 ? place(by->found, by->now->found_size, 0) : NULL;
    if (by->now->flags & WRITES)
        return ask_room(by, with, is_front);
    if (by->now->flags & WALKS)
        return ask_walk(by, with);
    if (by->now->flags & WRITES_ASIDE) {
        with->room = (size_t)below(&by->state, 64);
        with->out = place(by->out, with->room, is_front);
    }
    if (by->now->flags & FINDS)
        return ask_path(by, with);
    if (by->now->flags & INDEXES)
        return ask_index(by, with);
    if (by->now->flags & IS_BY_INDEX)
        return ask_by_index(by, with);
    const x509_status status = by->now->flags & VIEWS ? ask_views(by, with) : ask(by, with);
    if (status == X509_OK && (by->now->flags & HAS_CRLS) && by->now->number_count == 1) {
        uint32_t fault;
        memcpy(&fault, with->found, sizeof fault);
        if (with->number[0] >= with->count || fault > X509_CRL_REPLACED ||
            (with->crls[with->number[0]].verified == 1 ? fault == X509_CRL_SIGNATURE : fault == X509_CRL_WITHOUT_FAULT || fault > X509_CRL_SIGNATURE))
            wrong(by, "a fault of a CRL that is none", with, status);
    } else if (status == X509_OK && (by->now->flags & HAS_CRLS)) {
        x509_revocation_answer told;
        memcpy(&told, with->found, sizeof told);
        const int is_revoked = told.status == X509_REVOKED;
        if (told.status > X509_REVOKED || (is_revoked ? told.crl >= with->count || with->crls[told.crl].verified != 1 : told.crl != 0 || told.date != 0) ||
            told.reason > (is_revoked ? 10 : 0) || (told.status == X509_UNDETERMINED) != (told.reasons != 0))
            wrong(by, "a status that is none", with, status);
    }
    if (status == X509_FAULT) {
        x509_path_fault fault;
        memcpy(&fault, with->found, sizeof fault);
        const uint32_t last = input_of(by->now, "settings") < 0 ? X509_PATH_PATH_LEN : X509_PATH_VERSION;
        if (fault.place >= with->count || fault.reason < X509_PATH_DECODE || fault.reason > last || fault.reason == X509_PATH_SIGNATURE)
            wrong(by, "a fault that is none", with, status);
    }
    return status;
}

/* ---- inputs */

static uint64_t any_number(asker *by, const char *name, octets first)
{
    static const uint64_t numbers[] = {0, 1, 2, 30, 31, 255, UINT32_MAX, 253402300799, 253402300800, UINT64_MAX};
    static const uint8_t string_types[] = {0x00, 0x0c, 0x13, 0x16, 0x1e, 0x14};
    const uint64_t choice = below(&by->state, 8);
    if (choice == 0)
        return numbers[below(&by->state, sizeof numbers / sizeof *numbers)];
    if (strcmp(name, "number") == 0)
        return first.len > 0 ? first.bytes[0] & 0x1f : 0;
    if (strcmp(name, "string_type") == 0)
        return string_types[below(&by->state, sizeof string_types)];
    if (strcmp(name, "kind") == 0)
        return below(&by->state, 9);
    if (strcmp(name, "identifier") == 0)
        return below(&by->state, 256);
    if (strcmp(name, "uses") == 0 || strcmp(name, "reasons") == 0)
        return below(&by->state, 512);
    if (strcmp(name, "reason") == 0)
        return below(&by->state, 12);
    if (strcmp(name, "status") == 0)
        return below(&by->state, 12) - 2;
    if (strcmp(name, "index") == 0 || strcmp(name, "size") == 0 || strcmp(name, "old_size") == 0 || strcmp(name, "new_size") == 0)
        return below(&by->state, 4);
    if (strcmp(name, "profile") == 0 || strncmp(name, "has_", 4) == 0 || strcmp(name, "critical") == 0 || strcmp(name, "is_bounded") == 0)
        return below(&by->state, 2);
    return choice == 1 ? below(&by->state, UINT64_MAX) : 1767323045 + below(&by->state, 1u << 29);
}

/* Puts a length of DER there, mostly one near to what is left. */
static void put_length(asker *by, uint8_t *bytes, size_t len)
{
    static const uint8_t lengths[] = {0x00, 0x7f, 0x80, 0x81, 0x82, 0x83, 0x84, 0x85, 0xff};
    const size_t at = (size_t)below(&by->state, len);
    bytes[at] = below(&by->state, 2) == 0 ? lengths[below(&by->state, sizeof lengths)] : (uint8_t)(bytes[at] + below(&by->state, 5) - 2);
}

/* Spoils bytes, which have some room behind them; says how many they are then. */
static size_t spoil(asker *by, uint8_t *bytes, size_t len)
{
    for (uint64_t edits = below(&by->state, 16) == 0 ? 0 : 1 + below(&by->state, 3); edits > 0; edits--) {
        const uint64_t edit = len == 0 ? 2 : below(&by->state, 8);
        const size_t at = (size_t)below(&by->state, len + 1);
        if (edit == 0) {
            len = at;
        } else if (edit == 1 && at < len) {
            memmove(bytes + at, bytes + at + 1, len - at - 1);
            len--;
        } else if (edit == 2) {
            memmove(bytes + at + 1, bytes + at, len - at);
            bytes[at] = (uint8_t)below(&by->state, 256);
            len++;
        } else if (edit == 3) {
            const size_t size = (size_t)below(&by->state, len - at + 1) % 256;
            memmove(bytes + at + size, bytes + at, len - at);
            len += size;
        } else if (edit == 4) {
            put_length(by, bytes, len);
        } else if (at < len) {
            bytes[at] ^= (uint8_t)(edit == 5 ? UINT64_C(1) << below(&by->state, 8) : 1 + below(&by->state, 255));
        }
    }
    return len;
}

static const base *one_of(asker *by, const char *name)
{
    const pool *of = pool_of(name);
    if (of->len == 0) {
        printf("no inputs: %s\n", name);
        exit(2);
    }
    return &bases[of->bases[below(&by->state, of->len)]];
}

static void copy_in(asker *by, int input, const uint8_t *bytes, size_t len)
{
    memcpy(by->copies[input], bytes, len);
    by->kept[input] = (octets){by->copies[input], len};
}

/* The inputs of x509_assemble: of a certificate, a CRL or a CSR its own parts. */
static void take_apart(asker *by)
{
    const base *whole = one_of(by, by->now->name);
    x509_crl crl;
    x509_request request;
    x509_signature signature;
    if (x509_certificate_signature(whole->bytes, whole->len, &signature) != X509_OK) {
        if (x509_crl_view(whole->bytes, whole->len, &crl) == X509_OK)
            signature = crl.signature;
        else if (x509_request_view(whole->bytes, whole->len, &request) == X509_OK)
            signature = request.signature;
        else
            stop("no signature");
    }
    copy_in(by, 0, whole->bytes + signature.signed_part.place, signature.signed_part.len);
    copy_in(by, 1, whole->bytes + signature.algorithm.place, signature.algorithm.len);
    copy_in(by, 2, whole->bytes + signature.bits.place, signature.bits.len);
}

/* The anchor of a path is its first certificate: the bytes of that, or its name and its key. */
static void take_anchor(asker *by, int path)
{
    const uint8_t *first = by->copies[path];
    x509_certificate view;
    if (input_of(by->now, "anchor") == 0) {
        copy_in(by, 0, first, by->lens[0]);
    } else if (x509_certificate_view(first, by->lens[0], &view) == X509_OK) {
        copy_in(by, 0, first + view.subject.place, view.subject.len);
        copy_in(by, 1, first + view.subject_public_key_info.place, view.subject_public_key_info.len);
    }
}

/* Where a call takes settings, the moment in them is the first second of the first certificate. */
static void take_moment(asker *by, int path)
{
    const int input = input_of(by->now, "settings");
    x509_certificate view;
    if (input < 0 || x509_certificate_view(by->copies[path], by->lens[0], &view) != X509_OK)
        return;
    const x509_path_settings settings = {.moment = view.not_before, .flags = below(&by->state, 4) != 0 ? 0 : below(&by->state, 64),
                                              .purposes = below(&by->state, 4) != 0 ? 0 : below(&by->state, 64)};
    copy_in(by, input, (const uint8_t *)&settings, sizeof settings);
}

/* One or two CRLs, each with its issuer and the key of a certificate behind it, in the one input; the moment is mostly that of the first's issue, and the
 * certificate often one of its issuer. Now and then a part lies elsewhere, or a CRL isn't verified. */
static void take_crls(asker *by, arguments *with)
{
    const int in = input_of(by->now, "in"), settings = input_of(by->now, "settings");
    const base *key = one_of(by, "x509_key_view");
    size_t len = 0;
    with->count = (size_t)below(&by->state, 3);
    for (size_t at = 0; at < with->count; at++) {
        const base *list = one_of(by, "x509_crl_check");
        x509_crl view;
        if (x509_crl_view(list->bytes, list->len, &view) != X509_OK)
            stop("no CRL");
        memcpy(by->copies[in] + len, list->bytes, list->len);
        memcpy(by->copies[in] + len + list->len, key->bytes, key->len);
        by->crls[at] = (x509_signed_crl){{len, list->len}, {len + view.issuer.place, view.issuer.len}, {len + list->len, key->len}, below(&by->state, 8) != 0};
        len += list->len + key->len;
        if (at == 0 && below(&by->state, 8) != 0) {
            const x509_revocation_settings asked = {view.this_update, below(&by->state, 2)};
            copy_in(by, settings, (const uint8_t *)&asked, sizeof asked);
        }
        if (below(&by->state, 16) == 0) {
            x509_span *part = (x509_span *[]){&by->crls[at].crl, &by->crls[at].name, &by->crls[at].key}[below(&by->state, 3)];
            *part = (x509_span){below(&by->state, 2) == 0 ? SIZE_MAX - (size_t)below(&by->state, 4) : (size_t)below(&by->state, len + 3),
                                (size_t)below(&by->state, len + 3)};
        }
        if (below(&by->state, 16) == 0)
            by->crls[at].verified = below(&by->state, 2) == 0 ? 2 : UINT32_MAX;
    }
    by->kept[in] = (octets){by->copies[in], len};
    /* behind what can't be touched, as the other inputs */
    const size_t size = with->count * sizeof *by->crls;
    x509_signed_crl *given = (x509_signed_crl *)(void *)place(by->given, size, 0);
    memcpy(given, by->crls, size);
    with->crls = with->count == 0 && below(&by->state, 2) == 0 ? NULL : given;
}

/* A certificate; mostly one whose issuer is its subject, so that it leads to itself. */
static const base *one_to_search(asker *by, x509_certificate *view)
{
    const base *one = NULL;
    int tries = below(&by->state, 4) != 0 ? 64 : 1;
    do {
        one = one_of(by, "x509_certificate_check");
        if (x509_certificate_view(one->bytes, one->len, view) != X509_OK)
            stop("no certificate");
        tries--;
    } while (tries > 0 &&
             (view->issuer.len != view->subject.len || memcmp(one->bytes + view->issuer.place, one->bytes + view->subject.place, view->issuer.len) != 0));
    return one;
}

/* Up to four certificates, one behind the other: the first is mostly the anchor, the others are candidates, as the first may be, and one is the leaf; the moment
 * is mostly the first second of one. Now and then there are links, or a part lies elsewhere. */
static void take_candidates(asker *by, arguments *with)
{
    const int in = input_of(by->now, "bytes"), settings = input_of(by->now, "settings");
    const size_t count = 1 + (size_t)below(&by->state, MOST_SPANS - 1);
    x509_span keys[MOST_SPANS];
    size_t len = 0;
    for (size_t at = 0; at < count; at++) {
        x509_certificate view;
        const base *one = one_to_search(by, &view);
        memcpy(by->copies[in] + len, one->bytes, one->len);
        by->spans[0][at] = by->spans[1][at] = (x509_span){len, one->len};
        keys[at] = (x509_span){len + view.subject_public_key_info.place, view.subject_public_key_info.len};
        len += one->len;
        if (at == 0 && below(&by->state, 8) != 0) {
            const x509_path_settings asked = {.moment = view.not_before, .flags = below(&by->state, 4) != 0 ? 0 : below(&by->state, 64),
                                              .purposes = below(&by->state, 4) != 0 ? 0 : below(&by->state, 64)};
            copy_in(by, settings, (const uint8_t *)&asked, sizeof asked);
        }
    }
    by->kept[in] = (octets){by->copies[in], len};
    if (below(&by->state, 4) != 0) {
        const int constraints = input_of(by->now, "name_constraints"), policies = input_of(by->now, "policies");
        by->kept[constraints] = (octets){by->copies[constraints], 0};
        by->kept[policies] = (octets){by->copies[policies], 0};
    }
    with->span_counts[0] = below(&by->state, 8) != 0 ? 1 : below(&by->state, 2) * count;
    with->span_counts[1] = below(&by->state, 8) != 0 ? count : 0;
    by->leaf = by->spans[0][below(&by->state, 2) == 0 ? 0 : below(&by->state, count)];
    with->bad_count = below(&by->state, 4) == 0 ? 1 + (size_t)below(&by->state, 2) : 0;
    for (size_t at = 0; at < with->bad_count; at++)
        by->bad[at] = (x509_bad_link){by->spans[0][below(&by->state, count)], keys[below(&by->state, count)]};
    if (below(&by->state, 16) == 0) {
        x509_span *part = (x509_span *[]){&by->spans[0][0], &by->spans[1][0], &by->leaf, &by->bad[0].certificate, &by->bad[0].key}[below(&by->state, 5)];
        *part = (x509_span){below(&by->state, 2) == 0 ? SIZE_MAX - (size_t)below(&by->state, 4) : (size_t)below(&by->state, len + 3),
                            (size_t)below(&by->state, len + 3)};
    }
    with->spans[0] = with->span_counts[0] == 0 && below(&by->state, 2) == 0 ? NULL : by->spans[0];
    with->spans[1] = with->span_counts[1] == 0 && below(&by->state, 2) == 0 ? NULL : by->spans[1];
    with->leaf = &by->leaf;
    with->bad = with->bad_count == 0 && below(&by->state, 2) == 0 ? NULL : by->bad;
}

/* Good inputs: of x509_reencode a row and the name of its type; of a path one or two certificates. */
static void take_inputs(asker *by, arguments *with)
{
    const call *now = by->now;
    if (strcmp(now->name, "x509_assemble") == 0) {
        take_apart(by);
        return;
    }
    for (int input = 0; input < now->input_count; input++) {
        const char *of = source_of(now, input);
        const base *it = strcmp(of, "kind:typename") == 0 ? NULL : one_of(by, of);
        if (it != NULL)
            copy_in(by, input, it->bytes, it->len);
        if (it != NULL && strcmp(of, "kind:row") == 0)
            copy_in(by, 0, (const uint8_t *)it->kind, strlen(it->kind));
    }
    /* a point has one kind of name */
    const int relative = input_of(now, "relative_name");
    if (relative >= 0)
        by->kept[below(&by->state, 4) == 0 ? input_of(now, "full_name") : relative].len = 0;
    if (now->flags & HAS_CRLS)
        take_crls(by, with);
    if (now->flags & FINDS)
        take_candidates(by, with);
    if (now->flags & HAS_LENS) {
        const int path = input_of(now, "path");
        const base *second = one_of(by, "x509_certificate_check");
        by->lens[0] = by->kept[path].len;
        by->lens[1] = second->len;
        with->count = 1 + (size_t)below(&by->state, 2);
        if (with->count == 2) {
            memcpy(by->copies[path] + by->lens[0], second->bytes, second->len);
            by->kept[path].len += second->len;
        }
        /* the anchor is often the first certificate, which its own issuer may have signed */
        if (below(&by->state, 4) != 0)
            take_anchor(by, path);
        take_moment(by, path);
        with->lens = by->lens;
    }
}

/* Asks about one spoilt input. */
static void ask_spoilt(asker *by, int number)
{
    arguments with = {0};
    const int is_front = (int)below(&by->state, 2);
    take_inputs(by, &with);
    for (uint64_t spoilt = by->now->input_count == 0 ? 0 : 1 + (below(&by->state, 8) == 0); spoilt > 0; spoilt--) {
        const size_t input = (size_t)below(&by->state, (uint64_t)by->now->input_count);
        const size_t len = spoil(by, by->copies[input], by->kept[input].len);
        if ((by->now->flags & HAS_LENS) && (int)input == input_of(by->now, "path") && below(&by->state, 16) != 0)
            by->lens[with.count - 1] += len - by->kept[input].len;
        by->kept[input].len = len;
    }
    for (int input = 0; input < by->now->input_count; input++) {
        const size_t len = by->kept[input].len;
        uint8_t *bytes = place(by->in[input], len, is_front);
        memcpy(bytes, by->copies[input], len);
        with.in[input] = (octets){len == 0 && below(&by->state, 2) == 0 ? NULL : bytes, len};
    }
    for (int at = 0; at < by->now->number_count; at++)
        with.number[at] = any_number(by, by->now->numbers[at], by->kept[0]);
    for (size_t at = 0; at < sizeof with.view / sizeof *with.view; at++)
        with.view[at] = (uint32_t)below(&by->state, below(&by->state, 8) == 0 ? UINT32_MAX : 2);
    x509_certificate view;
    if ((by->now->flags & HAS_LENS) && below(&by->state, 8) != 0 && x509_certificate_view(by->copies[0], by->kept[0].len, &view) == X509_OK)
        with.number[0] = view.not_before;
    const x509_status status = ask_any(by, &with, is_front);
    *(status == X509_OK ? &by->accepted[number] : &by->refused[number]) += 1;
}

/* ---- the bases: rows, files, and what calls find or make of them */

static size_t from_hex(const char *text, uint8_t *bytes)
{
    size_t len = 0;
    unsigned octet;
    while (len < MOST_BYTES && sscanf(text + 2 * len, "%2x", &octet) == 1)
        bytes[len++] = (uint8_t)octet;
    return len;
}

static void keep_rows(const char *path)
{
    static char line[1 << 17];
    uint8_t bytes[MOST_BYTES];
    FILE *rows = fopen(path, "r");
    if (rows == NULL)
        stop("no rows");
    while (fgets(line, sizeof line, rows) != NULL) {
        char *name = strtok(line, " \n"), *profile = strtok(NULL, " \n"), *hexed = strtok(NULL, " \n");
        size_t written;
        if (name == NULL || profile == NULL || hexed == NULL)
            continue;
        const size_t len = from_hex(hexed, bytes);
        const x509_status status = x509_reencode((const uint8_t *)name, strlen(name), X509_RAW, bytes, len, NULL, 0, &written);
        if (status == X509_OK || status == X509_ROOM)
            keep(name, bytes, len);
    }
    fclose(rows);
}

static void keep_file(const char *path)
{
    uint8_t bytes[MOST_BYTES];
    FILE *file = fopen(path, "rb");
    const size_t len = file == NULL ? 0 : fread(bytes, 1, sizeof bytes, file);
    if (file != NULL)
        fclose(file);
    if (len == 0 || len == sizeof bytes)
        stop(path);
    keep("", bytes, len);
}

/* The pool of what a call finds first, where some input is of that. */
static pool *found_by(const char *call)
{
    for (size_t at = 0; at < sizeof SOURCES / sizeof *SOURCES; at++)
        if (strncmp(SOURCES[at].pool, "found:", 6) == 0 && strcmp(SOURCES[at].pool + 6, call) == 0)
            return pool_of(SOURCES[at].pool);
    return NULL;
}

/* Keeps what a call with one input says of a base, until it has found enough: the spans that it finds, and the bytes that it writes. Says whether it accepts
 * the base. */
static int keep_found(const call *of, const base *it, size_t enough)
{
    static uint8_t found[4096], out[MOST_BYTES];
    static uint32_t index[sizeof out];
    size_t at = 0, written = 0;
    arguments with = {0};
    with.in[0] = (octets){it->bytes, it->len};
    with.number[0] = it->len > 0 ? it->bytes[0] & 0x1f : 0;
    with.out = out;
    with.room = sizeof out;
    with.index = index;
    with.written = &written;
    with.at = &at;
    with.found = found;
    x509_span issuer = {0, 0};
    with.issuer = &issuer;
    int is_accepted = 0;
    for (size_t last = 0; of->ask(&with) == X509_OK; last = at) {
        if (is_accepted && at <= last)
            stop("a walk that doesn't move on");
        is_accepted = 1;
        if ((of->flags & WRITES) && base_count < enough)
            keep("", out, written);
        int spans = 0;
        for (int field = 0; field < of->field_count; field++) {
            x509_span span;
            if (!of->fields[field].is_span)
                continue;
            spans++;
            memcpy(&span, found + of->fields[field].at, sizeof span);
            if (span.place > it->len || span.len > it->len - span.place)
                stop("a place outside of a base");
            if (base_count >= enough)
                continue;
            const size_t kept = keep("", it->bytes + span.place, span.len);
            pool *found_first = spans == 1 ? found_by(of->name) : NULL;
            if (found_first != NULL && kept < MOST_BASES)
                put(found_first, kept);
        }
        if (!(of->flags & WALKS))
            break;
    }
    return is_accepted;
}

/* Encodings of extensions and of entries of CRLs, none, one and two of them, by the calls that write them. */
static void keep_members(void)
{
    uint8_t out[2 * MOST_BYTES];
    size_t written = 0;
    keep("extensions", NULL, 0);
    keep("entries", NULL, 0);
    for (uint8_t last = 14; last < 20; last++) {
        const uint8_t oid[] = {0x55, 0x1d, last}, serial[] = {0x02, 0x01, last};
        size_t len = 0;
        if (x509_extension_encode(oid, sizeof oid, last & 1, oid, last % 4, out, sizeof out, &written) != X509_OK)
            stop("no extension");
        keep("extensions", out, written);
        memcpy(out + written, out, written);
        keep("extensions", out, 2 * written);
        len = written;
        if (x509_crl_entry_encode(serial, sizeof serial, last, out, last & 1 ? len : 0, out + len, sizeof out - len, &written) != X509_OK)
            stop("no entry");
        keep("entries", out + len, written);
        memcpy(out + len + written, out + len, written);
        keep("entries", out + len, 2 * written);
    }
}

/* Whether the certificate is a path under itself, at its first second. */
static int is_path(const base *it)
{
    x509_certificate view;
    x509_path_fault fault;
    return x509_certificate_view(it->bytes, it->len, &view) == X509_OK &&
           x509_path_check(it->bytes, it->len, it->bytes, it->len, &it->len, 1, view.not_before, &fault) == X509_OK;
}

static void fill_pools(void)
{
    const pool *certificates = pool_of("x509_certificate_check");
    for (size_t at = 0; at < certificates->len; at++)
        if (is_path(&bases[certificates->bases[at]]))
            put(pool_of("paths"), certificates->bases[at]);
    /* no constraints, and any; no settings, and the moment 1 */
    const pool *constraints = pool_of("x509_name_constraints");
    for (size_t at = 0; at < constraints->len; at++) {
        put(pool_of("constraints"), constraints->bases[at]);
        put(pool_of("constraints"), keep("none", NULL, 0));
    }
    /* no policies, and any */
    const pool *policies = pool_of("x509_certificate_policies_next");
    for (size_t at = 0; at < policies->len; at++) {
        put(pool_of("policies"), policies->bases[at]);
        put(pool_of("policies"), keep("none", NULL, 0));
    }
    /* two hashes; none, one and two of them */
    static const uint8_t hashes[64] = {[0] = 1, [63] = 2};
    for (size_t len = 0; len <= sizeof hashes; len += 32)
        put(pool_of("hashes"), keep(len == 0 ? "none" : "", hashes, len));
    put(pool_of("hash"), keep("", hashes, 32));
    put(pool_of("hash"), keep("", hashes + 32, 32));
    put(pool_of("settings"), keep("none", NULL, 0));
    put(pool_of("settings"), keep("", (const uint8_t *)"\1\0\0\0\0\0\0\0\1\0\0\0\0\0\0", 16));
    for (size_t number = 0; number < base_count; number++) {
        const base *it = &bases[number];
        if (strcmp(it->kind, "extensions") == 0)
            put(pool_of("kind:extensions"), number);
        else if (strcmp(it->kind, "entries") == 0)
            put(pool_of("kind:entries"), number);
        else if (it->kind[0] != 0 && number % 8 == 0)
            put(pool_of("kind:row"), number);
        if (strcmp(it->kind, "Attribute") == 0)
            put(pool_of("kind:Attribute"), number);
        if (strcmp(it->kind, "GeneralSubtree") == 0)
            put(pool_of("kind:GeneralSubtree"), number);
        if (strcmp(it->kind, "PolicyQualifierInfo") == 0)
            put(pool_of("kind:PolicyQualifierInfo"), number);
        if (strcmp(it->kind, "Certificate") == 0 || strcmp(it->kind, "CertReq") == 0 || strcmp(it->kind, "CertificateList") == 0) {
            x509_crl crl;
            x509_request request;
            x509_signature signature;
            if (x509_certificate_signature(it->bytes, it->len, &signature) == X509_OK || x509_crl_view(it->bytes, it->len, &crl) == X509_OK ||
                x509_request_view(it->bytes, it->len, &request) == X509_OK)
                put(pool_of("x509_assemble"), number);
        }
    }
}

static void gather(const char *rows, int files, char **names)
{
    static const char *const texts[] = {"CN=a", "CN=a+O=b,C=DE", "CN=a,O=b,C=DE", "CN=b,O=c,C=FR", "CN=c,O=d,C=IT", "CN=d,O=e,C=PL", "1.2.3=#0500", "O=\\2c\\ c,DC=d", "2.5.29.15", "1.3.6.1.4.1.11129.2.4.2",
                                        "1970-01-01T00:00:00Z", "2026-01-02T03:04:05Z", "a.example.", "192.0.2.7", "[2001:db8::192.0.2.7]", "a@b@c.example",
                                        "\"a\\\" @b\"@c.example"};
    /* an OCTET STRING with a list of one timestamp (RFC 6962 3.3): v1, an ID of zeros, a moment, no extensions, SHA-256 with ECDSA, two octets */
    static const uint8_t timestamps[55] = {0x04, 53, 0, 51, 0, 49, [44] = 1, [49] = 4, [50] = 3, [52] = 2, [53] = 7, [54] = 7};
    /* a certificate with one timestamp, and its precertificate (RFC 6962 3.1) */
    static const uint8_t issued[] = {
        0x30, 0x81, 0x98, 0x30, 0x81, 0x8a, 0xa0, 0x03, 0x02, 0x01, 0x02, 0x02, 0x01, 0x2a, 0x30, 0x05, 0x06, 0x03, 0x2a, 0x03, 0x04, 0x30, 0x00, 0x30,
        0x1e, 0x17, 0x0d, 0x32, 0x36, 0x30, 0x31, 0x30, 0x31, 0x30, 0x30, 0x30, 0x30, 0x30, 0x30, 0x5a, 0x17, 0x0d, 0x32, 0x37, 0x30, 0x31, 0x30, 0x31,
        0x30, 0x30, 0x30, 0x30, 0x30, 0x30, 0x5a, 0x30, 0x00, 0x30, 0x0b, 0x30, 0x05, 0x06, 0x03, 0x2a, 0x03, 0x04, 0x03, 0x02, 0x00, 0x61, 0xa3, 0x48,
        0x30, 0x46, 0x30, 0x44, 0x06, 0x0a, 0x2b, 0x06, 0x01, 0x04, 0x01, 0xd6, 0x79, 0x02, 0x04, 0x02, 0x04, 0x36, 0x04, 0x34, 0x00, 0x32, 0x00, 0x30,
        0x00, 0x30, 0x31, 0x32, 0x33, 0x34, 0x35, 0x36, 0x37, 0x38, 0x39, 0x61, 0x62, 0x63, 0x64, 0x65, 0x66, 0x30, 0x31, 0x32, 0x33, 0x34, 0x35, 0x36,
        0x37, 0x38, 0x39, 0x61, 0x62, 0x63, 0x64, 0x65, 0x66, 0x00, 0x00, 0x01, 0x8b, 0xcf, 0xe5, 0x68, 0x7b, 0x00, 0x00, 0x04, 0x03, 0x00, 0x01, 0xab,
        0x30, 0x05, 0x06, 0x03, 0x2a, 0x03, 0x04, 0x03, 0x02, 0x00, 0xaa};
    static const uint8_t precertificate[] = {
        0x30, 0x66, 0x30, 0x59, 0xa0, 0x03, 0x02, 0x01, 0x02, 0x02, 0x01, 0x2a, 0x30, 0x05, 0x06, 0x03, 0x2a, 0x03, 0x04, 0x30, 0x00, 0x30, 0x1e, 0x17,
        0x0d, 0x32, 0x36, 0x30, 0x31, 0x30, 0x31, 0x30, 0x30, 0x30, 0x30, 0x30, 0x30, 0x5a, 0x17, 0x0d, 0x32, 0x37, 0x30, 0x31, 0x30, 0x31, 0x30, 0x30,
        0x30, 0x30, 0x30, 0x30, 0x5a, 0x30, 0x00, 0x30, 0x0b, 0x30, 0x05, 0x06, 0x03, 0x2a, 0x03, 0x04, 0x03, 0x02, 0x00, 0x61, 0xa3, 0x17, 0x30, 0x15,
        0x30, 0x13, 0x06, 0x0a, 0x2b, 0x06, 0x01, 0x04, 0x01, 0xd6, 0x79, 0x02, 0x04, 0x03, 0x01, 0x01, 0xff, 0x04, 0x02, 0x05, 0x00, 0x30, 0x05, 0x06,
        0x03, 0x2a, 0x03, 0x04, 0x03, 0x02, 0x00, 0xaa};
    /* leaves of a log, of a certificate and of a precertificate, and a chain, alone and behind a precertificate (RFC 6962 3.1, 3.4) */
    static const uint8_t leaf[18] = {[14] = 1, [15] = 0xab}, precertificate_leaf[51] = {[11] = 1, [46] = 1, [47] = 0xcd, [49] = 1, [50] = 0xee};
    static const uint8_t chain[15] = {0, 0, 1, 0xef, 0, 0, 8, 0, 0, 1, 0xab, 0, 0, 1, 0xcd};
    /* RSAPublicKey (RFC 8017 A.1.1): 51 and 3 */
    static const uint8_t rsa_key[] = {0x30, 6, 2, 1, 0x33, 2, 1, 3};
    keep("", timestamps, sizeof timestamps);
    keep("", issued, sizeof issued);
    keep("", precertificate, sizeof precertificate);
    keep("", leaf, sizeof leaf);
    keep("", precertificate_leaf, sizeof precertificate_leaf);
    keep("", chain, sizeof chain);
    keep("", chain + 4, sizeof chain - 4);
    keep("", rsa_key, sizeof rsa_key);
    for (size_t at = 0; at < sizeof texts / sizeof *texts; at++)
        keep("", (const uint8_t *)texts[at], strlen(texts[at]));
    for (int at = 0; at < files; at++)
        keep_file(names[at]);
    keep_rows(rows);
    /* what is found in bases is a base too, for the calls that come later in the header, and in the second round for all; a pool that has few is filled then */
    for (int round = 0; round < 2; round++)
        for (int number = 0; number < CALL_COUNT; number++) {
            const size_t enough = base_count + FOUND;
            pool *of = CALLS[number].input_count == 1 ? pool_of(CALLS[number].name) : NULL;
            if (of == NULL || (round == 1 && of->len >= FEW))
                continue;
            for (size_t at = 0; at < base_count; at++)
                if (keep_found(&CALLS[number], &bases[at], enough) && (round == 1 || at < FRONT || at % 4 == 0))
                    put(of, at);
        }
    keep_members();
    fill_pools();
}

/* ---- threads */

static uint64_t seed = 0;
static long wanted = 0;

static void *run(void *given)
{
    asker *by = given;
    for (int number = 0; number < CALL_COUNT; number++) {
        by->now = &CALLS[number];
        by->state = seed * 0x9e3779b97f4a7c15 + (uint64_t)number + 1;
        for (long count = 0; count < wanted; count++)
            ask_spoilt(by, number);
        if (x509_version() != X509_VERSION)
            by->failures++;
    }
    return NULL;
}

static asker *new_asker(void)
{
    asker *made = calloc(1, sizeof *made);
    if (made == NULL)
        stop("too little memory");
    for (int input = 0; input < MOST_INPUTS; input++)
        made->in[input] = new_arena();
    made->out = new_arena();
    made->found = new_arena();
    made->given = new_arena();
    made->certificates = new_arena();
    return made;
}

/* Whether a call accepts any octets, or any number: each has a hash, and may be those of the identifier of a key, and a number of certificates. */
static int accepts_any(const char *name)
{
    return strcmp(name, "x509_merkle_leaf_hash") == 0 || strcmp(name, "x509_subject_key_identifier_encode") == 0
           || strcmp(name, "x509_inhibit_any_policy_encode") == 0;
}

/* Each call has accepted some inputs and refused some, where it was asked about enough of them. */
enum { ENOUGH = 10000 };

static long count_idle(const asker *by)
{
    long idle = 0;
    for (int number = 0; number < CALL_COUNT; number++)
        if (wanted >= ENOUGH && (by->accepted[number] == 0 || (by->refused[number] == 0) != accepts_any(CALLS[number].name))) {
            printf("wrong: %s: %ld accepted, %ld refused\n", CALLS[number].name, by->accepted[number], by->refused[number]);
            idle++;
        }
    return idle;
}

int main(int argc, char **argv)
{
    static asker *askers[MOST_THREADS];
    pthread_t threads[MOST_THREADS];
    if (argc < 5) {
        fprintf(stderr, "usage: spoil_calls ROWS COUNT SEED THREADS [FILES]\n");
        return 2;
    }
    wanted = strtol(argv[2], NULL, 10);
    seed = strtoull(argv[3], NULL, 10);
    const long count = strtol(argv[4], NULL, 10);
    if (wanted < 1 || count < 1 || count > MOST_THREADS)
        stop("a count is 1 or more, and there are at most 64 threads");
    gather(argv[1], argc - 5, argv + 5);
    for (long at = 0; at < count; at++) {
        askers[at] = new_asker();
        if (pthread_create(&threads[at], NULL, run, askers[at]) != 0)
            stop("no thread");
    }
    long failures = 0, accepted = 0;
    for (long at = 0; at < count; at++) {
        pthread_join(threads[at], NULL);
        failures += askers[at]->failures;
        if (askers[at]->digest != askers[0]->digest) {
            printf("wrong: thread %ld got other answers\n", at);
            failures++;
        }
    }
    failures += count_idle(askers[0]);
    for (int number = 0; number < CALL_COUNT; number++)
        accepted += askers[0]->accepted[number];
    printf("%d calls over %ld spoilt inputs each, of which %ld%% are accepted, in %ld threads: %ld calls made, %ld wrong\n", CALL_COUNT, wanted,
           accepted * 100 / (wanted * CALL_COUNT), count, askers[0]->asked * count, failures);
    for (long at = 0; at < count; at++)
        free(askers[at]);
    return failures == 0 ? 0 : 1;
}
