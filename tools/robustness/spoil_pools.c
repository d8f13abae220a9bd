/* Finds paths over spoilt certificates, and compares what x509_path_find answers with what x509_path_validate_views says of every path; of a valid one that has
 * to say of each certificate what x509_certificate_view and x509_certificate_signature do.
 *
 * FILES are the certificates of a path that is valid at MOMENT but for signatures, which aren't looked at: an anchor, those below it, and the last one. Each
 * octet of each is spoilt: one of its bits is turned, each in turn, it is left out or there twice, or the certificate ends in front of it. A spoilt certificate
 * stands in the place of the good one, and a candidate beside the good one too. Then there are COUNT pools of up to 12 candidates in any order: certificates of
 * the path, as they are or with one to three octets changed, put in or taken out, the end cut off or a part there twice, as a generator with the SEED says. In
 * some of them the anchor or the last one is spoilt too, some links are told to be bad, or a purpose or a policy is asked for.
 *
 * What is wrong with the last one under a name and a key that are trusted for whatever they issue has to be told first, under no anchor. Else the paths are put
 * together here: of candidates that can be decoded, none twice, whose names match from the anchor down. Where one is valid X509_OK has to be answered with one
 * that is, and none shorter may be; else X509_FAULT with a path that has that fault, of which no path has one that is nearer to its end; X509_ABSENT where none is
 * linked by its names; and another status where the anchor or the last one has it, and only there. What is asked ends where a page
 * ends that no byte may be read behind.
 *
 * It prints how many pools were asked about, and ends with 1 where one was answered otherwise.
 *
 * usage: spoil_pools COUNT SEED MOMENT FILES */
#define _GNU_SOURCE
#include <stdint.h>
#include <stdio.h>
#include <stdlib.h>
#include <string.h>
#include <sys/mman.h>
#include "x509.h"

enum { PAGE = 4096, ARENA = 16 * PAGE, MOST_BYTES = 2048, MOST_POOL = 12, MOST_MEMBERS = MOST_POOL + 2, MOST_DEPTH = 3, MOST_BAD = 2 };
/* A pool with more linked paths isn't compared. Of one octet there are so many edits; the end is cut off by the last. */
enum { MOST_PATHS = 900, EDITS = 11, LEFT_OUT = 8, TWICE = 9 };

typedef struct {
    uint8_t bytes[MOST_BYTES];
    size_t len;
} octets;

/* A certificate of a pool: where it stands, and what it says where it can be decoded. A twin of one in front of it, or of the last one, counts for nothing. */
typedef struct {
    const octets *it;
    x509_span span;
    x509_certificate view;
    int is_decoded, is_twin;
} member;

/* The anchor, then the candidates, then the last certificate. */
typedef struct {
    member members[MOST_MEMBERS];
    size_t count; /* of candidates */
    uint8_t is_above[MOST_MEMBERS][MOST_MEMBERS];
    const uint8_t *bytes;
    size_t len;
    x509_bad_link bad[MOST_BAD];
    size_t bad_count;
    x509_path_settings settings;
    uint32_t depth;
} pool;

/* The members of a path, topmost first, without the anchor. */
typedef struct {
    size_t places[MOST_DEPTH + 1], count;
} path;

/* Of all paths that are linked: how many there are, how long the shortest valid one is, and how near to its end one has a fault. */
typedef struct {
    size_t linked, shortest, nearest;
    int is_unusable;
} outcome;

static uint8_t *arena, *path_arena;
static octets files[MOST_MEMBERS], spoilt[MOST_MEMBERS];
static size_t file_count;
static uint64_t state, moment;
static long asked, validated, answered[4], skipped, failures;
enum { FOUND, FAULTS, NO_ISSUER, REFUSED };

static uint64_t below(uint64_t bound)
{
    state ^= state << 13;
    state ^= state >> 7;
    state ^= state << 17;
    return state % bound;
}

static void stop(const char *why)
{
    printf("%s\n", why);
    exit(2);
}

static void wrong(const char *what, const pool *of, x509_status status)
{
    if (failures++ >= 10)
        return;
    printf("wrong: %s: status %d, up to %u candidates, %zu bad links; the anchor, the candidates and the last one are\n", what, status, (unsigned)of->depth,
           of->bad_count);
    for (size_t at = 0; at < of->count + 2; at++) {
        printf("    ");
        for (size_t place = 0; place < of->members[at].it->len; place++)
            printf("%02x", of->members[at].it->bytes[place]);
        printf("\n");
    }
}

/* Bytes in front of a page that can't be touched. */
static uint8_t *new_arena(void)
{
    uint8_t *made = mmap(NULL, ARENA + PAGE, PROT_NONE, MAP_PRIVATE | MAP_ANONYMOUS, -1, 0);
    if (made == MAP_FAILED || mprotect(made, ARENA, PROT_READ | PROT_WRITE) != 0)
        stop("no pages");
    return made;
}

/* ---- how certificates are spoilt */

static void put_twice(octets *it, size_t at, size_t size)
{
    memmove(it->bytes + at + size, it->bytes + at, it->len - at);
    it->len += size;
}

static void leave_out(octets *it, size_t at)
{
    memmove(it->bytes + at, it->bytes + at + 1, it->len - at - 1);
    it->len--;
}

static void spoil_octet(const octets *from, size_t at, int edit, octets *to)
{
    *to = *from;
    if (edit < LEFT_OUT)
        to->bytes[at] ^= (uint8_t)(1u << edit);
    else if (edit == LEFT_OUT)
        leave_out(to, at);
    else if (edit == TWICE)
        put_twice(to, at, 1);
    else
        to->len = at;
}

static void spoil_any(const octets *from, octets *to)
{
    *to = *from;
    for (uint64_t edits = 1 + below(3); edits > 0; edits--) {
        const uint64_t edit = to->len == 0 ? 2 : below(8);
        const size_t at = (size_t)below(to->len + 1);
        if (edit == 0)
            to->len = at;
        else if (edit == 1 && at < to->len)
            leave_out(to, at);
        else if (edit == 2) {
            put_twice(to, at, 1);
            to->bytes[at] = (uint8_t)below(256);
        } else if (edit == 3)
            put_twice(to, at, (size_t)below(to->len - at + 1) % 64);
        else if (at < to->len)
            to->bytes[at] ^= (uint8_t)(edit < 6 ? UINT64_C(1) << below(8) : 1 + below(255));
    }
}

/* ---- a pool */

static int is_same(const octets *a, const octets *b)
{
    return a->len == b->len && (a->len == 0 || memcmp(a->bytes, b->bytes, a->len) == 0);
}

/* Whether the subject of the one is the issuer of the other. */
static int names_match(const member *above, const member *it)
{
    const x509_span subject = above->view.subject, issuer = it->view.issuer;
    uint32_t matches = 0;
    if (!above->is_decoded || !it->is_decoded)
        return 0;
    if (x509_names_match(above->it->bytes + subject.place, subject.len, it->it->bytes + issuer.place, issuer.len, &matches) != X509_OK)
        stop("names that can't be compared");
    return matches == 1;
}

/* Puts the certificates one behind the other, in front of the page: the anchor, the candidates and the last one. */
static void gather(pool *of, const octets *const *given, size_t count)
{
    size_t len = 0;
    memset(of, 0, sizeof *of);
    of->count = count - 2;
    of->depth = MOST_DEPTH;
    of->settings.moment = moment;
    for (size_t at = 0; at < count; at++) {
        member *it = &of->members[at];
        it->it = given[at];
        it->span = (x509_span){len, given[at]->len};
        it->is_decoded = x509_certificate_view(given[at]->bytes, given[at]->len, &it->view) == X509_OK;
        len += given[at]->len;
    }
    if (len > ARENA)
        stop("too large a pool");
    uint8_t *const front = arena + ARENA - len;
    of->bytes = front;
    of->len = len;
    for (size_t at = 0; at < count; at++) {
        memcpy(front + of->members[at].span.place, given[at]->bytes, given[at]->len);
        for (size_t other = 1; other < count; other++)
            of->is_above[at][other] = (uint8_t)names_match(&of->members[at], &of->members[other]);
        if (at == 0 || at == count - 1)
            continue;
        of->members[at].is_twin = is_same(given[at], given[count - 1]);
        for (size_t before = 1; before < at; before++)
            of->members[at].is_twin |= is_same(given[at], given[before]);
    }
}

/* ---- every path */

static int is_linked(const pool *of, const path *it)
{
    for (size_t at = 0; at < it->count; at++)
        if (!of->is_above[at == 0 ? 0 : it->places[at - 1]][it->places[at]])
            return 0;
    return 1;
}

static int is_same_part(x509_span a, x509_span b)
{
    return a.place == b.place && a.len == b.len;
}

/* Whether the certificate says alone what is said of it in a path. */
static int is_said(const member *it, const x509_path_certificate *told)
{
    const x509_certificate *a = &told->view, *b = &it->view;
    const x509_signature *of = &told->signature;
    x509_signature alone;
    return it->is_decoded && x509_certificate_signature(it->it->bytes, it->it->len, &alone) == X509_OK && a->version == b->version &&
           is_same_part(a->serial_number, b->serial_number) && is_same_part(a->issuer, b->issuer) && is_same_part(a->subject, b->subject) &&
           is_same_part(a->subject_public_key_info, b->subject_public_key_info) && is_same_part(a->extensions, b->extensions) &&
           a->not_before == b->not_before && a->not_after == b->not_after && is_same_part(a->inner_algorithm, b->inner_algorithm) &&
           is_same_part(a->issuer_unique_id, b->issuer_unique_id) && a->issuer_unused_bits == b->issuer_unused_bits &&
           is_same_part(a->subject_unique_id, b->subject_unique_id) && a->subject_unused_bits == b->subject_unused_bits &&
           is_same_part(of->signed_part, alone.signed_part) && is_same_part(of->algorithm, alone.algorithm) && is_same_part(of->bits, alone.bits) &&
           of->unused_bits == alone.unused_bits;
}

static x509_status validate(const pool *of, const path *it, x509_path_answer *answer)
{
    x509_path_certificate told[MOST_DEPTH + 1];
    size_t lens[MOST_DEPTH + 1], len = 0;
    for (size_t at = 0; at < it->count; at++)
        len += lens[at] = of->members[it->places[at]].span.len;
    uint8_t *const front = path_arena + ARENA - len;
    for (size_t at = 0, place = 0; at < it->count; place += lens[at++])
        memcpy(front + place, of->members[it->places[at]].it->bytes, lens[at]);
    validated++;
    const octets *anchor = of->members[0].it;
    const x509_status status = x509_path_validate_views(anchor->bytes, anchor->len, front, len, lens, it->count, NULL, 0, NULL, 0, &of->settings,
                                                        sizeof of->settings, NULL, 0, answer, told, MOST_DEPTH + 1);
    for (size_t at = 0; status == X509_OK && at < it->count; at++)
        if (!is_said(&of->members[it->places[at]], &told[at]))
            wrong("other words of a certificate than alone", of, status);
    return status;
}

/* Whether the certificate is told to be bad under the key. */
static int is_told(const pool *of, x509_span certificate, const uint8_t *key, size_t len)
{
    for (size_t at = 0; at < of->bad_count; at++) {
        const x509_bad_link *link = &of->bad[at];
        if (link->certificate.len == certificate.len && memcmp(of->bytes + link->certificate.place, of->bytes + certificate.place, certificate.len) == 0 &&
            link->key.len == len && memcmp(of->bytes + link->key.place, key, len) == 0)
            return 1;
    }
    return 0;
}

/* From that place on the first of a linked path that is told to be bad under the key above it, as that is used (RFC 5280 6.1.4 (d) to (f)); else how many there
 * are. */
static size_t bad_from(const pool *of, const path *it, size_t from)
{
    static uint8_t key[MOST_BYTES], next[MOST_BYTES];
    const member *above = &of->members[0];
    size_t len = above->view.subject_public_key_info.len;
    if (of->bad_count == 0)
        return it->count;
    memcpy(key, above->it->bytes + above->view.subject_public_key_info.place, len);
    for (size_t at = 0; at < it->count; at++) {
        const member *here = &of->members[it->places[at]];
        const x509_span own = here->view.subject_public_key_info;
        if (at >= from && is_told(of, here->span, key, len))
            return at;
        if (x509_working_key(key, len, here->it->bytes + own.place, own.len, next, sizeof next, &len) != X509_OK)
            stop("no key");
        memcpy(key, next, len);
    }
    return it->count;
}

static void judge(const pool *of, const path *it, outcome *all)
{
    x509_path_answer answer;
    const x509_status status = validate(of, it, &answer);
    const size_t bad = bad_from(of, it, 0);
    all->linked++;
    if (status != X509_OK && status != X509_FAULT) {
        all->is_unusable = 1;
    } else if (status == X509_OK && bad == it->count) {
        all->shortest = it->count < all->shortest ? it->count : all->shortest;
    } else {
        const size_t left = it->count - (status == X509_FAULT && answer.place < bad ? answer.place : bad);
        all->nearest = left < all->nearest ? left : all->nearest;
    }
}

/* Goes over the linked paths that end with this one. */
static void climb(const pool *of, const path *end, outcome *all)
{
    if (all->linked > MOST_PATHS)
        return;
    if (of->is_above[0][end->places[0]])
        judge(of, end, all);
    for (size_t at = 1; at <= of->count && end->count <= of->depth; at++) {
        path longer = {.places = {at}, .count = end->count + 1};
        int is_there = of->members[at].is_twin || !of->is_above[at][end->places[0]];
        for (size_t below_it = 0; below_it < end->count; below_it++) {
            is_there |= end->places[below_it] == at;
            longer.places[below_it + 1] = end->places[below_it];
        }
        if (!is_there)
            climb(of, &longer, all);
    }
}

/* ---- what is answered */

/* What is wrong with a path that is told, or NULL. */
static const char *fault_of(const pool *of, const path *it, x509_status status, const x509_found_path *found, const outcome *all)
{
    x509_path_answer answer;
    if (!is_linked(of, it))
        return "a path that isn't linked";
    const x509_status said = validate(of, it, &answer);
    if (status == X509_OK)
        return said != X509_OK || bad_from(of, it, 0) != it->count ? "a path that isn't valid" : it->count != all->shortest ? "not the shortest path" : NULL;
    if (all->shortest != SIZE_MAX)
        return "a valid path isn't found";
    if (found->reason == 0)
        return said == X509_VALUE ? NULL : "constraints that can be used";
    if (found->reason == X509_PATH_SIGNATURE ? bad_from(of, it, found->place) != found->place
                                             : said != X509_FAULT || answer.place != found->place || answer.reason != found->reason)
        return "a fault that it hasn't";
    return !all->is_unusable && it->count - found->place != all->nearest ? "a fault that isn't the nearest to the end" : NULL;
}

/* The fault of the last one where it stands alone under the name that issued it, which is trusted for whatever that issues; 0 where it has none but of policies. */
static uint32_t own_fault(const pool *of)
{
    const member *last = &of->members[of->count + 1];
    const x509_span name = last->view.issuer, key = last->view.subject_public_key_info;
    x509_path_answer answer;
    const x509_status status =
        x509_path_validate_under_key(last->it->bytes + name.place, name.len, last->it->bytes + key.place, key.len, last->it->bytes, last->it->len, &last->it->len, 1,
                                     NULL, 0, NULL, 0, &of->settings, sizeof of->settings, NULL, 0, &answer);
    if (status != X509_FAULT || answer.reason == X509_PATH_POLICY || answer.reason == X509_PATH_POLICY_MAPPING || answer.reason == X509_PATH_REPEATED_POLICY)
        return 0;
    return answer.reason;
}

static void ask(const pool *of)
{
    x509_span candidates[MOST_POOL];
    size_t places[MOST_DEPTH];
    x509_found_path found = {0, 0, 0, 0};
    x509_path_answer answer;
    outcome all = {0, SIZE_MAX, SIZE_MAX, 0};
    const size_t last = of->count + 1;
    const path alone = {.places = {last}, .count = 1};
    for (size_t at = 0; at < of->count; at++)
        candidates[at] = of->members[at + 1].span;
    const x509_span anchor = of->members[0].span, leaf = of->members[last].span;
    const x509_status status = x509_path_find(of->bytes, of->len, &anchor, 1, candidates, of->count, &leaf, of->bad, of->bad_count, NULL, 0, NULL, 0,
                                              &of->settings, sizeof of->settings, of->depth, places, MOST_DEPTH, &found);
    const x509_status of_anchor = validate(of, &alone, &answer), of_last = x509_certificate_check(of->members[last].it->bytes, of->members[last].it->len);
    const int is_anchor_bad = of_anchor == X509_MALFORMED || of_anchor == X509_OVERLENGTH || of_anchor == X509_FAILED;
    asked++;
    if (is_anchor_bad || of_last != X509_OK) {
        answered[REFUSED]++;
        if (!(is_anchor_bad && status == of_anchor) && !(of_last != X509_OK && status == of_last))
            wrong("not refused as the anchor or the last one is", of, status);
        return;
    }
    const uint32_t own = own_fault(of);
    const int is_own_told = status == X509_FAULT && found.anchor == 1;
    if (own != 0 || is_own_told) {
        answered[FAULTS]++;
        if (!is_own_told || found.reason != own || found.count != 0 || found.place != 0)
            wrong("the fault of the last one isn't told", of, status);
        return;
    }
    climb(of, &alone, &all);
    if (all.linked > MOST_PATHS) {
        skipped++;
    } else if (status == X509_ABSENT) {
        answered[NO_ISSUER]++;
        if (all.linked != 0)
            wrong("a path is linked", of, status);
    } else if (status != X509_OK && status != X509_FAULT) {
        wrong("another status", of, status);
    } else {
        path it = {.count = found.count + 1};
        answered[status == X509_OK ? FOUND : FAULTS]++;
        if (found.count > of->depth) {
            wrong("too long a path", of, status);
            return;
        }
        for (size_t at = 0; at < found.count; at++) {
            it.places[at] = places[at] + 1;
            int is_none = places[at] >= of->count || of->members[places[at] + 1].is_twin;
            for (size_t before = 0; before < at; before++)
                is_none |= places[before] == places[at];
            if (is_none) {
                wrong("a candidate that is none, or there twice", of, status);
                return;
            }
        }
        it.places[found.count] = last;
        const char *why = fault_of(of, &it, status, &found, &all);
        if (why != NULL)
            wrong(why, of, status);
    }
}

/* ---- the pools */

/* The files in their order, the one in the place of that file, or behind it where `beside` says so. */
static void ask_file(size_t file, const octets *it, int beside)
{
    pool made;
    const octets *given[MOST_MEMBERS];
    size_t count = 0;
    for (size_t at = 0; at < file_count; at++) {
        if (at != file || beside == 1)
            given[count++] = &files[at];
        if (at == file)
            given[count++] = it;
        if (at == file && beside == 2)
            given[count++] = &files[at];
    }
    gather(&made, given, count);
    ask(&made);
}

static void ask_octets(void)
{
    for (size_t file = 0; file < file_count; file++)
        for (size_t at = 0; at < files[file].len; at++)
            for (int edit = 0; edit < EDITS; edit++) {
                spoil_octet(&files[file], at, edit, &spoilt[0]);
                ask_file(file, &spoilt[0], 0);
                if (file > 0 && file < file_count - 1)
                    ask_file(file, &spoilt[0], 1 + (int)(at & 1));
            }
}

static const octets *any_of(size_t file, octets *room, uint64_t good_in)
{
    if (below(good_in) == 0)
        return &files[file];
    spoil_any(&files[file], room);
    return room;
}

/* A candidate: mostly one of those of the path. */
static size_t any_file(void)
{
    return below(8) == 0 ? (below(2) == 0 ? 0 : file_count - 1) : 1 + (size_t)below(file_count - 2);
}

static void add_bad(pool *of)
{
    const member *certificate = &of->members[below(of->count + 2)], *above = &of->members[below(of->count + 2)];
    if (!certificate->is_decoded || !above->is_decoded)
        return;
    const x509_span key = above->view.subject_public_key_info;
    of->bad[of->bad_count++] = (x509_bad_link){certificate->span, {above->span.place + key.place, key.len}};
}

static void ask_any(void)
{
    pool made;
    const octets *given[MOST_MEMBERS];
    const size_t count = (size_t)below(MOST_POOL + 1);
    given[0] = below(8) != 0 ? &files[0] : any_of(0, &spoilt[0], 2);
    for (size_t at = 1; at <= count; at++)
        given[at] = any_of(any_file(), &spoilt[at], 3);
    given[count + 1] = below(8) != 0 ? &files[file_count - 1] : any_of(file_count - 1, &spoilt[count + 1], 2);
    gather(&made, given, count + 2);
    made.depth = (uint32_t)below(MOST_DEPTH + 1);
    made.depth = made.depth == 0 ? MOST_DEPTH : made.depth;
    made.settings.purposes = below(4) == 0 ? X509_PURPOSE_SERVER_AUTH : 0;
    made.settings.flags = below(8) == 0 ? X509_PATH_EXPLICIT_POLICY : 0;
    while (made.bad_count < MOST_BAD && below(4) == 0)
        add_bad(&made);
    ask(&made);
}

static void read_file(const char *name, octets *into)
{
    FILE *file = fopen(name, "rb");
    into->len = file == NULL ? 0 : fread(into->bytes, 1, sizeof into->bytes, file);
    if (file != NULL)
        fclose(file);
    /* a part may be put in a second time */
    if (into->len == 0 || into->len > MOST_BYTES / 2)
        stop(name);
}

int main(int argc, char **argv)
{
    if (argc < 7 || argc - 4 > MOST_DEPTH + 2) {
        fprintf(stderr, "usage: spoil_pools COUNT SEED MOMENT FILES, of which there are 3 to %d\n", MOST_DEPTH + 2);
        return 2;
    }
    state = strtoull(argv[2], NULL, 10) * 0x9e3779b97f4a7c15 + 1;
    moment = strtoull(argv[3], NULL, 10);
    file_count = (size_t)argc - 4;
    for (size_t at = 0; at < file_count; at++)
        read_file(argv[4 + at], &files[at]);
    arena = new_arena();
    path_arena = new_arena();
    ask_octets();
    for (long count = strtol(argv[1], NULL, 10); count > 0; count--)
        ask_any();
    for (int at = 0; at < 4; at++)
        if (answered[at] == 0 && failures++ < 10)
            printf("wrong: no pool is answered so: %s\n", (const char *[]){"a path", "a fault", "no issuer", "refused"}[at]);
    if (skipped > asked / 100 && failures++ < 10)
        printf("wrong: too many pools with more than %d paths: %ld\n", MOST_PATHS, skipped);
    printf("%ld pools: %ld with a path, %ld with a fault, %ld without an issuer, %ld refused, %ld not compared; %ld paths validated, %ld wrong\n", asked,
           answered[FOUND], answered[FAULTS], answered[NO_ISSUER], answered[REFUSED], skipped, validated, failures);
    return failures == 0 ? 0 : 1;
}
