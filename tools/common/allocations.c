/* Counts the allocations of a program that it is loaded before, and refuses some of them.

   REFUSE=N refuses the Nth allocation, counting from 1, and REFUSE=N+ each one from the Nth on. At the end the file that
   COUNTS names has how many allocations there were, the most bytes that stood at once, and how many were refused. */
#define _GNU_SOURCE
#include <dlfcn.h>
#include <malloc.h>
#include <stddef.h>
#include <stdio.h>
#include <stdlib.h>
#include <string.h>

static void *(*real_malloc)(size_t);
static void *(*real_realloc)(void *, size_t);
static void (*real_free)(void *);
static unsigned long made, refused, first, standing, most;
static int ever_after;

__attribute__((constructor)) static void begin(void) {
    real_malloc = dlsym(RTLD_NEXT, "malloc");
    real_realloc = dlsym(RTLD_NEXT, "realloc");
    real_free = dlsym(RTLD_NEXT, "free");
    const char *text = getenv("REFUSE");
    if (text) {
        first = strtoul(text, NULL, 10);
        ever_after = strchr(text, '+') != NULL;
    }
    made = standing = most = 0;
}

__attribute__((destructor)) static void end(void) {
    const char *path = getenv("COUNTS");
    if (!path) return;
    unsigned long total = made, bytes = most, no = refused;
    first = 0;
    FILE *file = fopen(path, "w");
    if (!file) return;
    fprintf(file, "%lu %lu %lu\n", total, bytes, no);
    fclose(file);
}

static int is_refused(void) {
    made += 1;
    int no = first && (ever_after ? made >= first : made == first);
    refused += no;
    return no;
}

static void *stands(void *block) {
    if (block) standing += malloc_usable_size(block);
    if (standing > most) most = standing;
    return block;
}

void *malloc(size_t size) {
    if (!real_malloc) begin();
    return is_refused() ? NULL : stands(real_malloc(size));
}

void *realloc(void *old, size_t size) {
    if (!real_realloc) begin();
    if (is_refused()) return NULL;
    size_t before = old ? malloc_usable_size(old) : 0;
    void *block = real_realloc(old, size);
    if (block) standing -= before;
    return stands(block);
}

void free(void *block) {
    if (!real_free) begin();
    if (block) standing -= malloc_usable_size(block);
    real_free(block);
}
