/* Refuses one growth of memory of a program that it is preloaded into: REFUSE names it, counted from 1.
   Where REFUSE_COUNT names a file, how many growths there were is written there at the end. */
#define _GNU_SOURCE
#include <dlfcn.h>
#include <stdio.h>
#include <stdlib.h>

static unsigned long count, refused;
static void *(*next_malloc)(size_t);
static void *(*next_realloc)(void *, size_t);

static void begin(void) {
    if (next_malloc) return;
    next_malloc = dlsym(RTLD_NEXT, "malloc");
    next_realloc = dlsym(RTLD_NEXT, "realloc");
    const char *named = getenv("REFUSE");
    refused = named ? strtoul(named, 0, 10) : 0;
}

void *malloc(size_t size) {
    begin();
    return ++count == refused ? 0 : next_malloc(size);
}

void *realloc(void *old, size_t size) {
    begin();
    return ++count == refused ? 0 : next_realloc(old, size);
}

__attribute__((destructor)) static void end(void) {
    const char *named = getenv("REFUSE_COUNT");
    FILE *file = named ? fopen(named, "w") : 0;
    if (file) {
        fprintf(file, "%lu\n", count);
        fclose(file);
    }
}
