/* Loaded before the C library: the call of malloc or realloc of the number GROWTH_REFUSED, counted from 1, gets nothing. At the end the
   number of calls is written to the file GROWTH_COUNT, if it is named. */
#define _GNU_SOURCE
#include <dlfcn.h>
#include <stdio.h>
#include <stdlib.h>

static unsigned long calls;

static int is_refused(void) {
    static unsigned long refused = -1;
    if (refused == -1UL) {
        const char *number = getenv("GROWTH_REFUSED");
        refused = number ? strtoul(number, NULL, 10) : 0;
    }
    return ++calls == refused;
}

void *malloc(size_t size) {
    static void *(*real)(size_t);
    if (!real) real = (void *(*)(size_t))dlsym(RTLD_NEXT, "malloc");
    return is_refused() ? NULL : real(size);
}

void *realloc(void *old, size_t size) {
    static void *(*real)(void *, size_t);
    if (!real) real = (void *(*)(void *, size_t))dlsym(RTLD_NEXT, "realloc");
    return is_refused() ? NULL : real(old, size);
}

__attribute__((destructor)) static void tell(void) {
    unsigned long made = calls;
    const char *name = getenv("GROWTH_COUNT");
    FILE *file = name ? fopen(name, "w") : NULL;
    if (!file) return;
    fprintf(file, "%lu\n", made);
    fclose(file);
}
