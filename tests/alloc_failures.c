/* A library to be loaded before the C library: it counts the requests for memory of a program, and refuses some of them.
 *     GROWTHS_REFUSED=N    the N-th request is refused, counted from 1; with GROWTHS_ONWARD=1 all after it too
 *     GROWTHS_COUNT=FILE   at the end the number of requests is written to the file, and whether one was refused
 * The C library's own requests before `main` count too: a number means the same request in each run over the same words and bytes. */
#define _GNU_SOURCE
#include <dlfcn.h>
#include <errno.h>
#include <stdio.h>
#include <stdlib.h>
#include <string.h>

static long seen, refused_at = -1, refused;
static int onward;

/* The function of the C library with this name. */
static void *next_of(const char *name) {
    return dlsym(RTLD_NEXT, name);
}

/* Whether the request that comes now is refused. */
static int is_refused(void) {
    if (refused_at < 0) {
        const char *at = getenv("GROWTHS_REFUSED");
        const char *on = getenv("GROWTHS_ONWARD");
        refused_at = at ? atol(at) : 0;
        onward = on && strcmp(on, "1") == 0;
    }
    seen++;
    if (refused_at == 0 || seen < refused_at || (seen > refused_at && !onward)) return 0;
    refused++;
    errno = ENOMEM;
    return 1;
}

void *malloc(size_t size) {
    static void *(*call)(size_t);
    if (!call) call = (void *(*)(size_t))next_of("malloc");
    return is_refused() ? NULL : call(size);
}

void *realloc(void *old, size_t size) {
    static void *(*call)(void *, size_t);
    if (!call) call = (void *(*)(void *, size_t))next_of("realloc");
    return is_refused() ? NULL : call(old, size);
}

void *aligned_alloc(size_t alignment, size_t size) {
    static void *(*call)(size_t, size_t);
    if (!call) call = (void *(*)(size_t, size_t))next_of("aligned_alloc");
    return is_refused() ? NULL : call(alignment, size);
}

int posix_memalign(void **out, size_t alignment, size_t size) {
    static int (*call)(void **, size_t, size_t);
    if (!call) call = (int (*)(void **, size_t, size_t))next_of("posix_memalign");
    return is_refused() ? ENOMEM : call(out, alignment, size);
}

__attribute__((destructor)) static void report(void) {
    const char *path = getenv("GROWTHS_COUNT");
    long all = seen, some = refused;
    refused_at = 0;
    FILE *file = path ? fopen(path, "w") : NULL;
    if (!file) return;
    fprintf(file, "%ld %ld\n", all, some);
    fclose(file);
}
