// Refuses the allocation whose number FAIL_AT gives, counted from 1, and those of more than FAIL_OVER bytes but for those of exactly FAIL_BUT. Writes
// the number of allocations that were made into the file FAIL_COUNT at the end. Loaded before the C library.
#define _GNU_SOURCE
#include <dlfcn.h>
#include <errno.h>
#include <fcntl.h>
#include <stdio.h>
#include <stdlib.h>
#include <unistd.h>

static long count = 0;

static int refused(size_t size) {
    const char *at = getenv("FAIL_AT"), *over = getenv("FAIL_OVER"), *but = getenv("FAIL_BUT");
    count += 1;
    if (at != NULL && count == atol(at)) return 1;
    return over != NULL && size > (size_t)atol(over) && (but == NULL || size != (size_t)atol(but));
}

__attribute__((destructor)) static void tell(void) {
    const char *path = getenv("FAIL_COUNT");
    if (path == NULL) return;
    int file = open(path, O_CREAT | O_TRUNC | O_WRONLY, 0600);
    dprintf(file, "%ld", count);
    close(file);
}

void *malloc(size_t size) {
    static void *(*real)(size_t);
    if (real == NULL) real = dlsym(RTLD_NEXT, "malloc");
    if (refused(size)) { errno = ENOMEM; return NULL; }
    return real(size);
}

void *realloc(void *old, size_t size) {
    static void *(*real)(void *, size_t);
    if (real == NULL) real = dlsym(RTLD_NEXT, "realloc");
    if (refused(size)) { errno = ENOMEM; return NULL; }
    return real(old, size);
}

void *aligned_alloc(size_t alignment, size_t size) {
    static void *(*real)(size_t, size_t);
    if (real == NULL) real = dlsym(RTLD_NEXT, "aligned_alloc");
    if (refused(size)) { errno = ENOMEM; return NULL; }
    return real(alignment, size);
}

int posix_memalign(void **to, size_t alignment, size_t size) {
    static int (*real)(void **, size_t, size_t);
    if (real == NULL) real = dlsym(RTLD_NEXT, "posix_memalign");
    if (refused(size)) return ENOMEM;
    return real(to, alignment, size);
}
