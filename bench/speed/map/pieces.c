/* Counts the pieces of memory that a process has at once, for run.sh: a library that is loaded before the C library
   (LD_PRELOAD). At its end the process prints how many there were when they were most. */
#include <stdatomic.h>
#include <stdio.h>
#include <stdlib.h>

static atomic_long pieces, most;

static void *counted(void *piece) {
    if (piece != NULL) {
        long now = ++pieces;
        if (now > most) {
            most = now;
        }
    }
    return piece;
}

extern void *__libc_malloc(size_t);
extern void *__libc_calloc(size_t, size_t);
extern void *__libc_realloc(void *, size_t);
extern void *__libc_memalign(size_t, size_t);
extern void __libc_free(void *);

void *malloc(size_t bytes) {
    return counted(__libc_malloc(bytes));
}

void *calloc(size_t count, size_t bytes) {
    return counted(__libc_calloc(count, bytes));
}

void *realloc(void *piece, size_t bytes) {
    void *moved = __libc_realloc(piece, bytes);
    return piece == NULL ? counted(moved) : moved;
}

void *aligned_alloc(size_t alignment, size_t bytes) {
    return counted(__libc_memalign(alignment, bytes));
}

int posix_memalign(void **piece, size_t alignment, size_t bytes) {
    *piece = counted(__libc_memalign(alignment, bytes));
    return *piece == NULL ? 12 : 0;
}

void free(void *piece) {
    pieces -= piece != NULL;
    __libc_free(piece);
}

__attribute__((destructor)) static void told(void) {
    fprintf(stderr, "%ld\n", (long)most);
}
