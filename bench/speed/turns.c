// What a server of connections does between two waits for them: its processor time, and how long its syncs take.
// Loaded by LD_PRELOAD; the file that TURNS names has the longest of each, in nanoseconds, and is begun anew by zeros.
#define _GNU_SOURCE
#include <dlfcn.h>
#include <fcntl.h>
#include <stdint.h>
#include <stdlib.h>
#include <sys/epoll.h>
#include <sys/mman.h>
#include <time.h>
#include <unistd.h>

#define PLACES 256

// The longest turns, and then the longest syncs.
static uint64_t (*seen)[PLACES];
static uint64_t turn;

static uint64_t nanoseconds(clockid_t clock) {
    struct timespec time;
    clock_gettime(clock, &time);
    return time.tv_sec * 1000000000ull + time.tv_nsec;
}

// Keeps it in place of the least one, if it is longer.
static void note(int list, uint64_t took) {
    if (!seen) return;
    int least = 0;
    for (int place = 1; place < PLACES; place++)
        if (seen[list][place] < seen[list][least]) least = place;
    if (took > seen[list][least]) seen[list][least] = took;
}

__attribute__((constructor)) static void begin(void) {
    int file = open(getenv("TURNS"), O_RDWR);
    void *at = mmap(0, 2 * sizeof *seen, PROT_READ | PROT_WRITE, MAP_SHARED, file, 0);
    close(file);
    if (at != MAP_FAILED) seen = at;
}

int epoll_wait(int poll, struct epoll_event *events, int count, int longest) {
    static int (*next)(int, struct epoll_event *, int, int);
    if (!next) next = dlsym(RTLD_NEXT, "epoll_wait");
    if (turn) note(0, nanoseconds(CLOCK_PROCESS_CPUTIME_ID) - turn);
    int found = next(poll, events, count, longest);
    turn = nanoseconds(CLOCK_PROCESS_CPUTIME_ID);
    return found;
}

static int timed(const char *name, int (**next)(int), int file) {
    if (!*next) *next = dlsym(RTLD_NEXT, name);
    uint64_t since = nanoseconds(CLOCK_MONOTONIC);
    int outcome = (*next)(file);
    note(1, nanoseconds(CLOCK_MONOTONIC) - since);
    return outcome;
}

int fsync(int file) {
    static int (*next)(int);
    return timed("fsync", &next, file);
}

int fdatasync(int file) {
    static int (*next)(int);
    return timed("fdatasync", &next, file);
}
