/* Notes when a program makes calls of the system, without a tracer, under which each of them takes longer. It is loaded
 * before the C library (LD_PRELOAD). When the program ends, it writes lines to the file that CALLS names: a name, and
 * the nanoseconds of the monotonic clock at which the call began and ended. The first line, "loaded", is of the moment
 * at which the loader had done its work, and the last, "end", of the writing of this file. */
#define _GNU_SOURCE
#include <dlfcn.h>
#include <stdio.h>
#include <stdlib.h>
#include <time.h>

enum { MOST = 4096 };

static struct {
    const char *name;
    long begin, end;
} calls[MOST];
static int count;

static long now(void) {
    struct timespec it;
    clock_gettime(CLOCK_MONOTONIC, &it);
    return it.tv_sec * 1000000000L + it.tv_nsec;
}

static void note(const char *name, long begin, long end) {
    if (count < MOST) {
        calls[count].name = name;
        calls[count].begin = begin;
        calls[count].end = end;
        count++;
    }
}

typedef long call(long, long, long, long, long, long);

/* No call here takes more than six words, and none returns more than one, so each can be passed on as such. */
#define NOTED(NAME)                                                             \
    long noted_##NAME(long, long, long, long, long, long) __asm__(#NAME);       \
    long noted_##NAME(long a, long b, long c, long d, long e, long f) {         \
        static call *next;                                                      \
        if (next == NULL) next = (call *)dlsym(RTLD_NEXT, #NAME);               \
        long begin = now(), got = next(a, b, c, d, e, f);                       \
        note(#NAME, begin, now());                                              \
        return got;                                                             \
    }

NOTED(open) NOTED(close) NOTED(statx) NOTED(flock) NOTED(read) NOTED(pread) NOTED(write) NOTED(pwrite) NOTED(fsync)
NOTED(fdatasync) NOTED(link) NOTED(unlink) NOTED(socket) NOTED(connect) NOTED(setsockopt) NOTED(send) NOTED(recv)

__attribute__((constructor)) static void loaded(void) { note("loaded", now(), now()); }

void leave(int) __asm__("_exit");
void leave(int status) {
    void (*next)(int) = (void (*)(int))dlsym(RTLD_NEXT, "_exit");
    long begin = now();
    FILE *to = fopen(getenv("CALLS"), "w");
    if (to != NULL) {
        for (int i = 0; i < count; i++) {
            fprintf(to, "%s %ld %ld\n", calls[i].name, calls[i].begin, calls[i].end);
        }
        fflush(to);
        fprintf(to, "end %ld %ld\n", begin, now());
        fclose(to);
    }
    next(status);
    abort();
}
