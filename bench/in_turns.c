/* Makes a journal's calls for new asks, and prints how many asks a second that allows: in_turns FILE THREADS.
 *
 * The file is the one that `enrol` makes for a key of 1,024 leaves. For an ask, the body of a slot is written and
 * synced, then its first byte is written and synced. The threads take turns, an ask each, as the workers of a trustee
 * do if all of them have asks; a thread sleeps until its turn. Nothing is decided, hashed, read or sent. */
#include <fcntl.h>
#include <pthread.h>
#include <semaphore.h>
#include <stdio.h>
#include <stdlib.h>
#include <string.h>
#include <time.h>
#include <unistd.h>

enum { ASKS = 576, THREADS = 64, HEADER = 128, SLOT = 160, BODY = 36 };

static int file;
static long threads;
static sem_t turns[THREADS];

static int put(const char *bytes, size_t length, off_t at) {
    return pwrite(file, bytes, length, at) == (ssize_t)length && fdatasync(file) == 0;
}

static void *work(void *first) {
    char body[BODY];
    for (long ask = (long)first; ask < ASKS; ask += threads) {
        memset(body, (int)ask, BODY);
        sem_wait(&turns[ask % threads]);
        if (!put(body, BODY, HEADER + SLOT * ask + 4) || !put("\261", 1, HEADER + SLOT * ask)) {
            perror("in_turns");
            exit(1);
        }
        sem_post(&turns[(ask + 1) % threads]);
    }
    return NULL;
}

static double now(void) {
    struct timespec at;
    clock_gettime(CLOCK_MONOTONIC, &at);
    return (double)at.tv_sec + (double)at.tv_nsec / 1e9;
}

int main(int count, char **words) {
    pthread_t made[THREADS];
    threads = count == 3 ? atol(words[2]) : 0;
    if (threads < 1 || threads > THREADS || (file = open(words[1], O_RDWR)) < 0) {
        fputs("in_turns: FILE, and 1 to 64 threads\n", stderr);
        return 2;
    }
    for (long i = 0; i < threads; i++) {
        sem_init(&turns[i], 0, i == 0);
    }
    double begin = now();
    for (long i = 0; i < threads; i++) {
        if (pthread_create(&made[i], NULL, work, (void *)i)) {
            return 1;
        }
    }
    for (long i = 0; i < threads; i++) {
        pthread_join(made[i], NULL);
    }
    printf("%.0f\n", ASKS / (now() - begin));
    return 0;
}
