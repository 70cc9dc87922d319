/* How long `sign` takes, and how long it takes at least:
 *
 *     session run SAID WORD..                 runs a program, puts what it says into SAID, and prints its microseconds
 *     session alone FOLDER NANOSECONDS        prints the microseconds that a new message needs with `sign`
 *     session alone FOLDER NANOSECONDS COUNT  prints how many a second that allows `aggregate` with one worker
 *
 * A shell forks itself for a program, which can take as long as the program; run starts it without copying anything.
 *
 * alone makes the syncs and round trips of a session, spends the time of its hashes, and does nothing else, for a message
 * of 1 KiB and LM-OTS typecode 3, if a block of SHA-256 takes NANOSECONDS. Three trustees are processes of their own
 * behind loopback sockets. The aggregator asks one after the other, first for the masks of the randomizer and then for
 * those of the chains. A trustee writes and syncs the body of a slot and then its first byte before it replies, and so
 * does the aggregator for a slot of its table before it asks. `sign` syncs the table as it loads it, and puts the
 * signature into a new file. Nothing is decided, parsed or joined. The files are made in FOLDER. */
#define _GNU_SOURCE
#include <fcntl.h>
#include <netinet/in.h>
#include <netinet/tcp.h>
#include <spawn.h>
#include <stdio.h>
#include <stdlib.h>
#include <string.h>
#include <sys/socket.h>
#include <sys/wait.h>
#include <time.h>
#include <unistd.h>

enum { TRUSTEES = 3, CHAINS = 67, MESSAGE = 1024, SIGNATURE = 2508 };
/* A file of slots: its header, a slot, and the part of a slot that is written first. */
enum { HEADER = 128, SLOT = 160, BODY = 36 };
/* Bytes of asks and replies. */
enum { FIRST_ASK = 64, FIRST_REPLY = 97, SECOND_ASK = 92 + MESSAGE, SECOND_REPLY = 2241 };
/* Blocks of SHA-256: a message, hashed for its id and for its digest; a mask; a typical verification. */
enum { TWICE_MESSAGE = 2 * (MESSAGE / 64 + 1), MASK = 2, VERIFICATION = 602 };

static double block;

static double now(void) {
    struct timespec at;
    clock_gettime(CLOCK_MONOTONIC, &at);
    return (double)at.tv_sec + (double)at.tv_nsec / 1e9;
}

static void need(int is_well) {
    if (!is_well) {
        perror("session");
        exit(1);
    }
}

static void hash(int blocks) {
    for (double end = now() + blocks * block; now() < end;) {
    }
}

static void send_all(int link, const char *bytes, ssize_t length) {
    need(send(link, bytes, (size_t)length, MSG_NOSIGNAL) == length);
}

/* Receives this many bytes, and returns 0 if the other side has hung up. */
static int receive(int link, char *bytes, size_t length) {
    for (ssize_t got; length > 0; bytes += got, length -= (size_t)got) {
        got = recv(link, bytes, length, 0);
        need(got >= 0);
        if (got == 0) {
            return 0;
        }
    }
    return 1;
}

static int slots(const char *folder, int number) {
    char name[4096], bytes[HEADER + SLOT * 1024] = {0};
    snprintf(name, sizeof name, "%s/slots%d", folder, number);
    int file = open(name, O_RDWR | O_CREAT | O_TRUNC, 0600);
    need(file >= 0 && write(file, bytes, sizeof bytes) == sizeof bytes && fsync(file) == 0);
    return file;
}

/* Writes a slot as a journal and a table do: its body is stable before its first byte is written. */
static void put(int file, long slot, char kind) {
    char body[BODY];
    memset(body, kind, BODY);
    off_t at = HEADER + SLOT * slot;
    need(pwrite(file, body, BODY, at + 4) == BODY && fdatasync(file) == 0);
    need(pwrite(file, &kind, 1, at) == 1 && fdatasync(file) == 0);
}

static void serve(int link, int journal) {
    char bytes[SECOND_REPLY + SECOND_ASK] = {0};
    for (long leaf = 0; receive(link, bytes, FIRST_ASK); leaf++) {
        put(journal, leaf, 1);
        hash(MASK);
        send_all(link, bytes, FIRST_REPLY);
        need(receive(link, bytes, SECOND_ASK));
        hash(TWICE_MESSAGE);
        put(journal, leaf, 2);
        hash(CHAINS * MASK);
        send_all(link, bytes, SECOND_REPLY);
    }
}

/* Starts a trustee, and returns a link to it. */
static int start(const char *folder, int number) {
    struct sockaddr_in at = {.sin_family = AF_INET, .sin_addr.s_addr = htonl(INADDR_LOOPBACK)};
    socklen_t length = sizeof at;
    int on = 1, port = socket(AF_INET, SOCK_STREAM, 0), link = socket(AF_INET, SOCK_STREAM, 0);
    need(port >= 0 && link >= 0 && bind(port, (struct sockaddr *)&at, length) == 0 && listen(port, 1) == 0);
    need(getsockname(port, (struct sockaddr *)&at, &length) == 0);
    need(connect(link, (struct sockaddr *)&at, length) == 0);
    int other = accept(port, NULL, NULL);
    need(other >= 0 && close(port) == 0);
    need(setsockopt(link, IPPROTO_TCP, TCP_NODELAY, &on, sizeof on) == 0);
    need(setsockopt(other, IPPROTO_TCP, TCP_NODELAY, &on, sizeof on) == 0);
    pid_t made = fork();
    need(made >= 0);
    if (made == 0) {
        close(link);
        serve(other, slots(folder, number));
        exit(0);
    }
    close(other);
    return link;
}

static void sign(const int *links, int table, long leaf) {
    char bytes[SECOND_REPLY + SECOND_ASK] = {0};
    hash(TWICE_MESSAGE);
    put(table, leaf, 1);
    for (int i = 0; i < TRUSTEES; i++) {
        send_all(links[i], bytes, FIRST_ASK);
        need(receive(links[i], bytes, FIRST_REPLY));
    }
    for (int i = 0; i < TRUSTEES; i++) {
        send_all(links[i], bytes, SECOND_ASK);
        need(receive(links[i], bytes, SECOND_REPLY));
    }
    hash(VERIFICATION);
}

/* Puts a signature into a new file, which gets its name only once it is stable. */
static void put_new(const char *folder) {
    char part[4096], whole[4096], bytes[SIGNATURE] = {0};
    snprintf(part, sizeof part, "%s/part", folder);
    snprintf(whole, sizeof whole, "%s/whole", folder);
    int in = open(folder, O_RDONLY | O_DIRECTORY), file = open(part, O_WRONLY | O_CREAT | O_EXCL, 0644);
    need(in >= 0 && file >= 0 && write(file, bytes, SIGNATURE) == SIGNATURE && fsync(file) == 0);
    need(link(part, whole) == 0 && unlink(part) == 0 && fsync(in) == 0);
    close(file);
    close(in);
}

/* Runs a program, and returns its status. What it says waits in a pipe meanwhile, since a file would cost time. */
static int run(const char *said, char **words) {
    posix_spawn_file_actions_t actions;
    char bytes[4096];
    pid_t made;
    int ends[2], status, file = open(said, O_WRONLY | O_CREAT | O_TRUNC, 0600);
    need(file >= 0 && pipe2(ends, O_CLOEXEC) == 0);
    posix_spawn_file_actions_init(&actions);
    posix_spawn_file_actions_adddup2(&actions, ends[1], 1);
    double begin = now();
    need(posix_spawn(&made, words[0], &actions, NULL, words, environ) == 0 && waitpid(made, &status, 0) == made);
    printf("%.0f\n", (now() - begin) * 1e6);
    close(ends[1]);
    ssize_t length = read(ends[0], bytes, sizeof bytes);
    need(length >= 0 && write(file, bytes, (size_t)length) == length);
    return WIFEXITED(status) ? WEXITSTATUS(status) : 1;
}

static int alone(int count, char **words) {
    const struct timespec pause = {.tv_nsec = 20 * 1000 * 1000};
    int links[TRUSTEES];
    long messages = count == 3 ? atol(words[2]) : 1;
    need(messages > 0 && messages <= 1024);
    block = atof(words[1]) / 1e9;
    for (int i = 0; i < TRUSTEES; i++) {
        links[i] = start(words[0], i);
    }
    int table = slots(words[0], TRUSTEES);
    nanosleep(&pause, NULL);
    double begin = now();
    if (count == 2) {
        need(fdatasync(table) == 0);
    }
    for (long leaf = 0; leaf < messages; leaf++) {
        sign(links, table, leaf);
    }
    if (count == 2) {
        put_new(words[0]);
    }
    double took = now() - begin;
    /* a trustee holds the links of those that were started before it, so all are closed before any is waited for */
    for (int i = 0; i < TRUSTEES; i++) {
        close(links[i]);
    }
    while (wait(NULL) > 0) {
    }
    printf("%.0f\n", count == 2 ? took * 1e6 : (double)messages / took);
    return 0;
}

int main(int count, char **words) {
    if (count > 3 && strcmp(words[1], "run") == 0) {
        return run(words[2], words + 3);
    }
    if ((count == 4 || count == 5) && strcmp(words[1], "alone") == 0) {
        return alone(count - 2, words + 2);
    }
    fputs("session: run SAID WORD.., or alone FOLDER NANOSECONDS, or alone FOLDER NANOSECONDS COUNT\n", stderr);
    return 2;
}
