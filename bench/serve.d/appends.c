/* appends FOLDER THREADS BYTES MILLISECONDS: prints the appends a second of threads that each append to a log of their
 * own, again and again, and wait until the disk has it. Zeros stand behind each log, so that the file does not grow at each
 * append. No server that syncs each of so many files answers more. */
#define _XOPEN_SOURCE 700
#include <fcntl.h>
#include <pthread.h>
#include <stdatomic.h>
#include <stdbool.h>
#include <stdio.h>
#include <stdlib.h>
#include <string.h>
#include <time.h>
#include <unistd.h>

enum { MOST_THREADS = 64, ROOM = 4096, AHEAD = 1 << 20 };

/* Ends the program with a text on the standard error and status 1. */
__attribute__((noreturn)) static void fail(const char *what) {
    perror(what);
    exit(1);
}

static const char *folder;
static size_t length;
static atomic_bool is_over;

/* What one thread does: its file, and how often it appended. */
struct thread {
    pthread_t thread;
    unsigned number;
    unsigned long appends;
};

static void *append(void *about) {
    struct thread *own = about;
    static const char zeros[AHEAD];
    char path[ROOM], text[ROOM];
    off_t at = 0, end = 0;
    snprintf(path, sizeof path, "%s/appends-%u", folder, own->number);
    int file = open(path, O_CREAT | O_TRUNC | O_WRONLY, 0600);
    if (file < 0) {
        fail(path);
    }
    memset(text, 'x', sizeof text);
    while (!is_over) {
        if (pwrite(file, text, length, at) != (ssize_t)length) {
            fail(path);
        }
        at += (off_t)length;
        if (at > end) {
            if (pwrite(file, zeros, AHEAD, at) != AHEAD) {
                fail(path);
            }
            end = at + AHEAD;
        }
        if (fdatasync(file) != 0) {
            fail(path);
        }
        ++own->appends;
    }
    close(file);
    unlink(path);
    return NULL;
}

int main(int count, char **words) {
    static struct thread threads[MOST_THREADS];
    if (count != 5) {
        fputs("appends FOLDER THREADS BYTES MILLISECONDS\n", stderr);
        return 2;
    }
    folder = words[1];
    unsigned most = (unsigned)atoi(words[2]);
    length = (size_t)atoi(words[3]);
    unsigned milliseconds = (unsigned)atoi(words[4]);
    if (most > MOST_THREADS || length > ROOM || milliseconds == 0) {
        fputs("appends: at most 64 threads and 4096 bytes, and some time\n", stderr);
        return 2;
    }
    for (unsigned at = 0; at < most; ++at) {
        threads[at].number = at;
        if (pthread_create(&threads[at].thread, NULL, append, &threads[at]) != 0) {
            fail("a thread");
        }
    }
    struct timespec pause = {milliseconds / 1000, milliseconds % 1000 * 1000000};
    nanosleep(&pause, NULL);
    is_over = true;
    unsigned long appends = 0;
    for (unsigned at = 0; at < most; ++at) {
        pthread_join(threads[at].thread, NULL);
        appends += threads[at].appends;
    }
    printf("%.0f\n", 1000.0 * (double)appends / milliseconds);
    return 0;
}
