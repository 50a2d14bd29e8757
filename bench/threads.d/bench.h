/* What tree.c, flock.c and robust.c share: the words that they are called with, threads that begin together, and the
   time that a run took. Include it before anything else. */
#ifndef BENCH_H
#define BENCH_H

#define _GNU_SOURCE
#include <pthread.h>
#include <stdarg.h>
#include <stdbool.h>
#include <stddef.h>
#include <stdint.h>
#include <stdio.h>
#include <stdlib.h>
#include <string.h>
#include <time.h>

enum { MOST_THREADS = 256, MOST_JOBS = 1000000000 };

/* One run: the number of threads, and of jobs of each; all on lock 0 or each on the lock of its own number. */
struct run {
    unsigned threads;
    unsigned jobs;
    bool own;
};

/* Ends the program with a text on the standard error and status 1. */
__attribute__((noreturn, format(printf, 1, 2))) static void fail(const char *format, ...) {
    va_list words;
    va_start(words, format);
    vfprintf(stderr, format, words);
    va_end(words);
    fputc('\n', stderr);
    exit(1);
}

/* A number from 1 to a most one, or 0 if the text is not such a number. */
static unsigned number_of(const char *text, unsigned most) {
    char *end = NULL;
    unsigned long number = strtoul(text, &end, 10);
    return text[0] >= '0' && text[0] <= '9' && *end == '\0' && number <= most ? (unsigned)number : 0;
}

static struct run run_of(int count, char **words) {
    struct run run = {0, 0, false};
    if (count == 4) {
        run.threads = number_of(words[1], MOST_THREADS);
        run.jobs = number_of(words[2], MOST_JOBS);
        run.own = strcmp(words[3], "own") == 0;
    }
    if (run.threads == 0 || run.jobs == 0 || (!run.own && strcmp(words[3], "one") != 0)) {
        fprintf(stderr, "usage: %s THREADS JOBS one|own\n", words[0]);
        exit(2);
    }
    return run;
}

static unsigned locks_of(const struct run *run) {
    return run->own ? run->threads : 1;
}

static unsigned lock_of(const struct run *run, unsigned worker) {
    return run->own ? worker : 0;
}

/* How many jobs each lock has had when the run is over. */
static uint64_t jobs_of_lock(const struct run *run) {
    return run->own ? run->jobs : (uint64_t)run->threads * run->jobs;
}

static uint64_t nanoseconds(void) {
    struct timespec now;
    clock_gettime(CLOCK_MONOTONIC, &now);
    return (uint64_t)now.tv_sec * 1000000000 + (uint64_t)now.tv_nsec;
}

struct thread {
    pthread_t id;
    pthread_barrier_t *gate;
    void (*work)(unsigned worker);
    unsigned worker;
    uint64_t began;
};

static void *begin(void *word) {
    struct thread *self = word;
    pthread_barrier_wait(self->gate);
    self->began = nanoseconds();
    self->work(self->worker);
    return NULL;
}

/* Has each thread do its work, and answers the time from the release of the barrier before which all of them waited
   to the last join. The release is when the first of them goes on: another that watches it might be woken late. */
static uint64_t time_of(const struct run *run, void (*work)(unsigned worker)) {
    static struct thread threads[MOST_THREADS];
    pthread_barrier_t gate;
    pthread_barrier_init(&gate, NULL, run->threads);
    for (unsigned worker = 0; worker < run->threads; worker++) {
        threads[worker] = (struct thread){.gate = &gate, .work = work, .worker = worker};
        if (pthread_create(&threads[worker].id, NULL, begin, &threads[worker]) != 0) {
            fail("no thread to be had");
        }
    }
    uint64_t began = UINT64_MAX;
    for (unsigned worker = 0; worker < run->threads; worker++) {
        pthread_join(threads[worker].id, NULL);
        began = threads[worker].began < began ? threads[worker].began : began;
    }
    uint64_t ended = nanoseconds();
    pthread_barrier_destroy(&gate);
    return ended - began;
}

/* Prints the nanoseconds a job, of all jobs of all threads. */
static void print_time(const struct run *run, uint64_t time) {
    printf("%llu\n", (unsigned long long)(time / ((uint64_t)run->threads * run->jobs)));
}

#endif
