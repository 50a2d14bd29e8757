/* What the programs of this folder share: those of threads.d, with processes in the place of threads. Include it before
   anything else, or have the compiler do so: a program of threads.d then runs each of its workers in a process. */
#ifndef PROCESSES_BENCH_H
#define PROCESSES_BENCH_H

#include "../threads.d/bench.h"

#include <errno.h>
#include <stdatomic.h>
#include <sys/mman.h>
#include <sys/wait.h>
#include <unistd.h>

/* Memory that a process shares with those that are forked from it; all of it is 0. */
static void *shared_memory(size_t size) {
    void *at = mmap(NULL, size, PROT_READ | PROT_WRITE, MAP_SHARED | MAP_ANONYMOUS, -1, 0);
    if (at == MAP_FAILED) {
        fail("no memory: %s", strerror(errno));
    }
    return at;
}

/* Has each process do its work, and answers the time from when all of them are let go to when the last one is over.
   What a process does before it calls `ready` does not count. */
struct gate {
    _Atomic uint64_t ready;
    _Atomic uint64_t began;
    _Atomic uint64_t ended;
};

static struct gate *gate;
static unsigned gate_count;

static void ready(void) {
    if (atomic_fetch_add(&gate->ready, 1) + 1 == gate_count) {
        atomic_store(&gate->began, nanoseconds());
    }
    while (atomic_load(&gate->began) == 0) {
    }
}

static void over(void) {
    uint64_t now = nanoseconds(), last = atomic_load(&gate->ended);
    while (now > last && !atomic_compare_exchange_weak(&gate->ended, &last, now)) {
    }
}

static uint64_t time_of_processes(const struct run *run, void (*prepare)(unsigned worker),
                                  void (*work)(unsigned worker)) {
    gate = shared_memory(sizeof *gate);
    gate_count = run->threads;
    for (unsigned worker = 0; worker < run->threads; worker++) {
        pid_t child = fork();
        if (child < 0) {
            fail("no process to be had");
        }
        if (child == 0) {
            if (prepare != NULL) {
                prepare(worker);
            }
            ready();
            work(worker);
            over();
            _exit(0);
        }
    }
    for (unsigned worker = 0; worker < run->threads; worker++) {
        int status = 1;
        if (wait(&status) < 0 || status != 0) {
            fail("a process failed");
        }
    }
    return atomic_load(&gate->ended) - atomic_load(&gate->began);
}

#define time_of(run, work) time_of_processes(run, NULL, work)

#endif
