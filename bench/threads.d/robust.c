/* The same jobs with robust mutexes that processes share, as programs do that keep their state in shared memory.

   Each lock is a mutex of the C library, a cell and a redo record, and each worker has a receipt, all in memory that
   was mapped to be shared. A job takes the mutex, writes down what it will leave, makes the turn odd, stores its
   receipt and the cell, makes the turn even, and gives the mutex back. The system marks the mutex of a holder that
   dies; the next owner does again what the redo record says if the turn is odd, so that the job counts once,
   and makes the mutex consistent.

   It is a fair comparison since a job counts once in spite of a crash of its holder. Each lock and each receipt has
   cache lines of its own, as one would write it. It does less than the service: a job that waits is not written down,
   a holder that dies does not keep its lock, and nothing is kept of finished jobs but each worker's last receipt. The
   words are stored in order, so that a crash leaves a front of the stores; on x86 that costs nothing. */
#include "bench.h"

#include <errno.h>
#include <stdatomic.h>
#include <sys/mman.h>

typedef _Atomic uint64_t word;

/* The turn is 2p where p jobs are over, and 2p+1 if the redo record of the next is whole. */
struct lock {
    _Alignas(64) pthread_mutex_t mutex;
    word turn;
    word cell;
    word worker;
    word number;
    word value;
};

struct receipt {
    _Alignas(64) word number;
    word place;
    word reply;
    word lock;
};

struct shared {
    struct lock locks[MOST_THREADS];
    struct receipt receipts[MOST_THREADS];
};

static struct run run;
static struct shared *shared;

/* No store comes before one that was made earlier. */
static void store(word *at, uint64_t value) {
    atomic_store_explicit(at, value, memory_order_release);
}

static uint64_t load(word *at) {
    return atomic_load_explicit(at, memory_order_relaxed);
}

/* Does what the redo record says. */
static void finish(struct lock *lock, uint64_t turn) {
    struct receipt *receipt = &shared->receipts[load(&lock->worker)];
    uint64_t value = load(&lock->value);
    store(&receipt->reply, value);
    store(&receipt->place, turn / 2);
    store(&receipt->lock, (uint64_t)(lock - shared->locks));
    store(&receipt->number, load(&lock->number));
    store(&lock->cell, value);
    store(&lock->turn, turn + 1);
}

static void take(struct lock *lock) {
    int error = pthread_mutex_lock(&lock->mutex);
    if (error == EOWNERDEAD) {
        if (load(&lock->turn) % 2 == 1) {
            finish(lock, load(&lock->turn));
        }
        error = pthread_mutex_consistent(&lock->mutex);
    }
    if (error != 0) {
        fail("the mutex: %s", strerror(error));
    }
}

static void make_job(struct lock *lock, uint64_t worker, uint64_t number) {
    take(lock);
    uint64_t turn = load(&lock->turn);
    store(&lock->worker, worker);
    store(&lock->number, number);
    store(&lock->value, load(&lock->cell) + 1);
    store(&lock->turn, turn + 1);
    finish(lock, turn + 1);
    pthread_mutex_unlock(&lock->mutex);
}

static void work(unsigned worker) {
    struct lock *lock = &shared->locks[lock_of(&run, worker)];
    for (unsigned job = 1; job <= run.jobs; job++) {
        make_job(lock, worker, job);
    }
}

/* What must be so when all jobs are over: each counts once. */
static void check(void) {
    for (unsigned worker = 0; worker < run.threads; worker++) {
        if (load(&shared->receipts[worker].number) != run.jobs) {
            fail("worker %u has not done its jobs", worker);
        }
    }
    for (unsigned number = 0; number < locks_of(&run); number++) {
        struct lock *lock = &shared->locks[number];
        if (load(&lock->cell) != jobs_of_lock(&run) || load(&lock->turn) != 2 * jobs_of_lock(&run)) {
            fail("the cell of lock %u is not the number of its jobs", number);
        }
    }
}

int main(int count, char **arguments) {
    run = run_of(count, arguments);
    shared = mmap(NULL, sizeof *shared, PROT_READ | PROT_WRITE, MAP_SHARED | MAP_ANONYMOUS, -1, 0);
    if (shared == MAP_FAILED) {
        fail("no shared memory: %s", strerror(errno));
    }
    pthread_mutexattr_t kind;
    pthread_mutexattr_init(&kind);
    pthread_mutexattr_setpshared(&kind, PTHREAD_PROCESS_SHARED);
    pthread_mutexattr_setrobust(&kind, PTHREAD_MUTEX_ROBUST);
    for (unsigned lock = 0; lock < locks_of(&run); lock++) {
        if (pthread_mutex_init(&shared->locks[lock].mutex, &kind) != 0) {
            fail("no robust mutex to be had");
        }
    }
    uint64_t time = time_of(&run, work);
    check();
    print_time(&run, time);
    return 0;
}
