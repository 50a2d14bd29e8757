/* storm PATH WORKERS JOBS KILLS SEED: processes that are killed, and started again.

   Each worker is a process that makes JOBS jobs, in turn on each of two locks: cell 0 gets 1 more, cell 1 gets 1 less,
   and cell 0 is copied to cell 2. The parent kills them by SIGKILL at random moments, KILLS times in all and evenly
   over the run, and starts them again with the same number, some of them again and again while they recover; at the
   end all jobs are made. A worker that is inside looks with a compare-and-swap of a word of their own whether another
   is. It notes each receipt; where it was killed before that, the next process of its number finds it by rme_last. At
   the end each number of each worker has a receipt of its lock, each place of a lock is there once, each reply is one
   more than its place, and the cells are what so many jobs leave. */
#include "check.h"

#include <errno.h>
#include <sched.h>
#include <signal.h>
#include <sys/mman.h>
#include <sys/wait.h>
#include <time.h>

enum { LOCKS = 2, CELLS = 3, NOBODY = 0, INTRUDED = 3, REFUSED = 4, WRONG = 5 };

struct note {
    _Atomic uint64_t place; /* one more than it, and 0 before it is noted */
    _Atomic uint64_t reply;
};

struct shared {
    _Atomic uint64_t inside[LOCKS]; /* the worker's number and 1, or NOBODY */
    _Atomic uint64_t re_entries;    /* of workers that were killed inside */
    _Atomic uint64_t done;          /* receipts that were noted */
    _Atomic int failed;
    struct note notes[];
};

static const char *path;
static uint32_t workers, jobs;
static struct shared *shared;

static void quit(uint32_t worker, int status, const char *call, int error) {
    if (atomic_exchange(&shared->failed, 1) == 0) {
        printf("FAIL worker %u: %s: %d, %s %s\n", worker, call, error, rme_error_text(error), rme_why());
        fflush(stdout);
    }
    _exit(status);
}

static void need(uint32_t worker, const char *call, int error) {
    if (error != 0) {
        quit(worker, REFUSED, call, error);
    }
}

static uint32_t lock_of(uint32_t worker, uint64_t number) {
    return (uint32_t)(worker + number) % LOCKS;
}

static void take_down(uint32_t worker, const struct rme_receipt *receipt) {
    if (receipt->worker != worker || receipt->number == 0 || receipt->number > jobs ||
        receipt->lock != lock_of(worker, receipt->number)) {
        quit(worker, WRONG, "a receipt", 0);
    }
    struct note *note = &shared->notes[(size_t)worker * jobs + receipt->number - 1];
    uint64_t known = atomic_load(&note->place);
    if (known != 0 && (known != receipt->place + 1 || atomic_load(&note->reply) != receipt->reply)) {
        quit(worker, WRONG, "a receipt that is another one now", 0);
    }
    /* Counted before it is noted: one that is killed between is counted again, and the parent never waits for more. */
    atomic_fetch_add(&shared->done, known == 0);
    atomic_store(&note->reply, receipt->reply);
    atomic_store(&note->place, receipt->place + 1);
}

/* Inside: nobody else is, but for what this worker left when it was killed here. */
static void look_around(uint32_t worker, uint32_t lock, unsigned turns) {
    _Atomic uint64_t *inside = &shared->inside[lock];
    uint64_t found = NOBODY;
    if (!atomic_compare_exchange_strong(inside, &found, worker + 1)) {
        if (found != worker + 1) {
            quit(worker, INTRUDED, "another one is inside", 0);
        }
        atomic_fetch_add(&shared->re_entries, 1);
    }
    for (volatile unsigned turn = 0; turn < turns; turn++) {
    }
    if (turns % 8 == 0) {
        sched_yield();
    }
    if (atomic_load(inside) != worker + 1) {
        quit(worker, INTRUDED, "another one came inside", 0);
    }
    atomic_store(inside, NOBODY);
}

static void work(uint32_t worker, unsigned seed) {
    const struct rme_operation job[] = {{RME_ADD, 0, 1}, {RME_ADD, 1, UINT64_MAX}, {RME_COPY, 0, 2}};
    struct rme_handle *handle;
    struct rme_stance stance;
    struct rme_receipt receipt;
    int there = 0;
    need(worker, "attach", rme_attach(path, worker, &handle));
    need(worker, "recover", rme_recover(handle, &stance));
    if (stance.where == RME_READY) {
        need(worker, "last", rme_last(handle, &receipt, &there));
        if (there) {
            take_down(worker, &receipt);
        }
    }
    while (stance.where != RME_READY || stance.number < jobs) {
        if (stance.where == RME_READY) {
            stance.lock = lock_of(worker, stance.number + 1);
            need(worker, "submit", rme_submit(handle, stance.lock, job, 3, &stance.number));
        }
        need(worker, "enter", rme_enter(handle, RME_FOREVER));
        look_around(worker, stance.lock, (unsigned)rand_r(&seed) % 2000);
        need(worker, "commit", rme_commit(handle, &receipt));
        take_down(worker, &receipt);
        stance.where = RME_READY;
    }
    need(worker, "detach", rme_detach(handle));
    _exit(0);
}

static pid_t start(uint32_t worker, unsigned seed) {
    pid_t child = fork();
    if (child < 0) {
        give_up("FAIL fork: %s", strerror(errno));
    }
    if (child == 0) {
        work(worker, seed);
    }
    return child;
}

static void pause_for(long nanoseconds) {
    nanosleep(&(struct timespec){.tv_nsec = nanoseconds}, NULL);
}

/* Kills a worker and starts it again; answers whether it was not over yet. */
static unsigned strike(pid_t *child, uint32_t worker, unsigned seed) {
    int status = 0;
    if (kill(*child, SIGKILL) != 0 || waitpid(*child, &status, 0) != *child) {
        give_up("FAIL kill: %s", strerror(errno));
    }
    *child = start(worker, seed);
    return WIFSIGNALED(status);
}

/* Kills workers at random moments, until all kills are made or all jobs are. */
static unsigned storm(pid_t *children, unsigned kills, unsigned seed) {
    unsigned made = 0;
    uint64_t all = (uint64_t)workers * jobs;
    while (made < kills && atomic_load(&shared->done) < all && !atomic_load(&shared->failed)) {
        uint32_t worker = (uint32_t)rand_r(&seed) % workers;
        unsigned again = (unsigned)rand_r(&seed) % 4;
        pause_for(rand_r(&seed) % 400000);
        /* Not too many before their time, so that most of them hit workers in the midst of a job. */
        while (atomic_load(&shared->done) < all * made / (kills + 1) && !atomic_load(&shared->failed)) {
            pause_for(50000);
        }
        made += strike(&children[worker], worker, (unsigned)rand_r(&seed));
        for (unsigned time = 0; again == 0 && time < 3; time++) {
            pause_for(rand_r(&seed) % 200000);
            made += strike(&children[worker], worker, (unsigned)rand_r(&seed));
        }
    }
    return made;
}

/* What must be so at the end. */
static void verify_lock(struct rme_handle *handle, uint32_t lock, const unsigned char *seen, uint64_t all) {
    uint64_t cells[CELLS] = {0}, made = 0;
    int settled = 0;
    while (made < all && seen[made]) {
        made++;
    }
    for (uint64_t place = made; place < all; place++) {
        check(!seen[place], "lock %u: place %llu is left out", lock, (unsigned long long)made);
    }
    must("cells", rme_cells(handle, lock, cells, &settled));
    check(settled && cells[0] == made && cells[1] == 0 - made && cells[2] == made,
          "lock %u: %llu jobs, cells %llu %llu %llu", lock, (unsigned long long)made, (unsigned long long)cells[0],
          (unsigned long long)cells[1], (unsigned long long)cells[2]);
}

static void verify(void) {
    uint64_t all = (uint64_t)workers * jobs;
    unsigned char *seen = calloc(LOCKS * all, 1);
    struct rme_handle *handle;
    for (uint64_t at = 0; at < all && seen != NULL; at++) {
        uint64_t place = atomic_load(&shared->notes[at].place), reply = atomic_load(&shared->notes[at].reply);
        unsigned char *places = seen + lock_of((uint32_t)(at / jobs), at % jobs + 1) * all;
        if (!check(place != 0 && place <= all && places[place - 1] == 0 && reply == place,
                   "the receipt of job %llu: place %lld, reply %llu", (unsigned long long)at, (long long)place - 1,
                   (unsigned long long)reply)) {
            break;
        }
        places[place - 1] = 1;
    }
    must("observe", rme_observe(path, &handle));
    for (uint32_t lock = 0; lock < LOCKS && seen != NULL; lock++) {
        verify_lock(handle, lock, seen + lock * all, all);
    }
    must("detach", rme_detach(handle));
    free(seen);
}

int main(int count, char **words) {
    if (count != 6) {
        return 2;
    }
    path = words[1];
    workers = (uint32_t)atoi(words[2]);
    jobs = (uint32_t)atoi(words[3]);
    unsigned kills = (unsigned)atoi(words[4]), seed = (unsigned)atoi(words[5]), crashed = 0;
    pid_t children[RME_MOST_WORKERS];
    size_t size = sizeof *shared + (size_t)workers * jobs * sizeof(struct note);
    shared = mmap(NULL, size, PROT_READ | PROT_WRITE, MAP_SHARED | MAP_ANONYMOUS, -1, 0);
    if (shared == MAP_FAILED) {
        give_up("FAIL mmap: %s", strerror(errno));
    }
    setvbuf(stdout, NULL, _IOLBF, 0);
    must("create", rme_create(path, workers, LOCKS, CELLS, jobs, all_names));
    for (uint32_t worker = 0; worker < workers; worker++) {
        children[worker] = start(worker, seed + worker);
    }
    crashed = storm(children, kills, seed);
    for (uint32_t worker = 0; worker < workers; worker++) {
        int status = 0;
        if (atomic_load(&shared->failed)) {
            kill(children[worker], SIGKILL);
        }
        waitpid(children[worker], &status, 0);
        check(WIFEXITED(status) && WEXITSTATUS(status) == 0, "worker %u ended with %x", worker, (unsigned)status);
    }
    verify();
    printf("%u kills, %llu re-entries of one that was killed inside, %llu jobs\n", crashed,
           (unsigned long long)atomic_load(&shared->re_entries), (unsigned long long)workers * jobs);
    return ends();
}
