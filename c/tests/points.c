/* points FOLDER WORKERS STRIDE: a kill before each own step of a job, and before each of its recovery, or of those
   every STRIDE-th.

   The steps of a batch are handed to rme.c one by one here, by a function around rme_core_next that counts them and
   kills the process before the one of a given number; the linker's --wrap puts it there, so that rme.c is the shipped
   one. The worker is the last one, on lock 1 of 2, with 2 cells and a job of three operations. After each kill: who
   owns the lock stays the owner, and another worker is blocked then; the number's next process is where the words
   say, finishes the job, and it counts once; or gives it up where it waits. Then the same for a second kill, before
   each own step of that next process. Each process is one life of the worker, also where it is killed before its first
   step. */
#include "check.h"
#include "steps.h"

#include <errno.h>
#include <signal.h>
#include <sys/wait.h>

enum { LOCK = 1, BEFORE = 7 };

static char path[4096];
static uint32_t workers, worker;
static uint64_t lives; /* of the worker's processes so far */
static const struct rme_operation job[] = {{RME_ADD, 0, 5}, {RME_COPY, 0, 1}, {RME_ADD, 0, 1}};

static struct rme_handle *attached(uint32_t number, struct rme_stance *stance) {
    struct rme_handle *handle;
    must("attach", rme_attach(path, number, &handle));
    must("recover", rme_recover(handle, stance));
    return handle;
}

/* One process of the worker: its job from wherever it is, to its end. */
static void work(int gives_up) {
    struct rme_handle *handle;
    struct rme_stance stance;
    int error = rme_attach(path, worker, &handle);
    error = error == 0 ? rme_recover(handle, &stance) : error;
    if (error == 0 && stance.where == RME_READY && stance.number == 1) {
        error = rme_submit(handle, LOCK, job, 3, NULL);
        stance.where = RME_WAITING;
    }
    if (error == 0 && stance.where == RME_WAITING && gives_up) {
        _exit(rme_withdraw(handle, NULL));
    }
    error = error == 0 && stance.where == RME_WAITING ? rme_enter(handle, 0) : error;
    _exit(error == 0 && stance.where != RME_READY ? rme_commit(handle, NULL) : error);
}

/* Runs a process of the worker, which is killed before its step of this number, from 1. Answers 1; or 0 where it ended
   before. */
static int run_to(unsigned point, int gives_up) {
    int status = 0;
    lives++;
    pid_t child = fork();
    if (child == 0) {
        steps = 0;
        last_step = point;
        work(gives_up);
    }
    if (child < 0 || waitpid(child, &status, 0) != child) {
        give_up("FAIL fork: %s", strerror(errno));
    }
    if (!WIFSIGNALED(status)) {
        check(WIFEXITED(status) && WEXITSTATUS(status) == 0, "the worker ended with %x", (unsigned)status);
    }
    return WIFSIGNALED(status);
}

/* A file in which the worker made a job already, so that it has a receipt, and the cells are (7, 0). */
static void open_file(void) {
    const struct rme_operation first[] = {{RME_SET, 0, BEFORE}};
    struct rme_stance stance;
    unlink(path);
    must("create", rme_create(path, workers, 2, 2, 10, all_names));
    struct rme_handle *handle = attached(worker, &stance);
    must("run", rme_run(handle, LOCK, first, 1, 0, NULL));
    must("detach", rme_detach(handle));
    lives = 1;
}

static uint32_t owner_now(void) {
    struct rme_handle *handle;
    uint32_t owner = 0;
    must("observe", rme_observe(path, &handle));
    must("owner", rme_owner(handle, LOCK, &owner));
    must("detach", rme_detach(handle));
    return owner;
}

/* Another worker tries: it is blocked where the killed one is the owner, and gives up. Where it is not, it may be
   blocked by a node that the killed one has. */
static void try_other(unsigned point) {
    struct rme_stance stance;
    uint32_t owner = owner_now();
    struct rme_handle *handle = attached(0, &stance);
    int error = rme_run(handle, LOCK, NULL, 0, 0, NULL);
    check(owner == worker ? error == RME_BLOCKED : owner == RME_NOBODY, "point %u: the owner is %d", point, (int)owner);
    if (error == RME_BLOCKED) {
        must("withdraw", rme_withdraw(handle, NULL));
    } else {
        answers("the other", error, 0);
    }
    must("detach", rme_detach(handle));
    check(owner_now() == owner, "point %u: the owner stays", point);
}

/* The cells are as if the job had counted so many times. */
static void have_cells(unsigned point, int times) {
    struct rme_handle *handle;
    uint64_t cells[2];
    int settled = 0;
    must("observe", rme_observe(path, &handle));
    must("cells", rme_cells(handle, LOCK, cells, &settled));
    must("detach", rme_detach(handle));
    uint64_t first = times ? BEFORE + 6 : BEFORE, second = times ? BEFORE + 5 : 0;
    check(settled && cells[0] == first && cells[1] == second, "point %u: cells %llu %llu", point,
          (unsigned long long)cells[0], (unsigned long long)cells[1]);
}

/* The number's next process finishes what it finds, or posts the job where it was lost; and then all is as it should.
   */
static void finish(unsigned point, int gives_up) {
    struct rme_stance stance;
    struct rme_receipt receipt = {0};
    int there = 0, counts = 1;
    uint32_t owner = owner_now();
    struct rme_handle *handle = attached(worker, &stance);
    check(stance.life == lives + 1, "point %u: life %d", point, (int)stance.life);
    check(stance.number == 1 || stance.number == 2, "point %u: number %d", point, (int)stance.number);
    check((stance.where == RME_INSIDE) == (owner == worker && stance.where != RME_READY), "point %u: re-enters", point);
    if (stance.where == RME_READY && stance.number == 1) {
        must("submit", rme_submit(handle, LOCK, job, 3, NULL));
        stance.where = RME_WAITING;
    }
    if (stance.where == RME_WAITING && gives_up) {
        must("withdraw", rme_withdraw(handle, NULL));
    } else if (stance.where != RME_READY) {
        answers("enter", rme_enter(handle, 0), 0);
        answers("commit", rme_commit(handle, &receipt), 0);
        check(receipt.number == 2 && receipt.reply == BEFORE + 6, "point %u: its receipt", point);
    }
    must("last", rme_last(handle, &receipt, &there));
    counts = there;
    check(there ? receipt.number == 2 && receipt.reply == BEFORE + 6 && receipt.lock == LOCK : gives_up,
          "point %u: its last receipt", point);
    must("detach", rme_detach(handle));
    have_cells(point, counts);
    check(owner_now() == RME_NOBODY, "point %u: the lock is free", point);
    handle = attached(0, &stance);
    answers("the other afterwards", rme_run(handle, LOCK, NULL, 0, 0, NULL), 0);
    must("detach", rme_detach(handle));
}

/* A kill before each step of a worker's way; and after it none, and then one before every so many-th step of the next
   process's. The last process ends by itself. Answers how many steps the first one's way has. */
static unsigned try_points(int gives_up, unsigned stride, unsigned *kills) {
    for (unsigned point = 1;; point++) {
        int is_killed = 1, again = 1;
        for (unsigned second = 0; is_killed && again; second += second == 0 ? 1 + point % stride : stride) {
            open_file();
            is_killed = run_to(point, gives_up);
            try_other(point);
            again = second == 0 || run_to(second, gives_up);
            *kills += (unsigned)(is_killed + (second > 0 && again));
            finish(point, gives_up);
        }
        if (!is_killed) {
            return point - 1;
        }
    }
}

int main(int count, char **words) {
    if (count != 4) {
        return 2;
    }
    snprintf(path, sizeof path, "%s/points", words[1]);
    workers = (uint32_t)atoi(words[2]);
    worker = workers - 1;
    unsigned stride = (unsigned)atoi(words[3]);
    setvbuf(stdout, NULL, _IOLBF, 0);
    unsigned height = 1, kills = 0;
    for (unsigned leaves = 2; leaves < workers; leaves *= 2) {
        height++;
    }
    /* By the step table: Recover of a worker that has a receipt takes 4, Post 3 + 3n, Enter h, the section 11 + 3n +
       4t, the way out h + 2, a withdrawal of a worker that holds nothing 4; n is 3 and t is 2. */
    answers("steps of a job", (int)try_points(0, stride, &kills), (int)(4 + 12 + height + 28 + height + 2));
    heading("a kill before each step of a job, and of its recovery");
    answers("steps of a job that is given up", (int)try_points(1, stride, &kills), 4 + 12 + 4);
    heading("a kill before each step of a job that is given up");
    printf("     %u kills\n", kills);
    return ends();
}
