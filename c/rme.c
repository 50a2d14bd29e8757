/* rme.c: the calls of rme.h over the proved step machine of crates/rme_process_abi.

   The crate decides every own step: which operation on which word comes next, and what the worker knows once it has
   the value. That these are the steps of the algorithm is proved there, and in crates/rme_laws what any interleaving of
   such steps comes to, with crashes and restarts between. What is not proved, and has to be read, is in this folder:

   - `make_batch` below does each operation that the crate told, in order, once, as one sequentially consistent
     operation of one 64-bit word of the mapping, and hands on what it found; it ends behind a swap that put nothing, and
     behind a load that was expected to find something else. No other function stores a word.
   - `rme_file_begin_life` of file.c counts a worker's restarts in the file's first page; no step depends on the count.
   - `rme_look` of looks.c reads one word once, for look-ups; no step depends on what it answers.
   - core.h declares the crate's exports as they are.
   - A handle is used by one call at a time (`rme_begin`), in the process that attached it (`own`, a page that the
     kernel wipes in a forked child), and nobody else has its worker's number (file.c: a lock of the kernel, claimed
     before the file is mapped, and given back after it was unmapped).
   - The kernel maps one file to the same memory in all processes, keeps the words of a process that was killed, and
     ends its claims; the compiler's atomic operations are the processor's; everybody who may write the file goes by
     this. */
#define _GNU_SOURCE
#include "handle.h"

#include <errno.h>
#include <sched.h>
#include <stdlib.h>
#include <string.h>
#include <sys/mman.h>
#include <time.h>
#include <unistd.h>

/* A refusal of the crate by its number here. Above RME_DAMAGED are those of a misuse that nothing here commits. */
static int told(uint32_t refusal) {
    return refusal <= RME_DAMAGED ? (int)refusal : RME_FAULT;
}

/* STEPS */

/* Does the operations of a batch, one after the other, as far as the first that found what ends it, and answers how many.
   Of a store no value is read. */
static uint32_t make_batch(_Atomic uint64_t *words, struct rme_core_batch *batch) {
    const struct rme_core_action *action = batch->actions, *end = action + batch->count;
    for (uint64_t *found = batch->values; action < end; action++, found++) {
        _Atomic uint64_t *word = &words[action->word];
        int goes_on = 1;
        if (action->kind == RME_CORE_STORE) {
            atomic_store(word, action->value);
        } else if (action->kind == RME_CORE_EXPECT) {
            *found = atomic_load(word);
            goes_on = *found == action->value;
        } else if (action->kind == RME_CORE_SWAP) {
            *found = 0;
            goes_on = atomic_compare_exchange_strong(word, found, action->value);
        } else {
            *found = atomic_load(word);
            goes_on = action->kind != RME_CORE_EXPECT_EVEN || (*found % 2 == 0 && *found >> 32 == 0);
        }
        if (!goes_on) {
            return (uint32_t)(action - batch->actions) + 1;
        }
    }
    return batch->count;
}

/* Makes the worker's next own steps, at least one, as far as one that says something of the kind `until`; RME_IDLE where
   it is ready and has none. The receipt of a section that is finished on the way is kept, also where damage ends it. */
static inline int step(struct rme_handle *self, uint32_t until) {
    uint32_t refusal = rme_core_next(&self->core, until, &self->batch);
    if (refusal != 0) {
        return told(refusal);
    }
    uint32_t made = make_batch(self->file.words, &self->batch);
    refusal = rme_core_after(&self->core, &self->batch, made, &self->outcome);
    for (uint32_t i = 0; i < self->outcome.count; i++) {
        const struct rme_core_note *note = &self->outcome.notes[i];
        if (note->kind == RME_CORE_FINISHED) {
            self->receipt = (struct rme_receipt){note->worker, note->lock, note->number, note->place, note->reply};
        }
    }
    return told(refusal);
}

/* What the last of the steps that said something said. */
static uint32_t last_event(const struct rme_handle *self) {
    uint32_t count = self->outcome.count;
    return count == 0 ? RME_CORE_QUIET : self->outcome.notes[count - 1].kind;
}

struct rme_core_standing rme_standing_of(struct rme_handle *self) {
    struct rme_core_standing standing = {0};
    rme_core_stance(&self->core, &standing);
    return standing;
}

/* WAITING */

/* Between tries the processor is given away; after so many of them, which take some 50 microseconds, the worker sleeps,
   each time twice as long, up to the most. */
enum { TRIES_WITHOUT_SLEEP = 100, FIRST_SLEEP = 50000, MOST_SLEEP = 10000000 };

struct wait {
    uint32_t tries;
    int64_t end; /* in nanoseconds of the clock */
    int64_t sleep;
};

static int64_t now(void) {
    struct timespec time;
    clock_gettime(CLOCK_MONOTONIC, &time);
    return (int64_t)time.tv_sec * 1000000000 + time.tv_nsec;
}

/* Lets time pass after a blocked step, and answers 0; or RME_BLOCKED, where the time is over. */
static int pass(struct wait *wait, uint32_t milliseconds) {
    int64_t left = 0;
    if (milliseconds != RME_FOREVER) {
        int64_t time = now();
        wait->end = wait->tries == 0 ? time + (int64_t)milliseconds * 1000000 : wait->end;
        left = wait->end - time;
        if (left <= 0) {
            return RME_BLOCKED;
        }
    }
    if (wait->tries++ < TRIES_WITHOUT_SLEEP) {
        sched_yield();
        return 0;
    }
    wait->sleep = wait->sleep == 0 ? FIRST_SLEEP : wait->sleep < MOST_SLEEP / 2 ? 2 * wait->sleep : MOST_SLEEP;
    int64_t sleep = milliseconds != RME_FOREVER && left < wait->sleep ? left : wait->sleep;
    nanosleep(&(struct timespec){.tv_nsec = (long)sleep}, NULL);
    return 0;
}

/* Goes on until a step says something of the kind `until`, which RME_CORE_QUIET never is, or the worker is ready; behind
   each blocked step time passes. */
static int go_on(struct rme_handle *self, uint32_t until, uint32_t milliseconds) {
    struct wait wait = {0};
    for (;;) {
        int error = step(self, until);
        uint32_t event = last_event(self);
        if (error == 0 && event == RME_CORE_BLOCKED) {
            error = pass(&wait, milliseconds);
        }
        int is_there = event == until && until != RME_CORE_QUIET;
        if (error != 0 || is_there || self->outcome.phase == RME_CORE_RESTS) {
            return error;
        }
    }
}

/* PHASES */

/* Recovers until the worker waits, is inside, or is ready. */
static int recover(struct rme_handle *self) {
    uint32_t phase = rme_standing_of(self).phase;
    while (phase == RME_CORE_RECOVERS) {
        int error = step(self, RME_CORE_QUIET);
        if (error != 0) {
            return error;
        }
        phase = self->outcome.phase;
    }
    return phase == RME_CORE_EXITS ? go_on(self, RME_CORE_QUIET, RME_FOREVER) : 0;
}

/* The value of an operation for the crate, which refuses a second cell that does not fit 32 bits as no operation, and one
   that does as no cell. */
static uint64_t value_of(const struct rme_operation *operation) {
    int is_cell = operation->kind == RME_COPY || operation->kind == RME_SWAP;
    return is_cell && operation->value > UINT32_MAX ? UINT32_MAX : operation->value;
}

/* Hands over a job, which is not posted yet. Of the words the crate reads three for each operation. */
static int hand(struct rme_handle *self, uint32_t lock, const struct rme_operation *operations, uint32_t count,
                uint64_t *number) {
    uint64_t *word = self->slate;
    for (uint32_t i = 0; i < count && count <= RME_MOST_OPERATIONS; i++) {
        *word++ = operations[i].kind;
        *word++ = operations[i].cell;
        *word++ = value_of(&operations[i]);
    }
    return told(rme_core_submit(&self->core, lock, count, self->slate, number));
}

static int submit(struct rme_handle *self, uint32_t lock, const struct rme_operation *operations, uint32_t count,
                  uint64_t *number) {
    uint64_t begun = 0;
    int error = hand(self, lock, operations, count, &begun);
    error = error != 0 ? error : go_on(self, RME_CORE_ASKED, RME_FOREVER);
    if (error == 0 && number != NULL) {
        *number = begun;
    }
    return error;
}

/* The section of a worker that is inside, and its way out; or what is left of them. */
static int commit(struct rme_handle *self, struct rme_receipt *receipt) {
    int error = go_on(self, RME_CORE_QUIET, RME_FOREVER);
    if (error == 0 && receipt != NULL) {
        *receipt = self->receipt;
    }
    return error;
}

/* A whole job. */
static int run(struct rme_handle *self, uint32_t lock, const struct rme_operation *operations, uint32_t count,
               uint32_t milliseconds, struct rme_receipt *receipt) {
    uint64_t begun = 0;
    int error = hand(self, lock, operations, count, &begun);
    error = error != 0 ? error : go_on(self, RME_CORE_QUIET, milliseconds);
    if (error == 0 && receipt != NULL) {
        *receipt = self->receipt;
    }
    return error;
}

/* CALLS */

int rme_begin(struct rme_handle *self, enum rme_need need) {
    if (self == NULL) {
        return RME_NOT_ATTACHED;
    }
    if (*self->own == 0) {
        return RME_FORKED;
    }
    if (atomic_exchange_explicit(&self->busy, 1, memory_order_acquire) != 0) {
        return RME_IN_USE;
    }
    int needs_worker = need == RME_A_WORKER || need == RME_A_RECOVERED_WORKER;
    int needs_recovery = need == RME_A_LOOK || need == RME_A_RECOVERED_WORKER;
    int error = 0;
    if (self->worker == RME_NOBODY) {
        /* Only a handle without a worker may be there when the file is renewed. */
        int is_late = need == RME_A_LOOK && atomic_load(&self->file.front->moved) != 0;
        error = needs_worker ? RME_NOT_ATTACHED : is_late ? RME_MOVED : 0;
    } else if (needs_recovery && !self->has_recovered) {
        error = RME_DOWN;
    }
    if (error != 0) {
        atomic_store_explicit(&self->busy, 0, memory_order_release);
    }
    return error;
}

int rme_end(struct rme_handle *self, int error) {
    atomic_store_explicit(&self->busy, 0, memory_order_release);
    return error;
}

/* A worker whose way out was ended by damage has its lock still: it is inside, and a commit goes on. */
static uint32_t where(uint32_t phase) {
    switch (phase) {
    case RME_CORE_ENTERS:
        return RME_WAITING;
    case RME_CORE_IN_SECTION:
    case RME_CORE_EXITS:
        return RME_INSIDE;
    default:
        return RME_READY;
    }
}

static void fill(struct rme_handle *self, struct rme_stance *stance) {
    struct rme_core_standing standing = rme_standing_of(self);
    if (stance != NULL) {
        stance->where = where(standing.phase);
        stance->lock = stance->where == RME_READY ? 0 : standing.lock;
        stance->number = standing.number;
        stance->life = self->life;
    }
}

/* Counts the restart before its first step, and makes its steps. Where damage ends these, the next call goes on with the
   same restart. */
static int restart(struct rme_handle *self) {
    int error = self->is_counted ? 0 : rme_file_begin_life(&self->file, self->worker, &self->life);
    if (error != 0) {
        return error;
    }
    self->is_counted = 1;
    return recover(self);
}

int rme_recover(struct rme_handle *handle, struct rme_stance *stance) {
    int error = rme_begin(handle, RME_A_WORKER);
    if (error != 0) {
        return error;
    }
    error = handle->has_recovered ? RME_UP : restart(handle);
    if (error == 0) {
        handle->has_recovered = 1;
        fill(handle, stance);
    }
    return rme_end(handle, error);
}

int rme_standing(struct rme_handle *handle, struct rme_stance *stance) {
    int error = rme_begin(handle, RME_A_RECOVERED_WORKER);
    if (error != 0) {
        return error;
    }
    fill(handle, stance);
    return rme_end(handle, 0);
}

/* The first version of these two calls, which a program has that was linked before a stance had a life: of its stance they
   write no more than it has room for. */
enum { STANCE_WITHOUT_LIFE = offsetof(struct rme_stance, life) };

#define RME_FIRST_VERSION(name) \
    __attribute__((visibility("default"))) int name##_first(struct rme_handle *handle, void *stance); \
    __asm__(".symver " #name "_first, " #name "@RME_1"); \
    int name##_first(struct rme_handle *handle, void *stance) { \
        struct rme_stance found; \
        int error = name(handle, &found); \
        if (error == 0 && stance != NULL) { \
            memcpy(stance, &found, STANCE_WITHOUT_LIFE); \
        } \
        return error; \
    }

RME_FIRST_VERSION(rme_recover)
RME_FIRST_VERSION(rme_standing)

int rme_submit(struct rme_handle *handle, uint32_t lock, const struct rme_operation *operations, uint32_t count,
               uint64_t *number) {
    int error = rme_begin(handle, RME_A_RECOVERED_WORKER);
    return error != 0 ? error : rme_end(handle, submit(handle, lock, operations, count, number));
}

int rme_enter(struct rme_handle *handle, uint32_t wait) {
    int error = rme_begin(handle, RME_A_RECOVERED_WORKER);
    if (error != 0) {
        return error;
    }
    switch (where(rme_standing_of(handle).phase)) {
    case RME_WAITING:
        return rme_end(handle, go_on(handle, RME_CORE_ENTERED, wait));
    case RME_INSIDE:
        return rme_end(handle, 0);
    default:
        return rme_end(handle, RME_IDLE);
    }
}

int rme_commit(struct rme_handle *handle, struct rme_receipt *receipt) {
    int error = rme_begin(handle, RME_A_RECOVERED_WORKER);
    if (error != 0) {
        return error;
    }
    switch (where(rme_standing_of(handle).phase)) {
    case RME_WAITING:
        return rme_end(handle, RME_NOT_INSIDE);
    case RME_INSIDE:
        return rme_end(handle, commit(handle, receipt));
    default:
        return rme_end(handle, RME_IDLE);
    }
}

int rme_run(struct rme_handle *handle, uint32_t lock, const struct rme_operation *operations, uint32_t count,
            uint32_t wait, struct rme_receipt *receipt) {
    int error = rme_begin(handle, RME_A_RECOVERED_WORKER);
    if (error != 0) {
        return error;
    }
    return rme_end(handle, run(handle, lock, operations, count, wait, receipt));
}

int rme_withdraw(struct rme_handle *handle, uint64_t *number) {
    int error = rme_begin(handle, RME_A_RECOVERED_WORKER);
    if (error != 0) {
        return error;
    }
    uint64_t begun = rme_standing_of(handle).number;
    error = told(rme_core_withdraw(&handle->core));
    error = error != 0 ? error : go_on(handle, RME_CORE_QUIET, RME_FOREVER);
    if (error == 0 && number != NULL) {
        *number = begun;
    }
    return rme_end(handle, error);
}

/* HANDLES */

/* The mapping goes before the claim, so that nothing is written without it. */
void rme_lower(struct rme_handle *self) {
    if (self->core.at != NULL) {
        rme_core_free(self->core);
    }
    if (self->own != NULL) {
        munmap((void *)self->own, RME_PAGE);
    }
    rme_file_close(&self->file);
    free(self);
}

int rme_raise(struct rme_file *file, uint32_t worker, struct rme_handle **handle) {
    struct rme_handle *self = calloc(1, sizeof *self);
    if (self == NULL) {
        rme_file_close(file);
        return RME_NO_MEMORY;
    }
    self->file = *file;
    self->worker = worker;
    void *own = mmap(NULL, RME_PAGE, PROT_READ | PROT_WRITE, MAP_PRIVATE | MAP_ANONYMOUS, -1, 0);
    int error = own == MAP_FAILED ? rme_say(RME_SYSTEM, "mmap") : 0;
    if (error == 0) {
        self->own = own;
        *self->own = 1;
        error = madvise(own, RME_PAGE, MADV_WIPEONFORK) == 0 ? 0 : rme_say(RME_SYSTEM, "madvise");
    }
    if (error == 0 && worker != RME_NOBODY) {
        const struct rme_shape *shape = &file->shape;
        error = told(rme_core_new(shape->workers, shape->locks, shape->cells, shape->jobs, worker, &self->core));
    }
    error = error != 0 ? error : rme_file_map(&self->file, worker != RME_NOBODY);
    if (error != 0) {
        int kept = errno;
        rme_lower(self);
        errno = kept;
        return error;
    }
    *handle = self;
    return 0;
}

int rme_attach(const char *path, uint32_t worker, struct rme_handle **handle) {
    struct rme_file file;
    int error = rme_file_open(path, 1, &file);
    if (error != 0) {
        return error;
    }
    error = worker < file.shape.workers ? rme_file_claim(&file, worker, 1) : RME_NO_WORKER;
    /* A renewal has all claims: it is over, or begins after this one. */
    error = error != 0 ? error : rme_file_read_moved(&file);
    error = error != 0 ? error : rme_file_moved(&file);
    if (error != 0) {
        int kept = errno;
        rme_file_close(&file);
        errno = kept;
        return error;
    }
    return rme_raise(&file, worker, handle);
}

int rme_observe(const char *path, struct rme_handle **handle) {
    struct rme_file file;
    int error = rme_file_open(path, 0, &file);
    return error != 0 ? error : rme_raise(&file, RME_NOBODY, handle);
}

int rme_detach(struct rme_handle *handle) {
    int error = rme_begin(handle, RME_A_HANDLE);
    if (error == RME_FORKED && handle->file.number >= 0) {
        /* Of the child's copy, the open file is what counts. The mapping it never had, and a child of a process with
           threads may not free memory. */
        rme_file_close_number(&handle->file);
    } else if (error == 0) {
        rme_lower(handle);
    }
    return error;
}

/* FILES */

int rme_create(const char *path, uint32_t workers, uint32_t locks, uint32_t cells, uint32_t jobs,
               const char *const *names) {
    const struct rme_shape shape = {workers, locks, cells, jobs};
    struct rme_page page;
    struct rme_file file;
    char beside[PATH_MAX];
    int error = rme_page_fill(&page, &shape, names);
    error = error != 0 ? error : rme_file_make(&page, path, beside, &file);
    if (error != 0) {
        return error;
    }
    rme_file_close(&file);
    return rme_file_publish(beside, path, 1);
}

int rme_living(const char *path, uint64_t *bits) {
    struct rme_file file;
    uint64_t found[RME_MOST_WORKERS / 64] = {0};
    int error = rme_file_open(path, 0, &file);
    if (error != 0) {
        return error;
    }
    for (uint32_t worker = 0; worker < file.shape.workers && error == 0; worker++) {
        int claimed = 0;
        error = rme_file_claimed(&file, worker, &claimed);
        found[worker / 64] |= (uint64_t)(claimed != 0) << worker % 64;
    }
    rme_file_close(&file);
    if (error == 0 && bits != NULL) {
        memcpy(bits, found, sizeof found);
    }
    return error;
}
