/* rme.h: recoverable locks for processes over one mapped file.

   A worker is a process, or a thread with a handle of its own. The words of the locks lie in a file that all of them
   map. A process that is killed, at any instruction, leaves the words as they are: whoever attaches with its worker's
   number next recovers, goes on where it was, and its job counts once. While it is dead and inside, nobody else enters.

       rme_create("/dev/shm/bank", 4, 1, 1, 100000, names);          once
       rme_attach("/dev/shm/bank", 2, &handle);                      each process, by a number of its own
       rme_recover(handle, &stance);
       rme_submit, rme_enter, (work of your own), rme_commit         or rme_run, which makes all three
       rme_detach(handle);

   Every call that can fail answers 0, or a number of `enum rme_error`. What it was to answer is stored only where it
   answers 0, unless its comment says more. A pointer that an answer is stored through may be NULL, where the caller
   does not want to know it, but for the one to a new handle. A handle is used by one thread at a time.

   Linux only: open-file-description locks (3.15) and MADV_WIPEONFORK (4.14) are asked for. */
#ifndef RME_H
#define RME_H

#include <stdint.h>

#ifdef __cplusplus
extern "C" {
#endif

/* The library is built with all names hidden but these. */
#ifdef __GNUC__
#pragma GCC visibility push(default)
#endif

#define RME_MOST_WORKERS 256
#define RME_MOST_LOCKS 16
#define RME_MOST_CELLS 16     /* of each lock */
#define RME_MOST_JOBS 1000000 /* of each worker, in one file; `rme_renew` makes the next file */
#define RME_MOST_OPERATIONS 8 /* of a job */
#define RME_MOST_NAME 32      /* bytes of a lock's name: a-z, 0-9, _ and - */

#define RME_NOBODY UINT32_MAX  /* no worker */
#define RME_FOREVER UINT32_MAX /* milliseconds: wait without an end */

/* What a call answers. Up to 22 the numbers and names are those of all of rme. A refused call changes nothing, but for
   what the call's comment says. */
enum rme_error {
    RME_OK = 0,
    RME_BAD_SHAPE = 5,      /* A number or a name is outside the limits. */
    RME_NO_WORKER = 6,      /* There is no such worker. */
    RME_DOWN = 7,           /* The worker has not recovered: rme_recover comes first. */
    RME_UP = 8,             /* The worker has recovered already. */
    RME_BUSY = 9,           /* The worker has a job that is not over. */
    RME_IDLE = 10,          /* The worker has no job. */
    RME_NO_LOCK = 11,       /* There is no such lock. */
    RME_BAD_SCRIPT = 12,    /* The job has more than eight operations, or one that is none. */
    RME_NO_CELL = 13,       /* The job names a cell that the lock does not have. */
    RME_TOO_MANY_JOBS = 14, /* The worker has begun all the jobs that the file allows: renew it. */
    RME_TAKEN = 18,         /* A living process has this worker. */
    RME_NOT_ATTACHED = 19,  /* The handle has no worker. */
    RME_NO_MEMORY = 20,     /* There is no memory. */
    RME_NOT_WAITING = 21,   /* The worker is inside its lock, so its job cannot be withdrawn. */
    RME_NOT_INSIDE = 22,    /* The worker waits for its lock still. */
    RME_DAMAGED = 100,      /* A word has a value that no run can leave; nothing was stored after it was found. */
    RME_NO_FILE = 101,      /* There is no file of this name. */
    RME_NOT_RME = 102,      /* The file is none of rme's, or not of this version, byte order or size: see rme_why. */
    RME_EXISTS = 103,       /* There is a file of this name already. */
    RME_OLD_BOOT = 104,     /* The file was made before the machine was started last. */
    RME_MOVED = 105,        /* The file was renewed: another one has its place. */
    RME_FORKED = 106,       /* The handle is that of the process from which this one was forked. */
    RME_BLOCKED = 107,      /* The time is over and others have the lock still. */
    RME_IN_USE = 108,       /* Another thread is in a call with this handle. */
    RME_SYSTEM = 109,       /* A system call failed: see errno and rme_why. */
    RME_FAULT = 110,        /* The parts of this library do not fit together; it was built wrongly. */
    RME_UNFINISHED = 111    /* The renewal that makes this file is not over: call rme_renew again with the same two
                               files. */
};

/* The sentence that stands beside a number above; of any other number a sentence that says so. */
const char *rme_error_text(int error);

/* What this thread's last RME_NOT_RME or RME_SYSTEM was about, as "its size is not that of its shape" or "open"; a text
   that stays. Empty before the first. */
const char *rme_why(void);

/* One operation of a job, on the cells of its lock. `value` is the number of RME_SET and RME_ADD, the other cell of
   RME_COPY and RME_SWAP, and 0 of RME_GET. The reply of a job is what the last-named cell of its last operation holds
   afterwards, and 0 where it has no operation. */
enum rme_kind { RME_GET = 0, RME_SET = 1, RME_ADD = 2, RME_COPY = 3, RME_SWAP = 4 };

struct rme_operation {
    uint32_t kind;
    uint32_t cell;
    uint64_t value;
};

/* What became of a job: the `place`-th section of its lock, from 0, and its reply. */
struct rme_receipt {
    uint32_t worker;
    uint32_t lock;
    uint64_t number;
    uint64_t place;
    uint64_t reply;
};

enum rme_where { RME_READY, RME_WAITING, RME_INSIDE };

/* Where a worker is. `number` is that of its pending job, or of its last one where it is ready; a worker's jobs are
   numbered from 1. `lock` is that of its pending job, and 0 where it is ready. `life` is how often the worker was
   restarted, by the rme_recover of this handle the last time: it rises by one with each, also where processes are
   killed. It is 0 in a file of version 1, which has no lives. */
struct rme_stance {
    uint32_t where;
    uint32_t lock;
    uint64_t number;
    uint64_t life;
};

struct rme_shape {
    uint32_t workers;
    uint32_t locks;
    uint32_t cells;
    uint32_t jobs;
};

struct rme_handle;

/* FILES */

/* Makes a file of so many workers, locks, cells of each lock and jobs of each worker, with a name for each lock. It
   is made beside, whole, with mode 0600, and then linked to its name, so that nobody sees a part of it, and no file
   that is there is touched. RME_BAD_SHAPE (a limit above, or a name that is none or stands twice), RME_EXISTS (also
   where there would be no room for a new file), RME_NO_FILE (there is no such folder), RME_SYSTEM. */
int rme_create(const char *path, uint32_t workers, uint32_t locks, uint32_t cells, uint32_t jobs,
               const char *const *names);

/* Makes a new file of the same shape and names, in which jobs of worker 0 have set the cells to what they are in the
   old one, and marks the old one as moved: each call on it but rme_outcome is RME_MOVED from then on. Lives carry
   over, and begin at 0 where the old file is of version 1. Numbers, places and receipts do not carry over. Worker 0 has
   used up to two jobs a lock there, and behind them, if the shape allows it, one that is given up, so that it has no
   receipt: its own numbers go on from its stance, not from 1. The new file has the mode of the old one, and its owner
   and group where this process may give them; where it may not give the group, the mode's bits for it are no more than
   those for everybody. It is made only at rest: RME_TAKEN where a worker has a living process, RME_BUSY where one has a
   pending job. RME_EXISTS where `new_path` is there;
   RME_TOO_MANY_JOBS where the shape allows less jobs than the cells need; RME_DAMAGED; those of rme_attach for the old
   file; RME_SYSTEM. Where it answers anything but 0, the old file stands as it was, and no new one was made.
   At no moment can both files be attached: the new one gets its name with a mark, and is RME_UNFINISHED for each call
   until the old one is RME_MOVED. Where the process is killed in it, the next call with the same two files begins again
   or finishes what was left, and answers 0; or RME_MOVED, where it was over already. Before that call the old file may
   be used where it is not RME_MOVED. Where the old file is RME_MOVED and the new one RME_UNFINISHED, only that call
   helps, and one with another `new_path` is RME_MOVED. */
int rme_renew(const char *path, const char *new_path);

/* Which workers have a living process: sets bit w % 64 of bits[w / 64] for worker w, and clears the others, of
   RME_MOST_WORKERS / 64 numbers. A process that a worker's own process was forked into counts as long as it has the
   file open. RME_NO_FILE, RME_NOT_RME, RME_OLD_BOOT, RME_MOVED, RME_UNFINISHED, RME_SYSTEM. */
int rme_living(const char *path, uint64_t *bits);

/* A process that has this worker: where a forked child has the file open too, one of them. 0 where none has it, and
   where it cannot be known: /proc does not show the open files of other users' processes, or of those outside a
   container, nor a file that its process has closed and still maps. It looks through all of /proc, which may take
   milliseconds. A renewal has all workers. RME_NO_FILE, RME_NOT_RME, RME_OLD_BOOT, RME_MOVED, RME_UNFINISHED,
   RME_NO_WORKER, RME_SYSTEM. */
int rme_holder(const char *path, uint32_t worker, uint32_t *process);

/* What became of the last job of a worker, whose number nobody has to claim for this: of a dead one whose file was
   renewed meanwhile too, as long as the old file is kept. `number` is that of the job, 0 where there was none; `there`
   is 0 where it was withdrawn, or there was none, and else `receipt` is its receipt. RME_BUSY where one is pending, or
   the worker makes one after the other. RME_NO_FILE, RME_NOT_RME, RME_OLD_BOOT, RME_UNFINISHED, RME_NO_WORKER,
   RME_DAMAGED, RME_SYSTEM. */
int rme_outcome(const char *path, uint32_t worker, uint64_t *number, struct rme_receipt *receipt, int *there);

/* HANDLES */

/* Claims a worker's number and maps the file. The worker is down; rme_recover comes next, and the calls below
   rme_recover are RME_DOWN before it. RME_NO_FILE, RME_NOT_RME, RME_OLD_BOOT, RME_MOVED, RME_UNFINISHED; then
   RME_NO_WORKER, RME_TAKEN, of which rme_holder says more; RME_NO_MEMORY, RME_SYSTEM. */
int rme_attach(const char *path, uint32_t worker, struct rme_handle **handle);

/* Maps the file for look-ups alone, with no worker: the calls under JOBS are RME_NOT_ATTACHED. Its refusals are
   those of rme_attach for the file. Once the file is renewed, those under LOOK-UPS are RME_MOVED. */
int rme_observe(const char *path, struct rme_handle **handle);

/* Ends a handle, and leaves the worker where it is: this is its crash. One that is inside stays the owner of its lock,
   and one that waits stays in its way; whoever attaches next goes on. RME_IN_USE: the handle is as it was. In a forked
   child it closes the child's copy of the file, so that the claim ends with the parent, and answers RME_FORKED. */
int rme_detach(struct rme_handle *handle);

/* The sizes of the file. */
int rme_shape(struct rme_handle *handle, struct rme_shape *shape);

/* The descriptor that has the claim of the worker's number. A child that inherits it (clear FD_CLOEXEC of a copy) keeps
   the number until it ends too, and must not use it. The handle closes it. */
int rme_fileno(struct rme_handle *handle, int *descriptor);

/* The number of the lock of this name: RME_NO_LOCK. */
int rme_lock_number(struct rme_handle *handle, const char *name, uint32_t *lock);

/* The name of a lock, with a byte 0 at its end, in RME_MOST_NAME + 1 bytes: RME_NO_LOCK. */
int rme_lock_name(struct rme_handle *handle, uint32_t lock, char *name);

/* JOBS. Each call but rme_recover begins with RME_NOT_ATTACHED, RME_FORKED, RME_IN_USE and RME_DOWN where they apply;
   each may answer RME_DAMAGED. After that the worker is where it was before the damaged word was read, and the call
   may be made again once the word is mended; rme_run is gone on with by rme_enter and rme_commit. */

/* Begins the worker's next life, finds out from the words where it is, and makes a finished job's way out. RME_UP where
   it was done. After RME_DAMAGED the next call goes on with the same life. */
int rme_recover(struct rme_handle *handle, struct rme_stance *stance);

/* Where the worker is now. */
int rme_standing(struct rme_handle *handle, struct rme_stance *stance);

/* The pending job: its lock, and its `count` operations, at most RME_MOST_OPERATIONS, for which there must be room.
   RME_IDLE. */
int rme_pending(struct rme_handle *handle, uint32_t *lock, struct rme_operation *operations, uint32_t *count);

/* Writes a job down, and answers its number. From then on it is pending: it survives the process. RME_BUSY,
   RME_NO_LOCK, RME_BAD_SCRIPT, RME_NO_CELL, RME_TOO_MANY_JOBS, in this order; a refused job uses no number. */
int rme_submit(struct rme_handle *handle, uint32_t lock, const struct rme_operation *operations, uint32_t count,
               uint64_t *number);

/* Takes the lock of the pending job; answers 0 at once where the worker is inside already. At least one try is made,
   and then more, with growing pauses between, for `wait` milliseconds. RME_BLOCKED: the job waits still, and others may
   wait behind it. RME_IDLE. */
int rme_enter(struct rme_handle *handle, uint32_t wait);

/* How many sections of the lock were finished before the one that the worker is inside with: the place that its receipt
   will have. With the stance's life it is a fencing token: a resource outside that keeps the greatest pair (section,
   life) that it has seen of the file's lock, and refuses a lower one, refuses what is written late by a process that
   others took for dead. RME_IDLE, RME_NOT_INSIDE. */
int rme_section(struct rme_handle *handle, uint64_t *section);

/* Does the job that the worker is inside with, leaves, and answers the receipt. RME_IDLE, RME_NOT_INSIDE. */
int rme_commit(struct rme_handle *handle, struct rme_receipt *receipt);

/* rme_submit, rme_enter and rme_commit. RME_BLOCKED: the job was written down and waits; go on with rme_enter. */
int rme_run(struct rme_handle *handle, uint32_t lock, const struct rme_operation *operations, uint32_t count,
            uint32_t wait, struct rme_receipt *receipt);

/* Gives up the pending job, whose number never counts then. RME_IDLE, RME_NOT_WAITING. */
int rme_withdraw(struct rme_handle *handle, uint64_t *number);

/* The receipt of the worker's last job; `there` is 0 where there was none, or it was withdrawn. RME_BUSY. */
int rme_last(struct rme_handle *handle, struct rme_receipt *receipt, int *there);

/* LOOK-UPS. Each word is read once. What they answer is exact where no worker makes a step meanwhile, and else of no
   one moment. */

/* The worker that owns a lock, alive or dead, or RME_NOBODY. RME_NO_LOCK. */
int rme_owner(struct rme_handle *handle, uint32_t lock, uint32_t *worker);

/* The cells of a lock, for which there must be room, and whether they are settled: they are not while the lock has an
   owner whose job is not finished. RME_NO_LOCK. */
int rme_cells(struct rme_handle *handle, uint32_t lock, uint64_t *cells, int *settled);

#ifdef __GNUC__
#pragma GCC visibility pop
#endif

#ifdef __cplusplus
}
#endif

#endif
