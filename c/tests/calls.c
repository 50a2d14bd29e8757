/* calls FOLDER: each call of rme.h with each of its refusals, and what each answers, worked out by hand from what rme.h
   and the model say. */
#include "check.h"

#include <errno.h>
#include <fcntl.h>
#include <pthread.h>
#include <sched.h>
#include <signal.h>
#include <sys/mount.h>
#include <sys/resource.h>
#include <sys/stat.h>
#include <sys/wait.h>
#include <time.h>

static char folder[2048];

static const char *at(const char *name) {
    static char paths[4][4096];
    static int next;
    char *path = paths[next++ % 4];
    snprintf(path, sizeof paths[0], "%s/%s", folder, name);
    return path;
}

static const char *fresh(const char *name, uint32_t workers, uint32_t locks, uint32_t cells, uint32_t jobs) {
    static char path[4096];
    snprintf(path, sizeof path, "%s", at(name));
    unlink(path);
    must("create", rme_create(path, workers, locks, cells, jobs, all_names));
    return path;
}

static struct rme_handle *attached(const char *path, uint32_t worker) {
    struct rme_handle *handle;
    must("attach", rme_attach(path, worker, &handle));
    must("recover", rme_recover(handle, NULL));
    return handle;
}

static int attach_only(const char *path, uint32_t worker) {
    struct rme_handle *handle = NULL;
    int error = rme_attach(path, worker, &handle);
    return error == 0 ? rme_detach(handle) : error;
}

static int status_of(pid_t child) {
    int status = 0;
    waitpid(child, &status, 0);
    return WIFEXITED(status) ? WEXITSTATUS(status) : -1;
}

static int64_t milliseconds(void) {
    struct timespec time;
    clock_gettime(CLOCK_MONOTONIC, &time);
    return (int64_t)time.tv_sec * 1000 + time.tv_nsec / 1000000;
}

static const struct rme_operation add_5[] = {{RME_ADD, 0, 5}}, add_1[] = {{RME_ADD, 0, 1}};

/* FILES */

static void try_shapes(void) {
    static const uint32_t shapes[][4] = {{0, 1, 1, 1},  {257, 1, 1, 1},     {1, 0, 1, 1},
                                         {1, 17, 1, 1}, {1, 1, 0, 1},       {1, 1, 17, 1},
                                         {1, 1, 1, 0},  {1, 1, 1, 1000001}, {UINT32_MAX, 1, 1, 1}};
    static const char *const bad[] = {"",  "A", "a b", "a.b", "a/b", "\xc3\xa4", "abcdefghijklmnopqrstuvwxyz0123456",
                                      NULL};
    const char *path = at("shape");
    for (size_t i = 0; i < sizeof shapes / sizeof shapes[0]; i++) {
        const uint32_t *shape = shapes[i];
        answers("a shape outside", rme_create(path, shape[0], shape[1], shape[2], shape[3], all_names), RME_BAD_SHAPE);
    }
    for (size_t i = 0; i < sizeof bad / sizeof bad[0]; i++) {
        const char *names[] = {"a", bad[i]};
        answers("a bad name", rme_create(path, 1, 2, 1, 1, names), RME_BAD_SHAPE);
    }
    const char *twice[] = {"a", "b", "a"};
    answers("a name twice", rme_create(path, 1, 3, 1, 1, twice), RME_BAD_SHAPE);
    answers("no names", rme_create(path, 1, 1, 1, 1, NULL), RME_BAD_SHAPE);
    answers("nothing was made", attach_only(path, 0), RME_NO_FILE);
    answers("the largest", rme_create(path, 256, 16, 16, 1000000, all_names), 0);
    answers("the last worker", attach_only(path, 255), 0);
    answers("no such worker", attach_only(path, 256), RME_NO_WORKER);
    answers("no such worker", attach_only(path, RME_NOBODY), RME_NO_WORKER);
    /* 31 words of each worker, and of each lock 256 + 2 + 2 * 16. */
    struct stat stat_of;
    check(stat(path, &stat_of) == 0 && stat_of.st_size == 4096 + 8 * (31 * 256 + 16 * 290), "its size");
    heading("shapes");
}

static void try_names(void) {
    const char *path = at("names"), *longest[] = {"abcdefghijklmnopqrstuvwxyz012345", "_-9"};
    struct rme_handle *handle;
    char name[RME_MOST_NAME + 1];
    uint32_t lock = 9;
    must("create", rme_create(path, 1, 2, 1, 1, longest));
    must("observe", rme_observe(path, &handle));
    check(rme_lock_name(handle, 0, name) == 0 && strcmp(name, longest[0]) == 0, "the longest name");
    check(rme_lock_number(handle, longest[1], &lock) == 0 && lock == 1, "the number of a name");
    answers("no lock", rme_lock_number(handle, "x", &lock), RME_NO_LOCK);
    answers("no lock", rme_lock_number(handle, "", &lock), RME_NO_LOCK);
    answers("no lock", rme_lock_number(handle, "abcdefghijklmnopqrstuvwxyz0123456", &lock), RME_NO_LOCK);
    answers("no name", rme_lock_name(handle, 2, name), RME_NO_LOCK);
    must("detach", rme_detach(handle));
    heading("names");
}

static unsigned entries_of(const char *path) {
    char command[4200];
    unsigned count = 0;
    snprintf(command, sizeof command, "ls -A '%s' | wc -l", path);
    FILE *told = popen(command, "r");
    if (told == NULL || fscanf(told, "%u", &count) != 1) {
        give_up("FAIL ls");
    }
    pclose(told);
    return count;
}

static void try_making(void) {
    char room[4096], made[4200];
    snprintf(room, sizeof room, "%s", at("room"));
    mkdir(room, 0700);
    snprintf(made, sizeof made, "%s/file", room);
    struct stat stat_of;
    mode_t mask = umask(0);
    answers("create", rme_create(made, 2, 1, 1, 1, all_names), 0);
    umask(mask);
    check(stat(made, &stat_of) == 0 && (stat_of.st_mode & 07777) == 0600, "its mode is 0600");
    check(entries_of(room) == 1, "nothing is beside it");
    answers("it is there", rme_create(made, 2, 1, 1, 1, all_names), RME_EXISTS);
    answers("a folder is there", rme_create(room, 2, 1, 1, 1, all_names), RME_EXISTS);
    check(symlink("/nowhere/at/all", at("dangling")) == 0, "symlink");
    answers("a link is there", rme_create(at("dangling"), 2, 1, 1, 1, all_names), RME_EXISTS);
    answers("no such folder", rme_create(at("none/file"), 2, 1, 1, 1, all_names), RME_NO_FILE);
    answers("a link to nothing", attach_only(at("dangling"), 0), RME_NO_FILE);
    answers("below a file", attach_only(at("room/file/x"), 0), RME_NO_FILE);
    answers("a folder", attach_only(room, 0), RME_NOT_RME);
    check(strcmp(rme_why(), "it is no regular file") == 0, "why: %s", rme_why());
    check(mkfifo(at("pipe"), 0600) == 0, "mkfifo");
    answers("a pipe", attach_only(at("pipe"), 0), RME_NOT_RME);
    struct rme_handle *handle;
    answers("a pipe, to look at", rme_observe(at("pipe"), &handle), RME_NOT_RME);
    answers("a device", attach_only("/dev/null", 0), RME_NOT_RME);
    check(symlink(made, at("link")) == 0, "symlink");
    answers("a link to the file", attach_only(at("link"), 0), 0);
    heading("making and opening files");
}

/* A process whose standard streams are closed: what it prints while it has the file is not written over it. */
static void try_closed_streams(void) {
    const char *path = fresh("streams", 1, 1, 1, 5);
    fflush(stdout);
    pid_t child = fork();
    if (child == 0) {
        struct rme_handle *handle;
        int written = 0;
        close(STDIN_FILENO);
        close(STDOUT_FILENO);
        close(STDERR_FILENO);
        if (rme_create(at("streams-made"), 1, 1, 1, 5, all_names) != 0 || rme_attach(path, 0, &handle) != 0) {
            _exit(2);
        }
        for (int stream = STDIN_FILENO; stream <= STDERR_FILENO; stream++) {
            written |= write(stream, "printed", 7) == 7;
        }
        int error = rme_recover(handle, NULL);
        error = error != 0 ? error : rme_run(handle, 0, add_5, 1, 0, NULL);
        error = error != 0 ? error : rme_detach(handle);
        _exit(error != 0 ? error : written);
    }
    answers("a process without streams", status_of(child), 0);
    answers("what it printed is not in the file", attach_only(path, 0), 0);
    answers("nor in the one that it made", attach_only(at("streams-made"), 0), 0);
    heading("closed streams");
}

/* A file that there is no room for leaves nothing. */
static void try_no_room(void) {
    char room[4096], made[4200];
    struct rlimit limit, small;
    snprintf(room, sizeof room, "%s", at("small"));
    mkdir(room, 0700);
    snprintf(made, sizeof made, "%s/file", room);
    getrlimit(RLIMIT_FSIZE, &limit);
    small = limit;
    small.rlim_cur = 5000;
    signal(SIGXFSZ, SIG_IGN);
    setrlimit(RLIMIT_FSIZE, &small);
    answers("no room", rme_create(made, 256, 1, 1, 1, all_names), RME_SYSTEM);
    check(errno == EFBIG && strcmp(rme_why(), "write") == 0, "why there is no room: %d %s", errno, rme_why());
    answers("a file that is there needs no room", rme_create(at("link"), 256, 1, 1, 1, all_names), RME_EXISTS);
    setrlimit(RLIMIT_FSIZE, &limit);
    check(entries_of(room) == 0, "and nothing is left of it");
    heading("no room");
}

/* STANCES */

static int call(struct rme_handle *handle, int number) {
    struct rme_operation operations[RME_MOST_OPERATIONS];
    switch (number) {
    case 0:
        return rme_standing(handle, NULL);
    case 1:
        return rme_pending(handle, NULL, operations, NULL);
    case 2:
        return rme_submit(handle, 0, add_5, 1, NULL);
    case 3:
        return rme_enter(handle, 0);
    case 4:
        return rme_commit(handle, NULL);
    case 5:
        return rme_run(handle, 0, add_5, 1, 0, NULL);
    case 6:
        return rme_withdraw(handle, NULL);
    case 7:
        return rme_last(handle, NULL, NULL);
    case 8:
        return rme_owner(handle, 0, NULL);
    case 9:
        return rme_cells(handle, 0, NULL, NULL);
    case 11:
        return rme_section(handle, NULL);
    default:
        return rme_recover(handle, NULL);
    }
}

/* Each call, but the look-ups where `looks`, answers this. */
static void all_answer(const char *name, struct rme_handle *handle, int wanted, int looks) {
    for (int number = 0; number <= 11; number++) {
        int is_look = number == 8 || number == 9;
        if (number != 10 || wanted != RME_DOWN) {
            int error = call(handle, number);
            check(error == (looks && is_look ? 0 : wanted), "%s: call %d answers %d", name, number, error);
        }
    }
}

static void try_beginnings(void) {
    const char *path = fresh("begins", 2, 1, 1, 10);
    struct rme_handle *handle, *other;
    struct rme_stance stance;
    struct rme_shape shape;
    all_answer("no handle", NULL, RME_NOT_ATTACHED, 0);
    answers("no handle to detach", rme_detach(NULL), RME_NOT_ATTACHED);
    must("observe", rme_observe(path, &handle));
    all_answer("no worker", handle, RME_NOT_ATTACHED, 1);
    must("detach", rme_detach(handle));
    must("attach", rme_attach(path, 1, &handle));
    all_answer("not recovered", handle, RME_DOWN, 0);
    check(rme_shape(handle, &shape) == 0 && shape.workers == 2 && shape.locks == 1 && shape.cells == 1 &&
              shape.jobs == 10,
          "its shape");
    answers("the same number", rme_attach(path, 1, &other), RME_TAKEN);
    answers("recover", rme_recover(handle, &stance), 0);
    check(stance.where == RME_READY && stance.number == 0, "it never did anything");
    answers("recover again", rme_recover(handle, &stance), RME_UP);
    answers("another number", attach_only(path, 0), 0);
    must("detach", rme_detach(handle));
    answers("the number is free", attach_only(path, 1), 0);
    heading("handles");
}

static void same_receipt(const char *name, const struct rme_receipt *found, struct rme_receipt wanted) {
    check(found->worker == wanted.worker && found->lock == wanted.lock && found->number == wanted.number &&
              found->place == wanted.place && found->reply == wanted.reply,
          "%s: worker %u, lock %u, number %llu, place %llu, reply %llu", name, found->worker, found->lock,
          (unsigned long long)found->number, (unsigned long long)found->place, (unsigned long long)found->reply);
}

static void try_jobs(void) {
    const char *path = fresh("jobs", 3, 2, 3, 8);
    struct rme_handle *zero = attached(path, 0), *two = attached(path, 2);
    struct rme_receipt receipt;
    const struct rme_operation many[8] = {{RME_SET, 0, 7},  {RME_ADD, 1, UINT64_MAX}, {RME_ADD, 1, 3},
                                          {RME_COPY, 1, 2}, {RME_SWAP, 0, 2},         {RME_GET, 1, 0},
                                          {RME_GET, 2, 0},  {RME_SWAP, 0, 1}};
    uint64_t cells[3];
    int settled, there;
    answers("run", rme_run(zero, 1, add_5, 1, 0, &receipt), 0);
    same_receipt("the first", &receipt, (struct rme_receipt){0, 1, 1, 0, 5});
    answers("run", rme_run(two, 1, add_5, 1, 0, &receipt), 0);
    same_receipt("the second", &receipt, (struct rme_receipt){2, 1, 1, 1, 10});
    answers("run", rme_run(zero, 0, NULL, 0, 0, &receipt), 0);
    same_receipt("an empty job", &receipt, (struct rme_receipt){0, 0, 2, 0, 0});
    /* Cells 7 0 0; cell 1 is 2^64-1, then 2; copied: 7 2 2; swapped: 2 2 7; read twice; 0 and 1 swapped: reply 2. */
    answers("eight operations", rme_run(zero, 0, many, 8, 0, &receipt), 0);
    same_receipt("eight operations", &receipt, (struct rme_receipt){0, 0, 3, 1, 2});
    check(rme_cells(two, 0, cells, &settled) == 0 && settled && cells[0] == 2 && cells[1] == 2 && cells[2] == 7,
          "cells");
    check(rme_cells(two, 1, cells, &settled) == 0 && settled && cells[0] == 10 && cells[1] == 0, "cells of the other");
    answers("no such lock", rme_cells(two, 2, cells, &settled), RME_NO_LOCK);
    answers("no such lock", rme_owner(two, 2, NULL), RME_NO_LOCK);
    memset(&receipt, 0, sizeof receipt);
    check(rme_last(zero, &receipt, &there) == 0 && there, "last");
    same_receipt("last", &receipt, (struct rme_receipt){0, 0, 3, 1, 2});
    must("detach", rme_detach(zero));
    must("detach", rme_detach(two));
    heading("jobs");
}

static void try_refused_jobs(void) {
    struct rme_handle *zero = attached(fresh("refused", 1, 2, 3, 5), 0);
    const struct rme_operation many[9] = {{RME_GET, 0, 0}};
    answers("nine operations", rme_submit(zero, 0, many, 9, NULL), RME_BAD_SCRIPT);
    answers("very many", rme_submit(zero, 0, NULL, UINT32_MAX, NULL), RME_BAD_SCRIPT);
    answers("no lock comes first", rme_submit(zero, 2, many, 9, NULL), RME_NO_LOCK);
    answers("no kind", rme_submit(zero, 0, &(struct rme_operation){5, 0, 0}, 1, NULL), RME_BAD_SCRIPT);
    answers("a get with a value", rme_submit(zero, 0, &(struct rme_operation){RME_GET, 0, 1}, 1, NULL), RME_BAD_SCRIPT);
    for (uint32_t kind = RME_GET; kind <= RME_SWAP; kind++) {
        answers("no cell", rme_submit(zero, 0, &(struct rme_operation){kind, 3, 0}, 1, NULL), RME_NO_CELL);
    }
    answers("no second cell", rme_submit(zero, 0, &(struct rme_operation){RME_COPY, 0, 3}, 1, NULL), RME_NO_CELL);
    answers("no second cell", rme_submit(zero, 0, &(struct rme_operation){RME_SWAP, 0, 3}, 1, NULL), RME_NO_CELL);
    for (unsigned bit = 2; bit < 64; bit++) {
        const struct rme_operation far[2] = {{RME_COPY, 0, (uint64_t)1 << bit},
                                             {RME_SWAP, 0, UINT64_MAX >> (63 - bit)}};
        answers("a second cell far off", rme_submit(zero, 0, far, 1, NULL), RME_NO_CELL);
        answers("a second cell far off", rme_submit(zero, 0, far + 1, 1, NULL), RME_NO_CELL);
        answers("no lock comes first", rme_submit(zero, 2, far, 1, NULL), RME_NO_LOCK);
        const struct rme_operation both[2] = {far[0], {9, 0, 0}};
        answers("no operation comes first", rme_submit(zero, 0, both, 2, NULL), RME_BAD_SCRIPT);
    }
    for (uint64_t job = 1; job <= 5; job++) {
        struct rme_receipt receipt;
        answers("run", rme_run(zero, 0, add_1, 1, 0, &receipt), 0);
        check(receipt.number == job, "a refused job uses no number");
    }
    answers("too many jobs", rme_run(zero, 0, add_1, 1, 0, NULL), RME_TOO_MANY_JOBS);
    answers("no cell comes first", rme_submit(zero, 0, &(struct rme_operation){RME_GET, 3, 0}, 1, NULL), RME_NO_CELL);
    must("detach", rme_detach(zero));
    heading("refused jobs");
}

static void is_at(const char *name, struct rme_handle *handle, uint32_t where, uint32_t lock, uint64_t number) {
    struct rme_stance stance;
    answers(name, rme_standing(handle, &stance), 0);
    check(stance.where == where && stance.lock == lock && stance.number == number, "%s: %u %u %llu", name, stance.where,
          stance.lock, (unsigned long long)stance.number);
}

static const struct rme_operation two[] = {{RME_ADD, 0, 5}, {RME_SET, 0, 9}};

static void try_waiting(void) {
    struct rme_handle *zero = attached(fresh("waiting", 2, 2, 1, 100), 0);
    struct rme_operation operations[RME_MOST_OPERATIONS];
    struct rme_receipt receipt;
    uint32_t lock = 9, count = 9;
    uint64_t number = 0;
    int there = 9;
    answers("idle", rme_enter(zero, 0), RME_IDLE);
    answers("idle", rme_commit(zero, NULL), RME_IDLE);
    answers("idle", rme_section(zero, NULL), RME_IDLE);
    answers("idle", rme_withdraw(zero, NULL), RME_IDLE);
    answers("idle", rme_pending(zero, &lock, operations, &count), RME_IDLE);
    check(rme_last(zero, &receipt, &there) == 0 && there == 0, "no receipt yet");
    check(rme_submit(zero, 1, two, 2, &number) == 0 && number == 1, "number 1");
    is_at("it waits", zero, RME_WAITING, 1, 1);
    check(rme_pending(zero, &lock, operations, &count) == 0 && lock == 1 && count == 2 &&
              memcmp(operations, two, sizeof two) == 0,
          "what it waits with");
    answers("busy", rme_submit(zero, 9, NULL, 9, NULL), RME_BUSY);
    answers("busy", rme_run(zero, 0, add_1, 1, 0, NULL), RME_BUSY);
    answers("busy", rme_last(zero, &receipt, &there), RME_BUSY);
    answers("not inside", rme_commit(zero, NULL), RME_NOT_INSIDE);
    answers("not inside", rme_section(zero, NULL), RME_NOT_INSIDE);
    check(rme_withdraw(zero, &number) == 0 && number == 1, "it gives number 1 up");
    is_at("it is ready", zero, RME_READY, 0, 1);
    check(rme_last(zero, &receipt, &there) == 0 && there == 0, "and has no receipt of it");
    check(rme_submit(zero, 1, two, 2, &number) == 0 && number == 2, "number 2");
    must("detach", rme_detach(zero));
    heading("one that waits");
}

static void try_inside(void) {
    const char *path = fresh("inside", 2, 2, 1, 100);
    struct rme_handle *zero = attached(path, 0), *one = attached(path, 1);
    struct rme_operation operations[RME_MOST_OPERATIONS];
    struct rme_receipt receipt;
    uint32_t lock = 9, count = 9, owner = 9;
    uint64_t cells[1], section = 9;
    int there = 9, settled = 9;
    must("submit", rme_submit(zero, 1, two, 2, NULL));
    answers("enter", rme_enter(zero, 0), 0);
    answers("enter again", rme_enter(zero, 0), 0);
    is_at("it is inside", zero, RME_INSIDE, 1, 1);
    check(rme_section(zero, &section) == 0 && section == 0 && rme_section(zero, NULL) == 0, "in the lock's section 0");
    check(rme_pending(zero, &lock, operations, &count) == 0 && lock == 1 && count == 2, "its job is pending");
    answers("inside", rme_withdraw(zero, NULL), RME_NOT_WAITING);
    answers("inside", rme_last(zero, &receipt, &there), RME_BUSY);
    check(rme_owner(one, 1, &owner) == 0 && owner == 0, "it owns the lock");
    check(rme_owner(one, 0, &owner) == 0 && owner == RME_NOBODY, "nobody owns the other");
    check(rme_cells(one, 1, cells, &settled) == 0 && cells[0] == 0 && !settled, "the cells are not settled");
    answers("the other", rme_run(one, 1, add_1, 1, 0, NULL), RME_BLOCKED);
    int64_t began = milliseconds();
    answers("the other waits", rme_enter(one, 120), RME_BLOCKED);
    check(milliseconds() - began >= 120 && milliseconds() - began < 5000, "for 120 ms, not %d",
          (int)(milliseconds() - began));
    answers("commit", rme_commit(zero, &receipt), 0);
    same_receipt("commit", &receipt, (struct rme_receipt){0, 1, 1, 0, 9});
    check(rme_last(zero, &receipt, &there) == 0 && there == 1, "its receipt is there");
    check(rme_cells(one, 1, cells, &settled) == 0 && cells[0] == 9 && settled, "the cells are settled");
    answers("the other enters", rme_enter(one, RME_FOREVER), 0);
    check(rme_section(one, &section) == 0 && section == 1, "the next section of the lock");
    must("detach", rme_detach(one));
    one = attached(path, 1);
    check(rme_section(one, &section) == 0 && section == 1, "the same for the next process of its number");
    answers("commit", rme_commit(one, &receipt), 0);
    same_receipt("commit", &receipt, (struct rme_receipt){1, 1, 1, 1, 10});
    answers("idle", rme_section(one, &section), RME_IDLE);
    must("detach", rme_detach(zero));
    must("detach", rme_detach(one));
    heading("one that is inside");
}

/* PROCESSES AND THREADS */

static void child_of(const char *path, uint32_t worker, int inside) {
    struct rme_handle *handle = attached(path, worker);
    if (inside && (rme_submit(handle, 0, add_5, 1, NULL) != 0 || rme_enter(handle, 0) != 0)) {
        _exit(1);
    }
    raise(SIGSTOP);
    _exit(0);
}

static pid_t stopped_child(const char *path, uint32_t worker, int inside) {
    int status = 0;
    pid_t child = fork();
    if (child == 0) {
        child_of(path, worker, inside);
    }
    if (child < 0 || waitpid(child, &status, WUNTRACED) != child || !WIFSTOPPED(status)) {
        give_up("FAIL the child did not stop");
    }
    return child;
}

static void try_processes(void) {
    const char *path = fresh("processes", 130, 1, 1, 100);
    uint64_t bits[4] = {9, 9, 9, 9}, cells[1], number = 0;
    struct rme_stance stance;
    struct rme_receipt receipt;
    int settled;
    pid_t child = stopped_child(path, 2, 1), far = stopped_child(path, 129, 0);
    answers("a living process has it, though it is stopped", attach_only(path, 2), RME_TAKEN);
    check(rme_living(path, bits) == 0 && bits[0] == 4 && bits[1] == 0 && bits[2] == 2 && bits[3] == 0, "who lives");
    kill(far, SIGKILL);
    status_of(far);
    struct rme_handle *zero = attached(path, 0), *two;
    check(rme_living(path, bits) == 0 && bits[0] == 5 && bits[2] == 0, "who lives, with this process's own");
    answers("blocked", rme_run(zero, 0, add_1, 1, 0, NULL), RME_BLOCKED);
    kill(child, SIGKILL);
    status_of(child);
    answers("blocked by a dead one", rme_enter(zero, 5), RME_BLOCKED);
    check(rme_cells(zero, 0, cells, &settled) == 0 && cells[0] == 0 && !settled, "its job did not count yet");
    must("attach", rme_attach(path, 2, &two));
    check(rme_recover(two, &stance) == 0 && stance.where == RME_INSIDE && stance.number == 1 && stance.lock == 0,
          "the next process of the number is inside");
    answers("blocked still", rme_enter(zero, 0), RME_BLOCKED);
    must("detach", rme_detach(two));
    answers("a detach leaves nothing", rme_enter(zero, 0), RME_BLOCKED);
    two = attached(path, 2);
    answers("commit", rme_commit(two, &receipt), 0);
    same_receipt("commit", &receipt, (struct rme_receipt){2, 0, 1, 0, 5});
    answers("now", rme_enter(zero, 0), 0);
    answers("commit", rme_commit(zero, &receipt), 0);
    same_receipt("commit", &receipt, (struct rme_receipt){0, 0, 1, 1, 6});
    must("submit", rme_submit(zero, 0, add_1, 1, &number));
    must("detach", rme_detach(zero));
    must("attach", rme_attach(path, 0, &zero));
    check(rme_recover(zero, &stance) == 0 && stance.where == RME_WAITING && stance.number == 2,
          "it waits with its job");
    check(rme_withdraw(zero, &number) == 0 && number == 2, "and gives it up");
    must("detach", rme_detach(zero));
    must("detach", rme_detach(two));
    heading("processes");
}

/* Whether this process maps the file. */
static int is_mapped(const char *path) {
    char line[8192];
    int found = 0;
    FILE *maps = fopen("/proc/self/maps", "r");
    while (maps != NULL && fgets(line, sizeof line, maps) != NULL) {
        found |= strstr(line, path) != NULL;
    }
    if (maps != NULL) {
        fclose(maps);
    }
    return found;
}

static void try_forks(void) {
    const char *path = fresh("forks", 2, 1, 1, 100);
    struct rme_handle *handle = attached(path, 0);
    pid_t child = fork();
    if (child == 0) {
        all_answer("a forked child", handle, RME_FORKED, 0);
        answers("a child attaches the parent's number", attach_only(path, 0), RME_TAKEN);
        answers("a child attaches its own", attach_only(path, 1), 0);
        answers("a child lets go", rme_detach(handle), RME_FORKED);
        _exit(checks_failed != 0);
    }
    check(status_of(child) == 0, "a forked child");
    child = fork();
    if (child == 0) {
        _exit(is_mapped(path) != 0);
    }
    check(is_mapped(path) && status_of(child) == 0, "a forked child does not have the words");
    answers("the parent goes on", rme_run(handle, 0, add_5, 1, 0, NULL), 0);
    answers("and has its number", attach_only(path, 0), RME_TAKEN);
    must("detach", rme_detach(handle));
    heading("forked children");
}

/* A child that has the file open when its parent is gone. */
static void try_orphans(void) {
    const char *path = fresh("orphans", 1, 1, 1, 100);
    struct rme_handle *handle = attached(path, 0);
    int pipes[2];
    char byte;
    check(pipe(pipes) == 0, "pipe");
    pid_t child = fork();
    if (child == 0) {
        close(pipes[1]);
        _exit(read(pipes[0], &byte, 1) != 0); /* it ends when the parent closes its end */
    }
    must("detach", rme_detach(handle));
    answers("an orphan keeps the claim", attach_only(path, 0), RME_TAKEN);
    close(pipes[1]);
    check(status_of(child) == 0, "the orphan ends");
    close(pipes[0]);
    answers("and then it is free", attach_only(path, 0), 0);
    heading("orphans");
}

/* Children that do not keep their parent's number: one that let go of it, and one that runs another program. */
static void try_lost_children(void) {
    const char *path = fresh("children", 2, 1, 1, 100);
    struct rme_handle *handle = attached(path, 0);
    pid_t child = fork();
    if (child == 0) {
        answers("a child lets go", rme_detach(handle), RME_FORKED);
        answers("and again", rme_detach(handle), RME_FORKED);
        raise(SIGSTOP);
        _exit(checks_failed != 0);
    }
    waitpid(child, NULL, WUNTRACED);
    must("detach", rme_detach(handle));
    answers("a child that let go does not keep it", attach_only(path, 0), 0);
    kill(child, SIGCONT);
    check(status_of(child) == 0, "the child ends");
    handle = attached(path, 0);
    child = fork();
    if (child == 0) {
        execl("/bin/sleep", "sleep", "5", (char *)NULL);
        _exit(1);
    }
    must("detach", rme_detach(handle));
    for (int tries = 0; tries < 2000 && attach_only(path, 0) == RME_TAKEN; tries++) {
        usleep(1000);
    }
    answers("another program does not keep it", attach_only(path, 0), 0);
    kill(child, SIGKILL);
    status_of(child);
    handle = attached(path, 0);
    child = fork();
    if (child == 0) {
        /* It closes all files and opens its own, which get their numbers. */
        struct rme_handle *own = NULL;
        for (int file = STDERR_FILENO + 1; file < 100; file++) {
            close(file);
        }
        int other = open("/dev/null", O_RDONLY | O_CLOEXEC);
        answers("let go", rme_detach(handle), RME_FORKED);
        check(other > STDERR_FILENO && close(other) == 0, "its own file is open still");
        must("attach", rme_attach(path, 1, &own));
        for (int file = STDERR_FILENO + 1; file < 100; file++) {
            close(file);
        }
        other = open("/dev/null", O_RDONLY | O_CLOEXEC);
        answers("its own handle", rme_detach(own), 0);
        check(other > STDERR_FILENO && close(other) == 0, "its own file is open after that too");
        _exit(checks_failed != 0);
    }
    check(status_of(child) == 0, "a child with other files");
    child = fork();
    if (child == 0) {
        /* The same, and one of them is the file. */
        struct rme_handle *own = NULL;
        for (int file = STDERR_FILENO + 1; file < 100; file++) {
            close(file);
        }
        must("attach", rme_attach(path, 1, &own));
        answers("let go", rme_detach(handle), RME_FORKED);
        answers("its own claim stands", attach_only(path, 1), RME_TAKEN);
        _exit(checks_failed != 0 || rme_detach(own) != 0);
    }
    check(status_of(child) == 0, "a child with a worker of its own");
    must("detach", rme_detach(handle));
    heading("children that let go");
}

/* HANDLES OF ONE FILE IN ONE PROCESS */

static void close_all(void) {
    for (int file = STDERR_FILENO + 1; file < 100; file++) {
        close(file);
    }
}

/* A handle whose open file was closed, and another one of the same file that has its number since. */
static void try_reused_number(const char *path) {
    struct rme_handle *first, *second;
    fflush(stdout);
    pid_t child = fork();
    if (child == 0) {
        close_all();
        must("attach", rme_attach(path, 0, &first));
        check(fcntl(STDERR_FILENO + 1, F_GETFD) >= 0, "its number");
        close_all();
        must("attach", rme_attach(path, 1, &second));
        answers("a handle that lost its open file is detached", rme_detach(first), 0);
        check(fcntl(STDERR_FILENO + 1, F_GETFD) >= 0, "the other one's file is open still");
        answers("and has its claim", attach_only(path, 1), RME_TAKEN);
        answers("recover", rme_recover(second, NULL), 0);
        answers("run", rme_run(second, 0, add_5, 1, 0, NULL), 0);
        answers("detach", rme_detach(second), 0);
        check(fcntl(STDERR_FILENO + 1, F_GETFD) < 0, "and its file is closed then");
        fflush(stdout);
        _exit(checks_failed != 0);
    }
    check(status_of(child) == 0, "two handles of one file");
    answers("no claim is left", attach_only(path, 0), 0);
    answers("no claim is left", attach_only(path, 1), 0);
}

/* In a file system whose mappings do not keep the claim, where this process may make one. */
static void overlaid(void) {
    char options[12000];
    const char *path = fresh("overlay/lower/file", 2, 1, 1, 100);
    snprintf(options, sizeof options, "lowerdir=%s,upperdir=%s,workdir=%s", at("overlay/lower"), at("overlay/upper"),
             at("overlay/work"));
    if (unshare(CLONE_NEWNS) != 0 || mount("none", "/", NULL, MS_REC | MS_PRIVATE, NULL) != 0 ||
        mount("overlay", at("overlay/merged"), "overlay", 0, options) != 0) {
        printf("     an overlay is not tried: %s\n", strerror(errno));
        fflush(stdout);
        _exit(0);
    }
    path = at("overlay/merged/file");
    answers("attach", attach_only(path, 0), 0);
    try_reused_number(path);
    fflush(stdout);
    _exit(checks_failed != 0);
}

static void try_reused_numbers(void) {
    static const char *const folders[] = {"overlay", "overlay/lower", "overlay/upper", "overlay/work",
                                          "overlay/merged"};
    try_reused_number(fresh("reused", 2, 1, 1, 100));
    for (size_t i = 0; i < sizeof folders / sizeof folders[0]; i++) {
        check(mkdir(at(folders[i]), 0700) == 0, "mkdir");
    }
    fflush(stdout);
    pid_t child = fork();
    if (child == 0) {
        overlaid();
    }
    check(status_of(child) == 0, "in an overlay");
    heading("numbers of open files that are used again");
}

static void is_held(const char *name, const char *path, uint32_t worker, pid_t wanted) {
    uint32_t process = 9;
    answers(name, rme_holder(path, worker, &process), 0);
    check(process == (uint32_t)wanted, "%s: %u in place of %d", name, process, (int)wanted);
}

static void try_holders(void) {
    const char *path = fresh("holders", 130, 1, 1, 100);
    pid_t child = stopped_child(path, 2, 1), far = stopped_child(path, 129, 0);
    is_held("a process that is stopped", path, 2, child);
    is_held("another one", path, 129, far);
    is_held("nobody", path, 1, 0);
    answers("no such worker", rme_holder(path, 130, NULL), RME_NO_WORKER);
    answers("no such file", rme_holder(at("none"), 0, NULL), RME_NO_FILE);
    struct rme_handle *handle = attached(path, 12);
    is_held("this process", path, 12, getpid());
    is_held("its neighbour", path, 13, 0);
    pid_t forked = fork();
    if (forked == 0) {
        raise(SIGSTOP);
        _exit(0);
    }
    waitpid(forked, NULL, WUNTRACED);
    uint32_t process = 0;
    check(rme_holder(path, 12, &process) == 0 && (process == (uint32_t)getpid() || process == (uint32_t)forked),
          "one of two: %u", process);
    must("detach", rme_detach(handle));
    is_held("a forked child that has it open", path, 12, forked);
    kill(forked, SIGKILL);
    kill(child, SIGKILL);
    kill(far, SIGKILL);
    status_of(forked);
    status_of(child);
    status_of(far);
    is_held("a dead one", path, 2, 0);
    is_held("a dead one", path, 12, 0);
    heading("holders");
}

static void *wait_for_lock(void *word) {
    static int error;
    error = rme_enter(word, 1000);
    return &error;
}

static void try_threads(void) {
    const char *path = fresh("threads", 2, 1, 1, 100);
    struct rme_handle *zero = attached(path, 0), *one = attached(path, 1);
    pthread_t thread;
    void *told = NULL;
    must("submit", rme_submit(zero, 0, add_5, 1, NULL));
    must("enter", rme_enter(zero, 0));
    must("submit", rme_submit(one, 0, add_5, 1, NULL));
    pthread_create(&thread, NULL, wait_for_lock, one);
    int error = 0;
    for (int tries = 0; tries < 2000 && error != RME_IN_USE; tries++) {
        error = rme_standing(one, NULL);
        usleep(100);
    }
    answers("two threads in one handle", error, RME_IN_USE);
    all_answer("in use", one, RME_IN_USE, 0);
    answers("in use", rme_detach(one), RME_IN_USE);
    answers("another handle", rme_commit(zero, NULL), 0);
    pthread_join(thread, &told);
    answers("the thread enters", *(int *)told, 0);
    answers("and another goes on", rme_commit(one, NULL), 0);
    must("detach", rme_detach(zero));
    must("detach", rme_detach(one));
    heading("threads");
}

struct adder {
    const char *path;
    uint32_t worker;
    int error;
};

static void *add_many(void *word) {
    struct adder *self = word;
    struct rme_handle *handle = attached(self->path, self->worker);
    for (int job = 0; job < 500 && self->error == 0; job++) {
        self->error = rme_run(handle, 0, add_1, 1, RME_FOREVER, NULL);
    }
    must("detach", rme_detach(handle));
    return NULL;
}

static void try_many_threads(void) {
    const char *path = fresh("adders", 8, 1, 1, 500);
    struct adder adders[8];
    pthread_t threads[8];
    uint64_t cells[1] = {0};
    struct rme_handle *handle;
    for (uint32_t i = 0; i < 8; i++) {
        adders[i] = (struct adder){path, i, 0};
        pthread_create(&threads[i], NULL, add_many, &adders[i]);
    }
    for (uint32_t i = 0; i < 8; i++) {
        pthread_join(threads[i], NULL);
        answers("a thread with a handle of its own", adders[i].error, 0);
    }
    must("observe", rme_observe(path, &handle));
    check(rme_cells(handle, 0, cells, NULL) == 0 && cells[0] == 4000, "the cell is %llu", (unsigned long long)cells[0]);
    must("detach", rme_detach(handle));
    heading("threads with handles of their own");
}

/* RENEWAL */

/* Ten cells, and what they are then; 0 where nothing set them. */
static const struct rme_operation sets[] = {{RME_SET, 0, 1},  {RME_SET, 3, UINT64_MAX}, {RME_SET, 5, 6},
                                            {RME_SET, 6, 7},  {RME_SET, 7, 8},          {RME_SET, 8, 9},
                                            {RME_SET, 9, 10}, {RME_SET, 10, 11}};
static const struct rme_operation more[] = {{RME_SET, 11, 12}, {RME_SET, 1, 2}};
static const uint64_t set_cells[12] = {1, 2, 0, UINT64_MAX, 0, 6, 7, 8, 9, 10, 11, 12};

/* A worker makes a job, alone in its file. */
static void run_alone(const char *path, uint32_t worker, uint32_t lock, const struct rme_operation *job,
                      uint32_t count) {
    struct rme_handle *handle = attached(path, worker);
    must("run", rme_run(handle, lock, job, count, 0, NULL));
    must("detach", rme_detach(handle));
}

static void try_refused_renewals(void) {
    char next[4096];
    const char *path = fresh("busy", 3, 2, 12, 5);
    snprintf(next, sizeof next, "%s", at("busy-next"));
    struct rme_handle *handle = attached(path, 2);
    answers("who lives has its number", rme_renew(path, next), RME_TAKEN);
    must("submit", rme_submit(handle, 1, add_1, 1, NULL));
    must("detach", rme_detach(handle));
    answers("one waits", rme_renew(path, next), RME_BUSY);
    handle = attached(path, 2);
    must("enter", rme_enter(handle, 0));
    must("detach", rme_detach(handle));
    answers("one is inside", rme_renew(path, next), RME_BUSY);
    handle = attached(path, 2);
    must("commit", rme_commit(handle, NULL));
    must("detach", rme_detach(handle));
    answers("nothing was made", attach_only(next, 0), RME_NO_FILE);
    answers("the new name is there", rme_renew(path, path), RME_EXISTS);
    answers("no such folder", rme_renew(path, at("none/next")), RME_NO_FILE);
    answers("no old file", rme_renew(next, at("none")), RME_NO_FILE);
    answers("the old file stands", attach_only(path, 0), 0);
    heading("refused renewals");
}

static void is_moved(const char *path) {
    char third[4096];
    uint64_t bits[4];
    struct rme_handle *handle;
    snprintf(third, sizeof third, "%s", at("third"));
    answers("attach", attach_only(path, 0), RME_MOVED);
    answers("observe", rme_observe(path, &handle), RME_MOVED);
    answers("living", rme_living(path, bits), RME_MOVED);
    answers("holder", rme_holder(path, 0, NULL), RME_MOVED);
    answers("renew", rme_renew(path, third), RME_MOVED);
    answers("and nothing was made", attach_only(third, 0), RME_NO_FILE);
}

static void try_renewal(void) {
    char path[4096], next[4096];
    uint64_t cells[12];
    struct rme_receipt receipt;
    struct rme_stance stance;
    uint32_t owner;
    int there, settled;
    snprintf(path, sizeof path, "%s", fresh("renew", 3, 2, 12, 5));
    snprintf(next, sizeof next, "%s", at("renewed"));
    run_alone(path, 2, 1, sets, 8);
    run_alone(path, 2, 1, more, 2);
    struct rme_handle *handle;
    must("observe", rme_observe(path, &handle));
    answers("a look before it", rme_owner(handle, 1, &owner), 0);
    answers("renew", rme_renew(path, next), 0);
    is_moved(path);
    answers("a look after it", rme_owner(handle, 1, &owner), RME_MOVED);
    answers("a look after it", rme_cells(handle, 1, cells, &settled), RME_MOVED);
    answers("its shape", rme_shape(handle, NULL), 0);
    must("detach", rme_detach(handle));
    handle = attached(next, 2);
    check(rme_cells(handle, 0, cells, &settled) == 0 && settled && cells[0] == 0 && cells[11] == 0, "cells of lock 0");
    check(rme_cells(handle, 1, cells, &settled) == 0 && settled && memcmp(cells, set_cells, sizeof cells) == 0,
          "of lock 1");
    check(rme_owner(handle, 1, &owner) == 0 && owner == RME_NOBODY, "nobody owns it");
    check(rme_last(handle, &receipt, &there) == 0 && !there, "receipts do not carry over");
    /* Ten cells took two jobs of worker 0, so the places begin at 2. */
    answers("run", rme_run(handle, 1, add_1, 1, 0, &receipt), 0);
    same_receipt("run", &receipt, (struct rme_receipt){2, 1, 1, 2, 2});
    must("detach", rme_detach(handle));
    must("attach", rme_attach(next, 0, &handle));
    check(rme_recover(handle, &stance) == 0 && stance.number == 3, "worker 0 has used two jobs, and given one up");
    check(rme_last(handle, NULL, &there) == 0 && !there, "and has no receipt of them");
    must("detach", rme_detach(handle));
    answers("renew the new one", rme_renew(next, at("renewed-again")), 0);
    heading("renewal");
}

static void is_outcome(const char *name, const char *path, uint32_t worker, uint64_t number, int there,
                       struct rme_receipt wanted) {
    struct rme_receipt receipt = {9, 9, 9, 9, 9};
    uint64_t found = 9;
    int is_there = 9;
    answers(name, rme_outcome(path, worker, &found, &receipt, &is_there), 0);
    check(found == number && is_there == there, "%s: number %llu, there %d", name, (unsigned long long)found, is_there);
    same_receipt(name, &receipt, there ? wanted : (struct rme_receipt){9, 9, 9, 9, 9});
}

/* What became of a dead process's last job, also once its file was renewed. */
static void try_outcomes(void) {
    char path[4096], next[4096];
    const struct rme_receipt none = {0};
    snprintf(path, sizeof path, "%s", fresh("outcomes", 4, 2, 1, 5));
    snprintf(next, sizeof next, "%s", at("outcomes-next"));
    run_alone(path, 1, 1, add_5, 1);
    run_alone(path, 1, 0, add_5, 1);
    run_alone(path, 3, 0, add_5, 1);
    struct rme_handle *handle = attached(path, 3);
    must("submit", rme_submit(handle, 0, add_1, 1, NULL));
    answers("one is pending", rme_outcome(path, 3, NULL, NULL, NULL), RME_BUSY);
    must("withdraw", rme_withdraw(handle, NULL));
    is_outcome("a living one", path, 3, 2, 0, none);
    must("detach", rme_detach(handle));
    for (int time = 0; time < 2; time++) {
        is_outcome("none", path, 0, 0, 0, none);
        is_outcome("the last of two", path, 1, 2, 1, (struct rme_receipt){1, 0, 2, 0, 5});
        is_outcome("withdrawn", path, 3, 2, 0, none);
        answers("no such worker", rme_outcome(path, 4, NULL, NULL, NULL), RME_NO_WORKER);
        answers("no words of its answers", rme_outcome(path, 1, NULL, NULL, NULL), 0);
        answers(time == 0 ? "renew" : "renewed", rme_renew(path, next), time == 0 ? 0 : RME_MOVED);
    }
    is_outcome("in the new file it begins anew", next, 1, 0, 0, none);
    answers("no such file", rme_outcome(at("none"), 0, NULL, NULL, NULL), RME_NO_FILE);
    heading("outcomes");
}

/* Looks at the last job of a worker that makes one after the other: each answer is of one job. */
static void try_living_outcomes(void) {
    const char *path = fresh("living", 1, 1, 1, 1000000);
    unsigned found = 0;
    fflush(stdout);
    pid_t child = fork();
    if (child == 0) {
        struct rme_handle *handle = attached(path, 0);
        while (rme_run(handle, 0, add_1, 1, 0, NULL) == 0) {
        }
        _exit(0);
    }
    for (int64_t end = milliseconds() + 300; milliseconds() < end;) {
        struct rme_receipt receipt = {0};
        uint64_t number = 0;
        int there = 0, error = rme_outcome(path, 0, &number, &receipt, &there);
        check(error == RME_BUSY || (error == 0 && there == (number > 0) &&
                                    (number == 0 || (receipt.number == number && receipt.place == number - 1 &&
                                                     receipt.reply == number))),
              "an outcome of a living worker: %d, number %llu, place %llu", error, (unsigned long long)number,
              (unsigned long long)receipt.place);
        found += error == 0 && number > 0;
    }
    kill(child, SIGKILL);
    status_of(child);
    check(found > 0, "some were answered");
    heading("outcomes of a living worker");
}

/* A file of one job a worker holds what one job can set. */
static void try_short_renewals(void) {
    char path[4096], next[4096];
    snprintf(next, sizeof next, "%s", at("few-next"));
    snprintf(path, sizeof path, "%s", fresh("few", 2, 1, 16, 1));
    run_alone(path, 0, 0, sets, 8);
    answers("one job is enough for eight cells", rme_renew(path, next), 0);
    unlink(next);
    snprintf(path, sizeof path, "%s", fresh("fewer", 2, 1, 16, 1));
    run_alone(path, 0, 0, sets, 8);
    run_alone(path, 1, 0, more, 1);
    unsigned entries = entries_of(folder);
    answers("but not for nine", rme_renew(path, next), RME_TOO_MANY_JOBS);
    check(entries_of(folder) == entries, "nothing is beside it");
    answers("and the old one stands", attach_only(path, 0), 0);
    heading("renewals without a job left");
}

/* Whether the file is marked as moved, by a read of its own. */
static uint64_t mark_of(const char *path) {
    uint64_t mark = 9;
    int file = open(path, O_RDONLY | O_CLOEXEC);
    if (pread(file, &mark, sizeof mark, 104) != sizeof mark) {
        give_up("FAIL pread");
    }
    close(file);
    return mark;
}

/* A process that attaches again and again, until the file is moved: while it has a worker, it is not. */
static int attach_until_moved(const char *path, uint32_t worker) {
    int error = 0, wrong = 0;
    while (error == 0 || error == RME_TAKEN) {
        struct rme_handle *handle;
        error = rme_attach(path, worker, &handle);
        if (error == 0) {
            wrong |= mark_of(path) != 0;
            rme_detach(handle);
        }
    }
    return wrong || error != RME_MOVED;
}

static int renew_once(const char *path, const char *next) {
    int error;
    while ((error = rme_renew(path, next)) == RME_TAKEN) {
    }
    return error;
}

/* What is done once, just before the next claim: the linker puts these around fcntl, by --wrap. */
static void (*before_claim)(void);

int __real_fcntl(int file, int command, ...);

int __wrap_fcntl(int file, int command, void *claim) {
    if (command == F_OFD_SETLK && before_claim != NULL) {
        void (*call)(void) = before_claim;
        before_claim = NULL;
        call();
    }
    return __real_fcntl(file, command, claim);
}

static char late_path[4096], late_next[4096];

static void renew_now(void) {
    unlink(late_next);
    must("renew", rme_renew(late_path, late_next));
}

/* A renewal that is made when a file was opened and is not claimed yet. */
static void try_late_claims(void) {
    snprintf(late_next, sizeof late_next, "%s", at("late-next"));
    snprintf(late_path, sizeof late_path, "%s", fresh("late", 1, 1, 1, 1));
    before_claim = renew_now;
    answers("an attach that comes late", attach_only(late_path, 0), RME_MOVED);
    fresh("late", 1, 1, 1, 1);
    before_claim = renew_now;
    answers("a renewal that comes late", rme_renew(late_path, at("later")), RME_MOVED);
    answers("and nothing was made", attach_only(at("later"), 0), RME_NO_FILE);
    heading("late claims");
}

/* Two renewals at once, and processes that attach: one renewal is made, and nobody has a worker of a moved file. */
static void try_races(void) {
    char path[4096], next[2][4096];
    for (int round = 0; round < 60; round++) {
        pid_t children[4];
        int renewed = 0;
        snprintf(path, sizeof path, "%s", fresh("race", 2, 1, 1, 10));
        for (int at_next = 0; at_next < 2; at_next++) {
            snprintf(next[at_next], sizeof next[0], "%s/race-%d", folder, at_next);
            unlink(next[at_next]);
        }
        for (int child = 0; child < 4; child++) {
            children[child] = fork();
            if (children[child] == 0) {
                int error = child < 2 ? renew_once(path, next[child]) : attach_until_moved(path, (uint32_t)child % 2);
                _exit(child < 2 ? error : error + 1);
            }
        }
        for (int child = 0; child < 4; child++) {
            int status = status_of(children[child]);
            renewed += status == 0;
            check(status == 0 || status == (child < 2 ? RME_MOVED : 1), "child %d ended with %d", child, status);
        }
        check(renewed == 1 && (access(next[0], F_OK) == 0) + (access(next[1], F_OK) == 0) == 1, "one is made");
    }
    heading("renewals at once");
}

/* A renewal that is killed leaves one file of use at most, and the next call finishes it, whatever it left. */
static void try_killed_renewals(void) {
    char path[4096], next[4096];
    unsigned moved = 0, killed = 0;
    snprintf(next, sizeof next, "%s", at("killed-next"));
    for (int round = 0; round < 150; round++) {
        uint64_t cells[16] = {0};
        int status = 0, settled = 0;
        snprintf(path, sizeof path, "%s", fresh("killed", 40, 1, 16, 10));
        unlink(next);
        run_alone(path, 0, 0, sets, 8);
        run_alone(path, 0, 0, more, 2);
        pid_t child = fork();
        if (child == 0) {
            _exit(rme_renew(path, next));
        }
        nanosleep(&(struct timespec){.tv_nsec = round * 8000}, NULL);
        kill(child, SIGKILL);
        waitpid(child, &status, 0);
        killed += WIFSIGNALED(status) != 0;
        int error = attach_only(path, 0), of_next = attach_only(next, 0);
        check(error == RME_MOVED || error == 0, "a killed renewal: %d", error);
        check(of_next == RME_UNFINISHED || of_next == (error == 0 ? RME_NO_FILE : 0), "its new file: %d", of_next);
        moved += error == RME_MOVED;
        error = rme_renew(path, next);
        check(error == 0 || (error == RME_MOVED && of_next == 0), "renew again: %d", error);
        answers("the old one is moved", attach_only(path, 0), RME_MOVED);
        struct rme_handle *handle;
        must("observe", rme_observe(next, &handle));
        check(rme_cells(handle, 0, cells, &settled) == 0 && settled && memcmp(cells, set_cells, sizeof set_cells) == 0,
              "cells");
        must("detach", rme_detach(handle));
    }
    printf("     %u renewals of 150 killed, %u of all were over\n", killed, moved);
    heading("renewals that are killed");
}

/* Processes that make one file at once: one makes it, and nothing is beside it. */
static void try_creators(void) {
    char room[4096], made[4200];
    snprintf(room, sizeof room, "%s", at("creators"));
    mkdir(room, 0700);
    for (unsigned round = 0; round < 50; round++) {
        pid_t children[4];
        int made_by = 0, refused = 0;
        snprintf(made, sizeof made, "%s/%u", room, round);
        for (int child = 0; child < 4; child++) {
            children[child] = fork();
            if (children[child] == 0) {
                _exit(rme_create(made, 2, 1, 1, 1, all_names));
            }
        }
        for (int child = 0; child < 4; child++) {
            int status = status_of(children[child]);
            made_by += status == 0;
            refused += status == RME_EXISTS;
        }
        check(made_by == 1 && refused == 3, "round %u: made by %d, refused to %d", round, made_by, refused);
        answers("the file", attach_only(made, 1), 0);
    }
    check(entries_of(room) == 50, "nothing is beside them");
    heading("files made at once");
}

static void try_boot(void) {
    const char *path = fresh("boot", 1, 1, 1, 1);
    uint64_t bits[4];
    struct rme_handle *handle;
    int file = open(path, O_RDWR | O_CLOEXEC);
    check(pwrite(file, "01234567-89ab-cdef-0123-456789abcdef", 36, 24) == 36, "another boot number");
    close(file);
    answers("an earlier boot", rme_attach(path, 0, &handle), RME_OLD_BOOT);
    answers("an earlier boot", rme_observe(path, &handle), RME_OLD_BOOT);
    answers("an earlier boot", rme_living(path, bits), RME_OLD_BOOT);
    answers("an earlier boot", rme_renew(path, at("booted")), RME_OLD_BOOT);
    heading("an earlier boot");
}

/* Whether nothing is read: the linker puts this around read, by --wrap. */
static int reads_nothing;

ssize_t __real_read(int file, void *bytes, size_t size);

ssize_t __wrap_read(int file, void *bytes, size_t size) {
    return reads_nothing ? 0 : __real_read(file, bytes, size);
}

/* A machine whose boot number is empty, as in some containers. */
static void try_no_boot(void) {
    const char *path = fresh("no-boot", 1, 1, 1, 1);
    reads_nothing = 1;
    errno = 0;
    answers("no boot number", attach_only(path, 0), RME_SYSTEM);
    check(errno == ENODATA && strstr(rme_why(), "boot number") != NULL, "why: %d %s", errno, rme_why());
    reads_nothing = 0;
    heading("no boot number");
}

static void try_texts(void) {
    const char *known[112];
    int count = 0;
    for (int error = -1; error <= 112; error++) {
        const char *text = rme_error_text(error);
        if (strcmp(text, rme_error_text(1000)) != 0) {
            for (int other = 0; other < count; other++) {
                check(strcmp(known[other], text) != 0, "the text of %d stands twice", error);
            }
            known[count++] = text;
        }
    }
    check(count == 28, "%d numbers have a text", count);
    heading("texts");
}

int main(int count, char **words) {
    if (count != 2) {
        return 2;
    }
    snprintf(folder, sizeof folder, "%s", words[1]);
    setvbuf(stdout, NULL, _IOLBF, 0);
    try_shapes();
    try_names();
    try_making();
    try_closed_streams();
    try_no_room();
    try_beginnings();
    try_jobs();
    try_refused_jobs();
    try_waiting();
    try_inside();
    try_processes();
    try_forks();
    try_orphans();
    try_lost_children();
    try_reused_numbers();
    try_holders();
    try_threads();
    try_many_threads();
    try_refused_renewals();
    try_renewal();
    try_outcomes();
    try_living_outcomes();
    try_short_renewals();
    try_late_claims();
    try_races();
    try_killed_renewals();
    try_creators();
    try_boot();
    try_no_boot();
    try_texts();
    return ends();
}
