/* damage FOLDER: files in which something is not as it was left.

   Each byte and each number of the first page, the file's size, and each word, set to other values, in worlds where
   workers are dead in the midst of what they do. A call then answers one of its refusals and never falls; where it
   answers RME_DAMAGED it has stored nothing more, answers the same again, and goes on as if nothing had been once the
   word is mended. */
#include "check.h"
#include "steps.h"

#include <errno.h>
#include <fcntl.h>
#include <sys/mman.h>
#include <sys/stat.h>
#include <sys/wait.h>

enum { WORKERS = 3, LOCKS = 2, CELLS = 2, JOBS = 10, PAGE = 4096, LIVES_AT = 2048 };

/* Of three workers a lock has 4 leaves: 31 words a worker, 4 + 2 + 2C a lock. */
enum { WORDS = 31 * WORKERS + LOCKS * (6 + 2 * CELLS), SIZE = PAGE + 8 * WORDS };

static char path[4096];
static unsigned char template[SIZE];
static unsigned char *map;

static const struct rme_operation add[] = {{RME_ADD, 0, 5}, {RME_SWAP, 0, 1}};

static void read_template(void) {
    int file = open(path, O_RDONLY | O_CLOEXEC);
    if (file < 0 || read(file, template, SIZE) != SIZE) {
        give_up("FAIL read: %s", strerror(errno));
    }
    close(file);
}

static void write_file(const unsigned char *bytes, size_t size) {
    int file = open(path, O_WRONLY | O_TRUNC | O_CLOEXEC);
    if (file < 0 || write(file, bytes, size) != (ssize_t)size) {
        give_up("FAIL write: %s", strerror(errno));
    }
    close(file);
}

static void create(void) {
    unlink(path);
    must("create", rme_create(path, WORKERS, LOCKS, CELLS, JOBS, all_names));
}

static int attach_only(uint32_t worker) {
    struct rme_handle *handle = NULL;
    int error = rme_attach(path, worker, &handle);
    return error == 0 ? rme_detach(handle) : error;
}

/* THE FIRST PAGE */

/* What a change of this byte may do: where it is in no field that may have another value, the file is refused. */
static void try_page(const unsigned char *bytes, size_t byte, const char *how) {
    write_file(bytes, SIZE);
    int error = attach_only(0);
    int is_jobs = byte >= 88 && byte < 96, is_names = byte >= 112 && byte < 624;
    int is_life = byte >= LIVES_AT && byte < LIVES_AT + 8 * WORKERS;
    if (memcmp(bytes, template, SIZE) == 0) {
        return;
    }
    if (byte >= 24 && byte < 64) {
        check(error == RME_OLD_BOOT, "%s of byte %zu: %d", how, byte, error);
    } else if (byte >= 8 && byte < 16) {
        /* The worker has no life yet, so that the page is one of version 1 too. */
        uint64_t version;
        memcpy(&version, bytes + 8, 8);
        check(error == (version == 1 ? 0 : RME_NOT_RME), "%s of byte %zu: %d", how, byte, error);
    } else if (is_life) {
        check(error == 0, "%s of byte %zu: %d", how, byte, error);
    } else if (byte >= 104 && byte < 112) {
        uint64_t mark;
        memcpy(&mark, bytes + 104, 8);
        int is_moved = mark == 1 || mark >> 48 == 0x4d4f;
        int wanted = is_moved ? RME_MOVED : mark >> 48 == 0x554e ? RME_UNFINISHED : RME_NOT_RME;
        check(error == wanted, "%s of byte %zu: %d", how, byte, error);
    } else {
        check(error == RME_NOT_RME || (error == 0 && (is_jobs || is_names)), "%s of byte %zu: %d", how, byte, error);
    }
    if (error == RME_NOT_RME) {
        check(rme_why()[0] != 0, "%s of byte %zu has no why", how, byte);
    }
}

static void try_pages(void) {
    static const unsigned char flips[] = {1, 0x80, 0xff, 0x20};
    static const uint64_t values[] = {0, 1, 2, 16, 17, 256, 257, 1000001, (uint64_t)1 << 32,
                                      (uint64_t)0x4d4f << 48, (uint64_t)0x554e << 48, UINT64_MAX};
    unsigned char bytes[SIZE];
    create();
    read_template();
    for (size_t byte = 0; byte < PAGE; byte++) {
        for (size_t flip = 0; flip < sizeof flips; flip++) {
            memcpy(bytes, template, SIZE);
            bytes[byte] ^= flips[flip];
            try_page(bytes, byte, "a change");
        }
    }
    for (size_t byte = 0; byte < PAGE; byte += 8) {
        for (size_t i = 0; i < sizeof values / sizeof values[0]; i++) {
            memcpy(bytes, template, SIZE);
            memcpy(bytes + byte, &values[i], 8);
            try_page(bytes, byte, "a number");
        }
    }
    memcpy(bytes, template, SIZE);
    memcpy(bytes + 112 + 32, bytes + 112, 32);
    write_file(bytes, SIZE);
    answers("a name that stands twice", attach_only(0), RME_NOT_RME);
    memcpy(bytes, template, SIZE);
    bytes[8] = 1;
    bytes[LIVES_AT + 8] = 1;
    write_file(bytes, SIZE);
    answers("a life in a page of version 1", attach_only(0), RME_NOT_RME);
    check(strstr(rme_why(), "more than there is to say") != NULL, "its why: %s", rme_why());
    heading("the first page");
}

static void try_sizes(void) {
    static const size_t sizes[] = {0,        1,        8,        623,      PAGE - 1, PAGE,
                                   PAGE + 8, SIZE - 8, SIZE - 1, SIZE + 1, SIZE + 8, 2 * SIZE};
    static unsigned char bytes[2 * SIZE];
    memcpy(bytes, template, SIZE);
    for (size_t i = 0; i < sizeof sizes / sizeof sizes[0]; i++) {
        uint64_t bits[4];
        struct rme_handle *handle;
        write_file(bytes, sizes[i]);
        answers("another size", attach_only(0), RME_NOT_RME);
        answers("another size: look", rme_observe(path, &handle), RME_NOT_RME);
        answers("another size: who lives", rme_living(path, bits), RME_NOT_RME);
        answers("another size: renew", rme_renew(path, "/dev/null"), RME_NOT_RME);
    }
    write_file(bytes, SIZE);
    answers("its own size", attach_only(0), 0);
    heading("the size");
}

/* A file that is cut short while it is mapped ends a process that steps, as any mapped file does. */
static void try_cut(void) {
    int status = 0;
    create();
    pid_t child = fork();
    if (child == 0) {
        struct rme_handle *handle;
        signal(SIGBUS, SIG_DFL);
        _exit(rme_attach(path, 0, &handle) != 0 || truncate(path, 0) != 0 || rme_recover(handle, NULL) != 99);
    }
    waitpid(child, &status, 0);
    check(WIFSIGNALED(status) && WTERMSIG(status) == SIGBUS, "it ended with %x", (unsigned)status);
    heading("a file that is cut while it is mapped");
}

/* THE WORDS */

/* A worker that is killed before so many own steps of a job on lock 0 are made. */
static void dead_at(uint32_t worker, unsigned step) {
    int status = 0;
    pid_t child = fork();
    if (child == 0) {
        struct rme_handle *handle;
        steps = 0;
        last_step = step;
        if (rme_attach(path, worker, &handle) == 0 && rme_recover(handle, NULL) == 0) {
            rme_run(handle, 0, add, 2, 0, NULL);
        }
        _exit(0);
    }
    waitpid(child, &status, 0);
}

/* Worker 1's way by the step table: 2 steps of Recover, 9 of Post, 2 of Enter, 25 of the section, 4 of the way out.
   Each name is the number of the step before which it is killed. */
enum {
    IN_POST = 2 + 5,           /* before the slate is whole */
    WAITS = 2 + 9 + 1,         /* before its first node */
    CLIMBS = WAITS + 1,        /* with one node of two */
    INSIDE = CLIMBS + 1,       /* before it loads the turn */
    WRITES_DOWN = INSIDE + 14, /* before it makes the turn odd */
    COPIES = INSIDE + 17,      /* before it stores the first cell */
    IS_DONE = INSIDE + 25,     /* before its way out */
    LEAVES = IS_DONE + 3,      /* before it clears its lower node */
    NEVER = LEAVES + 1
};

struct world {
    const char *name;
    unsigned step; /* of worker 1 */
    int waits;     /* whether worker 2 waits behind it */
    uint32_t owner;
};

static const struct world worlds[] = {
    {"nothing was done", 1, 0, RME_NOBODY}, {"a post is half made", IN_POST, 0, RME_NOBODY},
    {"one waits", WAITS, 0, RME_NOBODY},    {"one has a node", CLIMBS, 0, RME_NOBODY},
    {"one is inside", INSIDE, 1, 1},        {"one writes down", WRITES_DOWN, 1, 1},
    {"one copies", COPIES, 1, 1},           {"one has finished", IS_DONE, 1, 1},
    {"one leaves", LEAVES, 0, RME_NOBODY},  {"a job is over", NEVER, 0, RME_NOBODY},
};

static void make_world(const struct world *world) {
    create();
    dead_at(1, world->step);
    if (world->waits) {
        dead_at(2, NEVER); /* it is blocked, and its process ends */
    }
    struct rme_handle *handle;
    uint32_t owner = 0;
    must("observe", rme_observe(path, &handle));
    must("owner", rme_owner(handle, 0, &owner));
    must("detach", rme_detach(handle));
    check(owner == world->owner, "%s: the owner is %d", world->name, (int)owner);
    read_template();
}

enum { CALLS = 9 };

/* The calls of one worker, in turn; each answers one number. */
static int make_call(struct rme_handle *handle, int call) {
    struct rme_operation operations[RME_MOST_OPERATIONS];
    struct rme_receipt receipt;
    uint64_t cells[CELLS], number;
    uint32_t lock, count, owner;
    int there;
    switch (call) {
    case 0:
        return rme_recover(handle, NULL);
    case 1:
        return rme_pending(handle, &lock, operations, &count);
    case 2:
        return rme_owner(handle, 0, &owner);
    case 3:
        return rme_cells(handle, 0, cells, &there);
    case 4:
        return rme_last(handle, &receipt, &there);
    case 5:
        return rme_submit(handle, 0, add, 2, &number);
    case 6:
        return rme_enter(handle, 0);
    case 7:
        return rme_commit(handle, &receipt);
    default:
        return rme_withdraw(handle, &number);
    }
}

static int is_known(int error) {
    static const int known[] = {0,           RME_DOWN,          RME_UP,          RME_BUSY,
                                RME_IDLE,    RME_TOO_MANY_JOBS, RME_NOT_WAITING, RME_NOT_INSIDE,
                                RME_DAMAGED, RME_BLOCKED};
    for (size_t i = 0; i < sizeof known / sizeof known[0]; i++) {
        if (known[i] == error) {
            return 1;
        }
    }
    return 0;
}

struct answers {
    int calls[CALLS];
    unsigned char end[SIZE];
};

/* What a worker's calls answer and leave where nothing is damaged. */
static struct answers reference(uint32_t worker) {
    static struct answers told;
    struct rme_handle *handle;
    memcpy(map, template, SIZE);
    must("attach", rme_attach(path, worker, &handle));
    for (int call = 0; call < CALLS; call++) {
        told.calls[call] = make_call(handle, call);
    }
    must("detach", rme_detach(handle));
    memcpy(told.end, map, SIZE);
    return told;
}

static unsigned long damages;

/* The same where a word has another value. One that no world has is met by RME_DAMAGED or not at all. */
static void try_word(const struct world *world, uint32_t worker, const struct answers *well, size_t word,
                     uint64_t value) {
    struct rme_handle *handle;
    unsigned char kept[SIZE];
    uint64_t *at = (uint64_t *)(void *)(map + PAGE) + word, was = 0;
    int is_mended = 0;
    memcpy(map, template, SIZE);
    was = *at;
    *at = value;
    must("attach", rme_attach(path, worker, &handle));
    for (int call = 0; call < CALLS; call++) {
        int error = make_call(handle, call);
        check(is_known(error), "%s, word %zu: call %d answers %d", world->name, word, call, error);
        if (error == RME_DAMAGED) {
            damages++;
            memcpy(kept, map, SIZE);
            int again = make_call(handle, call);
            check(again == RME_DAMAGED, "%s, word %zu: call %d again answers %d", world->name, word, call, again);
            check(memcmp(kept, map, SIZE) == 0, "%s, word %zu: call %d stored something", world->name, word, call);
            if (value >> 32 != 0) {
                *at = was;
                is_mended = 1;
                error = make_call(handle, call);
            }
        }
        if (is_mended) {
            check(error == well->calls[call], "%s, word %zu mended: call %d answers %d", world->name, word, call,
                  error);
        }
    }
    if (is_mended) {
        check(memcmp(well->end, map, SIZE) == 0, "%s, word %zu mended: what is left", world->name, word);
    }
    must("detach", rme_detach(handle));
}

static void try_words(void) {
    static const uint64_t values[] = {
        0, 1, 2, 3, 9, JOBS, JOBS + 1, UINT32_MAX, (uint64_t)1 << 32, (uint64_t)1 << 40, UINT64_MAX};
    for (size_t i = 0; i < sizeof worlds / sizeof worlds[0]; i++) {
        make_world(&worlds[i]);
        int file = open(path, O_RDWR | O_CLOEXEC);
        map = mmap(NULL, SIZE, PROT_READ | PROT_WRITE, MAP_SHARED, file, 0);
        close(file);
        damages = 0;
        for (uint32_t worker = 0; worker < WORKERS; worker++) {
            struct answers well = reference(worker);
            for (size_t word = 0; word < WORDS; word++) {
                for (size_t value = 0; value < sizeof values / sizeof values[0]; value++) {
                    try_word(&worlds[i], worker, &well, word, values[value]);
                }
            }
        }
        munmap(map, SIZE);
        printf("     %lu calls met damage\n", damages);
        heading(worlds[i].name);
    }
}

/* A worker that has finished more than it began: no run leaves that, though each number for itself may be. */
static void try_numbers(void) {
    const struct world over = {"a job is over", NEVER, 0, RME_NOBODY};
    struct rme_handle *handle;
    make_world(&over);
    template[PAGE + 8 * 32] = 2; /* word 1 of worker 1 */
    write_file(template, SIZE);
    must("attach", rme_attach(path, 1, &handle));
    answers("recover", rme_recover(handle, NULL), 0);
    answers("last", rme_last(handle, NULL, NULL), RME_DAMAGED);
    must("detach", rme_detach(handle));
    heading("more jobs that are over than were begun");
}

/* A slate of which each word for itself may be: a get with a number. */
static void try_slate(void) {
    const struct world waits = {"one waits", WAITS, 0, RME_NOBODY};
    struct rme_handle *handle;
    make_world(&waits);
    template[PAGE + 8 * (31 + 7)] = RME_GET; /* it was add 0 5 */
    write_file(template, SIZE);
    must("attach", rme_attach(path, 1, &handle));
    answers("recover", rme_recover(handle, NULL), 0);
    answers("pending", rme_pending(handle, NULL, NULL, NULL), RME_DAMAGED);
    answers("enter", rme_enter(handle, 0), 0);
    answers("commit", rme_commit(handle, NULL), RME_DAMAGED);
    must("detach", rme_detach(handle));
    template[PAGE + 8 * (31 + 9)] = 0;
    write_file(template, SIZE);
    must("attach", rme_attach(path, 1, &handle));
    answers("recover", rme_recover(handle, NULL), 0);
    answers("pending", rme_pending(handle, NULL, NULL, NULL), 0);
    must("detach", rme_detach(handle));
    heading("a slate with a get that has a number");
}

/* The turn of lock 0 is damaged once the job is finished, so that the commit ends in the midst of its way out. */
static uint64_t *turn, *done, turn_was;

static void spoil(void) {
    if (*done == 1 && turn_was == 0) {
        turn_was = *turn;
        *turn = (uint64_t)1 << 40;
    }
}

static void try_way_out(void) {
    struct rme_handle *handle;
    struct rme_stance stance;
    struct rme_receipt receipt;
    int there = 0;
    create();
    int file = open(path, O_RDWR | O_CLOEXEC);
    map = mmap(NULL, SIZE, PROT_READ | PROT_WRITE, MAP_SHARED, file, 0);
    close(file);
    /* Word 1 of worker 1; of lock 0 the word behind its three nodes. */
    done = (uint64_t *)(void *)(map + PAGE) + 32;
    turn = (uint64_t *)(void *)(map + PAGE) + 31 * WORKERS + 3;
    must("attach", rme_attach(path, 1, &handle));
    must("recover", rme_recover(handle, NULL));
    before_step = spoil;
    answers("a job that is finished and does not get out", rme_run(handle, 0, add, 2, 0, NULL), RME_DAMAGED);
    before_step = NULL;
    answers("standing", rme_standing(handle, &stance), 0);
    check(stance.where == RME_INSIDE && stance.number == 1 && stance.lock == 0, "it is inside still");
    answers("enter", rme_enter(handle, 0), 0);
    answers("submit", rme_submit(handle, 0, add, 2, NULL), RME_BUSY);
    answers("withdraw", rme_withdraw(handle, NULL), RME_NOT_WAITING);
    answers("pending", rme_pending(handle, NULL, NULL, NULL), RME_IDLE);
    answers("section", rme_section(handle, NULL), RME_IDLE);
    check(rme_last(handle, &receipt, &there) == 0 && there && receipt.number == 1, "it has its receipt");
    answers("commit", rme_commit(handle, &receipt), RME_DAMAGED);
    *turn = turn_was;
    memset(&receipt, 0, sizeof receipt);
    answers("commit once it is mended", rme_commit(handle, &receipt), 0);
    check(receipt.worker == 1 && receipt.number == 1 && receipt.place == 0 && receipt.reply == 5, "the receipt");
    answers("and then it is ready", rme_commit(handle, NULL), RME_IDLE);
    answers("the next job", rme_run(handle, 0, add, 2, 0, NULL), 0);
    must("detach", rme_detach(handle));
    munmap(map, SIZE);
    heading("a way out that damage ends");
}

/* RENEWAL */

static int renew(void) {
    char next[4200];
    snprintf(next, sizeof next, "%s-next", path);
    int error = rme_renew(path, next);
    if (error == 0) {
        must("move", rename(next, path));
    }
    return error;
}

/* A worker that is dead before a step of its job: the file can be renewed where none is pending by the words. */
static void try_renewals(void) {
    for (unsigned step = 1; step <= NEVER; step++) {
        struct rme_handle *handle;
        uint64_t cells[CELLS];
        int settled, is_pending = step >= WAITS && step < IS_DONE;
        create();
        dead_at(1, step);
        answers("a renewal", renew(), is_pending ? RME_BUSY : 0);
        must("observe", rme_observe(path, &handle));
        must("cells", rme_cells(handle, 0, cells, &settled));
        must("detach", rme_detach(handle));
        if (!is_pending) {
            check(cells[0] == 0 && cells[1] == (step < IS_DONE ? 0 : 5) && settled, "renewed after step %u", step);
        }
    }
    heading("renewals of dead workers' files");
}

static void try_damaged_renewals(void) {
    static const uint64_t values[] = {0, 1, 2, JOBS, JOBS + 1, (uint64_t)1 << 32, UINT64_MAX};
    unsigned char bytes[SIZE];
    const struct world over = {"a job is over", NEVER, 0, RME_NOBODY};
    make_world(&over);
    for (size_t word = 0; word < WORDS; word++) {
        for (size_t value = 0; value < sizeof values / sizeof values[0]; value++) {
            memcpy(bytes, template, SIZE);
            memcpy(bytes + PAGE + 8 * word, &values[value], 8);
            write_file(bytes, SIZE);
            int error = renew();
            check(error == 0 || error == RME_BUSY || error == RME_DAMAGED, "a renewal, word %zu: %d", word, error);
            if (word < 31 * WORKERS && word % 31 < 2 && values[value] > JOBS) {
                answers("a number that no world has", error, RME_DAMAGED);
            }
        }
    }
    heading("renewals of damaged files");
}

int main(int count, char **words) {
    if (count != 2) {
        return 2;
    }
    snprintf(path, sizeof path, "%s/damage", words[1]);
    try_pages();
    try_sizes();
    try_cut();
    try_words();
    try_numbers();
    try_slate();
    try_way_out();
    try_renewals();
    try_damaged_renewals();
    return ends();
}
