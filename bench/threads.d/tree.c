/* The algorithm of the service in C: the same words with the same numbers, and the same operations on them in the
   same order, each a sequentially consistent one.

   Each worker is a thread that runs its jobs, each one the script Add(0, 1): it posts the job on its slate, climbs
   the tree of the lock, runs the section and leaves. The words lie packed, one after another, as the service numbers
   them, so that neighbours share cache lines, which counts most where each thread has a lock for itself. For each
   finished job an entry, the receipt and the script, goes to the worker's own list, which was reserved and not touched
   before: 160 bytes. With one worker a job takes 28 operations on words.

   Compiled with ALIKE, it has the layout of the service: an entry of 48 bytes, and seven unused words before each block
   of words, so that no cache line has words of two. A lock's nodes are a block, and its other words the next.

   It is a fair comparison since a job does on shared words what the service does, a general script included: length,
   operations and mask are read from the words, and the parity of the turn is asked. What it does not have is what the
   service has around that: crashes, restarts, and a check of anything. So it shows what the service costs beyond its
   algorithm, and nothing of what the algorithm costs. The number of cells is known when it is compiled, which is a
   small advantage over the service.

   A worker that is blocked pauses, gives the processor away once, and tries again. How it waits decides much of the
   time on one lock, so a caller of the service that is compared with it must wait likewise. */
#include "bench.h"

#include <sched.h>
#include <stdatomic.h>

enum { CELLS = 1, MOST_OPERATIONS = 8, WORKER_WORDS = 31 };

/* How many words lie unused before the first block, and before each other one. */
#ifdef ALIKE
enum { FRONT = 7, GAP = 7 };
#else
enum { FRONT = 1, GAP = 0 };
#endif

/* The index of a word in the block of its worker; the words of the operations follow SLATE, three for each. */
enum { BEGUN, DONE, REPLY, PLACE, AT, SLATE_LOCK, SLATE_LEN, SLATE };

enum { GET, SET, ADD, COPY, SWAP };

struct operation {
    uint32_t kind;
    uint32_t first;
    uint64_t second;
};

struct script {
    struct operation operations[MOST_OPERATIONS];
    uint32_t n;
};

struct receipt {
    uint32_t worker;
    uint32_t lock;
    uint32_t number;
    uint32_t place;
    uint64_t reply;
};

#ifdef ALIKE
/* The operations of its script lie in a list of their own, `n` of them from `start` on. */
struct entry {
    struct receipt receipt;
    uint32_t start;
    uint32_t n;
};

_Static_assert(sizeof(struct entry) + sizeof(struct operation) == 48, "an entry of one operation has 48 bytes, as in the service");
#else
struct entry {
    struct receipt receipt;
    struct script script;
};

_Static_assert(sizeof(struct entry) == 160, "an entry has the script with room for eight operations");
#endif
_Static_assert(sizeof(_Atomic uint64_t) == 8, "a word has 8 bytes");

typedef _Atomic uint64_t word;

/* What only one worker knows. */
struct worker {
    uint32_t number;
    uint32_t begun;
    word *own;
    struct entry *entries;
    uint32_t length;
#ifdef ALIKE
    struct operation *operations;
    uint32_t used;
#endif
};

static struct run run;
static unsigned leaves, height;
static word *words;
static struct entry *lists[MOST_THREADS];
#ifdef ALIKE
static struct operation *operations[MOST_THREADS];
#endif

/* Where the block of a worker and of a lock begins. That of the lock after the last is the number of all words. */
static size_t worker_start(unsigned worker) {
    return FRONT + (WORKER_WORDS + GAP) * (size_t)worker;
}

static size_t lock_start(unsigned lock) {
    return worker_start(run.threads) + (leaves + 2 + 2 * CELLS + 2 * GAP) * (size_t)lock;
}

static word *own_words(unsigned worker) {
    return words + worker_start(worker);
}

static word *lock_words(unsigned lock) {
    return words + lock_start(lock);
}

/* The words of a lock, of which these are the first words: its nodes, and behind them the others. */
static word *node_at(word *lock, unsigned node) {
    return lock + (node - 1);
}

static word *turn_of(word *lock) {
    return lock + (leaves - 1 + GAP);
}

static word *cell_of(word *lock, unsigned cell) {
    return turn_of(lock) + (1 + cell);
}

static word *shadow_of(word *lock, unsigned cell) {
    return turn_of(lock) + (1 + CELLS + cell);
}

static word *shadow_reply_of(word *lock) {
    return turn_of(lock) + (1 + 2 * CELLS);
}

static word *mask_of(word *lock) {
    return turn_of(lock) + (2 + 2 * CELLS);
}

/* The node of a worker's path at a level, and the side by which the path comes to it. */
static unsigned node(unsigned worker, unsigned level) {
    return (leaves + worker) >> level;
}

static uint64_t side(unsigned worker, unsigned level) {
    return 1 + node(worker, level - 1) % 2;
}

/* Waits after a blocked step, and not for long: a pause, and the processor is given away once. */
static void back_off(void) {
#if defined(__x86_64__) || defined(__i386__)
    __builtin_ia32_pause();
#elif defined(__aarch64__)
    __asm__ volatile("yield");
#endif
    sched_yield();
}

static void post(struct worker *self, unsigned lock, const struct script *script) {
    atomic_store(self->own + SLATE_LOCK, lock);
    atomic_store(self->own + SLATE_LEN, script->n);
    for (uint32_t i = 0; i < script->n; i++) {
        atomic_store(self->own + SLATE + 3 * i, script->operations[i].kind);
        atomic_store(self->own + SLATE + 3 * i + 1, script->operations[i].first);
        atomic_store(self->own + SLATE + 3 * i + 2, script->operations[i].second);
    }
    self->begun++;
    atomic_store(self->own + BEGUN, self->begun);
}

/* Exchanges a word from 0, and says whether it was 0. */
static bool exchange(word *at, uint64_t value) {
    uint64_t found = 0;
    return atomic_compare_exchange_strong(at, &found, value);
}

static void climb(struct worker *self, word *lock) {
    for (unsigned level = 1; level <= height; level++) {
        while (!exchange(node_at(lock, node(self->number, level)), side(self->number, level))) {
            back_off();
        }
    }
}

static struct script read_slate(struct worker *self) {
    struct script script = {.n = (uint32_t)atomic_load(self->own + SLATE_LEN)};
    for (uint32_t i = 0; i < script.n; i++) {
        script.operations[i].kind = (uint32_t)atomic_load(self->own + SLATE + 3 * i);
        script.operations[i].first = (uint32_t)atomic_load(self->own + SLATE + 3 * i + 1);
        script.operations[i].second = atomic_load(self->own + SLATE + 3 * i + 2);
    }
    return script;
}

static uint64_t named(const struct script *script) {
    uint64_t mask = 0;
    for (uint32_t i = 0; i < script->n; i++) {
        const struct operation *made = &script->operations[i];
        mask |= (uint64_t)1 << made->first;
        if (made->kind == COPY || made->kind == SWAP) {
            mask |= (uint64_t)1 << made->second;
        }
    }
    return mask;
}

/* Runs a script on a row of cells, and answers its reply. */
static uint64_t eval(const struct script *script, uint64_t *row) {
    uint64_t reply = 0;
    for (uint32_t i = 0; i < script->n; i++) {
        uint32_t first = script->operations[i].first;
        uint64_t second = script->operations[i].second;
        switch (script->operations[i].kind) {
        case GET:
            reply = row[first];
            break;
        case SET:
            reply = row[first] = second;
            break;
        case ADD:
            reply = row[first] += second;
            break;
        case COPY:
            reply = row[second] = row[first];
            break;
        default:
            reply = row[first];
            row[first] = row[second];
            row[second] = reply;
        }
    }
    return reply;
}

/* The first cell of a mask, and the mask without it. */
static unsigned first_cell(uint64_t mask) {
    return (unsigned)__builtin_ctzll(mask);
}

static uint64_t without_first(uint64_t mask) {
    return mask & (mask - 1);
}

/* The part of a section before the odd turn: what the script leaves is written down. */
static void write_down(struct worker *self, word *lock, uint64_t turn) {
    struct script script = read_slate(self);
    uint64_t mask = named(&script);
    uint64_t row[CELLS] = {0};
    for (uint64_t rest = mask; rest != 0; rest = without_first(rest)) {
        row[first_cell(rest)] = atomic_load(cell_of(lock, first_cell(rest)));
    }
    uint64_t reply = eval(&script, row);
    for (uint64_t rest = mask; rest != 0; rest = without_first(rest)) {
        atomic_store(shadow_of(lock, first_cell(rest)), row[first_cell(rest)]);
    }
    atomic_store(shadow_reply_of(lock), reply);
    atomic_store(mask_of(lock), mask);
    atomic_store(turn_of(lock), turn + 1);
}

static struct receipt section(struct worker *self, unsigned number, word *lock) {
    uint64_t turn = atomic_load(turn_of(lock));
    if (turn % 2 == 0) {
        write_down(self, lock, turn);
    }
    uint64_t mask = atomic_load(mask_of(lock)) & (((uint64_t)1 << CELLS) - 1);
    for (uint64_t rest = mask; rest != 0; rest = without_first(rest)) {
        atomic_store(cell_of(lock, first_cell(rest)), atomic_load(shadow_of(lock, first_cell(rest))));
    }
    uint64_t reply = atomic_load(shadow_reply_of(lock));
    atomic_store(self->own + REPLY, reply);
    atomic_store(self->own + PLACE, turn / 2);
    atomic_store(self->own + AT, number);
    atomic_store(self->own + DONE, self->begun);
    return (struct receipt){self->number, number, self->begun, (uint32_t)(turn / 2), reply};
}

static void leave(struct worker *self, word *lock) {
    uint64_t turn = atomic_load(turn_of(lock));
    if (turn % 2 == 1) {
        atomic_store(turn_of(lock), turn + 1);
    }
    for (unsigned level = height; level >= 1; level--) {
        atomic_store(node_at(lock, node(self->number, level)), 0);
    }
}

/* Puts the entry of a finished job to the worker's list. */
static void put(struct worker *self, struct receipt receipt, const struct script *script) {
#ifdef ALIKE
    self->entries[self->length++] = (struct entry){receipt, self->used, script->n};
    for (uint32_t i = 0; i < script->n; i++) {
        self->operations[self->used++] = script->operations[i];
    }
#else
    self->entries[self->length++] = (struct entry){receipt, *script};
#endif
}

static void work(unsigned number) {
    struct worker self = {.number = number, .own = own_words(number), .entries = lists[number]};
#ifdef ALIKE
    self.operations = operations[number];
#endif
    unsigned lock = lock_of(&run, number);
    const struct script script = {.operations = {{ADD, 0, 1}}, .n = 1};
    for (unsigned job = 0; job < run.jobs; job++) {
        post(&self, lock, &script);
        climb(&self, lock_words(lock));
        struct receipt receipt = section(&self, lock, lock_words(lock));
        put(&self, receipt, &script);
        leave(&self, lock_words(lock));
    }
}

/* What must be so when all jobs are over: each counts once, and nothing is held. */
static void check(void) {
    for (unsigned worker = 0; worker < run.threads; worker++) {
        const struct entry *last = &lists[worker][run.jobs - 1];
        if (atomic_load(own_words(worker) + DONE) != run.jobs || last->receipt.number != run.jobs) {
            fail("worker %u has not done its jobs", worker);
        }
    }
    for (unsigned number = 0; number < locks_of(&run); number++) {
        word *lock = lock_words(number);
        uint64_t made = jobs_of_lock(&run);
        if (atomic_load(cell_of(lock, 0)) != made || atomic_load(turn_of(lock)) != 2 * made) {
            fail("the cell of lock %u is not the number of its jobs", number);
        }
        for (unsigned v = 1; v < leaves; v++) {
            if (atomic_load(node_at(lock, v)) != 0) {
                fail("node %u of lock %u is held", v, number);
            }
        }
    }
}

int main(int count, char **arguments) {
    run = run_of(count, arguments);
    for (leaves = 2, height = 1; leaves < run.threads; leaves *= 2) {
        height++;
    }
    size_t size = (lock_start(locks_of(&run)) * sizeof(word) + 63) / 64 * 64;
    words = aligned_alloc(64, size);
    if (words == NULL) {
        fail("no memory");
    }
    memset(words, 0, size);
    for (unsigned worker = 0; worker < run.threads; worker++) {
        lists[worker] = malloc(run.jobs * sizeof(struct entry));
        if (lists[worker] == NULL) {
            fail("no memory");
        }
#ifdef ALIKE
        operations[worker] = malloc((size_t)run.jobs * MOST_OPERATIONS * sizeof(struct operation));
        if (operations[worker] == NULL) {
            fail("no memory");
        }
#endif
    }
    uint64_t time = time_of(&run, work);
    check();
    print_time(&run, time);
    return 0;
}
