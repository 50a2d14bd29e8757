/* The service's algorithm in C (../threads.d/tree.c), with its words in memory that processes share. No entry is kept
   of a finished job here, since the processes of c/rme.h keep none either. */
#include "bench.h"

#define main threads_main
#define work threads_work
#define check threads_check
#include "../threads.d/tree.c"
#undef main
#undef work
#undef check

static void work(unsigned number) {
    struct worker self = {number, 0, own_words(number), NULL, 0};
    unsigned lock = lock_of(&run, number);
    const struct script script = {.operations = {{ADD, 0, 1}}, .n = 1};
    for (unsigned job = 0; job < run.jobs; job++) {
        post(&self, lock, &script);
        climb(&self, lock_words(lock));
        section(&self, lock, lock_words(lock));
        leave(&self, lock_words(lock));
    }
}

/* What must be so when all jobs are over: each counts once, and nothing is held. */
static void check(void) {
    for (unsigned number = 0; number < locks_of(&run); number++) {
        word *lock = lock_words(number);
        uint64_t made = jobs_of_lock(&run);
        if (atomic_load(cell_of(lock, 0)) != made || atomic_load(turn_of(lock)) != 2 * made) {
            fail("the cell of lock %u is not the number of its jobs", number);
        }
        for (unsigned v = 1; v < leaves; v++) {
            if (atomic_load(node_at(lock, v)) != 0) {
                fail("node %u of lock %u is held", v, number);
            }
        }
    }
}

int main(int count, char **arguments) {
    run = run_of(count, arguments);
    for (leaves = 2, height = 1; leaves < run.threads; leaves *= 2) {
        height++;
    }
    words = shared_memory(lock_start(locks_of(&run)) * sizeof(word));
    uint64_t time = time_of(&run, work);
    check();
    print_time(&run, time);
    return 0;
}
