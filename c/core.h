/* core.h: what crates/rme_process_abi exports, the proved part: which operation a worker does next on which word, and what it
   knows once it has the value. For the files of this folder; crates/rme_process_abi/README.md says what each call promises.

   The names, the layouts and the numbers must be those of that crate; nothing but this page and tests say so. */
#ifndef RME_CORE_H
#define RME_CORE_H

#include <stddef.h>
#include <stdint.h>

/* The private state of one worker, on the heap of the process that made it. */
struct rme_core_worker {
    void *at;
};

enum rme_core_operation { RME_CORE_LOAD = 1, RME_CORE_STORE, RME_CORE_SWAP, RME_CORE_EXPECT, RME_CORE_EXPECT_EVEN };

/* One operation on the word of this number: a load; a store of `value`; a swap, which puts `value` where the word has 0;
   a load that is expected to find `value`, and one that is expected to find an even number below 2^32. */
struct rme_core_action {
    uint32_t kind;
    size_t word;
    uint64_t value;
};

/* Own steps that come one after the other as long as each swap puts its value and each load finds what is expected; and
   what each loaded, or found before its swap. The first that does not ends the batch. Of a store no value is read. */
struct rme_core_batch {
    uint32_t count;
    struct rme_core_action actions[96];
    uint64_t values[96];
};

enum rme_core_event {
    RME_CORE_QUIET,
    RME_CORE_ASKED,
    RME_CORE_BLOCKED,
    RME_CORE_ENTERED,
    RME_CORE_REENTERED,
    RME_CORE_FINISHED,
    RME_CORE_LEFT,
    RME_CORE_READY,
    RME_CORE_WITHDREW
};

/* What a step brought about that another can see. */
struct rme_core_note {
    uint32_t kind;
    uint32_t worker;
    uint32_t lock;
    uint64_t number;
    uint64_t place;
    uint64_t reply;
};

/* What the steps of a batch brought about, and where the worker is now. */
struct rme_core_outcome {
    uint32_t count;
    uint32_t phase;
    struct rme_core_note notes[97];
};

enum rme_core_phase {
    RME_CORE_RECOVERS,
    RME_CORE_POSTS,
    RME_CORE_ENTERS,
    RME_CORE_IN_SECTION,
    RME_CORE_EXITS,
    RME_CORE_RESTS
};

/* Where a worker is; `number` is how many jobs it has begun, as far as it knows. */
struct rme_core_standing {
    uint32_t phase;
    uint32_t lock;
    uint64_t number;
};

/* Refusals beside those of rme.h; all but the first are of a misuse. */
enum rme_core_refusal { RME_CORE_DAMAGED = 100, RME_CORE_NO_BATCH, RME_CORE_BATCH_OUT, RME_CORE_NO_WORD };

enum rme_core_word_kind {
    RME_CORE_BEGUN,
    RME_CORE_DONE,
    RME_CORE_REPLY,
    RME_CORE_PLACE,
    RME_CORE_AT,
    RME_CORE_SLATE_LOCK,
    RME_CORE_SLATE_LEN,
    RME_CORE_SLATE_WORD,
    RME_CORE_NODE,
    RME_CORE_TURN,
    RME_CORE_CELL
};

_Static_assert(sizeof(struct rme_core_action) == 24 && sizeof(struct rme_core_batch) == 3080,
               "as the crate lays it out");
_Static_assert(offsetof(struct rme_core_batch, values) == 2312 && sizeof(struct rme_core_note) == 40, "likewise");
_Static_assert(sizeof(struct rme_core_standing) == 16 && sizeof(struct rme_core_outcome) == 3888, "likewise");

uint32_t rme_core_new(uint32_t workers, uint32_t locks, uint32_t cells, uint32_t jobs, uint32_t worker,
                      struct rme_core_worker *out);
void rme_core_free(struct rme_core_worker worker);
uint32_t rme_core_next(struct rme_core_worker *worker, uint32_t until, struct rme_core_batch *batch);
uint32_t rme_core_after(struct rme_core_worker *worker, const struct rme_core_batch *batch, uint32_t count,
                        struct rme_core_outcome *outcome);
uint32_t rme_core_stance(struct rme_core_worker *worker, struct rme_core_standing *standing);
uint32_t rme_core_submit(struct rme_core_worker *worker, uint32_t lock, uint32_t operations, const uint64_t words[24],
                         uint64_t *number);
uint32_t rme_core_withdraw(struct rme_core_worker *worker);
uint32_t rme_core_word(uint32_t workers, uint32_t locks, uint32_t cells, uint32_t jobs, uint32_t kind, uint32_t first,
                       uint32_t second, uint32_t third, uint32_t *word);
uint32_t rme_core_words(uint32_t workers, uint32_t locks, uint32_t cells, uint32_t jobs, uint32_t *words);

#endif
