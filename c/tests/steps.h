/* steps.h: own steps one by one, and a kill before the one of a given number.

   The functions here stand around those of the proved library, where the linker puts them by --wrap: a batch is
   handed to rme.c step by step, so that rme.c is the shipped one. Where no kill is asked for, batches go through as
   they are. One handle at a time is in the midst of a batch. */
#ifndef STEPS_H
#define STEPS_H

#include "../core.h"

#include <signal.h>

static struct rme_core_batch whole;
static uint32_t handed, left; /* so many of its steps were handed on, and so many are left */
static unsigned steps, last_step; /* 0: no kill */
static void (*before_step)(void); /* called before each, where there is one */

uint32_t __real_rme_core_next(struct rme_core_worker *core, uint32_t until, struct rme_core_batch *batch);
uint32_t __real_rme_core_after(struct rme_core_worker *core, const struct rme_core_batch *batch, uint32_t count,
                               struct rme_core_outcome *outcome);

uint32_t __wrap_rme_core_next(struct rme_core_worker *core, uint32_t until, struct rme_core_batch *batch) {
    if (last_step == 0 && before_step == NULL) {
        return __real_rme_core_next(core, until, batch);
    }
    if (left == 0) {
        uint32_t refusal = __real_rme_core_next(core, until, &whole);
        if (refusal != 0) {
            return refusal;
        }
        handed = 0;
        left = whole.count;
    }
    if (++steps == last_step) {
        raise(SIGKILL);
    }
    if (before_step != NULL) {
        before_step();
    }
    batch->count = 1;
    batch->actions[0] = whole.actions[handed];
    return 0;
}

static int goes_on(const struct rme_core_action *action, uint64_t found) {
    switch (action->kind) {
    case RME_CORE_SWAP:
        return found == 0;
    case RME_CORE_EXPECT:
        return found == action->value;
    case RME_CORE_EXPECT_EVEN:
        return found % 2 == 0 && found >> 32 == 0;
    default:
        return 1;
    }
}

uint32_t __wrap_rme_core_after(struct rme_core_worker *core, const struct rme_core_batch *batch, uint32_t count,
                               struct rme_core_outcome *outcome) {
    if (last_step == 0 && before_step == NULL) {
        return __real_rme_core_after(core, batch, count, outcome);
    }
    whole.values[handed] = batch->values[0];
    left = goes_on(&whole.actions[handed], whole.values[handed]) ? left - 1 : 0;
    handed++;
    if (left > 0) {
        struct rme_core_standing standing;
        rme_core_stance(core, &standing);
        outcome->count = 0;
        outcome->phase = standing.phase;
        return 0;
    }
    return __real_rme_core_after(core, &whole, handed, outcome);
}

#endif
