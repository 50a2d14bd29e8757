/* looks.c: what a caller may look up. No step depends on what is answered here, and nothing is stored. */
#define _GNU_SOURCE
#include "handle.h"

#include <errno.h>
#include <string.h>

uint64_t rme_look(const struct rme_file *file, uint32_t kind, uint32_t first, uint32_t second, uint32_t third) {
    const struct rme_shape *shape = &file->shape;
    uint32_t word = 0;
    rme_core_word(shape->workers, shape->locks, shape->cells, shape->jobs, kind, first, second, third, &word);
    return atomic_load(&file->words[word]);
}

static int is_pending(const struct rme_file *file, uint32_t worker) {
    uint64_t done = rme_look(file, RME_CORE_DONE, worker, 0, 0);
    return done < rme_look(file, RME_CORE_BEGUN, worker, 0, 0);
}

/* The worker whose sides stand in all nodes of its path, from the root down: of a node the side says the child. */
static uint32_t owner_of(const struct rme_file *file, uint32_t lock) {
    uint32_t leaves = 2, node = 1;
    while (leaves < file->shape.workers) {
        leaves *= 2;
    }
    while (node < leaves) {
        uint64_t side = rme_look(file, RME_CORE_NODE, lock, node, 0);
        if (side != 1 && side != 2) {
            return RME_NOBODY;
        }
        node = 2 * node + (side == 2);
    }
    return node - leaves < file->shape.workers ? node - leaves : RME_NOBODY;
}

static int read_slate(const struct rme_file *file, uint32_t worker, uint32_t *lock, struct rme_operation *operations,
                      uint32_t *count) {
    uint64_t at = rme_look(file, RME_CORE_SLATE_LOCK, worker, 0, 0),
             length = rme_look(file, RME_CORE_SLATE_LEN, worker, 0, 0);
    if (at >= file->shape.locks || length > RME_MOST_OPERATIONS) {
        return RME_DAMAGED;
    }
    for (uint32_t i = 0; i < length; i++) {
        uint64_t kind = rme_look(file, RME_CORE_SLATE_WORD, worker, i, 0);
        uint64_t cell = rme_look(file, RME_CORE_SLATE_WORD, worker, i, 1);
        uint64_t value = rme_look(file, RME_CORE_SLATE_WORD, worker, i, 2);
        int is_second = kind == RME_COPY || kind == RME_SWAP;
        if (kind > RME_SWAP || cell >= file->shape.cells || (is_second && value >= file->shape.cells) ||
            (kind == RME_GET && value != 0)) {
            return RME_DAMAGED;
        }
        if (operations != NULL) {
            operations[i] = (struct rme_operation){(uint32_t)kind, (uint32_t)cell, value};
        }
    }
    if (lock != NULL) {
        *lock = (uint32_t)at;
    }
    if (count != NULL) {
        *count = (uint32_t)length;
    }
    return 0;
}

int rme_pending(struct rme_handle *handle, uint32_t *lock, struct rme_operation *operations, uint32_t *count) {
    int error = rme_begin(handle, RME_A_RECOVERED_WORKER);
    if (error != 0) {
        return error;
    }
    uint32_t phase = rme_standing_of(handle).phase;
    int has_job = phase == RME_CORE_ENTERS || phase == RME_CORE_IN_SECTION;
    return rme_end(handle, has_job ? read_slate(&handle->file, handle->worker, lock, operations, count) : RME_IDLE);
}

/* A lock's turn is even, and twice the number of its finished sections, up to the moment at which the result of the next
   one is logged; then it is odd, up to the moment at which that one is finished (TurnClause of
   crates/rme_machine/specs/Clauses.antt). */
int rme_section(struct rme_handle *handle, uint64_t *section) {
    int error = rme_begin(handle, RME_A_RECOVERED_WORKER);
    if (error != 0) {
        return error;
    }
    struct rme_core_standing standing = rme_standing_of(handle);
    if (standing.phase != RME_CORE_IN_SECTION) {
        return rme_end(handle, standing.phase == RME_CORE_ENTERS ? RME_NOT_INSIDE : RME_IDLE);
    }
    uint64_t turn = rme_look(&handle->file, RME_CORE_TURN, standing.lock, 0, 0);
    if (turn >> 32 != 0) {
        return rme_end(handle, RME_DAMAGED);
    }
    if (section != NULL) {
        *section = turn / 2;
    }
    return rme_end(handle, 0);
}

/* The receipt in the words of a worker that has no pending job, of which this is the last number. */
static int read_receipt(const struct rme_file *file, uint32_t worker, uint64_t number, struct rme_receipt *receipt,
                        int *there) {
    uint64_t done = rme_look(file, RME_CORE_DONE, worker, 0, 0), place = rme_look(file, RME_CORE_PLACE, worker, 0, 0);
    uint64_t lock = rme_look(file, RME_CORE_AT, worker, 0, 0), reply = rme_look(file, RME_CORE_REPLY, worker, 0, 0);
    int is_there = done != 0 && place != UINT64_MAX;
    if (done != number || (is_there && (place >= UINT32_MAX || lock >= file->shape.locks))) {
        return RME_DAMAGED;
    }
    if (there != NULL) {
        *there = is_there;
    }
    if (receipt != NULL && is_there) {
        *receipt = (struct rme_receipt){worker, (uint32_t)lock, done, place, reply};
    }
    return 0;
}

int rme_last(struct rme_handle *handle, struct rme_receipt *receipt, int *there) {
    int error = rme_begin(handle, RME_A_RECOVERED_WORKER);
    if (error != 0) {
        return error;
    }
    struct rme_core_standing standing = rme_standing_of(handle);
    if (standing.phase == RME_CORE_ENTERS || standing.phase == RME_CORE_IN_SECTION) {
        return rme_end(handle, RME_BUSY);
    }
    return rme_end(handle, read_receipt(&handle->file, handle->worker, standing.number, receipt, there));
}

/* The same of a worker that may live. What is read between two looks at its last number, which is the same at both, is of
   that job: it was over at the first, and the next one was not begun at the second. */
static int read_outcome(const struct rme_file *file, uint32_t worker, uint64_t *number, struct rme_receipt *receipt,
                        int *there) {
    for (int tries = 0; tries < 1000; tries++) {
        uint64_t begun = rme_look(file, RME_CORE_BEGUN, worker, 0, 0);
        if (rme_look(file, RME_CORE_DONE, worker, 0, 0) < begun) {
            return RME_BUSY;
        }
        int error = begun > file->shape.jobs ? RME_DAMAGED : read_receipt(file, worker, begun, receipt, there);
        if (rme_look(file, RME_CORE_BEGUN, worker, 0, 0) == begun) {
            *number = begun;
            return error;
        }
    }
    return RME_BUSY;
}

int rme_outcome(const char *path, uint32_t worker, uint64_t *number, struct rme_receipt *receipt, int *there) {
    struct rme_file file;
    struct rme_receipt found = {0};
    uint64_t begun = 0;
    int is_there = 0, error = rme_file_open_any(path, 0, &file);
    if (error != 0) {
        return error;
    }
    error = rme_file_moved(&file) == RME_UNFINISHED ? RME_UNFINISHED : 0;
    error = error == 0 && worker >= file.shape.workers ? RME_NO_WORKER : error;
    error = error != 0 ? error : rme_file_map(&file, 0);
    error = error != 0 ? error : read_outcome(&file, worker, &begun, &found, &is_there);
    int kept = errno;
    rme_file_close(&file);
    errno = kept;
    if (error == 0 && number != NULL) {
        *number = begun;
    }
    if (error == 0 && receipt != NULL && is_there) {
        *receipt = found;
    }
    if (error == 0 && there != NULL) {
        *there = is_there;
    }
    return error;
}

int rme_owner(struct rme_handle *handle, uint32_t lock, uint32_t *worker) {
    int error = rme_begin(handle, RME_A_LOOK);
    if (error != 0) {
        return error;
    }
    if (lock >= handle->file.shape.locks) {
        return rme_end(handle, RME_NO_LOCK);
    }
    uint32_t owner = owner_of(&handle->file, lock);
    if (worker != NULL) {
        *worker = owner;
    }
    return rme_end(handle, 0);
}

int rme_cells(struct rme_handle *handle, uint32_t lock, uint64_t *cells, int *settled) {
    int error = rme_begin(handle, RME_A_LOOK);
    if (error != 0) {
        return error;
    }
    if (lock >= handle->file.shape.locks) {
        return rme_end(handle, RME_NO_LOCK);
    }
    uint32_t owner = owner_of(&handle->file, lock);
    if (settled != NULL) {
        *settled = owner == RME_NOBODY || !is_pending(&handle->file, owner);
    }
    for (uint32_t cell = 0; cell < handle->file.shape.cells && cells != NULL; cell++) {
        cells[cell] = rme_look(&handle->file, RME_CORE_CELL, lock, cell, 0);
    }
    return rme_end(handle, 0);
}

int rme_fileno(struct rme_handle *handle, int *descriptor) {
    int error = rme_begin(handle, RME_A_HANDLE);
    if (error != 0) {
        return error;
    }
    if (descriptor != NULL) {
        *descriptor = handle->file.number;
    }
    return rme_end(handle, 0);
}

int rme_shape(struct rme_handle *handle, struct rme_shape *shape) {
    int error = rme_begin(handle, RME_A_HANDLE);
    if (error != 0) {
        return error;
    }
    if (shape != NULL) {
        *shape = handle->file.shape;
    }
    return rme_end(handle, 0);
}

int rme_lock_number(struct rme_handle *handle, const char *name, uint32_t *lock) {
    int error = rme_begin(handle, RME_A_HANDLE);
    if (error != 0) {
        return error;
    }
    for (uint32_t at = 0; at < handle->file.shape.locks && name != NULL; at++) {
        char known[RME_MOST_NAME + 1] = {0};
        memcpy(known, handle->file.page.names[at], RME_MOST_NAME);
        if (strcmp(name, known) == 0) {
            if (lock != NULL) {
                *lock = at;
            }
            return rme_end(handle, 0);
        }
    }
    return rme_end(handle, RME_NO_LOCK);
}

int rme_lock_name(struct rme_handle *handle, uint32_t lock, char *name) {
    int error = rme_begin(handle, RME_A_HANDLE);
    if (error != 0) {
        return error;
    }
    if (lock >= handle->file.shape.locks) {
        return rme_end(handle, RME_NO_LOCK);
    }
    if (name != NULL) {
        memcpy(name, handle->file.page.names[lock], RME_MOST_NAME);
        name[RME_MOST_NAME] = 0;
    }
    return rme_end(handle, 0);
}
