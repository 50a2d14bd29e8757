/* handle.h: what the calls of rme.h share; for rme.c, looks.c and renew.c alone. */
#ifndef RME_HANDLE_H
#define RME_HANDLE_H

#include "core.h"
#include "file.h"

struct rme_handle {
    struct rme_file file;
    struct rme_core_worker core;
    uint32_t worker; /* RME_NOBODY where the handle is for look-ups */
    int is_counted; /* whether its restart was */
    uint64_t life;
    int has_recovered;
    atomic_int busy;             /* 1 while a thread is in a call */
    volatile unsigned char *own; /* 1 in the process that attached, 0 in a child of it */
    struct rme_receipt receipt;  /* of the section that was finished last */
    uint64_t slate[3 * RME_MOST_OPERATIONS]; /* of the job that was handed over last, and behind it what was there */
    struct rme_core_batch batch;
    struct rme_core_outcome outcome; /* of the batch that was made last */
};

/* What a call needs: any handle; one that may look, whose worker, if it has one, has recovered, and whose file is not
   moved, if it has none; one with a worker; one with a worker that has recovered. */
enum rme_need { RME_A_HANDLE, RME_A_LOOK, RME_A_WORKER, RME_A_RECOVERED_WORKER };

/* Begins a call, where the handle is what it needs; `rme_end` ends it, whatever it answers. */
int rme_begin(struct rme_handle *self, enum rme_need need);
int rme_end(struct rme_handle *self, int error);

struct rme_core_standing rme_standing_of(struct rme_handle *self);

/* Makes a handle of a file that is open, and, where it has a worker, claimed. The file is closed where that fails. */
int rme_raise(struct rme_file *file, uint32_t worker, struct rme_handle **handle);

/* Ends a handle, from wherever `rme_raise` came to. */
void rme_lower(struct rme_handle *self);

/* The value of a word, read once. The word is one of the file's shape. */
uint64_t rme_look(const struct rme_file *file, uint32_t kind, uint32_t first, uint32_t second, uint32_t third);

#endif
