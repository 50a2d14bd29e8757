/* file.h: the file of the words, and the claims on its workers' numbers; for rme.c alone. */
#ifndef RME_FILE_H
#define RME_FILE_H

#include "rme.h"

#include <limits.h>
#include <stdatomic.h>
#include <stddef.h>
#include <sys/types.h>

enum { RME_PAGE = 4096, RME_LIVES_AT = 2048 };

/* A file that is made has the version with lives; one without them is used as it is. */
enum { RME_WITHOUT_LIVES = 1, RME_WITH_LIVES = 2 };

/* The file begins with this page, in the machine's byte order; the words follow, word i at byte 4096 + 8 i, and end the
   file. What is not named here is 0. */
struct rme_page {
    unsigned char magic[8];                             /*   0: "rmewords" */
    uint64_t version;                                   /*   8: 1 or 2 */
    uint64_t order;                                     /*  16: 0x0102030405060708 */
    unsigned char boot[40];                             /*  24: /proc/sys/kernel/random/boot_id, 36 bytes */
    uint64_t workers;                                   /*  64 */
    uint64_t locks;                                     /*  72 */
    uint64_t cells;                                     /*  80 */
    uint64_t jobs;                                      /*  88 */
    uint64_t words;                                     /*  96: how many words there are */
    _Atomic uint64_t moved;                             /* 104: 1 once the file was renewed, or a mark below */
    unsigned char names[RME_MOST_LOCKS][RME_MOST_NAME]; /* 112: of the locks */
    unsigned char rest[RME_LIVES_AT - 112 - RME_MOST_LOCKS * RME_MOST_NAME];
    _Atomic uint64_t lives[RME_MOST_WORKERS]; /* 2048: how often each worker was restarted */
};

/* What `moved` is in a renewal, beside 0 and 1. The lower bits say which the other file is, so that a renewal that was
   killed is finished with this one and no other. */
#define RME_MARK_KIND ((uint64_t)0xffff << 48)
#define RME_MARK_MOVING ((uint64_t)0x4d4f << 48)     /* of the old file: it is over, and the new one is whole */
#define RME_MARK_UNFINISHED ((uint64_t)0x554e << 48) /* of the new file: it is not the one to use yet */

/* An open file. Nothing is mapped while `words` is NULL. */
struct rme_file {
    int number;
    dev_t device; /* which file it is */
    ino_t inode;
    off_t place; /* where it was put; no other open file of this process is there */
    struct rme_page page;
    struct rme_shape shape;
    struct rme_page *front;
    _Atomic uint64_t *words;
};

/* Notes what rme_why answers, and passes the error on. */
int rme_say(int error, const char *why);

/* Checks the limits and names, and fills a page in. RME_BAD_SHAPE, RME_SYSTEM. */
int rme_page_fill(struct rme_page *page, const struct rme_shape *shape, const char *const *names);

/* Makes a whole file with this page and words that are 0, beside this path and under the name that it answers.
   RME_EXISTS where something has this path already, RME_NO_FILE where there is no such folder, RME_SYSTEM. */
int rme_file_make(const struct rme_page *page, const char *path, char beside[PATH_MAX], struct rme_file *file);

/* Gives a file the mode of another one, and its owner and group as far as this process may. RME_SYSTEM. */
int rme_file_take_rights(const struct rme_file *file, const struct rme_file *from);

/* Takes the name away that the file was made under, and gives it this path where `keep`, and nothing is there. */
int rme_file_publish(const char *beside, const char *path, int keep);

/* Opens a file and checks each field of its page. Nothing is open where it answers an error. */
int rme_file_open(const char *path, int writable, struct rme_file *file);

/* The same, whatever renewal its page tells of. */
int rme_file_open_any(const char *path, int writable, struct rme_file *file);

/* Reads `moved` of the page again: 0 or RME_SYSTEM. */
int rme_file_read_moved(struct rme_file *file);

/* Whether the page, as it was read last, tells of a renewal: 0, RME_MOVED or RME_UNFINISHED. */
int rme_file_moved(const struct rme_file *file);

/* The mark of this kind that names this file. */
uint64_t rme_file_mark_of(uint64_t kind, const struct rme_file *file);

/* Puts `moved` of a mapped file from one value to another, in one step; nothing happens where it has a third one. */
void rme_file_put_moved(struct rme_file *file, uint64_t from, uint64_t to);

/* Counts a restart of a worker that this file has claimed, and is mapped for, and answers its life: how often it was
   restarted, this time included. 0 in a file of version 1, where nothing is stored. RME_DAMAGED: the count is the
   greatest number, which no run reaches. */
int rme_file_begin_life(const struct rme_file *file, uint32_t worker, uint64_t *life);

/* Gives each worker of a mapped file the count that it has in another one; none where that is of version 1. */
void rme_file_take_lives(const struct rme_file *file, const struct rme_file *from);

/* Claims so many workers' numbers from `first` on until the file is closed, or none: RME_TAKEN. */
int rme_file_claim(const struct rme_file *file, uint32_t first, uint32_t count);

/* Whether another open file has this worker's claim. */
int rme_file_claimed(const struct rme_file *file, uint32_t worker, int *claimed);

/* Maps the file; a forked child does not have the mapping. */
int rme_file_map(struct rme_file *file, int writable);

/* Unmaps the file where it is mapped, and closes it, which ends its claims. */
void rme_file_close(struct rme_file *file);

/* Closes the file, and unmaps nothing: a forked child does not have the mapping. */
void rme_file_close_number(struct rme_file *file);

#endif
