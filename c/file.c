/* file.c: the file of the words. It is made whole or not at all, each field of its page is checked when it is opened,
   and a worker's claim is a lock of the kernel on the byte of its number, which ends with the process. */
#define _GNU_SOURCE
#include "file.h"

#include "core.h"

#include <errno.h>
#include <fcntl.h>
#include <stdio.h>
#include <stdlib.h>
#include <string.h>
#include <sys/mman.h>
#include <sys/stat.h>
#include <unistd.h>

static const char magic[8] = {'r', 'm', 'e', 'w', 'o', 'r', 'd', 's'};
static const uint64_t order = 0x0102030405060708;

static _Thread_local const char *why = "";

_Static_assert(sizeof(struct rme_page) == RME_PAGE, "the page has its size");
_Static_assert(offsetof(struct rme_page, workers) == 64 && offsetof(struct rme_page, names) == 112, "and its fields");
_Static_assert(offsetof(struct rme_page, lives) == RME_LIVES_AT, "the second half of it has the lives");
_Static_assert(sizeof(_Atomic uint64_t) == 8 && ATOMIC_LLONG_LOCK_FREE == 2, "a word is the machine's own");

int rme_say(int error, const char *text) {
    why = text;
    return error;
}

const char *rme_why(void) {
    return why;
}

/* THE PAGE */

/* The machine's boot number, which is another one each time that it starts. */
static int boot_number(unsigned char boot[40]) {
    char text[38] = {0};
    int file = open("/proc/sys/kernel/random/boot_id", O_RDONLY | O_CLOEXEC);
    if (file < 0) {
        return rme_say(RME_SYSTEM, "open of the machine's boot number");
    }
    ssize_t count = read(file, text, sizeof text);
    close(file);
    if (count < 36) {
        errno = count < 0 ? errno : ENODATA;
        return rme_say(RME_SYSTEM, "read of the machine's boot number");
    }
    memset(boot, 0, 40);
    memcpy(boot, text, 36);
    return 0;
}

static int is_name_byte(unsigned char byte) {
    return (byte >= 'a' && byte <= 'z') || (byte >= '0' && byte <= '9') || byte == '_' || byte == '-';
}

/* A name of 1 to 32 bytes, and zeros behind it. */
static int is_name(const unsigned char name[RME_MOST_NAME]) {
    size_t length = 0;
    while (length < RME_MOST_NAME && is_name_byte(name[length])) {
        length++;
    }
    for (size_t at = length; at < RME_MOST_NAME; at++) {
        if (name[at] != 0) {
            return 0;
        }
    }
    return length > 0;
}

/* Each lock has a name that no other has, and there are no more names. */
static int are_names(const struct rme_page *page, uint32_t locks) {
    static const unsigned char none[RME_MOST_NAME] = {0};
    for (uint32_t lock = 0; lock < RME_MOST_LOCKS; lock++) {
        if (lock >= locks ? memcmp(page->names[lock], none, sizeof none) != 0 : !is_name(page->names[lock])) {
            return 0;
        }
        for (uint32_t other = 0; other < lock && lock < locks; other++) {
            if (memcmp(page->names[lock], page->names[other], RME_MOST_NAME) == 0) {
                return 0;
            }
        }
    }
    return 1;
}

int rme_page_fill(struct rme_page *page, const struct rme_shape *shape, const char *const *names) {
    uint32_t words = 0;
    *page = (struct rme_page){.version = RME_WITH_LIVES, .order = order};
    memcpy(page->magic, magic, sizeof magic);
    if (rme_core_words(shape->workers, shape->locks, shape->cells, shape->jobs, &words) != 0 || names == NULL) {
        return RME_BAD_SHAPE;
    }
    page->workers = shape->workers;
    page->locks = shape->locks;
    page->cells = shape->cells;
    page->jobs = shape->jobs;
    page->words = words;
    for (uint32_t lock = 0; lock < shape->locks; lock++) {
        size_t length = names[lock] == NULL ? 0 : strnlen(names[lock], RME_MOST_NAME + 1);
        if (length > RME_MOST_NAME) {
            return RME_BAD_SHAPE;
        }
        memcpy(page->names[lock], names[lock] == NULL ? "" : names[lock], length);
    }
    return are_names(page, shape->locks) ? boot_number(page->boot) : RME_BAD_SHAPE;
}

static int is_mark(uint64_t moved) {
    return (moved & RME_MARK_KIND) == RME_MARK_MOVING || (moved & RME_MARK_KIND) == RME_MARK_UNFINISHED;
}

/* How many workers' lives the page has. */
static uint64_t lives_of(const struct rme_page *page) {
    return page->version == RME_WITH_LIVES ? page->workers : 0;
}

/* The page has zeros between its names and its lives, and behind these. */
static int ends_in_zeros(const struct rme_page *page) {
    static const unsigned char none[sizeof page->rest] = {0};
    for (uint64_t worker = lives_of(page); worker < RME_MOST_WORKERS; worker++) {
        if (page->lives[worker] != 0) {
            return 0;
        }
    }
    return memcmp(page->rest, none, sizeof none) == 0;
}

/* What of a page of a file of this size is not as it must be, or NULL. */
static const char *fault_of(const struct rme_page *page, off_t size) {
    uint32_t words = 0;
    if (memcmp(page->magic, magic, sizeof magic) != 0) {
        return "it does not begin as a file of rme's";
    }
    if (page->order != order) {
        return "its byte order is that of another machine";
    }
    if (page->version != RME_WITHOUT_LIVES && page->version != RME_WITH_LIVES) {
        return "its version is neither 1 nor 2";
    }
    if (page->workers > RME_MOST_WORKERS || page->locks > RME_MOST_LOCKS || page->cells > RME_MOST_CELLS ||
        page->jobs > RME_MOST_JOBS ||
        rme_core_words((uint32_t)page->workers, (uint32_t)page->locks, (uint32_t)page->cells, (uint32_t)page->jobs,
                       &words) != 0) {
        return "its shape is outside the limits";
    }
    if (page->words != words || size != RME_PAGE + 8 * (off_t)words) {
        return "its size is not that of its shape";
    }
    if (!are_names(page, (uint32_t)page->locks)) {
        return "its locks do not have names";
    }
    if (!ends_in_zeros(page)) {
        return "its first page has more than there is to say";
    }
    return page->moved > 1 && !is_mark(page->moved) ? "its mark of a renewal is none" : NULL;
}

/* The open file under a number that is none of the standard streams'. In a process that has closed one of these, what
   it prints would be written over the file. -1 where that fails. */
static int beyond_streams(int file) {
    if (file < 0 || file > STDERR_FILENO) {
        return file;
    }
    int other = fcntl(file, F_DUPFD_CLOEXEC, STDERR_FILENO + 1), kept = errno;
    close(file);
    errno = kept;
    return other;
}

/* Where an open file is put: far behind the file's end, where no reader comes, and each open file in a place of its own.
   The kernel keeps the place with the open file and not with its number. So a handle knows its own open file by it, also
   beside another handle of the same file. A forked child counts on from its parent. */
static off_t next_place(void) {
    static _Atomic uint32_t opened;
    return ((off_t)1 << 20) + (off_t)(atomic_fetch_add(&opened, 1) & INT32_MAX);
}

/* Notes which file it is, and puts it in its place. Answers its size. */
static int identify(struct rme_file *file, off_t *size) {
    struct stat stat;
    if (fstat(file->number, &stat) != 0) {
        return rme_say(RME_SYSTEM, "fstat");
    }
    if (!S_ISREG(stat.st_mode)) {
        return rme_say(RME_NOT_RME, "it is no regular file");
    }
    file->device = stat.st_dev;
    file->inode = stat.st_ino;
    *size = stat.st_size;
    file->place = lseek(file->number, next_place(), SEEK_SET);
    return file->place >= 0 ? 0 : rme_say(RME_SYSTEM, "lseek");
}

/* MAKING */

static int write_all(int file, const void *bytes, size_t size) {
    for (size_t done = 0; done < size;) {
        ssize_t count = write(file, (const char *)bytes + done, size - done);
        if (count < 0 && errno != EINTR) {
            return rme_say(RME_SYSTEM, "write");
        }
        done += count < 0 ? 0 : (size_t)count;
    }
    return 0;
}

/* The whole file, each byte of it, so that a full disk is met here and not by a word. */
static int write_file(int file, const struct rme_page *page) {
    static const unsigned char zeros[RME_PAGE] = {0};
    int error = fchmod(file, 0600) == 0 ? write_all(file, page, sizeof *page) : rme_say(RME_SYSTEM, "fchmod");
    for (uint64_t left = 8 * page->words; left > 0 && error == 0;) {
        size_t size = left < sizeof zeros ? (size_t)left : sizeof zeros;
        error = write_all(file, zeros, size);
        left -= size;
    }
    return error;
}

int rme_file_make(const struct rme_page *page, const char *path, char beside[PATH_MAX], struct rme_file *file) {
    struct stat there;
    off_t size;
    /* A process that finds its file needs neither room for another one nor the right to make it. */
    if (lstat(path, &there) == 0) {
        return RME_EXISTS;
    }
    int length = snprintf(beside, PATH_MAX, "%s.XXXXXX", path);
    if (length < 0 || length >= PATH_MAX) {
        errno = ENAMETOOLONG;
        return rme_say(RME_SYSTEM, "the path");
    }
    *file = (struct rme_file){.number = mkostemp(beside, O_CLOEXEC), .page = *page};
    if (file->number < 0) {
        return errno == ENOENT || errno == ENOTDIR ? RME_NO_FILE : rme_say(RME_SYSTEM, "mkostemp");
    }
    file->number = beyond_streams(file->number);
    int error = file->number < 0 ? rme_say(RME_SYSTEM, "fcntl") : write_file(file->number, page);
    error = error != 0 ? error : identify(file, &size);
    if (error != 0) {
        int kept = errno;
        close(file->number);
        unlink(beside);
        errno = kept;
    }
    file->shape =
        (struct rme_shape){(uint32_t)page->workers, (uint32_t)page->locks, (uint32_t)page->cells, (uint32_t)page->jobs};
    return error;
}

int rme_file_take_rights(const struct rme_file *file, const struct rme_file *from) {
    struct stat stat;
    if (fstat(from->number, &stat) != 0) {
        return rme_say(RME_SYSTEM, "fstat");
    }
    mode_t mode = stat.st_mode & 07777;
    int has_group = fchown(file->number, stat.st_uid, stat.st_gid) == 0;
    if (!has_group) {
        has_group = fchown(file->number, (uid_t)-1, stat.st_gid) == 0;
    }
    if (!has_group) {
        /* Another group may have no more than everybody. */
        mode &= ~(mode_t)070 | (mode & 07) << 3;
    }
    return fchmod(file->number, mode) == 0 ? 0 : rme_say(RME_SYSTEM, "fchmod");
}

int rme_file_publish(const char *beside, const char *path, int keep) {
    int error = 0, kept = errno;
    if (keep && link(beside, path) != 0) {
        kept = errno;
        error = errno == EEXIST ? RME_EXISTS : rme_say(RME_SYSTEM, "link");
    }
    unlink(beside);
    errno = kept;
    return error;
}

/* OPENING */

static int open_error(void) {
    switch (errno) {
    case ENOENT:
    case ENOTDIR:
        return RME_NO_FILE;
    case EISDIR:
    case ENXIO:
    case ENODEV:
        return rme_say(RME_NOT_RME, "it is no regular file");
    default:
        return rme_say(RME_SYSTEM, "open");
    }
}

static int check_page(struct rme_file *file) {
    unsigned char boot[40];
    off_t size = 0;
    int error = identify(file, &size);
    if (error != 0) {
        return error;
    }
    ssize_t count = pread(file->number, &file->page, sizeof file->page, 0);
    if (count < 0) {
        return rme_say(RME_SYSTEM, "pread");
    }
    const char *fault = count < RME_PAGE ? "it is shorter than its first page" : fault_of(&file->page, size);
    if (fault != NULL) {
        return rme_say(RME_NOT_RME, fault);
    }
    error = boot_number(boot);
    if (error != 0) {
        return error;
    }
    return memcmp(boot, file->page.boot, sizeof boot) != 0 ? RME_OLD_BOOT : 0;
}

int rme_file_open_any(const char *path, int writable, struct rme_file *file) {
    /* O_NONBLOCK: a pipe of this name does not hold the caller up. */
    int flags = (writable ? O_RDWR : O_RDONLY) | O_CLOEXEC | O_NOCTTY | O_NONBLOCK;
    *file = (struct rme_file){.number = beyond_streams(open(path, flags))};
    if (file->number < 0) {
        return open_error();
    }
    int error = check_page(file);
    if (error != 0) {
        int kept = errno;
        close(file->number);
        errno = kept;
        return error;
    }
    file->shape = (struct rme_shape){(uint32_t)file->page.workers, (uint32_t)file->page.locks,
                                     (uint32_t)file->page.cells, (uint32_t)file->page.jobs};
    return 0;
}

int rme_file_open(const char *path, int writable, struct rme_file *file) {
    int error = rme_file_open_any(path, writable, file);
    if (error == 0) {
        error = rme_file_moved(file);
        if (error != 0) {
            rme_file_close(file);
        }
    }
    return error;
}

/* RENEWALS */

int rme_file_read_moved(struct rme_file *file) {
    uint64_t moved = 0;
    ssize_t count = pread(file->number, &moved, sizeof moved, offsetof(struct rme_page, moved));
    if (count != sizeof moved) {
        errno = count < 0 ? errno : ENODATA;
        return rme_say(RME_SYSTEM, "pread");
    }
    file->page.moved = moved;
    return 0;
}

int rme_file_moved(const struct rme_file *file) {
    uint64_t moved = file->page.moved;
    return moved == 0 ? 0 : (moved & RME_MARK_KIND) == RME_MARK_UNFINISHED ? RME_UNFINISHED : RME_MOVED;
}

uint64_t rme_file_mark_of(uint64_t kind, const struct rme_file *file) {
    /* Of one device no two files below 2^48 have the same. */
    return kind | (((uint64_t)file->inode + (uint64_t)file->device * 0x9e3779b97f4b) & ~RME_MARK_KIND);
}

void rme_file_put_moved(struct rme_file *file, uint64_t from, uint64_t to) {
    atomic_compare_exchange_strong(&file->front->moved, &from, to);
}

/* LIVES */

/* A load and a store are enough, and no operation that is both: who has the worker's claim is the only one who stores its
   count. It is stored before the restart's first step. So where the process is killed, at any instruction, the count is as
   it was and the restart made no step, or it has counted, and no later one answers the same life. */
int rme_file_begin_life(const struct rme_file *file, uint32_t worker, uint64_t *life) {
    *life = 0;
    if (worker >= lives_of(&file->page)) {
        return 0;
    }
    uint64_t before = atomic_load(&file->front->lives[worker]);
    if (before == UINT64_MAX) {
        return RME_DAMAGED;
    }
    *life = before + 1;
    atomic_store(&file->front->lives[worker], *life);
    return 0;
}

void rme_file_take_lives(const struct rme_file *file, const struct rme_file *from) {
    for (uint64_t worker = 0; worker < lives_of(&file->page); worker++) {
        /* What a page of version 1 has there is 0. */
        atomic_store(&file->front->lives[worker], atomic_load(&from->front->lives[worker]));
    }
}

/* CLAIMS */

int rme_file_claim(const struct rme_file *file, uint32_t first, uint32_t count) {
    struct flock claim = {.l_type = F_WRLCK, .l_whence = SEEK_SET, .l_start = first, .l_len = count};
    if (fcntl(file->number, F_OFD_SETLK, &claim) == 0) {
        return 0;
    }
    return errno == EAGAIN || errno == EACCES ? RME_TAKEN : rme_say(RME_SYSTEM, "fcntl");
}

int rme_file_claimed(const struct rme_file *file, uint32_t worker, int *claimed) {
    struct flock claim = {.l_type = F_WRLCK, .l_whence = SEEK_SET, .l_start = worker, .l_len = 1};
    if (fcntl(file->number, F_OFD_GETLK, &claim) != 0) {
        return rme_say(RME_SYSTEM, "fcntl");
    }
    *claimed = claim.l_type != F_UNLCK;
    return 0;
}

/* MAPPING */

static size_t size_of(const struct rme_file *file) {
    return RME_PAGE + 8 * (size_t)file->page.words;
}

int rme_file_map(struct rme_file *file, int writable) {
    void *at = mmap(NULL, size_of(file), PROT_READ | (writable ? PROT_WRITE : 0), MAP_SHARED, file->number, 0);
    if (at == MAP_FAILED) {
        return rme_say(RME_SYSTEM, "mmap");
    }
    file->front = at;
    file->words = (_Atomic uint64_t *)((unsigned char *)at + RME_PAGE);
    return madvise(at, size_of(file), MADV_DONTFORK) == 0 ? 0 : rme_say(RME_SYSTEM, "madvise");
}

/* Whether the number is the file's still: a process that closed all files may have given it to another one. */
static int has_number(const struct rme_file *file) {
    struct stat stat;
    return fstat(file->number, &stat) == 0 && stat.st_dev == file->device && stat.st_ino == file->inode &&
           lseek(file->number, 0, SEEK_CUR) == file->place;
}

void rme_file_close_number(struct rme_file *file) {
    if (has_number(file)) {
        close(file->number);
    }
    file->number = -1;
}

void rme_file_close(struct rme_file *file) {
    if (file->words != NULL) {
        munmap(file->front, size_of(file));
    }
    rme_file_close_number(file);
}
