/* renew.c: the next file of a lock service whose numbers are used up. */
#define _GNU_SOURCE
#include "handle.h"

#include <errno.h>
#include <sys/stat.h>
#include <unistd.h>

/* Nobody is inside or waiting: every worker's last job is over. */
static int is_at_rest(const struct rme_file *file) {
    int error = 0;
    for (uint32_t worker = 0; worker < file->shape.workers; worker++) {
        uint64_t done = rme_look(file, RME_CORE_DONE, worker, 0, 0);
        uint64_t begun = rme_look(file, RME_CORE_BEGUN, worker, 0, 0);
        if (done > begun || begun > file->shape.jobs) {
            return RME_DAMAGED;
        }
        error = done < begun ? RME_BUSY : error;
    }
    return error;
}

/* Jobs of a worker of the new file set the cells of a lock to those of the old file; a cell that is 0 is so already. */
static int carry_over(const struct rme_file *from, struct rme_handle *to, uint32_t lock) {
    struct rme_operation operations[RME_MOST_OPERATIONS];
    uint32_t count = 0;
    int error = 0;
    for (uint32_t cell = 0; cell < from->shape.cells && error == 0; cell++) {
        uint64_t value = rme_look(from, RME_CORE_CELL, lock, cell, 0);
        if (value != 0) {
            operations[count++] = (struct rme_operation){RME_SET, cell, value};
        }
        if (count == RME_MOST_OPERATIONS || (count > 0 && cell + 1 == from->shape.cells)) {
            error = rme_run(to, lock, operations, count, 0, NULL);
            count = 0;
        }
    }
    return error;
}

/* Behind these jobs one more is written down and given up, so that the worker's next process does not take a receipt of
   theirs for one of its own. It is left out where none was made, and where the shape allows no more jobs. */
static int give_up_one(struct rme_handle *to) {
    struct rme_stance stance;
    int error = rme_standing(to, &stance);
    if (error != 0 || stance.number == 0 || stance.number == to->file.shape.jobs) {
        return error;
    }
    error = rme_submit(to, 0, NULL, 0, NULL);
    return error != 0 ? error : rme_withdraw(to, NULL);
}

/* Makes the new file whole, with the mark that it is not the one to use, under the name beside that it answers. Its
   workers have the lives that they had: what this process did as worker 0 is no life of that. */
static int make_next(const struct rme_file *from, const char *path, char beside[PATH_MAX], struct rme_handle **handle) {
    struct rme_page page = from->page;
    struct rme_file file;
    struct rme_handle *to;
    page.version = RME_WITH_LIVES;
    page.moved = rme_file_mark_of(RME_MARK_UNFINISHED, from);
    int error = rme_file_make(&page, path, beside, &file);
    if (error != 0) {
        return error;
    }
    error = rme_raise(&file, 0, &to);
    if (error == 0) {
        error = rme_recover(to, NULL);
        for (uint32_t lock = 0; lock < from->shape.locks && error == 0; lock++) {
            error = carry_over(from, to, lock);
        }
        error = error != 0 ? error : give_up_one(to);
        error = error != 0 ? error : rme_file_take_rights(&to->file, from);
        if (error != 0) {
            rme_lower(to);
        } else {
            rme_file_take_lives(&to->file, from);
        }
    }
    if (error != 0) {
        rme_file_publish(beside, path, 0);
    } else {
        *handle = to;
    }
    return error;
}

/* Removes a new file that a killed renewal of this old one left. This call has all claims on the old file, so no other
   renewal of it is under way; and the old file is not moved, so the new one was never the one to use. */
static int remove_left(const struct rme_file *from, const char *path) {
    struct rme_file left;
    struct stat named;
    if (rme_file_open_any(path, 0, &left) != 0) {
        return 0; /* and if something is there, it stays */
    }
    int is_left = left.page.moved == rme_file_mark_of(RME_MARK_UNFINISHED, from) && lstat(path, &named) == 0 &&
                  named.st_dev == left.device && named.st_ino == left.inode;
    rme_file_close(&left);
    return is_left && unlink(path) != 0 ? rme_say(RME_SYSTEM, "unlink") : 0;
}

/* Makes the new file the one to use. The old one has the mark that names the new one. */
static void hand_over(struct rme_file *from, struct rme_file *to) {
    rme_file_put_moved(to, rme_file_mark_of(RME_MARK_UNFINISHED, from), 0);
    rme_file_put_moved(from, rme_file_mark_of(RME_MARK_MOVING, to), 1);
}

/* A renewal from its beginning. At no moment can both files be attached: the new one gets its name with a mark, the old one
   is marked by one store, and then the new one's mark is taken away. */
static int begin(struct rme_file *from, const char *new_path) {
    char beside[PATH_MAX];
    struct rme_handle *to;
    int error = rme_file_moved(from);
    error = error != 0 ? error : is_at_rest(from);
    error = error != 0 ? error : remove_left(from, new_path);
    error = error != 0 ? error : make_next(from, new_path, beside, &to);
    if (error != 0) {
        return error;
    }
    error = rme_file_publish(beside, new_path, 1);
    if (error == 0) {
        rme_file_put_moved(from, 0, rme_file_mark_of(RME_MARK_MOVING, &to->file));
        hand_over(from, &to->file);
    }
    int kept = errno;
    rme_lower(to);
    errno = kept;
    return error;
}

/* The end of a renewal that was killed when the old file was marked. Only the file that the mark names is the new one. */
static int finish(struct rme_file *from, const char *new_path) {
    struct rme_file to;
    int error = rme_file_open_any(new_path, 1, &to);
    if (error != 0) {
        return error == RME_SYSTEM ? error : RME_MOVED;
    }
    error = from->page.moved == rme_file_mark_of(RME_MARK_MOVING, &to) ? rme_file_map(&to, 1) : RME_MOVED;
    if (error == 0) {
        hand_over(from, &to);
    }
    int kept = errno;
    rme_file_close(&to);
    errno = kept;
    return error;
}

int rme_renew(const char *path, const char *new_path) {
    struct rme_file from;
    int error = rme_file_open_any(path, 1, &from);
    if (error != 0) {
        return error;
    }
    int is_over = from.page.moved == 1;
    error = is_over ? RME_MOVED : rme_file_claim(&from, 0, from.shape.workers);
    error = error != 0 ? error : rme_file_read_moved(&from);
    error = error != 0 ? error : rme_file_map(&from, 1);
    if (error == 0) {
        int is_moving = (from.page.moved & RME_MARK_KIND) == RME_MARK_MOVING;
        error = is_moving ? finish(&from, new_path) : begin(&from, new_path);
    }
    int kept = errno;
    rme_file_close(&from);
    errno = kept;
    return error;
}
