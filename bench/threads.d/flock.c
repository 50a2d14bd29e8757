/* The same jobs with file locks, as programs do that share a file: each lock is a file, held by flock, and each
   thread has an open file description of its own, as a process would.

   The file has how many jobs are over and the cell, a redo record, and a receipt for each worker. A job takes the
   lock, reads the cell and the redo record, writes down what it will leave, writes its receipt and then the cell with
   the count, and unlocks. The system unlocks for a holder that dies; the next holder of the lock tells by a redo
   record that is one ahead of the count that the holder died in the middle, and finishes its job, once.

   It is a fair comparison since a job counts once in spite of a crash of its holder, by no more calls than that
   takes: two of flock, one read and three writes. It does less than the service: a job that waits is not written
   down, a holder that dies does not keep its lock, nothing is kept of finished jobs but each worker's last receipt.
   Nothing is synced to a disk, since a process that dies leaves what it wrote. The files are in memory where /dev/shm
   is there, else in /tmp; they lose their names as soon as they are open, so that none is left however the program
   ends. */
#include "bench.h"

#include <errno.h>
#include <fcntl.h>
#include <sys/file.h>
#include <unistd.h>

struct head {
    uint64_t over;
    uint64_t cell;
};

/* The job that was at work last: it is still to be finished where `turn` is one more than the head's count. */
struct redo {
    uint64_t turn;
    uint64_t worker;
    uint64_t number;
    uint64_t value;
};

struct front {
    struct head head;
    struct redo redo;
};

struct receipt {
    uint64_t number;
    uint64_t place;
    uint64_t reply;
    uint64_t lock;
};

static struct run run;
static int files[MOST_THREADS];

static off_t place_of_receipt(uint64_t worker) {
    return (off_t)(sizeof(struct front) + worker * sizeof(struct receipt));
}

static void lock_file(int file) {
    while (flock(file, LOCK_EX) != 0) {
        if (errno != EINTR) {
            fail("flock: %s", strerror(errno));
        }
    }
}

static void read_at(int file, void *bytes, size_t size, off_t place) {
    if (pread(file, bytes, size, place) != (ssize_t)size) {
        fail("a read came short");
    }
}

static void write_at(int file, const void *bytes, size_t size, off_t place) {
    if (pwrite(file, bytes, size, place) != (ssize_t)size) {
        fail("a write came short");
    }
}

/* Does what the redo record says, and answers the head that this leaves. */
static struct head finish(int file, uint64_t lock, const struct redo *redo) {
    struct receipt receipt = {redo->number, redo->turn - 1, redo->value, lock};
    struct head head = {redo->turn, redo->value};
    write_at(file, &receipt, sizeof receipt, place_of_receipt(redo->worker));
    write_at(file, &head, sizeof head, offsetof(struct front, head));
    return head;
}

static void make_job(int file, uint64_t lock, uint64_t worker, uint64_t number) {
    struct front front;
    lock_file(file);
    read_at(file, &front, sizeof front, 0);
    if (front.redo.turn != front.head.over) {
        front.head = finish(file, lock, &front.redo);
    }
    struct redo redo = {front.head.over + 1, worker, number, front.head.cell + 1};
    write_at(file, &redo, sizeof redo, offsetof(struct front, redo));
    finish(file, lock, &redo);
    if (flock(file, LOCK_UN) != 0) {
        fail("flock: %s", strerror(errno));
    }
}

static void work(unsigned worker) {
    for (unsigned job = 1; job <= run.jobs; job++) {
        make_job(files[worker], lock_of(&run, worker), worker, job);
    }
}

/* Opens a description for each worker, and takes the names away again. */
static void open_files(void) {
    char folder[] = "/dev/shm/flock-XXXXXX";
    char other[] = "/tmp/flock-XXXXXX";
    char *made = mkdtemp(folder);
    if (made == NULL) {
        made = mkdtemp(other);
    }
    if (made == NULL) {
        fail("no temporary folder: %s", strerror(errno));
    }
    char path[64];
    int error = 0;
    for (unsigned worker = 0; worker < run.threads; worker++) {
        snprintf(path, sizeof path, "%s/%u", made, lock_of(&run, worker));
        files[worker] = open(path, O_RDWR | O_CREAT | O_CLOEXEC, 0600);
        error = files[worker] < 0 ? errno : error;
    }
    for (unsigned lock = 0; lock < locks_of(&run); lock++) {
        snprintf(path, sizeof path, "%s/%u", made, lock);
        unlink(path);
    }
    rmdir(made);
    if (error != 0) {
        fail("a file cannot be opened: %s", strerror(error));
    }
    const struct front front = {0};
    for (unsigned worker = 0; worker < run.threads; worker++) {
        write_at(files[worker], &front, sizeof front, 0);
    }
}

/* What must be so when all jobs are over: each counts once. */
static void check(void) {
    for (unsigned worker = 0; worker < run.threads; worker++) {
        struct front front;
        struct receipt receipt;
        read_at(files[worker], &front, sizeof front, 0);
        read_at(files[worker], &receipt, sizeof receipt, place_of_receipt(worker));
        if (front.head.cell != jobs_of_lock(&run) || front.head.over != front.head.cell) {
            fail("the cell of lock %u is not the number of its jobs", lock_of(&run, worker));
        }
        if (receipt.number != run.jobs) {
            fail("worker %u has not done its jobs", worker);
        }
    }
}

int main(int count, char **arguments) {
    run = run_of(count, arguments);
    open_files();
    uint64_t time = time_of(&run, work);
    check();
    print_time(&run, time);
    return 0;
}
