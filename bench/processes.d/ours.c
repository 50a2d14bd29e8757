/* The jobs by c/rme.h: each process has a worker of one file, which is in memory where /dev/shm is there. */
#include "bench.h"

#include "../../c/rme.h"

static struct run run;
static char path[64];
static struct rme_handle *handle;

static void must(int error) {
    if (error != 0) {
        fail("%s %s", rme_error_text(error), rme_why());
    }
}

static void prepare(unsigned worker) {
    must(rme_attach(path, worker, &handle));
    must(rme_recover(handle, NULL));
}

static void work(unsigned worker) {
    const struct rme_operation add[] = {{RME_ADD, 0, 1}};
    for (unsigned job = 0; job < run.jobs; job++) {
        must(rme_run(handle, lock_of(&run, worker), add, 1, RME_FOREVER, NULL));
    }
}

/* What must be so when all jobs are over: each counts once. */
static void check(void) {
    struct rme_handle *looks;
    uint64_t cells[1];
    int settled;
    must(rme_observe(path, &looks));
    for (unsigned lock = 0; lock < locks_of(&run); lock++) {
        must(rme_cells(looks, lock, cells, &settled));
        if (cells[0] != jobs_of_lock(&run) || !settled) {
            fail("the cell of lock %u is not the number of its jobs", lock);
        }
    }
}

int main(int count, char **arguments) {
    static const char *const names[] = {"a", "b", "c", "d", "e", "f", "g", "h", "i", "j", "k", "l", "m", "n", "o", "p"};
    run = run_of(count, arguments);
    snprintf(path, sizeof path, "%s/rme-bench-%d", access("/dev/shm", W_OK) == 0 ? "/dev/shm" : "/tmp", (int)getpid());
    must(rme_create(path, run.threads, locks_of(&run), 1, run.jobs, names));
    uint64_t time = time_of_processes(&run, prepare, work);
    check();
    unlink(path);
    print_time(&run, time);
    return 0;
}
