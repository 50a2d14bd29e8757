/* memory PROCESSES: what a worker adds to the memory of its process.

   So many processes make jobs over one file, each with a worker of its own, and as many do nothing. It prints the KiB that one
   of these and one of those takes, each page that processes share divided by how many have it (Pss of proc(5)). */
#include "bench.h"

#include "../../c/rme.h"

#include <signal.h>

enum { JOBS = 1000 };

static char path[64];

static void must(int error) {
    if (error != 0) {
        fail("%s %s", rme_error_text(error), rme_why());
    }
}

/* Makes the jobs of a worker, which stays attached. */
static void work(unsigned worker) {
    const struct rme_operation add[] = {{RME_ADD, 0, 1}};
    struct rme_handle *handle;
    must(rme_attach(path, worker, &handle));
    must(rme_recover(handle, NULL));
    for (unsigned job = 0; job < JOBS; job++) {
        must(rme_run(handle, 0, add, 1, RME_FOREVER, NULL));
    }
}

static unsigned long memory_of(pid_t process) {
    char name[64], line[256];
    unsigned long size = 0;
    snprintf(name, sizeof name, "/proc/%d/smaps_rollup", (int)process);
    FILE *file = fopen(name, "r");
    while (file != NULL && fgets(line, sizeof line, file) != NULL && sscanf(line, "Pss: %lu", &size) != 1) {
    }
    if (file == NULL || size == 0) {
        fail("no memory of a process to be read");
    }
    fclose(file);
    return size;
}

/* The KiB that one process takes, of this number of processes. */
static unsigned long memory_with(unsigned processes, void (*does)(unsigned worker)) {
    pid_t children[256];
    int ready[2];
    unsigned long sum = 0;
    if (pipe(ready) != 0) {
        fail("no pipe: %s", strerror(errno));
    }
    for (unsigned worker = 0; worker < processes; worker++) {
        if ((children[worker] = fork()) < 0) {
            fail("no process to be had");
        }
        if (children[worker] == 0) {
            if (does != NULL) {
                does(worker);
            }
            if (write(ready[1], "", 1) == 1) {
                pause();
            }
            _exit(1);
        }
    }
    for (unsigned worker = 0; worker < processes; worker++) {
        char byte;
        if (read(ready[0], &byte, 1) != 1) {
            fail("a process failed");
        }
    }
    for (unsigned worker = 0; worker < processes; worker++) {
        sum += memory_of(children[worker]);
    }
    for (unsigned worker = 0; worker < processes; worker++) {
        kill(children[worker], SIGKILL);
        waitpid(children[worker], NULL, 0);
    }
    return sum / processes;
}

int main(int count, char **words) {
    const char *names[] = {"a"};
    unsigned processes = count == 2 ? (unsigned)strtoul(words[1], NULL, 10) : 0;
    if (processes == 0 || processes > 256) {
        fail("usage: %s PROCESSES", words[0]);
    }
    snprintf(path, sizeof path, "%s/rme-memory-%d", access("/dev/shm", W_OK) == 0 ? "/dev/shm" : "/tmp", (int)getpid());
    /* A process that fails is waited for no longer than that. */
    alarm(60);
    must(rme_create(path, processes, 1, 1, JOBS, names));
    unsigned long with = memory_with(processes, work), without = memory_with(processes, NULL);
    unlink(path);
    printf("%lu %lu\n", with, without);
    return 0;
}
