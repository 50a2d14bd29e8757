/* lives FOLDER: how often a worker was restarted.

   Each restart of a worker answers one life more than the one before; of processes that are killed at random moments,
   hundreds of them, many in the midst of a restart, or behind each instruction of one, no two answer the same. A renewal
   keeps the counts. A file of version 1, whose bytes are written here, is used as ever, and has no lives. */
#include "check.h"

#include <errno.h>
#include <fcntl.h>
#include <sched.h>
#include <signal.h>
#include <sys/mman.h>
#include <sys/ptrace.h>
#include <sys/wait.h>
#include <time.h>

enum { PAGE = 4096, LIVES_AT = 2048, KILLS = 400, NO_STEPS = 9 };

static char folder[3000];
static const struct rme_operation add_1[] = {{RME_ADD, 0, 1}};

static const char *at(const char *name) {
    static char paths[4][4096];
    static unsigned next;
    char *path = paths[next++ % 4];
    snprintf(path, sizeof paths[0], "%s/lives-%s", folder, name);
    return path;
}

static struct rme_handle *attached(const char *path, uint32_t worker, struct rme_stance *stance) {
    struct rme_handle *handle;
    must("attach", rme_attach(path, worker, &handle));
    must("recover", rme_recover(handle, stance));
    return handle;
}

/* The life of one more restart. */
static uint64_t life_of_next(const char *path, uint32_t worker) {
    struct rme_stance stance;
    must("detach", rme_detach(attached(path, worker, &stance)));
    return stance.life;
}

static void is_life(const char *name, uint64_t found, uint64_t wanted) {
    check(found == wanted, "%s: life %llu in place of %llu", name, (unsigned long long)found,
          (unsigned long long)wanted);
}

/* A number of the first page. */
static uint64_t number_at(const char *path, off_t byte) {
    uint64_t number = 0;
    int file = open(path, O_RDONLY | O_CLOEXEC);
    if (pread(file, &number, sizeof number, byte) != sizeof number) {
        give_up("FAIL pread: %s", strerror(errno));
    }
    close(file);
    return number;
}

static void put_at(const char *path, off_t byte, uint64_t number) {
    int file = open(path, O_WRONLY | O_CLOEXEC);
    if (pwrite(file, &number, sizeof number, byte) != sizeof number) {
        give_up("FAIL pwrite: %s", strerror(errno));
    }
    close(file);
}

static void try_counts(void) {
    const char *path = at("counts");
    struct rme_handle *handle;
    struct rme_stance stance = {0};
    must("create", rme_create(path, 256, 1, 1, 10, all_names));
    is_life("version", number_at(path, 8), 2);
    is_life("a new file", number_at(path, LIVES_AT + 8 * 3), 0);
    handle = attached(path, 3, &stance);
    is_life("the first restart", stance.life, 1);
    is_life("in the file", number_at(path, LIVES_AT + 8 * 3), 1);
    answers("recover again", rme_recover(handle, NULL), RME_UP);
    must("run", rme_run(handle, 0, add_1, 1, 0, NULL));
    stance.life = 9;
    answers("standing", rme_standing(handle, &stance), 0);
    is_life("it stays through jobs", stance.life, 1);
    must("detach", rme_detach(handle));
    is_life("the second", life_of_next(path, 3), 2);
    must("attach", rme_attach(path, 3, &handle));
    must("detach", rme_detach(handle));
    is_life("without a restart between", life_of_next(path, 3), 3);
    is_life("the last worker's first", life_of_next(path, 255), 1);
    is_life("the end of the page", number_at(path, PAGE - 8), 1);
    is_life("its neighbour", number_at(path, PAGE - 16), 0);
    is_life("the first worker", life_of_next(path, 0), 1);
    heading("restarts are counted");
}

/* A count that no run reaches, and one that many do. */
static void try_last_life(void) {
    const char *path = at("last");
    struct rme_handle *handle;
    struct rme_stance stance = {0};
    must("create", rme_create(path, 2, 1, 1, 10, all_names));
    put_at(path, LIVES_AT + 8, UINT64_MAX);
    must("attach", rme_attach(path, 1, &handle));
    answers("the greatest number", rme_recover(handle, &stance), RME_DAMAGED);
    answers("it has not recovered", rme_standing(handle, &stance), RME_DOWN);
    put_at(path, LIVES_AT + 8, UINT64_MAX - 1);
    answers("mended", rme_recover(handle, &stance), 0);
    is_life("mended", stance.life, UINT64_MAX);
    must("detach", rme_detach(handle));
    put_at(path, LIVES_AT + 8, 1000000);
    is_life("many", life_of_next(path, 1), 1000001);
    heading("the greatest count");
}

/* KILLS */

/* The life that each process noted, one after the other; 0 where it was killed before that. */
struct noted {
    _Atomic uint64_t lives[KILLS];
};

static int64_t now(void) {
    struct timespec time;
    clock_gettime(CLOCK_MONOTONIC, &time);
    return (int64_t)time.tv_sec * 1000000000 + time.tv_nsec;
}

/* Notes its life, and makes jobs until it is killed. */
static void live(const char *path, _Atomic uint64_t *noted) {
    struct rme_handle *handle;
    struct rme_stance stance;
    must("attach", rme_attach(path, 1, &handle));
    must("recover", rme_recover(handle, &stance));
    atomic_store(noted, stance.life);
    if (stance.where != RME_READY) {
        must("enter", rme_enter(handle, RME_FOREVER));
        must("commit", rme_commit(handle, NULL));
    }
    while (rme_run(handle, 0, add_1, 1, RME_FOREVER, NULL) == 0) {
    }
    pause();
}

/* Has processes of worker 1 killed: every second one while it makes jobs, and the others within the time that the last of
   those took up to its life. */
static void kill_many(const char *path, struct noted *noted, unsigned seed) {
    int64_t took = 1000000;
    fflush(stdout);
    for (unsigned kills = 0; kills < KILLS; kills++) {
        int64_t began = now(), waits = rand_r(&seed) % took;
        pid_t child = fork();
        if (child == 0) {
            live(path, &noted->lives[kills]);
        }
        while (kills % 2 == 0 && atomic_load(&noted->lives[kills]) == 0 && now() < began + 10000000000) {
            sched_yield();
        }
        took = kills % 2 == 0 ? now() - began : took;
        nanosleep(&(struct timespec){.tv_nsec = (long)(kills % 2 == 0 ? waits / 8 : waits) % 1000000000}, NULL);
        if (child < 0 || kill(child, SIGKILL) != 0 || waitpid(child, NULL, 0) != child) {
            give_up("FAIL kill: %s", strerror(errno));
        }
    }
}

static void try_kills(void) {
    const char *path = at("kills");
    unsigned seed = (unsigned)time(NULL), since = 1, early = 0;
    uint64_t last = 0;
    struct noted *noted = mmap(NULL, sizeof *noted, PROT_READ | PROT_WRITE, MAP_SHARED | MAP_ANONYMOUS, -1, 0);
    if (noted == MAP_FAILED) {
        give_up("FAIL mmap: %s", strerror(errno));
    }
    must("create", rme_create(path, 2, 1, 1, RME_MOST_JOBS, all_names));
    kill_many(path, noted, seed);
    /* One that was killed early has had a life or none; nobody has had that of another. */
    for (unsigned kills = 0; kills < KILLS; kills++, since++) {
        uint64_t life = atomic_load(&noted->lives[kills]);
        if (life == 0) {
            check(kills % 2 != 0, "process %u noted no life", kills);
            early++;
            continue;
        }
        check(last < life && life <= last + since, "life %llu behind %llu, by process %u", (unsigned long long)life,
              (unsigned long long)last, kills);
        last = life;
        since = 0;
    }
    uint64_t next = life_of_next(path, 1);
    check(last < next && next <= last + since, "life %llu behind %llu", (unsigned long long)next,
          (unsigned long long)last);
    is_life("the other worker", life_of_next(path, 0), 1);
    munmap(noted, sizeof *noted);
    printf("     %d kills, %u of them before a life was noted; seed %u\n", KILLS, early, seed);
    heading("lives of processes that are killed");
}

/* INSTRUCTIONS */

/* A process that is let go one instruction at a time from here on. */
static pid_t stepped(const char *path, _Atomic uint64_t *noted) {
    pid_t child = fork();
    if (child == 0) {
        struct rme_handle *handle;
        struct rme_stance stance;
        must("attach", rme_attach(path, 1, &handle));
        if (ptrace(PTRACE_TRACEME, 0, NULL, NULL) != 0) {
            _exit(NO_STEPS);
        }
        raise(SIGSTOP);
        atomic_store(noted, rme_recover(handle, &stance) == 0 ? stance.life : UINT64_MAX);
        _exit(0);
    }
    return child;
}

/* Kills a restart behind this number of its instructions. Answers 1; or 0 where it ended before, or -1 where no process can be
   stepped here. */
static int kill_behind(const char *path, unsigned instructions, _Atomic uint64_t *noted) {
    int status = 0;
    pid_t child = stepped(path, noted);
    if (child < 0 || waitpid(child, &status, 0) != child) {
        give_up("FAIL fork: %s", strerror(errno));
    }
    if (WIFEXITED(status) && WEXITSTATUS(status) == NO_STEPS) {
        return -1;
    }
    for (unsigned made = 0; made < instructions && WIFSTOPPED(status); made++) {
        if (ptrace(PTRACE_SINGLESTEP, child, NULL, NULL) != 0 || waitpid(child, &status, 0) != child) {
            give_up("FAIL ptrace: %s", strerror(errno));
        }
    }
    if (WIFSTOPPED(status)) {
        kill(child, SIGKILL);
        waitpid(child, &status, 0);
        return 1;
    }
    return 0;
}

/* A kill behind each of the first instructions of a restart, up to where its life is counted, and then behind some. */
static void try_instructions(void) {
    const char *path = at("instructions");
    _Atomic uint64_t *noted = mmap(NULL, PAGE, PROT_READ | PROT_WRITE, MAP_SHARED | MAP_ANONYMOUS, -1, 0);
    uint64_t last = 0;
    unsigned before = 0, behind = 0, instructions = 1;
    int found = 1;
    must("create", rme_create(path, 2, 1, 1, 10, all_names));
    while (found == 1 && before < 5000) {
        atomic_store(noted, 0);
        found = kill_behind(path, instructions, noted);
        uint64_t life = number_at(path, LIVES_AT + 8), answered = atomic_load(noted);
        check(life == last || life == last + 1, "behind instruction %u: life %llu", instructions,
              (unsigned long long)life);
        check(answered == 0 || answered == life, "behind instruction %u it answers %llu", instructions,
              (unsigned long long)answered);
        before += life == last;
        behind += life != last;
        instructions += life == last ? 1 : 1 + instructions / 16;
        last = life;
    }
    if (found < 0) {
        puts("     no process can be stepped here");
    } else {
        check(before > 0 && behind > 1, "kills before and behind the count: %u, %u", before, behind);
        printf("     %u kills before a life was counted, %u behind\n", before, behind);
    }
    is_life("the next", life_of_next(path, 1), last + 1);
    munmap(noted, PAGE);
    heading("kills behind each instruction");
}

/* RENEWALS */

static void try_renewals(void) {
    char old[4096], next[4096];
    snprintf(old, sizeof old, "%s", at("old"));
    snprintf(next, sizeof next, "%s", at("next"));
    must("create", rme_create(old, 3, 1, 1, 10, all_names));
    for (int restart = 0; restart < 4; restart++) {
        struct rme_handle *handle = attached(old, 2, NULL);
        must("run", rme_run(handle, 0, add_1, 1, 0, NULL));
        must("detach", rme_detach(handle));
    }
    is_life("worker 0", life_of_next(old, 0), 1);
    must("renew", rme_renew(old, next));
    is_life("worker 2 goes on", life_of_next(next, 2), 5);
    /* The renewal's own jobs are of worker 0, and no life of it. */
    is_life("worker 0 goes on", life_of_next(next, 0), 2);
    is_life("worker 1 begins", life_of_next(next, 1), 1);
    must("renew again", rme_renew(next, at("third")));
    is_life("worker 2 goes on again", life_of_next(at("third"), 2), 6);
    heading("a renewal keeps the lives");
}

/* THE FIRST VERSION */

/* A file of version 1 with two workers, and a lock "bank" with one cell: 31 words a worker, 2 + 2 + 2 of the lock. */
static void write_first_version(const char *path) {
    static unsigned char bytes[PAGE + 8 * 68];
    const uint64_t front[] = {1, 0x0102030405060708}, sizes[] = {2, 1, 1, 10, 68};
    int boot = open("/proc/sys/kernel/random/boot_id", O_RDONLY | O_CLOEXEC);
    int file = open(path, O_WRONLY | O_CREAT | O_TRUNC | O_CLOEXEC, 0600);
    memcpy(bytes, "rmewords", 8);
    memcpy(bytes + 8, front, sizeof front);
    memcpy(bytes + 64, sizes, sizeof sizes);
    memcpy(bytes + 112, "bank", 4);
    if (read(boot, bytes + 24, 36) != 36 || write(file, bytes, sizeof bytes) != (ssize_t)sizeof bytes) {
        give_up("FAIL write: %s", strerror(errno));
    }
    close(boot);
    close(file);
}

static void try_first_version(void) {
    char path[4096], next[4096];
    struct rme_stance stance;
    struct rme_receipt receipt = {0};
    uint64_t section = 9;
    snprintf(path, sizeof path, "%s", at("first"));
    snprintf(next, sizeof next, "%s", at("first-next"));
    write_first_version(path);
    for (uint64_t restart = 0; restart < 3; restart++) {
        stance.life = 9;
        struct rme_handle *handle = attached(path, 1, &stance);
        is_life("none", stance.life, 0);
        must("submit", rme_submit(handle, 0, add_1, 1, NULL));
        must("enter", rme_enter(handle, 0));
        check(rme_section(handle, &section) == 0 && section == restart, "its section");
        check(rme_standing(handle, &stance) == 0 && stance.where == RME_INSIDE && stance.life == 0, "inside, no life");
        check(rme_commit(handle, &receipt) == 0 && receipt.reply == restart + 1, "its receipt");
        must("detach", rme_detach(handle));
    }
    is_life("its version stays", number_at(path, 8), 1);
    for (off_t byte = 624; byte < PAGE; byte += 8) {
        is_life("nothing was stored", number_at(path, byte), 0);
    }
    put_at(path, LIVES_AT + 8, 1);
    answers("a life in it", rme_attach(path, 1, &(struct rme_handle *){NULL}), RME_NOT_RME);
    put_at(path, LIVES_AT + 8, 0);
    must("renew", rme_renew(path, next));
    is_life("the next file has lives", number_at(next, 8), 2);
    is_life("which begin", life_of_next(next, 1), 1);
    is_life("of worker 0 too", life_of_next(next, 0), 1);
    heading("a file of version 1");
}

int main(int count, char **words) {
    if (count != 2) {
        return 2;
    }
    snprintf(folder, sizeof folder, "%s", words[1]);
    setvbuf(stdout, NULL, _IOLBF, 0);
    try_counts();
    try_last_life();
    try_kills();
    try_instructions();
    try_renewals();
    try_first_version();
    return ends();
}
