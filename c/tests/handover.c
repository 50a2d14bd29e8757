/* handover FOLDER: renewals that are killed before each of the calls by which they hand the file over, while a process
   polls the new name and makes jobs there as soon as it can.

   The linker puts functions around link, unlink and rme_file_put_moved, by --wrap, which count the calls and stop the
   process before the one of a given number. After each kill not both files can be attached. The next call with the same
   two files finishes what it finds, or is killed itself. No job is lost, be it made in the old file or in the new one. */
#include "check.h"

#include "../file.h"

#include <errno.h>
#include <fcntl.h>
#include <grp.h>
#include <sched.h>
#include <signal.h>
#include <sys/mman.h>
#include <sys/stat.h>
#include <sys/wait.h>

enum { CELLS = 12, JOBS = 500, POLLED = 11 };

static char folder[2048], old[4096], next[4096], other[4096], third[4096];

/* What the process that polls has seen; in memory that both have. */
struct polled {
    _Atomic int ends;
    _Atomic int both; /* whether both files could be attached at once */
    _Atomic uint64_t jobs;
    _Atomic unsigned unfinished; /* so many of its calls met the mark */
};

static struct polled *polled;

/* POINTS */

static unsigned point, passed;
static int signal_there;

static void pass(void) {
    if (++passed == point) {
        raise(signal_there);
    }
}

int __real_link(const char *from, const char *to);
int __real_unlink(const char *path);
void __real_rme_file_put_moved(struct rme_file *file, uint64_t from, uint64_t to);

int __wrap_link(const char *from, const char *to) {
    pass();
    return __real_link(from, to);
}

int __wrap_unlink(const char *path) {
    pass();
    return __real_unlink(path);
}

void __wrap_rme_file_put_moved(struct rme_file *file, uint64_t from, uint64_t to) {
    pass();
    __real_rme_file_put_moved(file, from, to);
}

/* Of a renewal where no new file is there: what it is killed or stopped before. */
enum { AT_LINK = 1, AT_UNLINK, AT_OLD_MARK, AT_NEW_MARK, AT_END, AFTER };

/* Has a process renew a file, and sends it the signal before its call of this number. Answers its number. */
static pid_t renewing(const char *from, const char *to, unsigned at, int which) {
    pid_t child = fork();
    if (child < 0) {
        give_up("FAIL fork: %s", strerror(errno));
    }
    if (child == 0) {
        signal_there = which;
        passed = 0;
        point = at;
        _exit(rme_renew(from, to));
    }
    return child;
}

/* What a renewal answers that is killed before this call; -1 where it was killed. */
static int renewed_to(const char *from, const char *to, unsigned at) {
    int status = 0;
    waitpid(renewing(from, to, at, SIGKILL), &status, 0);
    return WIFEXITED(status) ? WEXITSTATUS(status) : -1;
}

/* FILES */

static int attach_only(const char *path, uint32_t worker) {
    struct rme_handle *handle = NULL;
    int error = rme_attach(path, worker, &handle);
    return error == 0 ? rme_detach(handle) : error;
}

static int add(const char *path, uint32_t worker, uint32_t cell, uint64_t value) {
    struct rme_handle *handle;
    int error = rme_attach(path, worker, &handle);
    if (error == 0) {
        error = rme_recover(handle, NULL);
        error = error != 0 ? error : rme_run(handle, 0, &(struct rme_operation){RME_ADD, cell, value}, 1, 1000, NULL);
        rme_detach(handle);
    }
    return error;
}

static uint64_t cell_of(const char *path, uint32_t cell) {
    struct rme_handle *handle;
    uint64_t cells[CELLS] = {0};
    must("observe", rme_observe(path, &handle));
    must("cells", rme_cells(handle, 0, cells, NULL));
    must("detach", rme_detach(handle));
    return cells[cell];
}

/* An old file whose ten cells are set, and no other one. */
static void begin(void) {
    unlink(old);
    unlink(next);
    unlink(other);
    unlink(third);
    must("create", rme_create(old, 3, 1, CELLS, JOBS, all_names));
    for (uint32_t cell = 0; cell < 10; cell++) {
        must("add", add(old, 1, cell, cell + 1));
    }
}

/* POLLING */

/* Makes a job in the new file as soon as there is one to attach, and looks whether the old one may be attached then. */
static void poll_once(void) {
    struct rme_handle *handle;
    int error = rme_attach(next, 2, &handle);
    if (error == RME_UNFINISHED) {
        atomic_fetch_add(&polled->unfinished, 1);
        sched_yield();
    }
    if (error == 0) {
        if (attach_only(old, 2) == 0) {
            atomic_store(&polled->both, 1);
        }
        const struct rme_operation one[] = {{RME_ADD, POLLED, 1}};
        error = rme_recover(handle, NULL);
        error = error != 0 ? error : rme_run(handle, 0, one, 1, 1000, NULL);
        atomic_fetch_add(&polled->jobs, error == 0);
        rme_detach(handle);
    }
}

static pid_t polling(void) {
    atomic_store(&polled->ends, 0);
    atomic_store(&polled->both, 0);
    atomic_store(&polled->jobs, 0);
    pid_t child = fork();
    if (child == 0) {
        while (!atomic_load(&polled->ends)) {
            poll_once();
        }
        for (int time = 0; time < 3; time++) {
            poll_once();
        }
        _exit(0);
    }
    return child;
}

/* KILLS */

/* What the two files answer after a kill before each call. */
static void try_states(void) {
    static const int states[][2] = {{0, 0},
                                    {0, RME_NO_FILE},
                                    {0, RME_UNFINISHED},
                                    {0, RME_UNFINISHED},
                                    {RME_MOVED, RME_UNFINISHED},
                                    {RME_MOVED, 0}};
    for (unsigned at_point = AT_LINK; at_point <= AT_END; at_point++) {
        uint64_t bits[4];
        struct rme_handle *handle;
        begin();
        check(renewed_to(old, next, at_point) == -1, "point %u: it is killed", at_point);
        int wanted = states[at_point][1];
        check(attach_only(old, 0) == states[at_point][0], "point %u: the old file: %d", at_point, attach_only(old, 0));
        check(attach_only(next, 0) == wanted, "point %u: the new file: %d", at_point, attach_only(next, 0));
        int error = rme_observe(next, &handle);
        check(error == wanted && (error != 0 || rme_detach(handle) == 0), "point %u: observe: %d", at_point, error);
        answers("who lives", rme_living(next, bits), wanted);
        answers("who holds", rme_holder(next, 0, NULL), wanted);
        answers("outcome", rme_outcome(next, 0, NULL, NULL, NULL), wanted);
        if (wanted == RME_UNFINISHED) {
            answers("an unfinished one is not renewed", rme_renew(next, third), RME_UNFINISHED);
        }
        answers("the next call finishes", rme_renew(old, next), 0);
        answers("and then it is over", rme_renew(old, next), RME_MOVED);
        check(attach_only(old, 0) == RME_MOVED && attach_only(next, 0) == 0, "point %u: the new one is it", at_point);
        check(cell_of(next, 9) == 10, "point %u: its cells", at_point);
    }
    begin();
    answers("it makes no more calls than these", renewed_to(old, next, AFTER), 0);
    heading("what a killed renewal leaves");
}

/* A first renewal that is killed, a job in the old file where that can be attached, a second renewal that is killed, and a
   third one that is not. */
static unsigned try_pair(unsigned first, unsigned second) {
    unsigned kills = 0;
    uint64_t added = 0;
    begin();
    pid_t poller = polling();
    for (int turn = 0; turn < 3; turn++) {
        int error = renewed_to(old, next, turn == 0 ? first : turn == 1 ? second : AFTER + 9);
        kills += error == -1;
        check(error == 0 || error == -1 || error == RME_MOVED, "points %u %u: it answers %d", first, second, error);
        if (error == -1 && add(old, 1, 10, 1) == 0) {
            added++;
            check(attach_only(next, 0) != 0, "points %u %u: both files can be attached", first, second);
        }
    }
    atomic_store(&polled->ends, 1);
    waitpid(poller, NULL, 0);
    check(!atomic_load(&polled->both), "points %u %u: the one that polls could attach both", first, second);
    check(attach_only(old, 0) == RME_MOVED && attach_only(next, 0) == 0, "points %u %u: the new one is it", first,
          second);
    check(cell_of(next, POLLED) == atomic_load(&polled->jobs) && atomic_load(&polled->jobs) >= 3,
          "points %u %u: of %d jobs in the new file %d are there", first, second, (int)atomic_load(&polled->jobs),
          (int)cell_of(next, POLLED));
    check(cell_of(next, 10) == added && cell_of(next, 9) == 10, "points %u %u: the old file's cells", first, second);
    return kills;
}

static void try_pairs(void) {
    unsigned kills = 0;
    for (unsigned first = AT_LINK; first <= AFTER; first++) {
        /* One that finds a new file left over removes it first. */
        for (unsigned second = AT_LINK; second <= AFTER + 1; second++) {
            kills += try_pair(first, second);
        }
    }
    printf("     %u renewals were killed; %u times the mark was met\n", kills, atomic_load(&polled->unfinished));
    heading("renewals that are killed, polled meanwhile");
}

/* OTHER FILES */

static void try_other_names(void) {
    begin();
    check(renewed_to(old, next, AT_OLD_MARK) == -1, "it is killed");
    answers("a renewal under another name", rme_renew(old, other), 0);
    answers("the one that was left", attach_only(next, 0), RME_UNFINISHED);
    answers("it is never finished", rme_renew(old, next), RME_MOVED);
    answers("it is never finished", attach_only(next, 0), RME_UNFINISHED);
    answers("the other is it", attach_only(other, 0), 0);

    begin();
    check(renewed_to(old, next, AT_NEW_MARK) == -1, "it is killed");
    answers("another name comes too late", rme_renew(old, other), RME_MOVED);
    answers("nothing was made", attach_only(other, 0), RME_NO_FILE);
    must("create", rme_create(other, 3, 1, CELLS, JOBS, all_names));
    answers("nor by a file that is there", rme_renew(old, other), RME_MOVED);
    answers("which stands", attach_only(other, 0), 0);
    check(rename(next, third) == 0, "rename");
    answers("the new one by its name now", rme_renew(old, third), 0);
    answers("it is finished", attach_only(third, 0), 0);
    heading("renewals under other names");
}

/* A new file that a renewal of another file left, or is about to finish, is not touched. */
static void try_other_files(void) {
    int status = 0;
    begin();
    must("create", rme_create(other, 3, 1, CELLS, JOBS, all_names));
    check(renewed_to(old, next, AT_OLD_MARK) == -1, "it is killed");
    answers("another file's", rme_renew(other, next), RME_EXISTS);
    answers("is left", attach_only(next, 0), RME_UNFINISHED);
    answers("and finished by its own", rme_renew(old, next), 0);
    answers("one that is finished is not touched", rme_renew(other, next), RME_EXISTS);
    for (unsigned at_point = AT_UNLINK; at_point <= AT_END; at_point++) {
        begin();
        must("create", rme_create(other, 3, 1, CELLS, JOBS, all_names));
        pid_t child = renewing(old, next, at_point, SIGSTOP);
        waitpid(child, &status, WUNTRACED);
        uint32_t process = 0;
        answers("at once", rme_renew(old, next), RME_TAKEN);
        answers("another one at once", rme_renew(other, next), RME_EXISTS);
        if (at_point <= AT_OLD_MARK) {
            check(rme_holder(old, 2, &process) == 0 && process == (uint32_t)child, "a renewal has all workers: %u",
                  process);
        }
        kill(child, SIGCONT);
        waitpid(child, &status, 0);
        check(WIFEXITED(status) && WEXITSTATUS(status) == 0, "it goes on");
        answers("and is over", attach_only(next, 0), 0);
    }
    heading("renewals of several files to one name");
}

/* RIGHTS */

static void has_rights(const char *name, const char *path, mode_t mode, uid_t user, gid_t group) {
    struct stat found = {0};
    int error = stat(path, &found);
    check(error == 0 && (found.st_mode & 07777) == mode && found.st_uid == user && found.st_gid == group,
          "%s: mode %o, owner %u, group %u", name, (unsigned)found.st_mode & 07777, (unsigned)found.st_uid,
          (unsigned)found.st_gid);
}

/* Renews as a user with one more group, in the folder that it stands in. */
static int renewed_as(uid_t user, gid_t more) {
    int status = 0;
    pid_t child = fork();
    if (child == 0) {
        int error = setgroups(1, &more) != 0 || setgid((gid_t)user) != 0 || setuid(user) != 0;
        _exit(error ? 99 : rme_renew("old", "next"));
    }
    waitpid(child, &status, 0);
    return WIFEXITED(status) ? WEXITSTATUS(status) : -1;
}

static void try_rights(void) {
    mode_t mask = umask(077);
    begin();
    check(chmod(old, 0664) == 0, "chmod");
    answers("renew", rme_renew(old, next), 0);
    has_rights("the mode", next, 0664, getuid(), getgid());
    umask(mask);
    if (getuid() == 0) {
        begin();
        check(chmod(old, 0640) == 0 && chown(old, 1234, 2345) == 0, "chown");
        answers("renew", rme_renew(old, next), 0);
        has_rights("the owner", next, 0640, 1234, 2345);
        begin();
        check(chmod(folder, 0777) == 0 && chdir(folder) == 0, "chdir");
        check(chown(old, 0, 777) == 0 && chmod(old, 0660) == 0, "chown");
        answers("renew in its group", renewed_as(1234, 777), 0);
        has_rights("only the group", next, 0660, 1234, 777);
        begin();
        check(chown(old, 0, 777) == 0 && chmod(old, 0676) == 0, "chown");
        answers("renew as nobody of it", renewed_as(1234, 1234), 0);
        has_rights("another group has what all have", next, 0666, 1234, 1234);
    } else {
        puts("     owners are not tried: this is not the superuser");
    }
    heading("mode and owner");
}

int main(int count, char **words) {
    if (count != 2) {
        return 2;
    }
    snprintf(folder, sizeof folder, "%s/handover", words[1]);
    snprintf(old, sizeof old, "%s/old", folder);
    snprintf(next, sizeof next, "%s/next", folder);
    snprintf(other, sizeof other, "%s/other", folder);
    snprintf(third, sizeof third, "%s/third", folder);
    check(mkdir(folder, 0700) == 0, "mkdir");
    polled = mmap(NULL, sizeof *polled, PROT_READ | PROT_WRITE, MAP_SHARED | MAP_ANONYMOUS, -1, 0);
    if (polled == MAP_FAILED) {
        give_up("FAIL mmap: %s", strerror(errno));
    }
    setvbuf(stdout, NULL, _IOLBF, 0);
    try_states();
    try_pairs();
    try_other_names();
    try_other_files();
    try_rights();
    return ends();
}
