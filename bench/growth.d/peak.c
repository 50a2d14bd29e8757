/* peak FIGURES PROGRAM WORD..: runs a program on the standard streams as they are, and writes the nanoseconds that it took and
   the most KiB that it held into the file FIGURES. Its status is the program's, or 1 where that was killed.

   The kernel counts for a process also what the one held that it was started by, until it became another program. So a program
   is started by this one, which is small. With - for FIGURES it only becomes the program. The program is killed once the one
   that started this is gone. */
#define _GNU_SOURCE
#include <signal.h>
#include <stdio.h>
#include <stdlib.h>
#include <string.h>
#include <sys/prctl.h>
#include <sys/resource.h>
#include <sys/wait.h>
#include <time.h>
#include <unistd.h>

static long long now(void) {
    struct timespec time;
    clock_gettime(CLOCK_MONOTONIC, &time);
    return (long long)time.tv_sec * 1000000000 + time.tv_nsec;
}

int main(int count, char **words) {
    struct rusage used;
    int status = 0;
    if (count < 3) {
        return 2;
    }
    prctl(PR_SET_PDEATHSIG, SIGKILL);
    long long began = now();
    pid_t child = strcmp(words[1], "-") == 0 ? 0 : fork();
    if (child == 0) {
        prctl(PR_SET_PDEATHSIG, SIGKILL);
        execv(words[2], words + 2);
        _exit(127);
    }
    if (child < 0 || wait4(child, &status, 0, &used) != child) {
        return 1;
    }
    long long took = now() - began;
    FILE *figures = fopen(words[1], "w");
    if (figures == NULL || fprintf(figures, "%lld %ld\n", took, used.ru_maxrss) < 0 || fclose(figures) != 0) {
        return 1;
    }
    return WIFEXITED(status) ? WEXITSTATUS(status) : 1;
}
