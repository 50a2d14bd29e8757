/* holder.c: which process has a worker. The kernel says of a claim only that it is there; /proc says which locks each open
   file of a process has. */
#define _GNU_SOURCE
#include "file.h"

#include <ctype.h>
#include <dirent.h>
#include <stdio.h>
#include <stdlib.h>
#include <string.h>
#include <sys/stat.h>

/* A path below /proc: "PROCESS/fdinfo/FILE", the longest. */
enum { PATH_BELOW = 64 };

/* Whether what /proc says of an open file has a line of the claim, as
   "lock:	1: OFDLCK ADVISORY  WRITE -1 00:1b:2 5 5": the first byte and the last one, or EOF. */
static int has_claim(const char *info, uint32_t worker) {
    char line[256], last[32];
    unsigned long long first = 0;
    int found = 0;
    FILE *file = fopen(info, "re");
    while (file != NULL && !found && fgets(line, sizeof line, file) != NULL) {
        if (sscanf(line, "lock: %*s OFDLCK %*s WRITE %*s %*s %llu %31s", &first, last) == 2) {
            found = first <= worker && (strcmp(last, "EOF") == 0 || worker <= strtoull(last, NULL, 10));
        }
    }
    if (file != NULL) {
        fclose(file);
    }
    return found;
}

/* Whether a process, by its name below /proc, has the claim by one of its open files. */
static int is_holder(const char *process, const struct rme_file *file, uint32_t worker) {
    char folder[PATH_BELOW], path[2 * PATH_BELOW];
    int found = 0;
    snprintf(folder, sizeof folder, "/proc/%.20s/fd", process);
    DIR *numbers = opendir(folder);
    for (struct dirent *entry; numbers != NULL && !found && (entry = readdir(numbers)) != NULL;) {
        struct stat stat_of;
        snprintf(path, sizeof path, "%s/%.20s", folder, entry->d_name);
        if (stat(path, &stat_of) == 0 && stat_of.st_dev == file->device && stat_of.st_ino == file->inode) {
            snprintf(path, sizeof path, "/proc/%.20s/fdinfo/%.20s", process, entry->d_name);
            found = has_claim(path, worker);
        }
    }
    if (numbers != NULL) {
        closedir(numbers);
    }
    return found;
}

static uint32_t process_of(const struct rme_file *file, uint32_t worker) {
    uint32_t found = 0;
    DIR *processes = opendir("/proc");
    for (struct dirent *entry; processes != NULL && found == 0 && (entry = readdir(processes)) != NULL;) {
        if (isdigit((unsigned char)entry->d_name[0]) && is_holder(entry->d_name, file, worker)) {
            found = (uint32_t)strtoul(entry->d_name, NULL, 10);
        }
    }
    if (processes != NULL) {
        closedir(processes);
    }
    return found;
}

int rme_holder(const char *path, uint32_t worker, uint32_t *process) {
    struct rme_file file;
    int is_claimed = 0, error = rme_file_open(path, 0, &file);
    if (error != 0) {
        return error;
    }
    error = worker < file.shape.workers ? rme_file_claimed(&file, worker, &is_claimed) : RME_NO_WORKER;
    uint32_t found = error == 0 && is_claimed ? process_of(&file, worker) : 0;
    rme_file_close(&file);
    if (error == 0 && process != NULL) {
        *process = found;
    }
    return error;
}
