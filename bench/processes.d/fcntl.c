/* The jobs of ../threads.d/flock.c with record locks: fcntl in the place of flock, by processes. */
#include "bench.h"

#include <fcntl.h>
#include <sys/file.h>

static int by_fcntl(int file, int operation) {
    struct flock lock = {.l_type = operation == LOCK_EX ? F_WRLCK : F_UNLCK, .l_whence = SEEK_SET};
    return fcntl(file, F_SETLKW, &lock);
}

#define flock(file, operation) by_fcntl(file, operation)
#include "../threads.d/flock.c"
