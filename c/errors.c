/* errors.c: the sentences of `enum rme_error`. */
#include "rme.h"

#include <stddef.h>

static const char *const sentences[] = {
    [RME_OK] = "It is done.",
    [RME_BAD_SHAPE] = "A number or a name is outside the limits.",
    [RME_NO_WORKER] = "There is no such worker.",
    [RME_DOWN] = "The worker has not recovered: rme_recover comes first.",
    [RME_UP] = "The worker has recovered already.",
    [RME_BUSY] = "The worker has a job that is not over.",
    [RME_IDLE] = "The worker has no job.",
    [RME_NO_LOCK] = "There is no such lock.",
    [RME_BAD_SCRIPT] = "The job has more than eight operations, or one that is none.",
    [RME_NO_CELL] = "The job names a cell that the lock does not have.",
    [RME_TOO_MANY_JOBS] = "The worker has begun all the jobs that the file allows: renew it.",
    [RME_TAKEN] = "A living process has this worker.",
    [RME_NOT_ATTACHED] = "The handle has no worker.",
    [RME_NO_MEMORY] = "There is no memory.",
    [RME_NOT_WAITING] = "The worker is inside its lock, so its job cannot be withdrawn.",
    [RME_NOT_INSIDE] = "The worker waits for its lock still.",
    [RME_DAMAGED] = "A word has a value that no run can leave; nothing was stored after it was found.",
    [RME_NO_FILE] = "There is no file of this name.",
    [RME_NOT_RME] = "The file is none of rme's, or not of this version, byte order or size: see rme_why.",
    [RME_EXISTS] = "There is a file of this name already.",
    [RME_OLD_BOOT] = "The file was made before the machine was started last.",
    [RME_MOVED] = "The file was renewed: another one has its place.",
    [RME_FORKED] = "The handle is that of the process from which this one was forked.",
    [RME_BLOCKED] = "The time is over and others have the lock still.",
    [RME_IN_USE] = "Another thread is in a call with this handle.",
    [RME_SYSTEM] = "A system call failed: see errno and rme_why.",
    [RME_FAULT] = "The parts of this library do not fit together; it was built wrongly.",
    [RME_UNFINISHED] = "The renewal that makes this file is not over: call rme_renew again with the same two files.",
};

const char *rme_error_text(int error) {
    const char *text = NULL;
    if (error >= 0 && (size_t)error < sizeof sentences / sizeof sentences[0]) {
        text = sentences[error];
    }
    return text != NULL ? text : "No call answers this number.";
}
