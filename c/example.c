/* One of four processes adds to a cell of a file that all of them use, and may be killed at any moment:
       example /dev/shm/bank 2
   Whoever comes up with the number of a killed one goes on with its job. */
#include "rme.h"

#include <stdio.h>
#include <stdlib.h>

static void must(int error) {
    if (error != 0) {
        fprintf(stderr, "%s %s\n", rme_error_text(error), error == RME_SYSTEM || error == RME_NOT_RME ? rme_why() : "");
        exit(1);
    }
}

int main(int count, char **words) {
    if (count != 3) {
        return 2;
    }
    const char *const names[] = {"bank"};
    const struct rme_operation add_5[] = {{RME_ADD, 0, 5}};
    struct rme_handle *handle;
    struct rme_stance stance;
    struct rme_receipt receipt;
    int error = rme_create(words[1], 4, 1, 1, 100000, names);
    must(error == RME_EXISTS ? 0 : error);

    must(rme_attach(words[1], (uint32_t)atoi(words[2]), &handle));
    must(rme_recover(handle, &stance));
    if (stance.where == RME_READY) {
        must(rme_submit(handle, 0, add_5, 1, &stance.number)); /* written down: it survives this process */
    }
    must(rme_enter(handle, RME_FOREVER));
    puts("inside"); /* work of your own, which may be begun again */
    must(rme_commit(handle, &receipt));
    must(rme_detach(handle));
    printf("job %llu counted as section %llu, reply %llu\n", (unsigned long long)receipt.number,
           (unsigned long long)receipt.place, (unsigned long long)receipt.reply);
    return 0;
}
