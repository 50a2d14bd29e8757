/* worker PATH NUMBER JOBS: a process with a worker of one file, which is made if it is not there yet. It makes this number of jobs
   that add 1 to the one cell of the one lock, prints `ready`, and stays until its standard input ends. */
#include "../../c/rme.h"

#include <stdio.h>
#include <stdlib.h>

static void must(int error) {
    if (error != 0) {
        fprintf(stderr, "%s %s\n", rme_error_text(error), rme_why());
        exit(1);
    }
}

int main(int count, char **words) {
    static const char *const names[] = {"bank"};
    const struct rme_operation add[] = {{RME_ADD, 0, 1}};
    struct rme_handle *handle;
    if (count != 4) {
        return 2;
    }
    int error = rme_create(words[1], RME_MOST_WORKERS, 1, 1, RME_MOST_JOBS, names);
    must(error == RME_EXISTS ? 0 : error);
    must(rme_attach(words[1], (uint32_t)atoi(words[2]), &handle));
    must(rme_recover(handle, NULL));
    for (int left = atoi(words[3]); left > 0; left--) {
        must(rme_run(handle, 0, add, 1, RME_FOREVER, NULL));
    }
    puts("ready");
    fflush(stdout);
    while (getchar() != EOF) {
    }
    must(rme_detach(handle));
    return 0;
}
