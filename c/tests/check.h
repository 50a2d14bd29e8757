/* check.h: checks that are counted, for the programs of this folder. Each makes all of its checks; its last line is
   `N checks, M failed`, and its status is 1 where one failed. */
#ifndef CHECK_H
#define CHECK_H

#define _GNU_SOURCE
#include "../rme.h"

#include <stdarg.h>
#include <stdatomic.h>
#include <stdio.h>
#include <stdlib.h>
#include <string.h>
#include <unistd.h>

static unsigned long checks_made, checks_failed;

/* Ends the program at once: what it needs is not there. */
__attribute__((noreturn, format(printf, 1, 2), unused)) static void give_up(const char *format, ...) {
    va_list words;
    va_start(words, format);
    vprintf(format, words);
    va_end(words);
    printf("\n%lu checks, 1 failed\n", checks_made + 1);
    exit(1);
}

/* Counts a check, and says so where it fails. */
__attribute__((unused, format(printf, 2, 3))) static int check(int holds, const char *format, ...) {
    checks_made++;
    if (!holds) {
        va_list words;
        checks_failed++;
        if (checks_failed <= 20) {
            va_start(words, format);
            fputs("FAIL ", stdout);
            vprintf(format, words);
            putchar('\n');
            va_end(words);
        }
    }
    return holds;
}

/* A check that a call answered this number. */
__attribute__((unused)) static int answers(const char *name, int found, int wanted) {
    return check(found == wanted, "%s: %d in place of %d (%s)", name, found, wanted, rme_error_text(found));
}

/* A call that has to go well for the test to go on. */
__attribute__((unused)) static void must(const char *name, int error) {
    if (error != 0) {
        give_up("FAIL %s: %d, %s %s", name, error, rme_error_text(error), rme_why());
    }
}

/* Says how it went since the last heading. */
__attribute__((unused)) static void heading(const char *name) {
    static unsigned long made, failed;
    printf("%s %s: %lu checks\n", failed == checks_failed ? "ok  " : "FAIL", name, checks_made - made);
    fflush(stdout);
    made = checks_made;
    failed = checks_failed;
}

__attribute__((unused)) static int ends(void) {
    printf("%lu checks, %lu failed\n", checks_made, checks_failed);
    return checks_failed != 0;
}

static const char *const all_names[16] = {"a", "b", "c", "d", "e", "f", "g", "h",
                                          "i", "j", "k", "l", "m", "n", "o", "p"};

#endif
