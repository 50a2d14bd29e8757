/* Refuses one growth of memory: the Nth that a program asks for once it has started, N from the environment; or, for
   the word "threaded", each one that its first thread asks for once it has started another thread, or once it has
   started the number of threads that follows the word. try-memory and other scripts preload it. */
#define _GNU_SOURCE
#include <dlfcn.h>
#include <errno.h>
#include <pthread.h>
#include <stdlib.h>
#include <string.h>
#include <unistd.h>

void *__libc_malloc(size_t size);
void *__libc_calloc(size_t count, size_t size);
void *__libc_realloc(void *memory, size_t size);

static long left = 0;
static int (*create)(pthread_t *, const pthread_attr_t *, void *(*)(void *), void *);
static pthread_t first;
static long threads_left = 0;
static int has_started = 0;

__attribute__((constructor)) static void begin(void) {
    const char *number = getenv("REFUSED_GROWTH");
    *(void **)&create = dlsym(RTLD_NEXT, "pthread_create");
    first = pthread_self();
    if (number && strncmp(number, "threaded", strlen("threaded")) == 0) {
        const long others = atol(number + strlen("threaded"));
        threads_left = others > 0 ? others : 1;
    }
    left = number ? atol(number) : 0;
}

static int is_first(void) {
    return pthread_equal(pthread_self(), first);
}

int pthread_create(pthread_t *thread, const pthread_attr_t *how, void *(*work)(void *), void *with) {
    int error = create(thread, how, work, with);
    if (threads_left > 0 && is_first()) {
        threads_left -= 1;
        has_started = threads_left == 0;
    }
    return error;
}

static int is_refused(void) {
    static const char said[] = "growth refused\n";
    if (!(has_started && is_first()) && __atomic_sub_fetch(&left, 1, __ATOMIC_SEQ_CST) != 0) {
        return 0;
    }
    if (write(STDERR_FILENO, said, sizeof said - 1) < 0) {
        return 0;
    }
    /* As malloc does; the start of a thread looks at it. */
    errno = ENOMEM;
    return 1;
}

void *malloc(size_t size) {
    return is_refused() ? NULL : __libc_malloc(size);
}

void *calloc(size_t count, size_t size) {
    return is_refused() ? NULL : __libc_calloc(count, size);
}

void *realloc(void *memory, size_t size) {
    return is_refused() ? NULL : __libc_realloc(memory, size);
}
