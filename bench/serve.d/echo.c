/* echo CONNECTIONS SIZE: a server with a thread a connection that does nothing but read lines and answer them.

   Each line is answered by SIZE bytes, the last of them a newline. It prints its port, and ends after CONNECTIONS connections. */
#include "bench.h"

static size_t answer_size;

/* Answers the lines of a connection until it ends. */
static void *serve(void *given) {
    int connection = *(int *)given;
    char held[ROOM], answer[ROOM];
    free(given);
    send_at_once(connection);
    memset(answer, 'x', sizeof answer);
    answer[answer_size - 1] = '\n';
    for (;;) {
        ssize_t count = recv(connection, held, sizeof held, 0);
        if (count <= 0) {
            break;
        }
        const char *end = held + count;
        for (const char *at = held; (at = memchr(at, '\n', (size_t)(end - at))) != NULL; at++) {
            put(connection, answer, answer_size);
        }
    }
    close(connection);
    return NULL;
}

static int listening(void) {
    int listener = socket(AF_INET, SOCK_STREAM, 0);
    struct sockaddr_in address = local(0);
    socklen_t size = sizeof address;
    if (listener < 0 || bind(listener, (struct sockaddr *)&address, size) != 0 || listen(listener, SOMAXCONN) != 0 ||
        getsockname(listener, (struct sockaddr *)&address, &size) != 0) {
        fail("no socket to listen at: %s", strerror(errno));
    }
    printf("listening %u\n", ntohs(address.sin_port));
    fflush(stdout);
    return listener;
}

int main(int count, char **words) {
    if (count != 3) {
        fail("usage: %s CONNECTIONS SIZE", words[0]);
    }
    unsigned connections = number_of(words[1], MOST_CONNECTIONS);
    answer_size = number_of(words[2], ROOM);
    if (answer_size == 0) {
        fail("an answer has at least its newline");
    }
    pthread_t threads[MOST_CONNECTIONS];
    int listener = listening();
    for (unsigned i = 0; i < connections; i++) {
        int *connection = malloc(sizeof *connection);
        if (connection == NULL || (*connection = accept(listener, NULL, NULL)) < 0 ||
            pthread_create(&threads[i], NULL, serve, connection) != 0) {
            fail("a connection was not served");
        }
    }
    for (unsigned i = 0; i < connections; i++) {
        pthread_join(threads[i], NULL);
    }
    return 0;
}
