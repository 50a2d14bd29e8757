/* load rme|inside|spaces|echo|redis PORT CONNECTIONS LOCKS MILLISECONDS [SHA|SPACES]: a thread a connection, each with one
   request in flight.

   Connection w is worker w. Its jobs add 1 to cell 0 of lock w modulo LOCKS, and have the numbers 1, 2, 3 and so on. To
   `rme serve` and to the echo server a job is a session's line, or with `inside` two of them, which enter and commit; to redis
   it is the script of that SHA1 with the same numbers. With `spaces` connection w uses the space `space-w`, modulo SPACES. It prints how many jobs were answered, the nanoseconds that took, the
   bytes of a usual line and answer, and the microseconds within which half of the jobs were answered, and 99 of 100.
*/
#include "bench.h"

enum kind { RME, INSIDE, SPACES, ECHO, REDIS };

static enum kind kind;
static unsigned port, locks, milliseconds, spaces = 1;
static const char *sha = "";
static atomic_bool is_over;
static pthread_barrier_t begin;

enum { SLOWEST = 65535 }; /* microseconds; what takes longer counts as that */

struct client {
    unsigned worker;
    uint32_t *took; /* for each number of microseconds how many jobs took that time */
    int connection;
    uint64_t answered;
    size_t line_size, answer_size;
};

/* Whether the server is one of ours, whose sessions have workers. */
static bool is_ours(void) {
    return kind == RME || kind == INSIDE || kind == SPACES;
}

/* The request of a job, in the server's own form. */
static size_t request(char *line, const struct client *client, uint64_t number) {
    unsigned lock = client->worker % locks;
    int size;
    if (kind == REDIS) {
        char worker[24], name[24], digits[24];
        snprintf(worker, sizeof worker, "worker-%u", client->worker);
        snprintf(name, sizeof name, "lock-%u", lock);
        snprintf(digits, sizeof digits, "%llu", (unsigned long long)number);
        size = snprintf(line, ROOM,
            "*8\r\n$7\r\nEVALSHA\r\n$40\r\n%s\r\n$1\r\n2\r\n$%zu\r\n%s\r\n$%zu\r\n%s\r\n$%zu\r\n%s\r\n$1\r\n0\r\n$1\r\n1\r\n", sha,
            strlen(worker), worker, strlen(name), name, strlen(digits), digits);
    } else {
        size = snprintf(line, ROOM, "{\"do\":\"%s\",\"lock\":\"lock-%u\",\"number\":%llu,\"script\":[[\"add\",0,1]]}\n",
            kind == INSIDE ? "enter" : "submit", lock, (unsigned long long)number);
    }
    return (size_t)size;
}

/* Reads up to the answer's newline. Of redis it is a bulk text: the size in a line of its own, and then the text. */
static size_t answer(int connection, char *held) {
    unsigned wanted = kind == REDIS ? 2 : 1;
    size_t size = 0;
    for (;;) {
        ssize_t count = recv(connection, held + size, ROOM - 1 - size, 0);
        if (count <= 0) {
            fail("the server closed a connection");
        }
        for (size_t at = size; at < size + (size_t)count; at++) {
            wanted -= held[at] == '\n';
        }
        size += (size_t)count;
        held[size] = '\0';
        if (wanted == 0) {
            return size;
        }
        if (kind == REDIS && held[0] != '$' && wanted == 1) {
            fail("redis answered %s", held);
        }
    }
}

/* Has the session use its space. */
static void use(const struct client *client) {
    char line[ROOM], held[ROOM];
    int size = snprintf(line, sizeof line, "{\"do\":\"use\",\"space\":\"space-%u\"}\n", client->worker % spaces);
    if (!put(client->connection, line, (size_t)size)) {
        fail("no space was used");
    }
    answer(client->connection, held);
    if (strcmp(held, "{\"ok\":\"use\"}\n") != 0) {
        fail("the server answered %s", held);
    }
}

static void attach(const struct client *client) {
    char line[ROOM], held[ROOM];
    int size = snprintf(line, sizeof line, "{\"do\":\"attach\",\"worker\":%u}\n", client->worker);
    if (!put(client->connection, line, (size_t)size)) {
        fail("no worker was attached");
    }
    answer(client->connection, held);
    if (strstr(held, "\"number\":0,\"ok\":\"attach\"") == NULL) {
        fail("the server answered %s", held);
    }
}

/* Sends a line until it no longer waits, and answers the bytes of what was answered then, which must have this in it. */
static size_t ask(const struct client *client, const char *line, size_t size, char *held, const char *wanted) {
    size_t answered;
    do {
        if (!put(client->connection, line, size)) {
            fail("the server closed a connection");
        }
        answered = answer(client->connection, held);
    } while (is_ours() && strstr(held, "\"waiting\":true") != NULL);
    if (kind != ECHO && strstr(held, wanted) == NULL) {
        fail("the server answered %s", held);
    }
    return answered;
}

static uint64_t now(void) {
    struct timespec time;
    clock_gettime(CLOCK_MONOTONIC, &time);
    return (uint64_t)time.tv_sec * 1000000000u + (uint64_t)time.tv_nsec;
}

/* Makes job after job until the time is over. A job that waits is sent again, and counts once. */
static void *work(void *given) {
    static const char commit[] = "{\"do\":\"commit\"}\n";
    struct client *client = given;
    char line[ROOM], held[ROOM];
    if (kind == SPACES) {
        use(client);
    }
    if (is_ours()) {
        attach(client);
    }
    pthread_barrier_wait(&begin);
    while (!atomic_load_explicit(&is_over, memory_order_relaxed)) {
        uint64_t began = now();
        client->line_size = request(line, client, client->answered + 1);
        if (kind == INSIDE) {
            ask(client, line, client->line_size, held, "\"stance\":\"held\"");
            client->answer_size = ask(client, commit, sizeof commit - 1, held, "\"place\":");
        } else {
            client->answer_size = ask(client, line, client->line_size, held, "\"place\":");
        }
        uint64_t took = (now() - began) / 1000;
        client->took[took < SLOWEST ? took : SLOWEST]++;
        client->answered++;
    }
    return NULL;
}

static int connected(void) {
    int connection = socket(AF_INET, SOCK_STREAM, 0);
    struct sockaddr_in address = local(port);
    if (connection < 0 || connect(connection, (struct sockaddr *)&address, sizeof address) != 0) {
        fail("no connection to port %u: %s", port, strerror(errno));
    }
    send_at_once(connection);
    return connection;
}

/* The microseconds within which this percentage of the jobs was answered. */
static unsigned within(const struct client *clients, unsigned connections, uint64_t answered, unsigned percent) {
    uint64_t seen = 0;
    for (unsigned time = 0; time < SLOWEST; time++) {
        for (unsigned i = 0; i < connections; i++) {
            seen += clients[i].took[time];
        }
        if (100 * seen >= percent * answered) {
            return time;
        }
    }
    return SLOWEST;
}

static enum kind kind_of(const char *word) {
    if (strcmp(word, "rme") == 0) {
        return RME;
    }
    if (strcmp(word, "inside") == 0) {
        return INSIDE;
    }
    if (strcmp(word, "spaces") == 0) {
        return SPACES;
    }
    return strcmp(word, "echo") == 0 ? ECHO : REDIS;
}

int main(int count, char **words) {
    if (count < 6) {
        fail("usage: %s rme|inside|spaces|echo|redis PORT CONNECTIONS LOCKS MILLISECONDS [SHA|SPACES]", words[0]);
    }
    kind = kind_of(words[1]);
    port = number_of(words[2], 65535);
    unsigned connections = number_of(words[3], MOST_CONNECTIONS);
    locks = number_of(words[4], 16);
    milliseconds = number_of(words[5], 600000);
    if (count > 6 && kind == SPACES) {
        spaces = number_of(words[6], MOST_CONNECTIONS);
    } else if (count > 6) {
        sha = words[6];
    }
    if (connections == 0 || locks == 0 || spaces == 0) {
        fail("no connection, no lock, or no space");
    }

    static struct client clients[MOST_CONNECTIONS];
    pthread_t threads[MOST_CONNECTIONS];
    pthread_barrier_init(&begin, NULL, connections + 1);
    for (unsigned i = 0; i < connections; i++) {
        clients[i] = (struct client){.worker = i, .connection = connected(), .took = calloc(SLOWEST + 1, sizeof(uint32_t))};
        if (clients[i].took == NULL || pthread_create(&threads[i], NULL, work, &clients[i]) != 0) {
            fail("no thread");
        }
    }
    pthread_barrier_wait(&begin);
    uint64_t began = now(), answered = 0;
    nanosleep(&(struct timespec){.tv_sec = milliseconds / 1000, .tv_nsec = milliseconds % 1000 * 1000000L}, NULL);
    atomic_store(&is_over, true);
    for (unsigned i = 0; i < connections; i++) {
        pthread_join(threads[i], NULL);
        answered += clients[i].answered;
    }
    uint64_t took = now() - began;
    printf("%llu %llu %zu %zu %u %u\n", (unsigned long long)answered, (unsigned long long)took, clients[0].line_size,
        clients[0].answer_size, within(clients, connections, answered, 50), within(clients, connections, answered, 99));
    return 0;
}
