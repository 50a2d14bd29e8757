/* cluster lock|append|fenced PORT CONNECTIONS LOCKS MILLISECONDS BYTES NAME: clients of a node of etcd, by its JSON gateway; a thread a
   connection, each with one job at a time.

   - lock: a job waits for the lock w modulo LOCKS of etcd's own lock service, with a lease that client w has from the beginning;
     reads the lock's number; puts one more, on the condition that the lock is still its own; and gives the lock back.
   - append: a job puts a value of this number of bytes at a key of its own.
   - fenced: the same, and a head that names it, in a transaction on the condition that the head is still that of client w: what
     a log with one writer asks of the cluster.

   The keys begin with NAME. It prints how many jobs were done, the nanoseconds that took, the sum of the numbers at the end, and
   the microseconds within which half of the jobs were done, and 99 of 100.
*/
#include "../serve.d/bench.h"

enum { SLOWEST = 10000000, LARGE = 65536, SHORT = 256 };

static unsigned port, locks, milliseconds, bytes;
static enum { LOCK, APPEND, FENCED } kind;
static const char *name;
static atomic_bool is_over;
static pthread_barrier_t begin;

struct client {
    unsigned number;
    int connection;
    uint32_t *took; /* for each number of microseconds how many jobs took that time */
    uint64_t done;
    char lease[SHORT];
    char *value; /* what is appended, as base64 */
    char held[LARGE]; /* the last answer */
};

static uint64_t now(void) {
    struct timespec time;
    clock_gettime(CLOCK_MONOTONIC, &time);
    return (uint64_t)time.tv_sec * 1000000000u + (uint64_t)time.tv_nsec;
}

/* ---- base64 */

static const char DIGITS[] = "ABCDEFGHIJKLMNOPQRSTUVWXYZabcdefghijklmnopqrstuvwxyz0123456789+/";

static void encode(char *out, const char *text, size_t size) {
    for (size_t at = 0; at < size; at += 3) {
        uint32_t three = 0;
        for (size_t i = 0; i < 3; i++) {
            three = three << 8 | (at + i < size ? (unsigned char)text[at + i] : 0);
        }
        for (int i = 0; i < 4; i++) {
            *out++ = at + (size_t)i <= size ? DIGITS[three >> (18 - 6 * i) & 63] : '=';
        }
    }
    *out = '\0';
}

/* The number whose decimal digits these are, up to the quote. */
static uint64_t number_in(const char *text) {
    uint64_t number = 0;
    uint32_t bits = 0;
    int count = 0;
    for (; *text != '"' && *text != '='; text++) {
        const char *digit = strchr(DIGITS, *text);
        if (digit == NULL) {
            fail("no base64: %s", text);
        }
        bits = bits << 6 | (uint32_t)(digit - DIGITS);
        count += 6;
        if (count >= 8) {
            count -= 8;
            number = 10 * number + (bits >> count & 255) - '0';
        }
    }
    return number;
}

/* ---- requests */

/* Reads an answer, whose body must stand in one piece, and answers where the body begins. */
static char *answer(struct client *client) {
    size_t size = 0;
    for (;;) {
        ssize_t count = recv(client->connection, client->held + size, LARGE - 1 - size, 0);
        if (count <= 0) {
            fail("the node closed a connection");
        }
        size += (size_t)count;
        client->held[size] = '\0';
        char *end = strstr(client->held, "\r\n\r\n");
        const char *length = strstr(client->held, "Content-Length: ");
        if (end != NULL && length != NULL && size >= (size_t)(end + 4 - client->held) + strtoul(length + 16, NULL, 10)) {
            return end + 4;
        }
    }
}

/* Posts a body, and answers the body of the answer, which must have this in it. */
static char *ask(struct client *client, const char *path, const char *body, const char *wanted) {
    char head[SHORT];
    int size = snprintf(head, sizeof head, "POST %s HTTP/1.1\r\nHost: etcd\r\nContent-Length: %zu\r\n\r\n", path, strlen(body));
    char *whole = malloc((size_t)size + strlen(body) + 1);
    if (whole == NULL) {
        fail("no memory");
    }
    strcpy(stpcpy(whole, head), body);
    if (!put(client->connection, whole, strlen(whole))) {
        fail("the node closed a connection");
    }
    free(whole);
    char *told = answer(client);
    if (strncmp(client->held, "HTTP/1.1 200", 12) != 0 || strstr(told, wanted) == NULL) {
        fail("%s is answered %s", path, client->held);
    }
    return told;
}

/* The text of a member of an answer. */
static void member(char *out, const char *told, const char *front) {
    const char *found = strstr(told, front);
    size_t size = found == NULL ? 0 : strcspn(found + strlen(front), "\"");
    if (size == 0 || size >= SHORT) {
        fail("there is no %s in %s", front, told);
    }
    memcpy(out, found + strlen(front), size);
    out[size] = '\0';
}

static void key_of(char *out, const char *kind, unsigned number) {
    char text[SHORT];
    int size = snprintf(text, sizeof text, "%s/%s/%u", name, kind, number);
    encode(out, text, (size_t)size);
}

/* ---- jobs */

/* The number at a lock's key, 0 if it is not there. */
static uint64_t counted(struct client *client, unsigned lock) {
    char key[SHORT], body[2 * SHORT];
    key_of(key, "number", lock);
    snprintf(body, sizeof body, "{\"key\":\"%s\"}", key);
    const char *value = strstr(ask(client, "/v3/kv/range", body, "\"header\""), "\"value\":\"");
    return value == NULL ? 0 : number_in(value + 9);
}

static void add_one(struct client *client, unsigned lock, const char *owned) {
    char key[SHORT], digits[SHORT], value[SHORT], body[6 * SHORT];
    int size = snprintf(digits, sizeof digits, "%llu", (unsigned long long)counted(client, lock) + 1);
    encode(value, digits, (size_t)size);
    key_of(key, "number", lock);
    snprintf(body, sizeof body,
        "{\"compare\":[{\"target\":\"CREATE\",\"result\":\"GREATER\",\"key\":\"%s\",\"create_revision\":\"0\"}],"
        "\"success\":[{\"request_put\":{\"key\":\"%s\",\"value\":\"%s\"}}]}",
        owned, key, value);
    ask(client, "/v3/kv/txn", body, "\"succeeded\":true");
}

static void in_lock(struct client *client) {
    unsigned lock = client->number % locks;
    char key[SHORT], owned[SHORT], body[4 * SHORT];
    key_of(key, "lock", lock);
    snprintf(body, sizeof body, "{\"name\":\"%s\",\"lease\":\"%s\"}", key, client->lease);
    member(owned, ask(client, "/v3/lock/lock", body, "\"key\""), "\"key\":\"");
    add_one(client, lock, owned);
    snprintf(body, sizeof body, "{\"key\":\"%s\"}", owned);
    ask(client, "/v3/lock/unlock", body, "\"header\"");
}

/* The key of the client's next record. */
static void record_key(char *out, const struct client *client) {
    char text[SHORT];
    int size = snprintf(text, sizeof text, "%s/%u/%016llu", name, client->number, (unsigned long long)client->done);
    encode(out, text, (size_t)size);
}

static void append(struct client *client) {
    char key[SHORT], body[LARGE];
    record_key(key, client);
    snprintf(body, sizeof body, "{\"key\":\"%s\",\"value\":\"%s\"}", key, client->value);
    ask(client, "/v3/kv/put", body, "\"header\"");
}

/* The head of the client's log when it has this number of records. */
static void head_of(char *out, uint64_t records) {
    char text[SHORT];
    int size = snprintf(text, sizeof text,
        "{\"addr\":\"127.0.0.1\",\"epoch\":0,\"rme\":\"kept\",\"seq\":%llu,\"term\":1,\"version\":1,\"writer\":\"%024u\"}",
        (unsigned long long)records, 0);
    encode(out, text, (size_t)size);
}

static void begin_log(struct client *client) {
    char key[SHORT], head[2 * SHORT], body[4 * SHORT];
    key_of(key, "head", client->number);
    head_of(head, 0);
    snprintf(body, sizeof body, "{\"key\":\"%s\",\"value\":\"%s\"}", key, head);
    ask(client, "/v3/kv/put", body, "\"header\"");
}

static void fenced(struct client *client) {
    char key[SHORT], record[SHORT], seen[2 * SHORT], next[2 * SHORT], body[LARGE];
    key_of(key, "head", client->number);
    record_key(record, client);
    head_of(seen, client->done);
    head_of(next, client->done + 1);
    snprintf(body, sizeof body,
        "{\"compare\":[{\"target\":\"VALUE\",\"result\":\"EQUAL\",\"key\":\"%s\",\"value\":\"%s\"}],"
        "\"success\":[{\"request_put\":{\"key\":\"%s\",\"value\":\"%s\"}},{\"request_put\":{\"key\":\"%s\",\"value\":\"%s\"}}],"
        "\"failure\":[{\"request_range\":{\"key\":\"%s\"}}]}",
        key, seen, key, next, record, client->value, key);
    ask(client, "/v3/kv/txn", body, "\"succeeded\":true");
}

static void (*const job_of[])(struct client *) = {in_lock, append, fenced};

static void *work(void *given) {
    struct client *client = given;
    if (kind == FENCED) {
        begin_log(client);
    }
    if (kind == LOCK) {
        member(client->lease, ask(client, "/v3/lease/grant", "{\"TTL\":\"600\"}", "\"ID\""), "\"ID\":\"");
    }
    pthread_barrier_wait(&begin);
    while (!atomic_load_explicit(&is_over, memory_order_relaxed)) {
        uint64_t began = now();
        job_of[kind](client);
        uint64_t took = (now() - began) / 1000;
        client->took[took < SLOWEST ? took : SLOWEST]++;
        client->done++;
    }
    return NULL;
}

static void begin_client(struct client *client, unsigned number) {
    struct sockaddr_in address = local(port);
    char *value = calloc(1, bytes + 1);
    client->number = number;
    client->took = calloc(SLOWEST + 1, sizeof(uint32_t));
    client->value = malloc(2 * (size_t)bytes + 8);
    client->connection = socket(AF_INET, SOCK_STREAM, 0);
    if (client->took == NULL || client->value == NULL || value == NULL) {
        fail("no memory");
    }
    memset(value, 'x', bytes);
    encode(client->value, value, bytes);
    free(value);
    if (client->connection < 0 || connect(client->connection, (struct sockaddr *)&address, sizeof address) != 0) {
        fail("no connection to port %u: %s", port, strerror(errno));
    }
    send_at_once(client->connection);
}

/* The microseconds within which this percentage of the jobs was done. */
static unsigned within(const struct client *clients, unsigned connections, uint64_t done, unsigned percent) {
    uint64_t seen = 0;
    for (unsigned time = 0; time < SLOWEST; time++) {
        for (unsigned i = 0; i < connections; i++) {
            seen += clients[i].took[time];
        }
        if (100 * seen >= percent * done) {
            return time;
        }
    }
    return SLOWEST;
}

int main(int count, char **words) {
    if (count != 8) {
        fail("usage: %s lock|append|fenced PORT CONNECTIONS LOCKS MILLISECONDS BYTES NAME", words[0]);
    }
    kind = strcmp(words[1], "lock") == 0 ? LOCK : strcmp(words[1], "append") == 0 ? APPEND : FENCED;
    port = number_of(words[2], 65535);
    unsigned connections = number_of(words[3], 256);
    locks = number_of(words[4], 256);
    milliseconds = number_of(words[5], 600000);
    bytes = number_of(words[6], LARGE / 2);
    name = words[7];
    if (connections == 0 || locks == 0) {
        fail("no connection, or no lock");
    }

    struct client *clients = calloc(connections, sizeof *clients);
    pthread_t threads[256];
    pthread_barrier_init(&begin, NULL, connections + 1);
    for (unsigned i = 0; clients != NULL && i < connections; i++) {
        begin_client(&clients[i], i);
        if (pthread_create(&threads[i], NULL, work, &clients[i]) != 0) {
            fail("no thread");
        }
    }
    pthread_barrier_wait(&begin);
    uint64_t began = now(), done = 0, sum = 0;
    nanosleep(&(struct timespec){.tv_sec = milliseconds / 1000, .tv_nsec = milliseconds % 1000 * 1000000L}, NULL);
    atomic_store(&is_over, true);
    for (unsigned i = 0; i < connections; i++) {
        pthread_join(threads[i], NULL);
        done += clients[i].done;
    }
    uint64_t took = now() - began;
    for (unsigned lock = 0; kind == LOCK && lock < locks; lock++) {
        sum += counted(&clients[0], lock);
    }
    printf("%llu %llu %llu %u %u\n", (unsigned long long)done, (unsigned long long)took, (unsigned long long)sum,
        within(clients, connections, done, 50), within(clients, connections, done, 99));
    return 0;
}
