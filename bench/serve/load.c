/* Loads a server over persistent connections, a thread for each, and checks every reply. Usage:
   load KIND [OPTION..]
   KIND: get (of one name, or of TARGET), post (rising serials, a name for each connection), own and
   one (lock, get, post and unlock, on a name for each connection or on one), tail (gets on the
   first connection, posts on the others), fill (one push to each of COUNT names), chain (one push
   of a state of SIZE instances).
   -p PORT, -c CONNECTIONS, -s SECONDS, -n COUNT (the limit of requests, or of lock cycles), -b SIZE
   (of a state; of a TARGET's answer, if it is known), -m METHOD (of a push), -t TARGET, -f SERIAL
   (the last one before the pushes of `post`).
   Prints the number of requests, or cycles, the rate per second, the microseconds of the median and
   of the 99th percentile (for `tail`, of the gets only), and one number more: the bytes of an
   answer for `get`, the refused locks per second for cycles, and the pushes per second for `tail`.
   Leaves out what is made in the first fifth of the time, or the first tenth of COUNT, except for
   `fill` and `chain`. */
#define _POSIX_C_SOURCE 200809L
#include <pthread.h>
#include <stdatomic.h>
#include <stdio.h>
#include <stdlib.h>
#include <string.h>
#include <unistd.h>

#include "clock.h"
#include "md5.h"
#include "samples.h"
#include "state.h"
#include "wire.h"

#define MAX_CONNECTIONS 64
#define HEAD_ROOM 1024
#define OTHER_FIELDS "Host: 127.0.0.1\r\nUser-Agent: Go-http-client/1.1\r\nAccept-Encoding: gzip\r\n"

#define LOCK_TEXT \
    "{\"ID\":\"client-%d\",\"Operation\":\"OperationTypeApply\",\"Info\":\"\",\"Who\":\"somebody@somewhere\",\"Version\":\"1.9.0\"," \
    "\"Created\":\"2026-01-01T00:00:00Z\",\"Path\":\"\"}"

struct connection;

static const char *kind, *method = "POST", *target = "/state/n0";
static int port, connections = 1;
static double seconds = 3600;
static long most = 1000000000;
static unsigned from = FIRST_SERIAL;
static size_t size = 1024;
static void (*once)(struct connection *);
static atomic_long left;
static int64_t warm, end;
static pthread_barrier_t ready, started;

/* A push: its bytes, the places of the sum's text and of the body, and the MD5 of the body's first
   blocks. */
struct push {
    char *bytes;
    size_t length, sum_at, body_at, body, blocks;
    struct md5 first;
};

/* A connection, with its request, and the last reply: its status, its length, and its bytes if they
   are kept. */
struct connection {
    int number;
    struct input *in;
    struct push push;
    char get[HEAD_ROOM], lock[HEAD_ROOM], unlock[HEAD_ROOM];
    unsigned serial;
    int status;
    size_t length;
    char *body;
    long filled, refused;
    struct samples samples;
};

static void fail(const char *what, const struct connection *to) {
    fprintf(stderr, "load %s: %s (status %d, %zu bytes)\n", kind, what, to ? to->status : 0, to ? to->length : 0);
    exit(1);
}

static void ask(struct connection *to, const char *bytes, size_t length) {
    size_t head;
    if (!send_whole(to->in->socket, bytes, length)) fail("the connection takes no bytes", to);
    const char *start = next_head(to->in, &head, &to->length);
    if (!start) fail("the connection gives no reply", to);
    to->status = atoi(start + strlen("HTTP/1.1 "));
    use(to->in, head);
    to->body = to->length < INPUT_ROOM / 2 ? use(to->in, to->length) : NULL;
    if (!to->body && !drop(to->in, to->length)) fail("the reply ends early", to);
}

static void ask_for(struct connection *to, const char *text, int status) {
    ask(to, text, strlen(text));
    if (to->status != status) fail("another status was due", to);
}

static struct push push_of(const char *path, char *text, size_t body) {
    struct push push = {.bytes = malloc(body + HEAD_ROOM), .body = body};
    if (!push.bytes) fail("no memory", NULL);
    const char *format = "%s %s HTTP/1.1\r\n%sContent-Type: application/json\r\nContent-Length: %zu\r\nContent-MD5: %24s\r\n\r\n";
    push.body_at = (size_t)snprintf(push.bytes, HEAD_ROOM, format, method, path, OTHER_FIELDS, body, "");
    push.sum_at = push.body_at - strlen("\r\n\r\n") - 24;
    memcpy(push.bytes + push.body_at, text, body);
    push.length = push.body_at + body;
    push.blocks = before_serial(body) / 64;
    md5_start(&push.first);
    md5_blocks(&push.first, text, push.blocks);
    return push;
}

static void push_serial(struct connection *to, unsigned serial) {
    struct push *push = &to->push;
    struct md5 sum = push->first;
    uint8_t digest[16];
    char *body = push->bytes + push->body_at;
    set_serial(body, push->body, serial);
    md5_end(&sum, body + 64 * push->blocks, push->body - 64 * push->blocks, digest);
    md5_text(digest, push->bytes + push->sum_at);
    ask(to, push->bytes, push->length);
    if (to->status != 200 && to->status != 201 && to->status != 204) fail("a push wasn't taken", to);
}

/* The kinds of work. */

static void get_once(struct connection *to) {
    size_t wanted = to->length;
    ask_for(to, to->get, 200);
    if (wanted && to->length != wanted) fail("another length was due", to);
}

static void post_once(struct connection *to) { push_serial(to, ++to->serial); }

static void tail_once(struct connection *to) {
    if (to->number) post_once(to);
    else get_once(to);
}

static void cycle_once(struct connection *to) {
    for (ask(to, to->lock, strlen(to->lock)); to->status == 423; ask(to, to->lock, strlen(to->lock))) to->refused++;
    if (to->status != 200) fail("neither locked nor refused", to);
    ask_for(to, to->get, 200);
    if (to->length != size || !to->body) fail("another state was due", to);
    push_serial(to, serial_of(to->body, size) + 1);
    ask_for(to, to->unlock, 200);
}

/* Pushes to a name that no other push was to. */
static void fill_once(struct connection *to) {
    char path[64], *text = to->push.bytes + to->push.body_at;
    snprintf(path, sizeof path, "/state/n%ld", to->filled++);
    struct push push = push_of(path, text, to->push.body);
    free(to->push.bytes);
    to->push = push;
    push_serial(to, FIRST_SERIAL);
}

/* Preparation. */

static int is_kind(const char *name) { return !strcmp(kind, name); }

static int is_cycle(void) { return is_kind("own") || is_kind("one"); }

static void write_texts(struct connection *to, const char *path) {
    char lock[HEAD_ROOM / 2];
    const char *read = is_cycle() ? path : target;
    snprintf(lock, sizeof lock, LOCK_TEXT, to->number);
    snprintf(to->get, HEAD_ROOM, "GET %s HTTP/1.1\r\n%s\r\n", read, OTHER_FIELDS);
    snprintf(to->lock, HEAD_ROOM, "LOCK %s HTTP/1.1\r\n%sContent-Length: %zu\r\n\r\n%s", path, OTHER_FIELDS, strlen(lock), lock);
    snprintf(to->unlock, HEAD_ROOM, "UNLOCK %s HTTP/1.1\r\n%sContent-Length: %zu\r\n\r\n%s", path, OTHER_FIELDS, strlen(lock), lock);
}

/* Makes what a connection sends. For cycles, a first state is pushed, which needs no lock. */
static void prepare(struct connection *to) {
    char path[64], locked[128];
    size_t body = size;
    int name = is_kind("one") ? 0 : to->number;
    snprintf(path, sizeof path, "/state/n%d", name);
    snprintf(locked, sizeof locked, "%s?ID=client-%d", path, to->number);
    write_texts(to, path);
    to->serial = from;
    if (is_kind("get")) {
        to->length = size;
        return;
    }
    char *text = is_kind("chain") ? chain_text(size, &body) : state_text(size);
    to->push = push_of(path, text, body);
    if (is_cycle()) {
        if (is_kind("own") || !to->number) push_serial(to, FIRST_SERIAL);
        free(to->push.bytes);
        to->push = push_of(locked, text, body);
    }
    to->length = is_kind("tail") ? size : 0;
    free(text);
}

static void *run(void *given) {
    struct connection *to = given;
    int reads_alone = is_kind("tail") && !to->number;
    int socket = connected(port);
    if (socket < 0) fail("no connection", NULL);
    to->in = input_of(socket);
    prepare(to);
    pthread_barrier_wait(&ready);
    pthread_barrier_wait(&started);
    for (;;) {
        int64_t began = nanoseconds();
        long there = reads_alone ? atomic_load(&left) : atomic_fetch_sub(&left, 1);
        if ((began >= end && to->samples.count) || there <= 0) break;
        once(to);
        if (began >= warm || there <= most - most / 10) keep(&to->samples, began, nanoseconds());
    }
    close(socket);
    return NULL;
}

static void print_all(struct connection *all) {
    struct samples together = {0};
    double rate = 0, refused = 0, pushes = 0;
    for (int k = 0; k < connections; k++) {
        const struct samples *own = &all[k].samples;
        int is_push = is_kind("tail") && k;
        *(is_push ? &pushes : &rate) += rate_of(own);
        if (own->count) refused += (double)all[k].refused * rate_of(own) / (double)own->count;
        for (size_t i = 0; !is_push && i < own->count; i++) keep(&together, 0, own->took[i]);
    }
    print_samples(&together, rate);
    printf(" %.3f\n", is_cycle() ? refused : is_kind("tail") ? pushes : (double)all->length);
}

static void read_options(int argc, char **argv) {
    for (int option; (option = getopt(argc, argv, "p:c:s:n:b:m:t:f:")) != -1;) switch (option) {
        case 'p': port = atoi(optarg); break;
        case 'c': connections = atoi(optarg); break;
        case 's': seconds = atof(optarg); break;
        case 'n': most = atol(optarg); break;
        case 'b': size = strtoul(optarg, NULL, 10); break;
        case 'm': method = optarg; break;
        case 't': target = optarg; break;
        case 'f': from = (unsigned)strtoul(optarg, NULL, 10); break;
        default: exit(2);
        }
    if (connections < 1 || connections > MAX_CONNECTIONS) exit(2);
}

int main(int argc, char **argv) {
    static const struct {
        const char *name;
        void (*once)(struct connection *);
    } kinds[] = {{"get", get_once},   {"post", post_once}, {"own", cycle_once},  {"one", cycle_once},
                 {"tail", tail_once}, {"fill", fill_once}, {"chain", post_once}};
    static struct connection all[MAX_CONNECTIONS];
    static pthread_t threads[MAX_CONNECTIONS];
    kind = argc > 1 ? argv[1] : "";
    for (size_t k = 0; k < sizeof kinds / sizeof *kinds; k++)
        if (is_kind(kinds[k].name)) once = kinds[k].once;
    if (!once) return 2;
    read_options(argc - 1, argv + 1);
    left = most;
    pthread_barrier_init(&ready, NULL, (unsigned)connections + 1);
    pthread_barrier_init(&started, NULL, (unsigned)connections + 1);
    for (int k = 0; k < connections; k++) {
        all[k].number = k;
        if (pthread_create(threads + k, NULL, run, all + k)) fail("no thread", NULL);
    }
    pthread_barrier_wait(&ready);
    int64_t begin = nanoseconds();
    warm = is_kind("fill") || is_kind("chain") ? begin : begin + (int64_t)(seconds * 2e8);
    end = begin + (int64_t)(seconds * 1e9);
    pthread_barrier_wait(&started);
    for (int k = 0; k < connections; k++) pthread_join(threads[k], NULL);
    print_all(all);
    return 0;
}
