/* Clients of a daemon, timed for tools/bench-serve, which builds and runs this.

       socket_clients SOCKET PID CLIENTS BYTES SECONDS [LIBMUNGE]

   asks munged at that socket by frames of docs/FORMATS.md or, where the file of its library is
   given, MUNGE by that. Each client is a thread that sends one request after the other, each over a
   connection of its own. They seal payloads of that size for so many seconds; then they open what
   they sealed, each text once; then, for so many seconds again, each seals a text and opens it. All
   is sealed under AES-128 with HMAC-SHA-256, for anyone, and nothing is compressed.

   It prints three lines NAME RATE USER SYSTEM, for encode, decode and pair: how many a second all
   clients had together, and for each the microseconds of processor time that the daemon, whose
   process is PID, took in its own code and in the kernel. Where a reply is another than success, it
   ends with 1. */
#define _GNU_SOURCE
#include <dlfcn.h>
#include <pthread.h>
#include <stdarg.h>
#include <stdatomic.h>
#include <stdint.h>
#include <stdio.h>
#include <stdlib.h>
#include <string.h>
#include <sys/socket.h>
#include <sys/un.h>
#include <time.h>
#include <unistd.h>

enum { HEAD = 7, ENCODE_FIELDS = 14, LARGEST_BODY = 2097152 };
enum { SEAL = 1, SEALED = 2, OPEN = 3, OPENED = 4 };               /* the kinds of frames */
enum { AES128 = 4, SHA256 = 5 };                                   /* of both daemons */
enum { OPTION_CIPHER, OPTION_MAC, OPTION_ZIP, OPTION_SOCKET = 8 }; /* of libmunge's munge.h */
enum { MOST_KEPT = 1 << 27 };                                      /* bytes of texts */

/* What a client sealed: the frame that asks to open it, or libmunge's string. */
struct text {
    uint8_t *bytes;
    size_t size;
};

/* What a thread has for itself: room for a reply, or libmunge's context. */
struct client {
    pthread_t thread;
    uint8_t *reply;
    void *context;
    uint64_t done;
};

static const char *path;
static size_t payload_size;
static double seconds;
static uint8_t *request; /* asks munged to seal the payload */
static uint8_t *payload;

static void *(*context_create)(void);
static int (*context_set)(void *, int, ...);
static int (*munge_encode)(char **, void *, const void *, int);
static int (*munge_decode)(const char *, void *, void **, int *, uid_t *, gid_t *);
static const char *(*munge_strerror)(int);

static void fail(const char *form, ...) {
    va_list given;
    va_start(given, form);
    fputs("socket_clients: ", stderr);
    vfprintf(stderr, form, given);
    fputc('\n', stderr);
    exit(1);
}

static double now(void) {
    struct timespec t;
    clock_gettime(CLOCK_MONOTONIC, &t);
    return (double)t.tv_sec + (double)t.tv_nsec / 1e9;
}

static void put_number(uint8_t *at, uint32_t n) {
    for (int i = 0; i < 4; i++) at[i] = (uint8_t)(n >> (24 - 8 * i));
}

static uint32_t number_at(const uint8_t *at) {
    return (uint32_t)at[0] << 24 | (uint32_t)at[1] << 16 | (uint32_t)at[2] << 8 | at[3];
}

static void put_head(uint8_t *frame, uint8_t kind, size_t body) {
    frame[0] = 'M', frame[1] = 1, frame[2] = kind;
    put_number(frame + 3, (uint32_t)body);
}

/* Sends a request over a connection of its own, and reads the reply, which is to be of that kind
   and to have status 0. Returns how long its body is. */
static size_t ask(struct client *c, const uint8_t *frame, size_t size, uint8_t kind) {
    struct sockaddr_un address = {.sun_family = AF_UNIX};
    strncpy(address.sun_path, path, sizeof address.sun_path - 1);
    int wire = socket(AF_UNIX, SOCK_STREAM | SOCK_CLOEXEC, 0);
    if (wire < 0 || connect(wire, (struct sockaddr *)&address, sizeof address))
        fail("cannot connect to %s: %m", path);
    for (size_t sent = 0; sent < size;) {
        ssize_t n = send(wire, frame + sent, size - sent, MSG_NOSIGNAL);
        if (n < 0) fail("a request is not taken: %m");
        sent += (size_t)n;
    }
    size_t got = 0, whole = HEAD;
    while (got < whole) {
        ssize_t n = read(wire, c->reply + got, HEAD + LARGEST_BODY - got);
        if (n <= 0) fail("a reply ends after %zu bytes", got);
        got += (size_t)n;
        if (got >= HEAD) whole = HEAD + (size_t)number_at(c->reply + 3);
    }
    close(wire);
    if (got != whole || whole == HEAD || c->reply[2] != kind || c->reply[HEAD])
        fail("a reply has kind %d and status %d", c->reply[2], c->reply[HEAD]);
    return whole - HEAD;
}

static struct text seal_here(struct client *c) {
    size_t text = ask(c, request, HEAD + ENCODE_FIELDS + payload_size, SEALED) - 1;
    struct text t = {malloc(HEAD + text), HEAD + text};
    put_head(t.bytes, OPEN, text);
    memcpy(t.bytes + HEAD, c->reply + HEAD + 1, text);
    return t;
}

static void open_here(struct client *c, struct text t) {
    ask(c, t.bytes, t.size, OPENED);
}

static struct text seal_there(struct client *c) {
    char *text = NULL;
    int error = munge_encode(&text, c->context, payload, (int)payload_size);
    if (error) fail("munge_encode: %s", munge_strerror(error));
    return (struct text){(uint8_t *)text, strlen(text)};
}

static void open_there(struct client *c, struct text t) {
    void *bytes = NULL;
    int size;
    uid_t uid;
    gid_t gid;
    int error = munge_decode((char *)t.bytes, c->context, &bytes, &size, &uid, &gid);
    if (error) fail("munge_decode: %s", munge_strerror(error));
    free(bytes);
}

static struct text (*seal)(struct client *) = seal_here;
static void (*open_text)(struct client *, struct text) = open_here;

/* The texts that wait to be opened. Each thread takes the next place, to fill it or to empty it. */
static struct text *kept;
static size_t places;
static atomic_size_t next_place;

static void seal_and_keep(struct client *c) {
    struct text t = seal(c);
    size_t place = atomic_fetch_add(&next_place, 1);
    if (place < places)
        kept[place] = t;
    else
        free(t.bytes);
}

static int open_a_kept_one(struct client *c) {
    size_t place = atomic_fetch_add(&next_place, 1);
    if (place >= places) return 0;
    open_text(c, kept[place]);
    free(kept[place].bytes);
    return 1;
}

static void seal_and_open(struct client *c) {
    struct text t = seal(c);
    open_text(c, t);
    free(t.bytes);
}

static pthread_barrier_t begin;

static void *run_encode(void *given) {
    struct client *c = given;
    pthread_barrier_wait(&begin);
    for (double end = now() + seconds; now() < end; c->done++) seal_and_keep(c);
    return NULL;
}

static void *run_decode(void *given) {
    struct client *c = given;
    pthread_barrier_wait(&begin);
    while (open_a_kept_one(c)) c->done++;
    return NULL;
}

static void *run_pair(void *given) {
    struct client *c = given;
    pthread_barrier_wait(&begin);
    for (double end = now() + seconds; now() < end; c->done++) seal_and_open(c);
    return NULL;
}

/* Seconds of processor time that a process has taken, in its own code and in the kernel. */
static void processor_time(int pid, double taken[2]) {
    char name[64], line[1024];
    snprintf(name, sizeof name, "/proc/%d/stat", pid);
    FILE *file = fopen(name, "r");
    if (!file || !fgets(line, sizeof line, file)) fail("%s: %m", name);
    fclose(file);
    unsigned long user, kernel;
    const char *form = ") %*c %*d %*d %*d %*d %*d %*u %*u %*u %*u %*u %lu %lu";
    char *behind = strrchr(line, ')');
    if (!behind || sscanf(behind, form, &user, &kernel) != 2) fail("%s is of another form", name);
    taken[0] = (double)user / (double)sysconf(_SC_CLK_TCK);
    taken[1] = (double)kernel / (double)sysconf(_SC_CLK_TCK);
}

static void measure(const char *name, void *(*work)(void *), struct client *clients, int count,
                    int pid) {
    double before[2], after[2];
    uint64_t done = 0;
    pthread_barrier_init(&begin, NULL, (unsigned)count + 1);
    for (int i = 0; i < count; i++) {
        clients[i].done = 0;
        if (pthread_create(&clients[i].thread, NULL, work, &clients[i])) fail("there is no thread");
    }
    processor_time(pid, before);
    double began = now();
    pthread_barrier_wait(&begin);
    for (int i = 0; i < count; i++) {
        pthread_join(clients[i].thread, NULL);
        done += clients[i].done;
    }
    double elapsed = now() - began;
    processor_time(pid, after);
    pthread_barrier_destroy(&begin);
    if (!done) fail("%s: nothing was done", name);
    double user = (after[0] - before[0]) * 1e6 / (double)done;
    double kernel = (after[1] - before[1]) * 1e6 / (double)done;
    printf("%s %.1f %.2f %.2f\n", name, (double)done / elapsed, user, kernel);
    fflush(stdout);
}

static void *symbol(void *library, const char *name) {
    void *found = dlsym(library, name);
    if (!found) fail("%s", dlerror());
    return found;
}

static void take_library(const char *file) {
    void *library = dlopen(file, RTLD_NOW);
    if (!library) fail("%s", dlerror());
    *(void **)&context_create = symbol(library, "munge_ctx_create");
    *(void **)&context_set = symbol(library, "munge_ctx_set");
    *(void **)&munge_encode = symbol(library, "munge_encode");
    *(void **)&munge_decode = symbol(library, "munge_decode");
    *(void **)&munge_strerror = symbol(library, "munge_strerror");
    seal = seal_there, open_text = open_there;
}

static void prepare(struct client *c) {
    if (seal == seal_here) {
        c->reply = malloc(HEAD + LARGEST_BODY);
        return;
    }
    c->context = context_create();
    if (!c->context || context_set(c->context, OPTION_SOCKET, path) ||
        context_set(c->context, OPTION_CIPHER, AES128) ||
        context_set(c->context, OPTION_MAC, SHA256) || context_set(c->context, OPTION_ZIP, 0))
        fail("there is no context of libmunge");
}

int main(int count, char **words) {
    if (count != 6 && count != 7) fail("SOCKET PID CLIENTS BYTES SECONDS [LIBMUNGE]");
    path = words[1];
    int pid = atoi(words[2]), threads = atoi(words[3]);
    payload_size = (size_t)atol(words[4]);
    seconds = atof(words[5]);
    if (count == 7) take_library(words[6]);

    request = calloc(1, HEAD + ENCODE_FIELDS + payload_size);
    put_head(request, SEAL, ENCODE_FIELDS + payload_size);
    request[HEAD] = AES128, request[HEAD + 1] = SHA256;
    memset(request + HEAD + 6, 0xff, 8); /* for any user and any group */
    payload = request + HEAD + ENCODE_FIELDS;
    for (size_t i = 0; i < payload_size; i++) payload[i] = (uint8_t)(i * 2654435761u >> 24);

    struct client *clients = calloc((size_t)threads, sizeof *clients);
    for (int i = 0; i < threads; i++) prepare(&clients[i]);
    places = MOST_KEPT / (2 * payload_size + 300);
    kept = calloc(places, sizeof *kept);

    measure("encode", run_encode, clients, threads, pid);
    size_t sealed = atomic_exchange(&next_place, 0);
    if (sealed < places) places = sealed;
    measure("decode", run_decode, clients, threads, pid);
    measure("pair", run_pair, clients, threads, pid);
    return 0;
}
