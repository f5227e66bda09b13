// What bench/hand-off measures with and against. The first two make the writes and the syncs that two handlers make for a
// document, and pass the same bytes over loopback; they check nothing and read nothing back. The others are clients of
// these or of handlers.
//
//     hand-off receiver PORT LEAF                 appends each document to the leaf, and answers
//     hand-off sender PORT LEAF RECEIVER_PORT     appends each document to the leaf and answers; sends it to the receiver,
//                                                 with a record before and one after
//     hand-off submit PORT COUNT CLIENTS SIZE     submits COUNT documents by CLIENTS threads at the local service of a
//                                                 handler, and asks for their statuses until each is receipted; prints
//                                                 the microseconds of both, and those until all were submitted
//     hand-off single PORT COUNT SIZE             submits one document after another, each when the one before is
//                                                 receipted, and prints the mean of their microseconds
//     hand-off statuses PORT COUNT HOW            asks for COUNT statuses, one after another, at the local service of a
//                                                 handler, and prints the microseconds of all; HOW is `kept` for one
//                                                 connection, and `fresh` for a connection each
//     hand-off documents PORT COUNT HOW           the same, and submits documents of 1,024 bytes
//     hand-off idle PORT COUNT                    opens connections and sends nothing, until it is killed
//     hand-off slow PORT COUNT                    the same, and sends a byte a second on each
#define _GNU_SOURCE
#include <arpa/inet.h>
#include <fcntl.h>
#include <netinet/tcp.h>
#include <pthread.h>
#include <signal.h>
#include <stdint.h>
#include <stdio.h>
#include <stdlib.h>
#include <string.h>
#include <sys/resource.h>
#include <sys/socket.h>
#include <time.h>
#include <unistd.h>

// What a handler adds to a document, in bytes: in the record of a submission and of a delivery, and in the body of the
// request that sends it. The sizes of its other records, and of the body of a receipt.
enum { SUBMITTED = 359, DELIVERED = 303, SENT = 1274, SMALL = 11, RECEIPT = 1164 };

// The most bytes of a message.
enum { MOST = 1 << 20 };

static void must(int is_so, const char *what) {
    if (!is_so) {
        perror(what);
        exit(2);
    }
}

static double now(void) {
    struct timespec t;
    clock_gettime(CLOCK_MONOTONIC, &t);
    return t.tv_sec * 1e6 + t.tv_nsec / 1e3;
}

// ---- A journal: a record is written and synced, and then its gate.

static pthread_mutex_t lock = PTHREAD_MUTEX_INITIALIZER;
static int leaf;
static off_t gate = 8;

static void begin(const char *path) {
    leaf = open(path, O_RDWR | O_CREAT | O_TRUNC, 0644);
    must(leaf >= 0 && pwrite(leaf, "AS4JNL2\n\0", 9, 0) == 9 && fsync(leaf) == 0, path);
}

// Appends a record of `more` bytes and the document.
static void append(const char *document, size_t size, size_t more) {
    size_t length = size + more;
    unsigned char *record = calloc(1, length + 9);
    must(record != NULL, "memory");
    for (int i = 0; i < 8; i++) record[i] = (unsigned char)((uint64_t)length >> (56 - 8 * i));
    memcpy(record + 8 + more, document, size);
    pthread_mutex_lock(&lock);
    must(pwrite(leaf, record, length + 9, gate + 1) == (ssize_t)length + 9 && fsync(leaf) == 0, "record");
    must(pwrite(leaf, "\1", 1, gate) == 1 && fsync(leaf) == 0, "gate");
    gate += length + 9;
    pthread_mutex_unlock(&lock);
    free(record);
}

// ---- Connections.

static int listen_at(int port) {
    int s = socket(AF_INET, SOCK_STREAM | SOCK_CLOEXEC, 0), on = 1;
    struct sockaddr_in at = {.sin_family = AF_INET, .sin_port = htons(port), .sin_addr.s_addr = htonl(INADDR_LOOPBACK)};
    setsockopt(s, SOL_SOCKET, SO_REUSEADDR, &on, sizeof on);
    must(s >= 0 && bind(s, (struct sockaddr *)&at, sizeof at) == 0 && listen(s, 128) == 0, "listen");
    fprintf(stderr, "serving\n");
    return s;
}

static int connect_to(int port) {
    int s = socket(AF_INET, SOCK_STREAM | SOCK_CLOEXEC, 0), on = 1;
    struct sockaddr_in at = {.sin_family = AF_INET, .sin_port = htons(port), .sin_addr.s_addr = htonl(INADDR_LOOPBACK)};
    must(s >= 0 && connect(s, (struct sockaddr *)&at, sizeof at) == 0, "connect");
    setsockopt(s, IPPROTO_TCP, TCP_NODELAY, &on, sizeof on);
    return s;
}

static int accept_at(int door) {
    int s = accept4(door, NULL, NULL, SOCK_CLOEXEC), on = 1;
    must(s >= 0, "accept");
    setsockopt(s, IPPROTO_TCP, TCP_NODELAY, &on, sizeof on);
    return s;
}

static void send_all(int s, const char *bytes, size_t size) {
    for (size_t sent = 0; sent < size;) {
        ssize_t n = send(s, bytes + sent, size - sent, MSG_NOSIGNAL);
        must(n > 0, "send");
        sent += n;
    }
}

// One message of HTTP, up to the length that it names. The length of its body, and where it begins.
struct message {
    char bytes[MOST];
    size_t head, body;
};

static void receive(int s, struct message *m) {
    size_t got = 0;
    m->head = 0;
    while (m->head == 0 || got < m->head + m->body) {
        ssize_t n = recv(s, m->bytes + got, sizeof m->bytes - 1 - got, 0);
        must(n > 0, "receive");
        got += n;
        m->bytes[got] = 0;
        char *end = m->head == 0 ? strstr(m->bytes, "\r\n\r\n") : NULL;
        if (end != NULL) {
            char *length = strstr(m->bytes, "Content-Length: ");
            m->head = end + 4 - m->bytes;
            m->body = length != NULL && length < end ? strtoul(length + 16, NULL, 10) : 0;
            must(m->head + m->body < sizeof m->bytes, "a message");
        }
    }
}

// Closes as a handler does: it reads on until the other side closes.
static void close_gently(int s) {
    char room[4096];
    shutdown(s, SHUT_WR);
    while (recv(s, room, sizeof room, 0) > 0) {}
    close(s);
}

static void respond(int s, const char *body, size_t size) {
    char *bytes = malloc(size + 256);
    must(bytes != NULL, "memory");
    int head = sprintf(bytes, "HTTP/1.1 200 OK\r\nContent-Type: text/plain\r\nContent-Length: %zu\r\nConnection: close\r\n\r\n", size);
    memcpy(bytes + head, body, size);
    send_all(s, bytes, head + size);
    free(bytes);
    close_gently(s);
}

static _Noreturn void receiver(int port, const char *path) {
    static struct message m;
    static char receipt[RECEIPT];
    begin(path);
    int door = listen_at(port);
    for (;;) {
        int s = accept_at(door);
        receive(s, &m);
        append(m.bytes + m.head + SENT, m.body - SENT, DELIVERED);
        respond(s, receipt, RECEIPT);
    }
}

// ---- The sender: what was submitted waits in a list for the thread that sends.

struct document {
    struct document *next;
    size_t size;
    char bytes[];
};

static struct document *first, **last = &first;
static unsigned submitted, receipted;
static pthread_mutex_t of_list = PTHREAD_MUTEX_INITIALIZER;
static pthread_cond_t is_there = PTHREAD_COND_INITIALIZER;
static int receiver_port;

static void *push(void *none) {
    static struct message m;
    for (;;) {
        pthread_mutex_lock(&of_list);
        while (first == NULL) pthread_cond_wait(&is_there, &of_list);
        struct document *it = first;
        first = it->next;
        if (first == NULL) last = &first;
        pthread_mutex_unlock(&of_list);
        append("", 0, SMALL);
        size_t size = it->size + SENT;
        char *request = malloc(size + 256);
        must(request != NULL, "memory");
        int head = sprintf(request, "POST / HTTP/1.1\r\nContent-Length: %zu\r\nConnection: close\r\n\r\n", size);
        memset(request + head, 0, SENT);
        memcpy(request + head + SENT, it->bytes, it->size);
        int s = connect_to(receiver_port);
        send_all(s, request, head + size);
        receive(s, &m);
        close(s);
        free(request);
        free(it);
        append("", 0, SMALL);
        __atomic_add_fetch(&receipted, 1, __ATOMIC_RELEASE);
    }
    return none;
}

static void submit_one(const char *bytes, size_t size, char *answer) {
    append(bytes, size, SUBMITTED);
    struct document *it = malloc(sizeof *it + size);
    must(it != NULL, "memory");
    it->next = NULL;
    it->size = size;
    memcpy(it->bytes, bytes, size);
    pthread_mutex_lock(&of_list);
    *last = it;
    last = &it->next;
    sprintf(answer, "%u %u\n", submitted, submitted);
    submitted++;
    pthread_cond_signal(&is_there);
    pthread_mutex_unlock(&of_list);
}

static _Noreturn void sender(int port, const char *path, int to) {
    static struct message m;
    pthread_t thread;
    char answer[64];
    receiver_port = to;
    begin(path);
    int door = listen_at(port);
    must(pthread_create(&thread, NULL, push, NULL) == 0, "thread");
    for (;;) {
        int s = accept_at(door);
        receive(s, &m);
        if (strncmp(m.bytes, "GET /status/", 12) == 0)
            strcpy(answer, strtoul(m.bytes + 12, NULL, 10) < __atomic_load_n(&receipted, __ATOMIC_ACQUIRE) ? "receipted\n" : "pending 0\n");
        else
            submit_one(m.bytes + m.head, m.body, answer);
        respond(s, answer, strlen(answer));
    }
}

// ---- Clients.

static int service;
static size_t document_size;
static char *document;

// The body of the response to a request.
static char *ask(struct message *m, const char *request, size_t size) {
    int s = connect_to(service);
    send_all(s, request, size);
    receive(s, m);
    close(s);
    must(strncmp(m->bytes, "HTTP/1.1 200 ", 13) == 0, m->bytes);
    return m->bytes + m->head;
}

struct client {
    pthread_t thread;
    int count;
    char (*ids)[80];
    struct message m;
};

// Submits the document, and notes its identifier.
static void submit(struct message *m, char *id) {
    char *request = malloc(document_size + 256);
    must(request != NULL, "memory");
    int head = sprintf(request, "POST /submit/invoice/ HTTP/1.1\r\nHost: h\r\nContent-Type: application/octet-stream\r\nContent-Length: %zu\r\nConnection: close\r\n\r\n", document_size);
    memcpy(request + head, document, document_size);
    must(sscanf(ask(m, request, head + document_size), "%*u %79s", id) == 1, "no identifier");
    free(request);
}

static int is_receipted(struct message *m, const char *id) {
    char request[256];
    int size = sprintf(request, "GET /status/%s HTTP/1.1\r\nHost: h\r\nConnection: close\r\n\r\n", id);
    char *answer = ask(m, request, size);
    must(strncmp(answer, "receipted", 9) == 0 || strncmp(answer, "pending", 7) == 0, answer);
    return answer[0] == 'r';
}

static void wait_for(struct message *m, const char *id) {
    while (!is_receipted(m, id)) usleep(2000);
}

static void *submit_some(void *given) {
    struct client *c = given;
    for (int n = 0; n < c->count; n++) submit(&c->m, c->ids[n]);
    return NULL;
}

static void make_document(size_t size) {
    document_size = size;
    document = malloc(size);
    must(document != NULL, "memory");
    for (size_t n = 0; n < size; n++) document[n] = (char)(n * 2654435761u >> 13);
}

static int submit_all(int count, int clients) {
    struct client *all = calloc(clients, sizeof *all);
    must(all != NULL && count % clients == 0, "clients");
    double start = now();
    for (int n = 0; n < clients; n++) {
        all[n].count = count / clients;
        all[n].ids = calloc(all[n].count, sizeof *all[n].ids);
        must(all[n].ids != NULL && pthread_create(&all[n].thread, NULL, submit_some, &all[n]) == 0, "thread");
    }
    for (int n = 0; n < clients; n++) pthread_join(all[n].thread, NULL);
    double accepted = now();
    for (int k = 0; k < count; k++) wait_for(&all[0].m, all[k % clients].ids[k / clients]);
    printf("%.0f %.0f\n", now() - start, accepted - start);
    return 0;
}

static int one_by_one(int count) {
    static struct message m;
    char id[80];
    double start = now();
    for (int n = 0; n < count; n++) {
        submit(&m, id);
        wait_for(&m, id);
    }
    printf("%.0f\n", (now() - start) / count);
    return 0;
}

// Sends a request so many times, one after another, and reads each response.
static int repeat(const char *request, size_t size, int count, int is_kept) {
    static struct message m;
    double start = now();
    int s = -1;
    for (int n = 0; n < count; n++) {
        if (s < 0) s = connect_to(service);
        send_all(s, request, size);
        receive(s, &m);
        must(strncmp(m.bytes, "HTTP/1.1 200 ", 13) == 0 || strncmp(m.bytes, "HTTP/1.1 404 ", 13) == 0, m.bytes);
        if (is_kept) continue;
        close(s);
        s = -1;
    }
    printf("%.0f\n", now() - start);
    return 0;
}

static int ask_statuses(int count, int is_kept) {
    char request[256];
    int size = sprintf(request, "GET /status/none@x HTTP/1.1\r\nHost: h\r\n%s\r\n", is_kept ? "" : "Connection: close\r\n");
    return repeat(request, size, count, is_kept);
}

static int submit_documents(int count, int is_kept) {
    char request[2048];
    int head = sprintf(request, "POST /submit/invoice/ HTTP/1.1\r\nHost: h\r\nContent-Type: text/plain\r\nContent-Length: 1024\r\n%s\r\n",
        is_kept ? "" : "Connection: close\r\n");
    memset(request + head, 'x', 1024);
    return repeat(request, head + 1024, count, is_kept);
}

// Connections that the other side doesn't accept yet wait in the system; past its limit a connect waits, and isn't waited
// for here.
static _Noreturn void hold(int port, int count, int is_slow) {
    struct rlimit files = {count + 64, count + 64};
    setrlimit(RLIMIT_NOFILE, &files);
    int *s = calloc(count, sizeof *s);
    must(s != NULL, "memory");
    struct sockaddr_in at = {.sin_family = AF_INET, .sin_port = htons(port), .sin_addr.s_addr = htonl(INADDR_LOOPBACK)};
    for (int n = 0; n < count; n++) {
        s[n] = socket(AF_INET, SOCK_STREAM | SOCK_CLOEXEC | SOCK_NONBLOCK, 0);
        must(s[n] >= 0, "socket");
        connect(s[n], (struct sockaddr *)&at, sizeof at);
    }
    usleep(200000);
    fprintf(stderr, "serving\n");
    static const char head[] = "POST / HTTP/1.1\r\nHost: h\r\nContent-Type: application/soap+xml\r\nContent-Length: 100000\r\n\r\n";
    for (size_t at_byte = 0;; at_byte++) {
        sleep(1);
        for (int n = 0; is_slow && n < count; n++) {
            char byte = at_byte < sizeof head - 1 ? head[at_byte] : 'x';
            // Where the other side has closed the connection, nothing is lost.
            (void)!send(s[n], &byte, 1, MSG_NOSIGNAL);
        }
    }
}

int main(int argc, char **argv) {
    signal(SIGPIPE, SIG_IGN);
    const char *what = argc > 1 ? argv[1] : "";
    service = argc > 2 ? atoi(argv[2]) : 0;
    if (argc == 4 && strcmp(what, "receiver") == 0) receiver(service, argv[3]);
    if (argc == 5 && strcmp(what, "sender") == 0) sender(service, argv[3], atoi(argv[4]));
    if (argc == 6 && strcmp(what, "submit") == 0) {
        make_document(strtoul(argv[5], NULL, 10));
        return submit_all(atoi(argv[3]), atoi(argv[4]));
    }
    if (argc == 5 && strcmp(what, "single") == 0) {
        make_document(strtoul(argv[4], NULL, 10));
        return one_by_one(atoi(argv[3]));
    }
    int is_kept = argc == 5 && strcmp(argv[4], "kept") == 0;
    if (argc == 5 && strcmp(what, "statuses") == 0) return ask_statuses(atoi(argv[3]), is_kept);
    if (argc == 5 && strcmp(what, "documents") == 0) return submit_documents(atoi(argv[3]), is_kept);
    if (argc == 4 && strcmp(what, "idle") == 0) hold(service, atoi(argv[3]), 0);
    if (argc == 4 && strcmp(what, "slow") == 0) hold(service, atoi(argv[3]), 1);
    return 64;
}
