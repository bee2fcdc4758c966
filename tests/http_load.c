// A load on a site over HTTP, or on a Redis server, for tests/http_rates.py:
//
//     http_load PORT THREADS CONNECTIONS AT_ONCE COMMANDS SECONDS EXPECTED <REQUEST
//
// The standard input is one request. Each connection sends it so many times in one write (AT_ONCE), reads as many
// answers, and begins again. COMMANDS are the commands of one request. An answer whose body (of HTTP) or text (of Redis)
// does not begin with EXPECTED ends the program. Prints the commands that were answered in a second, after a fifth of the
// time for warming up.

#include <errno.h>
#include <arpa/inet.h>
#include <netinet/in.h>
#include <netinet/tcp.h>
#include <pthread.h>
#include <stdatomic.h>
#include <stdio.h>
#include <stdlib.h>
#include <string.h>
#include <sys/epoll.h>
#include <sys/socket.h>
#include <time.h>
#include <unistd.h>

enum { ROOM = 1 << 20 };

struct connection {
    int stream;
    int waiting;   // answers that did not come yet
    size_t filled; // bytes in `input`
    char *input;
};

static const char *expected;
static char *output;
static size_t output_length;
static int port, threads, connections, at_once, commands, is_http;
static double seconds;
static atomic_long answered;
static atomic_int is_over;

static void fail(const char *what) {
    fprintf(stderr, "http_load: %s: %s\n", what, strerror(errno));
    exit(1);
}

static void refuse(const char *text, size_t length) {
    fprintf(stderr, "http_load: another answer: %.*s\n", (int)(length < 300 ? length : 300), text);
    exit(1);
}

static void send_all(struct connection *it) {
    for (size_t sent = 0; sent < output_length;) {
        ssize_t count = send(it->stream, output + sent, output_length - sent, MSG_NOSIGNAL);
        if (count < 0)
            fail("send");
        sent += count;
    }
    it->waiting = at_once;
}

static void begin(struct connection *it) {
    struct sockaddr_in address = {.sin_family = AF_INET, .sin_port = htons(port), .sin_addr.s_addr = htonl(INADDR_LOOPBACK)};
    int yes = 1;
    it->stream = socket(AF_INET, SOCK_STREAM, 0);
    if (it->stream < 0 || connect(it->stream, (struct sockaddr *)&address, sizeof address) != 0)
        fail("connect");
    setsockopt(it->stream, IPPROTO_TCP, TCP_NODELAY, &yes, sizeof yes);
    it->input = malloc(ROOM);
    it->filled = 0;
}

// The length of the answer at the front of the text, or 0 where it is not whole.
static size_t http_answer(const char *text, size_t length) {
    static const char field[] = "\r\ncontent-length: ";
    const char *end = memmem(text, length, "\r\n\r\n", 4);
    if (end == NULL)
        return 0;
    const char *found = memmem(text, end - text, field, sizeof field - 1);
    if (found == NULL)
        refuse(text, length);
    size_t whole = end - text + 4 + strtoul(found + sizeof field - 1, NULL, 10);
    if (whole > length)
        return 0;
    if (memcmp(text + 9, "200", 3) != 0 || strncmp(end + 4, expected, strlen(expected)) != 0)
        refuse(text, length);
    return whole;
}

static size_t redis_answer(const char *text, size_t length) {
    const char *end = memchr(text, '\n', length);
    if (end == NULL)
        return 0;
    if (strncmp(text, expected, strlen(expected)) != 0 || text[1] == '-')
        refuse(text, length);
    return end - text + 1;
}

static void receive(struct connection *it) {
    ssize_t count = recv(it->stream, it->input + it->filled, ROOM - it->filled, 0);
    if (count <= 0)
        fail("receive");
    it->filled += count;
    size_t used = 0;
    while (it->waiting > 0) {
        const char *text = it->input + used;
        size_t length = it->filled - used, whole = is_http ? http_answer(text, length) : redis_answer(text, length);
        if (whole == 0)
            break;
        used += whole;
        it->waiting--;
        atomic_fetch_add_explicit(&answered, commands, memory_order_relaxed);
    }
    memmove(it->input, it->input + used, it->filled - used);
    it->filled -= used;
    if (it->waiting == 0)
        send_all(it);
}

static void *run(void *argument) {
    int place = (int)(long)argument, watch = epoll_create1(0);
    int count = connections / threads + (place < connections % threads);
    struct connection *own = calloc(count, sizeof *own);
    struct epoll_event events[64];
    for (int n = 0; n < count; n++) {
        struct epoll_event event = {.events = EPOLLIN, .data.ptr = &own[n]};
        begin(&own[n]);
        epoll_ctl(watch, EPOLL_CTL_ADD, own[n].stream, &event);
        send_all(&own[n]);
    }
    while (!atomic_load_explicit(&is_over, memory_order_relaxed)) {
        int ready = epoll_wait(watch, events, 64, 100);
        for (int n = 0; n < ready; n++)
            receive(events[n].data.ptr);
    }
    return NULL;
}

static double now(void) {
    struct timespec time;
    clock_gettime(CLOCK_MONOTONIC, &time);
    return time.tv_sec + time.tv_nsec / 1e9;
}

static void rest(double length) {
    struct timespec time = {.tv_sec = (time_t)length, .tv_nsec = (long)((length - (time_t)length) * 1e9)};
    nanosleep(&time, NULL);
}

int main(int count, char **words) {
    static char request[1 << 16];
    if (count != 8)
        return 2;
    port = atoi(words[1]), threads = atoi(words[2]), connections = atoi(words[3]), at_once = atoi(words[4]);
    commands = atoi(words[5]), seconds = atof(words[6]), expected = words[7];
    size_t length = fread(request, 1, sizeof request, stdin);
    is_http = strncmp(request, "POST ", 5) == 0;
    output = malloc(length * at_once);
    for (int n = 0; n < at_once; n++)
        memcpy(output + n * length, request, length);
    output_length = length * at_once;
    for (long place = 0; place < threads; place++) {
        pthread_t thread;
        if (pthread_create(&thread, NULL, run, (void *)place) != 0)
            fail("thread");
    }
    rest(seconds / 5);
    long before = atomic_load(&answered);
    double begun = now();
    rest(seconds);
    printf("%.0f\n", (atomic_load(&answered) - before) / (now() - begun));
    atomic_store(&is_over, 1);
    _exit(fflush(stdout));
}
