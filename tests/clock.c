/* A clock that a test sets, and counts of what a program asks of the system. Compiled when it is needed, and loaded
 * before the C library:
 *
 *     CLOCK_FILE=PATH LD_PRELOAD=./clock.so ./rights-site run ..
 *
 * PATH is a file that begins with a `struct shared`, which the test writes and reads while the program runs. Time is what
 * the system says, or stands still, and `shift` is added to it; to the time of day `wall` too. All waits that have an
 * end follow this clock: they look at it every few milliseconds. `fails` has the time of day refuse to be read, and `holds` has each shutdown of a stream
 * wait until it is cleared. */

#define _GNU_SOURCE
#include <dlfcn.h>
#include <errno.h>
#include <fcntl.h>
#include <linux/futex.h>
#include <poll.h>
#include <stdarg.h>
#include <stdatomic.h>
#include <stdint.h>
#include <stdlib.h>
#include <sys/mman.h>
#include <sys/socket.h>
#include <sys/syscall.h>
#include <sys/time.h>
#include <time.h>
#include <unistd.h>

#define SECOND 1000000000LL
/* How long a wait goes on before it looks at the clock again, in nanoseconds. */
#define SLICE 2000000LL
/* A wait that is as long as this has no end. */
#define ENDLESS (1LL << 32)

struct shared {
    /* Written by the test: nanoseconds, and three flags. */
    _Atomic int64_t shift, is_still, fails, holds;
    /* Written by the program: attempts to accept, shutdowns that waited, and how often the time of day was refused. */
    _Atomic int64_t accepts, held, refused;
    /* Written by the test: nanoseconds that the wall clock is ahead of that. */
    _Atomic int64_t wall;
};

static struct shared none;
static struct shared *shared = &none;
static int64_t begun[2];

#define REAL(name) \
    static __typeof__(name) *real; \
    if (real == NULL) real = (__typeof__(name) *)dlsym(RTLD_NEXT, #name)

static int64_t nanoseconds(const struct timespec *time)
{
    return time->tv_sec >= ENDLESS ? INT64_MAX : time->tv_sec * SECOND + time->tv_nsec;
}

static struct timespec time_of(int64_t nanoseconds)
{
    return (struct timespec){nanoseconds / SECOND, nanoseconds % SECOND};
}

static int64_t system_time(clockid_t clock)
{
    struct timespec time;
    syscall(SYS_clock_gettime, clock, &time);
    return nanoseconds(&time);
}

/* The time of the test's clock. */
static int64_t now(clockid_t clock)
{
    int is_wall = clock == CLOCK_REALTIME;
    return (shared->is_still ? begun[is_wall] : system_time(clock)) + shared->shift + (is_wall ? shared->wall : 0);
}

/* The end of a wait that is so long, by the test's clock. */
static int64_t end_of(int64_t time)
{
    int64_t since = now(CLOCK_MONOTONIC);
    return time > INT64_MAX - since ? INT64_MAX : since + time;
}

static int is_over(int64_t end)
{
    return now(CLOCK_MONOTONIC) >= end;
}

__attribute__((constructor)) static void begin(void)
{
    const char *path = getenv("CLOCK_FILE");
    int file = path == NULL ? -1 : open(path, O_RDWR | O_CLOEXEC);
    if (file < 0) return;
    void *at = mmap(NULL, sizeof *shared, PROT_READ | PROT_WRITE, MAP_SHARED, file, 0);
    close(file);
    if (at == MAP_FAILED) return;
    begun[0] = system_time(CLOCK_MONOTONIC);
    begun[1] = system_time(CLOCK_REALTIME);
    shared = at;
}

int clock_gettime(clockid_t clock, struct timespec *time)
{
    if (clock == CLOCK_REALTIME && shared->fails) {
        shared->refused++;
        errno = EINVAL;
        return -1;
    }
    *time = time_of(now(clock));
    return 0;
}

/* ---- waits */

int nanosleep(const struct timespec *time, struct timespec *left)
{
    REAL(nanosleep);
    (void)left;
    struct timespec slice = time_of(SLICE);
    int64_t end = end_of(nanoseconds(time));
    while (!is_over(end)) real(&slice, NULL);
    return 0;
}

int poll(struct pollfd *streams, nfds_t count, int time)
{
    REAL(poll);
    if (time <= 0) return real(streams, count, time);
    int64_t end = end_of(time * (SECOND / 1000));
    int found;
    do found = real(streams, count, SLICE / 1000000);
    while (found == 0 && !is_over(end));
    return found;
}

long syscall(long number, ...)
{
    REAL(syscall);
    va_list list;
    long of[6];
    va_start(list, number);
    for (int place = 0; place < 6; place++) of[place] = va_arg(list, long);
    va_end(list);
    const struct timespec *time = (const struct timespec *)of[3];
    int is_wait = number == SYS_futex && (of[1] & FUTEX_CMD_MASK) == FUTEX_WAIT && time != NULL;
    if (!is_wait || nanoseconds(time) == INT64_MAX) return real(number, of[0], of[1], of[2], of[3], of[4], of[5]);
    struct timespec slice = time_of(SLICE);
    int64_t end = end_of(nanoseconds(time));
    while (!is_over(end)) {
        if (real(number, of[0], of[1], of[2], &slice) == 0 || errno != ETIMEDOUT) return 0;
    }
    errno = ETIMEDOUT;
    return -1;
}

/* ---- streams */

/* Waits until a stream is ready, for as long as its own limit says. Whether it is, or has no limit. */
static int is_ready(int stream, int option, short event)
{
    struct timeval limit = {0, 0};
    socklen_t size = sizeof limit;
    if (getsockopt(stream, SOL_SOCKET, option, &limit, &size) != 0 || (limit.tv_sec == 0 && limit.tv_usec == 0)) return 1;
    if (fcntl(stream, F_GETFL) & O_NONBLOCK) return 1;
    struct pollfd one = {stream, event, 0};
    int64_t end = end_of(limit.tv_sec * SECOND + limit.tv_usec * 1000);
    do {
        struct timespec slice = time_of(SLICE);
        if (syscall(SYS_ppoll, &one, 1, &slice, NULL, 0) != 0) return 1;
    } while (!is_over(end));
    errno = EAGAIN;
    return 0;
}

ssize_t recv(int stream, void *bytes, size_t count, int flags)
{
    REAL(recv);
    return is_ready(stream, SO_RCVTIMEO, POLLIN) ? real(stream, bytes, count, flags) : -1;
}

ssize_t send(int stream, const void *bytes, size_t count, int flags)
{
    REAL(send);
    return is_ready(stream, SO_SNDTIMEO, POLLOUT) ? real(stream, bytes, count, flags) : -1;
}

int accept4(int stream, struct sockaddr *address, socklen_t *size, int flags)
{
    REAL(accept4);
    shared->accepts++;
    return real(stream, address, size, flags);
}

int shutdown(int stream, int how)
{
    REAL(shutdown);
    struct timespec slice = time_of(SLICE);
    if (shared->holds) shared->held++;
    while (shared->holds) syscall(SYS_nanosleep, &slice, NULL);
    return real(stream, how);
}
