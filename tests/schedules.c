/* Pauses by a seed, so that threads meet in other orders than they mostly do. Compiled when it is needed, and loaded
 * before the C library:
 *
 *     cc -O2 -shared -fPIC -o schedules.so tests/schedules.c
 *     SCHEDULE_SEED=7 LD_PRELOAD=./schedules.so ./rights-site run ..
 *
 * A thread may pause before and after each call by which it waits, wakes, starts another thread, or uses a stream. A
 * program's own atomic instructions are no calls. So after such a call a thread may go on instruction by instruction,
 * by the processor's trap flag, and pause before some instruction: one that writes atomically, or any other. A wait
 * may end for no reason, which is always allowed, and a sleep may be shorter.
 *
 * Each thread draws from a sequence of its own, made of the seed and of its number: threads are numbered as they are
 * started. After SCHEDULE_PAUSES pauses of the process (1,000 if it is not set) there are no more, so that a long test
 * ends too. SCHEDULE_STEPS is how many instructions are looked at after a call, 4,096 if it is not set: each takes a
 * microsecond or two. With SCHEDULE_SPARES_MAIN the thread that the program begins with never pauses. Without
 * SCHEDULE_SEED nothing is changed. */

#define _GNU_SOURCE
#include <dlfcn.h>
#include <errno.h>
#include <linux/futex.h>
#include <poll.h>
#include <pthread.h>
#include <signal.h>
#include <stdarg.h>
#include <stdatomic.h>
#include <stdint.h>
#include <stdlib.h>
#include <sys/socket.h>
#include <sys/syscall.h>
#include <time.h>
#include <ucontext.h>
#include <unistd.h>

/* The longest pause is PAUSE << MOST_SHIFT nanoseconds: two milliseconds. */
#define PAUSE 8000
#define MOST_SHIFT 8
/* The processor's trap flag. */
#define TRAP 0x100
/* The signal handlers read these, so they are not to be allocated there. */
#define OF_THREAD static _Thread_local __attribute__((tls_model("initial-exec")))

static uint64_t seed;
/* So many instructions are looked at after a call, at most. */
static unsigned most_steps = 4096;
static atomic_int pauses_left;
static atomic_uint_fast64_t started = 1;
OF_THREAD uint64_t drawn;
OF_THREAD int is_spared;
/* How many instructions it still looks at, and whether it pauses before those that write atomically, each second one,
 * or before the last of them. */
OF_THREAD unsigned steps_left, is_before_atomics;

#define REAL(name) \
    static __typeof__(name) *real; \
    if (real == NULL) real = (__typeof__(name) *)dlsym(RTLD_NEXT, #name)

static long kernel(long number, long a, long b, long c, long d, long e, long f)
{
    register long r10 __asm__("r10") = d, r8 __asm__("r8") = e, r9 __asm__("r9") = f;
    long result;
    __asm__ volatile("syscall" : "=a"(result) : "a"(number), "D"(a), "S"(b), "d"(c), "r"(r10), "r"(r8), "r"(r9) : "rcx", "r11", "memory");
    return result;
}

/* The next number of this thread's sequence (splitmix64). */
static uint64_t draw(void)
{
    uint64_t it = drawn += 0x9e3779b97f4a7c15;
    it = (it ^ it >> 30) * 0xbf58476d1ce4e5b9;
    it = (it ^ it >> 27) * 0x94d049bb133111eb;
    return it ^ it >> 31;
}

static int is_on(void)
{
    return seed != 0 && !is_spared && atomic_load_explicit(&pauses_left, memory_order_relaxed) > 0;
}

static void rest(void)
{
    atomic_fetch_sub(&pauses_left, 1);
    struct timespec time = {0, (long)PAUSE << draw() % (MOST_SHIFT + 1)};
    kernel(SYS_nanosleep, (long)&time, 0, 0, 0, 0, 0);
}

/* One call in four rests, and one in four lets others go first. */
static void may_pause(void)
{
    if (!is_on()) return;
    switch (draw() % 4) {
    case 0: rest(); break;
    case 1: kernel(SYS_sched_yield, 0, 0, 0, 0, 0, 0); break;
    }
}

/* Whether an instruction writes atomically: it begins with `lock`, or it exchanges with memory. */
static int is_atomic(const uint8_t *at)
{
    while (*at == 0x66) at++;
    if (*at == 0xf0) return 1;
    if ((*at & 0xf0) == 0x40) at++;
    return (*at == 0x86 || *at == 0x87) && at[1] < 0xc0;
}

/* Called before each instruction, while the flag is set. */
static void on_step(int signal, siginfo_t *info, void *at)
{
    (void)signal, (void)info;
    greg_t *registers = ((ucontext_t *)at)->uc_mcontext.gregs;
    if (steps_left == 0 || --steps_left == 0) {
        registers[REG_EFL] &= ~(greg_t)TRAP;
        if (!is_before_atomics) rest();
    } else if (is_before_atomics && is_atomic((const uint8_t *)registers[REG_RIP]) && draw() % 2 == 0) {
        rest();
    }
}

/* Changes the processor's flags, below what the compiler may keep under the stack's end. */
#define FLAGS(change, with) \
    __asm__ volatile("lea -128(%%rsp), %%rsp; pushfq; " change " %0, (%%rsp); popfq; lea 128(%%rsp), %%rsp" \
                     : : "i"(with) : "memory", "cc")

/* Where all signals are blocked, a trap would end the process. */
static void step_no_more(void)
{
    FLAGS("andq", ~TRAP);
}

/* After one call in two, looks at the instructions that follow. */
static void may_step(void)
{
    if (!is_on() || draw() % 2 != 0) return;
    atomic_fetch_sub(&pauses_left, 1);
    uint64_t it = draw();
    is_before_atomics = it % 2;
    steps_left = is_before_atomics ? most_steps : 2 + (it >> 16) % (most_steps >> (it >> 8) % 9);
    FLAGS("orq", TRAP);
}

/* One call as it is, between two pauses. Answers the call's value, and leaves its errno. */
#define BETWEEN_PAUSES(type, call) \
    int before = errno; \
    may_pause(); \
    errno = before; \
    type gave = call; \
    int after = errno; \
    may_pause(); \
    errno = after; \
    may_step(); \
    return gave

__attribute__((constructor)) static void begin(void)
{
    const char *word = getenv("SCHEDULE_SEED");
    if (word == NULL) return;
    seed = strtoull(word, NULL, 10) * 2 + 1;
    drawn = seed << 20;
    is_spared = getenv("SCHEDULE_SPARES_MAIN") != NULL;
    const char *pauses = getenv("SCHEDULE_PAUSES");
    pauses_left = pauses == NULL ? 1000 : atoi(pauses);
    const char *steps = getenv("SCHEDULE_STEPS");
    if (steps != NULL && atoi(steps) >= 1024) most_steps = (unsigned)atoi(steps);
    struct sigaction on = {.sa_sigaction = on_step, .sa_flags = SA_SIGINFO | SA_RESTART};
    sigaction(SIGTRAP, &on, NULL);
}

/* ---- waits and wakes */

static long on_futex(long *of)
{
    int kind = (int)of[1] & FUTEX_CMD_MASK;
    int is_wait = kind == FUTEX_WAIT || kind == FUTEX_WAIT_BITSET;
    if (is_on() && is_wait && draw() % 2 == 0) return 0;
    long result = kernel(SYS_futex, of[0], of[1], of[2], of[3], of[4], of[5]);
    if (result >= 0) return result;
    errno = (int)-result;
    return -1;
}

long syscall(long number, ...)
{
    REAL(syscall);
    va_list list;
    long of[6];
    va_start(list, number);
    for (int place = 0; place < 6; place++) of[place] = va_arg(list, long);
    va_end(list);
    if (number != SYS_futex) return real(number, of[0], of[1], of[2], of[3], of[4], of[5]);
    BETWEEN_PAUSES(long, on_futex(of));
}

int sched_yield(void)
{
    BETWEEN_PAUSES(int, (int)kernel(SYS_sched_yield, 0, 0, 0, 0, 0, 0));
}

int nanosleep(const struct timespec *time, struct timespec *left)
{
    REAL(nanosleep);
    struct timespec part = *time;
    /* All of it, or a part. */
    if (is_on() && part.tv_sec == 0 && part.tv_nsec < 100000000) part.tv_nsec >>= draw() % 12;
    BETWEEN_PAUSES(int, real(&part, left));
}

int poll(struct pollfd *streams, nfds_t count, int time)
{
    REAL(poll);
    BETWEEN_PAUSES(int, real(streams, count, time));
}

/* ---- threads */

struct start {
    void *(*call)(void *);
    void *with;
    uint64_t number;
};

static void *run(void *given)
{
    struct start start = *(struct start *)given;
    free(given);
    drawn = (seed << 20) + start.number * 0xd1342543de82ef95;
    may_pause();
    may_step();
    void *value = start.call(start.with);
    step_no_more();
    return value;
}

int pthread_create(pthread_t *thread, const pthread_attr_t *attributes, void *(*call)(void *), void *with)
{
    REAL(pthread_create);
    struct start *start = seed == 0 ? NULL : malloc(sizeof *start);
    if (start == NULL) return real(thread, attributes, call, with);
    *start = (struct start){call, with, atomic_fetch_add(&started, 1)};
    step_no_more();
    int fault = real(thread, attributes, run, start);
    if (fault != 0) free(start);
    may_pause();
    may_step();
    return fault;
}

int pthread_join(pthread_t thread, void **value)
{
    REAL(pthread_join);
    BETWEEN_PAUSES(int, real(thread, value));
}

/* ---- streams */

ssize_t read(int stream, void *bytes, size_t count)
{
    REAL(read);
    BETWEEN_PAUSES(ssize_t, real(stream, bytes, count));
}

ssize_t write(int stream, const void *bytes, size_t count)
{
    REAL(write);
    BETWEEN_PAUSES(ssize_t, real(stream, bytes, count));
}

ssize_t recv(int stream, void *bytes, size_t count, int flags)
{
    REAL(recv);
    BETWEEN_PAUSES(ssize_t, real(stream, bytes, count, flags));
}

ssize_t send(int stream, const void *bytes, size_t count, int flags)
{
    REAL(send);
    BETWEEN_PAUSES(ssize_t, real(stream, bytes, count, flags));
}

int connect(int stream, const struct sockaddr *address, socklen_t size)
{
    REAL(connect);
    BETWEEN_PAUSES(int, real(stream, address, size));
}

int accept4(int stream, struct sockaddr *address, socklen_t *size, int flags)
{
    REAL(accept4);
    BETWEEN_PAUSES(int, real(stream, address, size, flags));
}

int shutdown(int stream, int how)
{
    REAL(shutdown);
    BETWEEN_PAUSES(int, real(stream, how));
}

int close(int stream)
{
    REAL(close);
    BETWEEN_PAUSES(int, real(stream));
}
