/* Stands between a program and one of its files, by LD_PRELOAD: writes down each call on the file and all bytes that
   leave the program, in their order, and makes a chosen call fail, or kills the process there.

   DISK_FILE    the file's path, as the program opens it
   DISK_RECORD  where the calls are written down
   DISK_FAULT   "CALL COUNT ERROR [BYTES]": the COUNTth call of this name (write, sync, cut, read, fsync, folder) fails
                with this number of an error, or kills the process if that is -1; a write first writes BYTES bytes. A
                sync with the number -2 succeeds, but does nothing
   DISK_SLOW    how many milliseconds a sync of the file takes

   A record is a line "NAME NUMBER NUMBER LENGTH" and so many bytes. A line `out` is written before the bytes leave,
   and `left` after it, with how many of them did; a line of a call on the file is written after it has succeeded. */

#define _GNU_SOURCE
#include <dlfcn.h>
#include <errno.h>
#include <fcntl.h>
#include <pthread.h>
#include <signal.h>
#include <stdarg.h>
#include <stdio.h>
#include <stdlib.h>
#include <string.h>
#include <sys/socket.h>
#include <sys/types.h>
#include <time.h>
#include <unistd.h>

static pthread_mutex_t lock = PTHREAD_MUTEX_INITIALIZER;
static int journal = -1, record = -1, folder = -1;
static char fault[16];
static long fault_count, fault_error, fault_bytes, slow;

#define NEXT(name) ((__typeof__(&name))dlsym(RTLD_NEXT, #name))

static void say(const char *name, long first, long second, const void *bytes, size_t length)
{
    if (record < 0)
        return;
    char line[96];
    int n = snprintf(line, sizeof line, "%s %ld %ld %zu\n", name, first, second, length);
    pthread_mutex_lock(&lock);
    if (NEXT(write)(record, line, n) != n || NEXT(write)(record, bytes, length) != (ssize_t)length)
        abort();
    pthread_mutex_unlock(&lock);
}

/* Notes that a call fails, and sets the number of its error; or kills the process. */
static void give_up(void)
{
    say("fault", fault_error, 0, "", 0);
    if (fault_error == -1)
        kill(getpid(), SIGKILL);
    errno = fault_error;
}

/* Whether the call is to fail, which was noted then, but for a write. */
static int fails(const char *name)
{
    if (strcmp(name, fault) != 0 || --fault_count != 0)
        return 0;
    if (strcmp(name, "write") != 0)
        give_up();
    return 1;
}

__attribute__((constructor)) static void begin(void)
{
    const char *path = getenv("DISK_RECORD"), *words = getenv("DISK_FAULT"), *pause = getenv("DISK_SLOW");
    if (path != NULL)
        record = NEXT(open)(path, O_WRONLY | O_CREAT | O_APPEND | O_CLOEXEC, 0666);
    if (words != NULL)
        sscanf(words, "%15s %ld %ld %ld", fault, &fault_count, &fault_error, &fault_bytes);
    if (pause != NULL)
        slow = atol(pause);
}

int open(const char *path, int flags, ...)
{
    va_list rest;
    va_start(rest, flags);
    int mode = flags & (O_CREAT | O_TMPFILE) ? va_arg(rest, int) : 0;
    va_end(rest);
    const char *wanted = getenv("DISK_FILE");
    int fd = NEXT(open)(path, flags, mode);
    if (fd >= 0 && wanted != NULL && strcmp(path, wanted) == 0)
        journal = fd;
    else if (fd >= 0 && journal >= 0 && folder < 0)
        folder = fd;
    return fd;
}

int open64(const char *path, int flags, ...) __attribute__((alias("open")));

/* After a write that failed in part, each further one fails too, as on a full disk. */
static int is_full;

static ssize_t write_some(int fd, const void *bytes, size_t length, off_t at)
{
    if (!is_full && !fails("write"))
        return NEXT(pwrite)(fd, bytes, length, at);
    ssize_t room = is_full ? 0 : fault_bytes, n = (size_t)room < length ? room : (ssize_t)length;
    is_full = 1;
    if (n > 0 && NEXT(pwrite)(fd, bytes, n, at) != n)
        abort();
    if (fault_error < 0 && n > 0)
        say("write", at, 0, bytes, n);
    if (fault_error < 0 || n == 0)
        give_up();
    return n > 0 ? n : -1;
}

ssize_t pwrite(int fd, const void *bytes, size_t length, off_t at)
{
    if (fd != journal)
        return NEXT(pwrite)(fd, bytes, length, at);
    ssize_t n = write_some(fd, bytes, length, at);
    int error = errno;
    if (n > 0)
        say("write", at, 0, bytes, n);
    errno = error;
    return n;
}

ssize_t pwrite64(int fd, const void *bytes, size_t length, off_t at) __attribute__((alias("pwrite")));

ssize_t pread(int fd, void *bytes, size_t length, off_t at)
{
    if (fd == journal && fails("read"))
        return -1;
    return NEXT(pread)(fd, bytes, length, at);
}

ssize_t pread64(int fd, void *bytes, size_t length, off_t at) __attribute__((alias("pread")));

int ftruncate(int fd, off_t length)
{
    if (fd != journal)
        return NEXT(ftruncate)(fd, length);
    if (fails("cut"))
        return -1;
    int result = NEXT(ftruncate)(fd, length);
    if (result == 0)
        say("cut", length, 0, "", 0);
    return result;
}

int ftruncate64(int fd, off_t length) __attribute__((alias("ftruncate")));

static int sync_file(int fd, const char *name, int (*call)(int))
{
    if (fd != journal)
        return fd == folder && fails("folder") ? -1 : call(fd);
    struct timespec pause = {slow / 1000, slow % 1000 * 1000000};
    nanosleep(&pause, NULL);
    if (fails(name))
        return fault_error == -2 ? 0 : -1;
    int result = call(fd);
    if (result == 0)
        say("sync", 0, 0, "", 0);
    return result;
}

int fdatasync(int fd)
{
    return sync_file(fd, "sync", NEXT(fdatasync));
}

int fsync(int fd)
{
    return sync_file(fd, "fsync", NEXT(fsync));
}

/* What leaves the program. Its standard error is written down too. */
ssize_t write(int fd, const void *bytes, size_t length)
{
    if (fd == journal || fd == record)
        abort();
    say("out", fd, 0, bytes, length);
    ssize_t n = NEXT(write)(fd, bytes, length);
    int error = errno;
    say("left", fd, n, "", 0);
    errno = error;
    return n;
}

ssize_t send(int fd, const void *bytes, size_t length, int flags)
{
    say("out", fd, 0, bytes, length);
    ssize_t n = NEXT(send)(fd, bytes, length, flags);
    int error = errno;
    say("left", fd, n, "", 0);
    errno = error;
    return n;
}

int listen(int fd, int backlog)
{
    say("listen", fd, 0, "", 0);
    return NEXT(listen)(fd, backlog);
}

/* A number of a stream may be another stream's later. */
int close(int fd)
{
    if (fd == journal)
        journal = -1;
    if (fd == folder)
        folder = -2;
    say("close", fd, 0, "", 0);
    return NEXT(close)(fd);
}
