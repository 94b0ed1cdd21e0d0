/*
 * Stands between a host and the system calls by which it keeps and tells things,
 * for main.c. Loaded by LD_PRELOAD. Every such call has a number, from 1.
 *
 * POWER_TRACE   the calls that were carried out are appended to this file
 * POWER_AT      the number of the call at which something happens
 * POWER_HOW     before, after: the host is killed there; half: a write writes the
 *               half, and the host is killed; short: it writes the half, and the
 *               host goes on; fail: the call fails and does nothing
 * POWER_DROP    file or folder: the syncs of files, or of folders, are not
 *               carried out, and the host is told that they were
 *
 * A record of the trace is a line `kind number number name name`, and after that
 * line of a write its bytes: O file flags name, W file length, T file length, S
 * file, C file, R old new, U name.
 */
#define _GNU_SOURCE
#include <errno.h>
#include <fcntl.h>
#include <signal.h>
#include <stdarg.h>
#include <stdbool.h>
#include <stdio.h>
#include <stdlib.h>
#include <string.h>
#include <sys/stat.h>
#include <sys/syscall.h>
#include <unistd.h>

/* What becomes of a call. */
enum fate { DONE, KILLED_AFTER, HALVED, HALVED_AND_KILLED, FAILED };

static long calls;

static void die(void)
{
    kill(getpid(), SIGKILL);
    for (;;)
        pause();
}

/* Counts a call, and says what becomes of it. */
static enum fate next(void)
{
    const char *at = getenv("POWER_AT");
    const char *how = getenv("POWER_HOW");
    calls++;
    if (at == NULL || how == NULL || strtol(at, NULL, 10) != calls)
        return DONE;
    if (strcmp(how, "before") == 0)
        die();
    return strcmp(how, "after") == 0   ? KILLED_AFTER
           : strcmp(how, "half") == 0  ? HALVED_AND_KILLED
           : strcmp(how, "short") == 0 ? HALVED
                                       : FAILED;
}

/* Appends a record to the trace. The trace's own calls are the kernel's. */
static void trace(char kind, long first, long second, const char *name,
                  const char *other, const void *data, size_t length)
{
    const char *path = getenv("POWER_TRACE");
    if (path == NULL)
        return;
    static int file = -1;
    if (file < 0)
        file = (int)syscall(SYS_openat, AT_FDCWD, path,
                            O_WRONLY | O_CREAT | O_APPEND | O_CLOEXEC, 0600);
    char line[9000];
    int head = snprintf(line, sizeof line, "%c\t%ld\t%ld\t%s\t%s\n", kind, first,
                        second, name, other);
    if (syscall(SYS_write, file, line, (size_t)head) != head ||
        (length > 0 &&
         syscall(SYS_write, file, data, length) != (long)length))
        abort();
}

static bool fails(enum fate fate)
{
    if (fate == FAILED)
        errno = EIO;
    return fate == FAILED;
}

/* The end of a call that gave a result. */
static long over(enum fate fate, long result)
{
    if (fate == KILLED_AFTER || fate == HALVED_AND_KILLED)
        die();
    return result;
}

static int opened(int at, const char *name, int flags, mode_t mode)
{
    enum fate fate = next();
    if (fails(fate))
        return -1;
    long file = syscall(SYS_openat, at, name, flags, mode);
    if (file >= 0)
        trace('O', file, flags, name, "", NULL, 0);
    return (int)over(fate, file);
}

static mode_t mode_of(int flags, va_list rest)
{
    return flags & O_CREAT ? va_arg(rest, mode_t) : 0;
}

#define OPEN(function)                              \
    int function(const char *name, int flags, ...)  \
    {                                               \
        va_list rest;                               \
        va_start(rest, flags);                      \
        mode_t mode = mode_of(flags, rest);         \
        va_end(rest);                               \
        return opened(AT_FDCWD, name, flags, mode); \
    }

#define OPENAT(function)                                   \
    int function(int at, const char *name, int flags, ...) \
    {                                                      \
        va_list rest;                                      \
        va_start(rest, flags);                             \
        mode_t mode = mode_of(flags, rest);                \
        va_end(rest);                                      \
        return opened(at, name, flags, mode);              \
    }

OPEN(open)
OPEN(open64)
OPENAT(openat)
OPENAT(openat64)

ssize_t write(int file, const void *data, size_t length)
{
    enum fate fate = next();
    if (fails(fate))
        return -1;
    if ((fate == HALVED || fate == HALVED_AND_KILLED) && length > 1)
        length /= 2;
    long count = syscall(SYS_write, file, data, length);
    if (count > 0)
        trace('W', file, count, "", "", data, (size_t)count);
    return over(fate, count);
}

static int synced(int file, long number)
{
    const char *drop = getenv("POWER_DROP");
    struct stat about;
    enum fate fate = next();
    if (fails(fate))
        return -1;
    bool dropped = drop != NULL && fstat(file, &about) == 0 &&
                   S_ISDIR(about.st_mode) == (strcmp(drop, "folder") == 0);
    long result = dropped ? 0 : syscall(number, file);
    if (result == 0 && !dropped)
        trace('S', file, 0, "", "", NULL, 0);
    return (int)over(fate, result);
}

int fsync(int file) { return synced(file, SYS_fsync); }
int fdatasync(int file) { return synced(file, SYS_fdatasync); }

int close(int file)
{
    enum fate fate = next();
    long result = syscall(SYS_close, file);
    trace('C', file, 0, "", "", NULL, 0);
    return fails(fate) ? -1 : (int)over(fate, result);
}

static int truncated(int file, off_t length)
{
    enum fate fate = next();
    if (fails(fate))
        return -1;
    long result = syscall(SYS_ftruncate, file, length);
    if (result == 0)
        trace('T', file, length, "", "", NULL, 0);
    return (int)over(fate, result);
}

int ftruncate(int file, off_t length) { return truncated(file, length); }
int ftruncate64(int file, off64_t length) { return truncated(file, length); }

int renameat(int from, const char *old, int to, const char *new)
{
    enum fate fate = next();
    if (fails(fate))
        return -1;
    long result = syscall(SYS_renameat, from, old, to, new);
    if (result == 0)
        trace('R', 0, 0, old, new, NULL, 0);
    return (int)over(fate, result);
}

int rename(const char *old, const char *new)
{
    return renameat(AT_FDCWD, old, AT_FDCWD, new);
}

int unlinkat(int at, const char *name, int flags)
{
    enum fate fate = next();
    if (fails(fate))
        return -1;
    long result = syscall(SYS_unlinkat, at, name, flags);
    if (result == 0)
        trace('U', 0, 0, name, "", NULL, 0);
    return (int)over(fate, result);
}

int unlink(const char *name) { return unlinkat(AT_FDCWD, name, 0); }
