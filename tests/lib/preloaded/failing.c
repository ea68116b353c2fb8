/*
 * Makes a call of the system fail. Loaded in front of a program by LD_PRELOAD, it counts the program's calls of each kind from
 * its own beginning on, and hands them on to the system. The words FAILING_CALL, FAILING_NUMBER and FAILING_HOW in the environment
 * say which call of which kind does what: `7` is the seventh alone, `7-` the seventh and each one after it. A number as HOW is that
 * of the error with which it fails; `short` is a read or write of one byte, `none` of no byte; `kill` ends the program before the call; `change` and
 * `remove` are another program's work right before the call, which gives FAILING_FILE the bytes of FAILING_BYTES, or removes it;
 * `stop` has the program wait before the call until it is ordered to go on.
 * Where that comes to pass, a line is written to the open file whose number is FAILING_TOLD: what was called, and on which file.
 */
#define _GNU_SOURCE
#include <errno.h>
#include <fcntl.h>
#include <signal.h>
#include <stdarg.h>
#include <stdio.h>
#include <stdlib.h>
#include <string.h>
#include <sys/stat.h>
#include <sys/syscall.h>
#include <unistd.h>

static const char *kind, *how, *changed, *bytes;
static unsigned long first, calls;
static int is_each, told, error;

/* What comes before this is the loader's, and not counted. */
__attribute__((constructor)) static void begin(void)
{
    const char *number = getenv("FAILING_NUMBER"), *file = getenv("FAILING_TOLD");
    char *end;
    kind = getenv("FAILING_CALL");
    how = getenv("FAILING_HOW");
    changed = getenv("FAILING_FILE");
    bytes = getenv("FAILING_BYTES");
    if (!number || !file || !kind || !how)
        return;
    told = atoi(file);
    error = atoi(how);
    first = strtoul(number, &end, 10);
    is_each = *end == '-';
}

static void change(void)
{
    int to = syscall(SYS_openat, AT_FDCWD, changed, O_WRONLY | O_CREAT | O_TRUNC, 0644);
    if (to < 0 || syscall(SYS_write, to, bytes, strlen(bytes)) < 0)
        _exit(125);
    syscall(SYS_close, to);
}

/* Whether this call fails, is short, or is the one before which something is done. */
static int is_meant(const char *call, int file, const char *name)
{
    char line[4200];
    if (first == 0 || strcmp(call, kind) != 0 || file == told)
        return 0;
    if (++calls < first || (calls > first && !is_each))
        return 0;
    int length = name ? snprintf(line, sizeof line, "%s %s\n", call, name) : snprintf(line, sizeof line, "%s %d\n", call, file);
    /* who runs the program waits for a line, and a run that cannot report must not pass for one in which nothing failed */
    if (length >= (int)sizeof line || syscall(SYS_write, told, line, length) != length)
        _exit(125);
    if (strcmp(how, "kill") == 0)
        syscall(SYS_kill, getpid(), SIGKILL);
    if (strcmp(how, "stop") == 0)
        syscall(SYS_kill, getpid(), SIGSTOP);
    if (strcmp(how, "change") == 0)
        change();
    if (strcmp(how, "remove") == 0)
        syscall(SYS_unlink, changed);
    return 1;
}

/* Whether this call fails; the error is set then. */
static int fails(const char *call, int file, const char *name)
{
    if (!is_meant(call, file, name) || error == 0)
        return 0;
    errno = error;
    return 1;
}

static size_t taken(const char *call, int file, size_t count, int *failed)
{
    *failed = 0;
    if (!is_meant(call, file, NULL))
        return count;
    if (error) {
        *failed = 1;
        errno = error;
    }
    if (strcmp(how, "none") == 0)
        return 0;
    return strcmp(how, "short") == 0 && count > 1 ? 1 : count;
}

ssize_t read(int file, void *into, size_t count)
{
    int failed;
    count = taken("read", file, count, &failed);
    return failed ? -1 : syscall(SYS_read, file, into, count);
}

ssize_t write(int file, const void *from, size_t count)
{
    int failed;
    count = taken("write", file, count, &failed);
    return failed ? -1 : syscall(SYS_write, file, from, count);
}

static int opened(int folder, const char *name, int flags, mode_t mode)
{
    return fails("open", -1, name) ? -1 : syscall(SYS_openat, folder, name, flags, mode);
}

#define MODE_OF(flags, mode)           \
    do {                               \
        va_list rest;                  \
        va_start(rest, flags);         \
        mode = va_arg(rest, mode_t);   \
        va_end(rest);                  \
    } while (0)

int open(const char *name, int flags, ...)
{
    mode_t mode;
    MODE_OF(flags, mode);
    return opened(AT_FDCWD, name, flags, mode);
}

int open64(const char *name, int flags, ...)
{
    mode_t mode;
    MODE_OF(flags, mode);
    return opened(AT_FDCWD, name, flags, mode);
}

int openat(int folder, const char *name, int flags, ...)
{
    mode_t mode;
    MODE_OF(flags, mode);
    return opened(folder, name, flags, mode);
}

int close(int file)
{
    /* a file is closed whatever is reported of it */
    int is_failed = fails("close", file, NULL), why = errno;
    int closed = syscall(SYS_close, file);
    if (is_failed)
        errno = why;
    return is_failed ? -1 : closed;
}

int fsync(int file)
{
    return fails("fsync", file, NULL) ? -1 : syscall(SYS_fsync, file);
}

int fchmod(int file, mode_t mode)
{
    return fails("fchmod", file, NULL) ? -1 : syscall(SYS_fchmod, file, mode);
}

int fchown(int file, uid_t owner, gid_t group)
{
    return fails("fchown", file, NULL) ? -1 : syscall(SYS_fchown, file, owner, group);
}

int flock(int file, int how_to)
{
    return fails("flock", file, NULL) ? -1 : syscall(SYS_flock, file, how_to);
}

int unlink(const char *name)
{
    return fails("unlink", -1, name) ? -1 : syscall(SYS_unlink, name);
}

int rename(const char *from, const char *to)
{
    return fails("rename", -1, from) ? -1 : syscall(SYS_rename, from, to);
}

int statx(int folder, const char *restrict name, int flags, unsigned mask, struct statx *restrict into)
{
    return fails("statx", -1, name) ? -1 : syscall(SYS_statx, folder, name, flags, mask, into);
}
