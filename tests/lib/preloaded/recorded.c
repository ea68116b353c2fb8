/*
 * Records the calls of the system by which a program changes files. Loaded in front of a program by LD_PRELOAD, it hands each
 * call on, and writes a line of each that was done to the open file whose number is in the word RECORDED in the environment:
 * `open FILE FLAGS MODE NAME`, `close FILE`, `write FILE COUNT`, with the bytes after it, `cut FILE LENGTH`, `flush FILE`, `lock FILE`,
 * `bits FILE MODE`, `rename FROM TO`, `link FROM TO`, `remove NAME`. FILE is its number while it is open, numbers are decimal, and
 * names have no blanks.
 */
#define _GNU_SOURCE
#include <errno.h>
#include <fcntl.h>
#include <stdarg.h>
#include <stdio.h>
#include <stdlib.h>
#include <string.h>
#include <sys/file.h>
#include <sys/stat.h>
#include <sys/syscall.h>
#include <sys/uio.h>
#include <unistd.h>

static int told = -1;

/* What comes before this is the loader's, and not recorded. */
__attribute__((constructor)) static void begin(void)
{
    const char *file = getenv("RECORDED");
    if (file)
        told = atoi(file);
}

/* A record that is not whole must not pass for one. */
static void tell(const void *from, size_t count)
{
    const char *rest = from;
    while (count > 0) {
        ssize_t written = syscall(SYS_write, told, rest, count);
        if (written <= 0)
            _exit(125);
        rest += written;
        count -= written;
    }
}

static void record(const char *form, ...)
{
    char line[9000];
    int why = errno;
    if (told < 0)
        return;
    va_list rest;
    va_start(rest, form);
    int length = vsnprintf(line, sizeof line, form, rest);
    va_end(rest);
    if (length < 0 || length >= (int)sizeof line)
        _exit(125);
    tell(line, length);
    errno = why;
}

/* Hands on what a call gave, and records it where it was done. */
#define DONE(result, ...)        \
    do {                         \
        long given = (result);   \
        if (given >= 0)          \
            record(__VA_ARGS__); \
        return given;            \
    } while (0)

ssize_t write(int file, const void *from, size_t count)
{
    ssize_t written = syscall(SYS_write, file, from, count);
    if (written > 0 && told >= 0) {
        record("write %d %zd\n", file, written);
        tell(from, written);
    }
    return written;
}

ssize_t writev(int file, const struct iovec *parts, int count)
{
    /* one of them is enough: fewer bytes than were requested is no failure */
    for (int each = 0; each < count; each++)
        if (parts[each].iov_len > 0)
            return write(file, parts[each].iov_base, parts[each].iov_len);
    return 0;
}

static int opened(int folder, const char *name, int flags, mode_t mode)
{
    long file = syscall(SYS_openat, folder, name, flags, mode);
    /* a name in a folder that is held is one that who reads the record can't know */
    if (folder != AT_FDCWD && name[0] != '/')
        _exit(125);
    if (file >= 0)
        record("open %ld %d %d %s\n", file, flags, (int)mode, name);
    return file;
}

#define MODE_OF(flags, mode)         \
    do {                             \
        va_list rest;                \
        va_start(rest, flags);       \
        mode = va_arg(rest, mode_t); \
        va_end(rest);                \
    } while (0)

int open(const char *name, int flags, ...)
{
    mode_t mode;
    MODE_OF(flags, mode);
    return opened(AT_FDCWD, name, flags, mode);
}

int open64(const char *name, int flags, ...)
{
    mode_t mode;
    MODE_OF(flags, mode);
    return opened(AT_FDCWD, name, flags, mode);
}

int openat(int folder, const char *name, int flags, ...)
{
    mode_t mode;
    MODE_OF(flags, mode);
    return opened(folder, name, flags, mode);
}

int close(int file)
{
    DONE(syscall(SYS_close, file), "close %d\n", file);
}

int ftruncate(int file, off_t length)
{
    DONE(syscall(SYS_ftruncate, file, length), "cut %d %ld\n", file, (long)length);
}

int ftruncate64(int file, off64_t length)
{
    return ftruncate(file, length);
}

int fsync(int file)
{
    DONE(syscall(SYS_fsync, file), "flush %d\n", file);
}

int fdatasync(int file)
{
    DONE(syscall(SYS_fdatasync, file), "flush %d\n", file);
}

int flock(int file, int how)
{
    DONE(syscall(SYS_flock, file, how), "lock %d\n", file);
}

int fchmod(int file, mode_t mode)
{
    DONE(syscall(SYS_fchmod, file, mode), "bits %d %d\n", file, (int)mode);
}

int rename(const char *from, const char *to)
{
    DONE(syscall(SYS_rename, from, to), "rename %s %s\n", from, to);
}

int link(const char *from, const char *to)
{
    DONE(syscall(SYS_link, from, to), "link %s %s\n", from, to);
}

int unlink(const char *name)
{
    DONE(syscall(SYS_unlink, name), "remove %s\n", name);
}
