/*
 * Refuses requests for memory. Loaded in front of a program by LD_PRELOAD, it counts what the program requests from its own
 * beginning on, and hands it on to the C library (glibc, by the names that this keeps for it). The word REFUSED in the
 * environment says what is refused: `7` is the seventh request alone, `7-` the seventh and each one after it. Where something is,
 * a byte is written to the open file whose number is REFUSED_TOLD, so that who runs the program knows.
 */
#include <errno.h>
#include <stddef.h>
#include <stdlib.h>
#include <unistd.h>

extern void *__libc_malloc(size_t size);
extern void *__libc_calloc(size_t count, size_t size);
extern void *__libc_realloc(void *at, size_t size);
extern void *__libc_memalign(size_t alignment, size_t size);

static unsigned long first, requests;
static int is_each, told;

/* What comes before this is the loader's, and not counted. */
__attribute__((constructor)) static void begin(void)
{
    const char *refused = getenv("REFUSED");
    const char *file = getenv("REFUSED_TOLD");
    char *end;
    if (!refused || !file)
        return;
    told = atoi(file);
    first = strtoul(refused, &end, 10);
    is_each = *end == '-';
}

static int is_refused(void)
{
    if (first == 0 || ++requests < first || (requests > first && !is_each))
        return 0;
    /* who runs the program waits for one byte, and a run that cannot report must not pass for one that refused nothing */
    if (requests == first && write(told, "!", 1) != 1)
        _exit(125);
    return 1;
}

static void *none(void)
{
    errno = ENOMEM;
    return NULL;
}

void *malloc(size_t size)
{
    return is_refused() ? none() : __libc_malloc(size);
}

void *calloc(size_t count, size_t size)
{
    return is_refused() ? none() : __libc_calloc(count, size);
}

void *realloc(void *at, size_t size)
{
    return is_refused() ? none() : __libc_realloc(at, size);
}

void *memalign(size_t alignment, size_t size)
{
    return is_refused() ? none() : __libc_memalign(alignment, size);
}

void *aligned_alloc(size_t alignment, size_t size)
{
    return is_refused() ? none() : __libc_memalign(alignment, size);
}

int posix_memalign(void **at, size_t alignment, size_t size)
{
    void *made = is_refused() ? NULL : __libc_memalign(alignment, size);
    if (made)
        *at = made;
    return made ? 0 : ENOMEM;
}
