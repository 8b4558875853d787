/* Loaded before the C library, it refuses one allocation of a process: that of the number in REFUSE, from 1.
   It writes the number of allocations that were asked for into the file that REFUSE_COUNT names, when the process ends. */
#define _GNU_SOURCE
#include <errno.h>
#include <fcntl.h>
#include <stdlib.h>
#include <unistd.h>

extern void *__libc_malloc(size_t size);
extern void *__libc_calloc(size_t count, size_t size);
extern void *__libc_realloc(void *old, size_t size);
extern void *__libc_memalign(size_t alignment, size_t size);

static long asked;
static long refused;
static int is_ready;

__attribute__((constructor)) static void begin(void)
{
    const char *number = getenv("REFUSE");
    refused = number ? atol(number) : 0;
    asked = 0;
    is_ready = 1;
}

__attribute__((destructor)) static void end(void)
{
    const char *name = getenv("REFUSE_COUNT");
    char digits[24];
    int at = sizeof digits;
    int file = name ? open(name, O_WRONLY | O_CREAT | O_TRUNC, 0600) : -1;
    long left = asked;
    if (file < 0)
        return;
    do {
        digits[--at] = '0' + left % 10;
        left /= 10;
    } while (left);
    if (write(file, digits + at, sizeof digits - at) < 0)
        _exit(125);
    close(file);
}

static int is_refused(void)
{
    if (!is_ready || ++asked != refused)
        return 0;
    errno = ENOMEM;
    return 1;
}

void *malloc(size_t size)
{
    return is_refused() ? NULL : __libc_malloc(size);
}

void *calloc(size_t count, size_t size)
{
    return is_refused() ? NULL : __libc_calloc(count, size);
}

void *realloc(void *old, size_t size)
{
    return is_refused() ? NULL : __libc_realloc(old, size);
}

void *memalign(size_t alignment, size_t size)
{
    return is_refused() ? NULL : __libc_memalign(alignment, size);
}

void *aligned_alloc(size_t alignment, size_t size)
{
    return is_refused() ? NULL : __libc_memalign(alignment, size);
}

int posix_memalign(void **to, size_t alignment, size_t size)
{
    void *made = is_refused() ? NULL : __libc_memalign(alignment, size);
    if (!made)
        return ENOMEM;
    *to = made;
    return 0;
}
