/* Makes one call of a program fail: an allocation, a read of standard input or a write to standard
 * output. The program loads it before the C library, by LD_PRELOAD.
 *
 * FAIL_ALLOC, FAIL_READ or FAIL_WRITE is the number of the call, counted from 1. The file FAILED is
 * created when it fails. A read or a write moves at most MOVED bytes, if this is set. */
#define _GNU_SOURCE
#include <errno.h>
#include <fcntl.h>
#include <stdint.h>
#include <stdlib.h>
#include <sys/syscall.h>
#include <unistd.h>

extern void *__libc_malloc(size_t size);
extern void *__libc_calloc(size_t count, size_t size);
extern void *__libc_realloc(void *old, size_t size);

static long allocations, reads, writes;
static size_t most;

static long number(const char *name)
{
    const char *text = getenv(name);
    return text == NULL ? 0 : atol(text);
}

__attribute__((constructor)) static void begin(void)
{
    long moved = number("MOVED");
    allocations = number("FAIL_ALLOC"), reads = number("FAIL_READ"), writes = number("FAIL_WRITE");
    most = moved == 0 ? SIZE_MAX : (size_t)moved;
}

/* Whether this call fails: the last of `*left`. Many loops try an interrupted call again. */
static int fails(long *left, int error)
{
    if (*left == 0 || --*left > 0) return 0;
    close(open(getenv("FAILED"), O_WRONLY | O_CREAT, 0600));
    errno = error;
    return 1;
}

void *malloc(size_t size)
{
    return fails(&allocations, ENOMEM) ? NULL : __libc_malloc(size);
}

void *calloc(size_t count, size_t size)
{
    return fails(&allocations, ENOMEM) ? NULL : __libc_calloc(count, size);
}

void *realloc(void *old, size_t size)
{
    return fails(&allocations, ENOMEM) ? NULL : __libc_realloc(old, size);
}

ssize_t read(int file, void *bytes, size_t length)
{
    if (file == STDIN_FILENO && fails(&reads, EINTR)) return -1;
    return syscall(SYS_read, file, bytes, length < most ? length : most);
}

ssize_t write(int file, const void *bytes, size_t length)
{
    if (file != STDOUT_FILENO) return syscall(SYS_write, file, bytes, length);
    if (fails(&writes, EINTR)) return -1;
    return syscall(SYS_write, file, bytes, length < most ? length : most);
}
