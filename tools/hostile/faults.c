/* Makes one call of a program fail, or each read and write move one byte, as variables of its environment ask:
     FAIL_ALLOC=N               the Nth allocation finds no memory
     FAIL_READ=N                the Nth read of standard input fails
     FAIL_WRITE=N, FAIL_ERR=N   the Nth write to standard output fails; to standard error
     FAIL_WITH=E                with the error of this number (that of input and output, where it isn't set)
     SHORT=1                    each read and each write moves one byte at most
     CALLS=FILE                 the number of allocations is written to this file at the end
   It is loaded before the C library (LD_PRELOAD). Nothing of it is part of the program. */
#define _GNU_SOURCE
#include <dlfcn.h>
#include <errno.h>
#include <fcntl.h>
#include <stdatomic.h>
#include <stdio.h>
#include <stdlib.h>
#include <sys/syscall.h>
#include <unistd.h>

extern void *__libc_malloc(size_t), *__libc_calloc(size_t, size_t), *__libc_realloc(void *, size_t);
extern void *__libc_memalign(size_t, size_t);

static atomic_ulong allocations, calls_on[3];
static unsigned long fail_alloc, fail_on[3], is_short, fail_with = EIO;

static unsigned long number(const char *name, unsigned long usual)
{
    const char *text = getenv(name);
    return text ? strtoul(text, NULL, 10) : usual;
}

__attribute__((constructor)) static void begin(void)
{
    fail_on[0] = number("FAIL_READ", 0);
    fail_on[1] = number("FAIL_WRITE", 0);
    fail_on[2] = number("FAIL_ERR", 0);
    fail_with = number("FAIL_WITH", EIO);
    is_short = number("SHORT", 0);
    allocations = 0;
    fail_alloc = number("FAIL_ALLOC", 0);
}

static void tell(void)
{
    const char *name = getenv("CALLS");
    char line[32];
    int size = snprintf(line, sizeof line, "%lu\n", allocations);
    int file = name ? open(name, O_WRONLY | O_CREAT | O_TRUNC, 0600) : -1;
    if (file >= 0) syscall(SYS_write, file, line, size);
}

/* A program with threads ends by this call, which runs no destructors; others by exit, which runs them. */
__attribute__((destructor)) static void end(void)
{
    tell();
}

void _exit(int status)
{
    tell();
    for (;;) syscall(SYS_exit_group, status);
}

static int is_refused(void)
{
    if (++allocations != fail_alloc) return 0;
    errno = ENOMEM;
    return 1;
}

void *malloc(size_t size) { return is_refused() ? NULL : __libc_malloc(size); }
void *calloc(size_t count, size_t size) { return is_refused() ? NULL : __libc_calloc(count, size); }
void *realloc(void *block, size_t size) { return is_refused() ? NULL : __libc_realloc(block, size); }
void *memalign(size_t align, size_t size) { return is_refused() ? NULL : __libc_memalign(align, size); }
void *aligned_alloc(size_t align, size_t size) { return memalign(align, size); }

int posix_memalign(void **block, size_t align, size_t size)
{
    void *found = memalign(align, size);
    if (!found) return ENOMEM;
    *block = found;
    return 0;
}

/* A read or write of one of the three streams, which may fail or be short. */
static ssize_t move(long call, int stream, const void *bytes, size_t size)
{
    if (stream >= 0 && stream <= 2 && size > 0) {
        if (++calls_on[stream] == fail_on[stream]) {
            errno = (int)fail_with;
            return -1;
        }
        if (is_short) size = 1;
    }
    return syscall(call, stream, bytes, size);
}

ssize_t read(int stream, void *bytes, size_t size) { return move(SYS_read, stream, bytes, size); }
ssize_t write(int stream, const void *bytes, size_t size) { return move(SYS_write, stream, bytes, size); }
