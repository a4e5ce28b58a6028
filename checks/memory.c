/* Refuses one request for memory of the program that it is loaded into before all other libraries, as
 * checks/memory does: the request with the number in REFUSED, counted from 1 over all threads. At the
 * program's end the number of requests goes into the file named by REQUESTS. It needs glibc, whose own
 * allocator it stands before. */
#define _GNU_SOURCE
#include <errno.h>
#include <fcntl.h>
#include <stddef.h>
#include <stdio.h>
#include <stdlib.h>
#include <sys/syscall.h>
#include <unistd.h>

extern void *__libc_malloc(size_t size);
extern void *__libc_calloc(size_t count, size_t size);
extern void *__libc_realloc(void *memory, size_t size);
extern void *__libc_memalign(size_t alignment, size_t size);

static int counts;
static unsigned long refused;
static unsigned long requests;

/* What the loader asks for before the program begins isn't counted. */
__attribute__((constructor)) static void begin(void)
{
    const char *number = getenv("REFUSED");
    refused = number ? strtoul(number, NULL, 10) : 0;
    counts = 1;
}

__attribute__((destructor)) static void tell(void)
{
    const char *name = getenv("REQUESTS");
    char text[32];
    int file;
    if (!counts || !name)
        return;
    counts = 0;
    file = open(name, O_WRONLY | O_CREAT | O_TRUNC, 0600);
    if (file < 0)
        return;
    if (write(file, text, (size_t)snprintf(text, sizeof text, "%lu\n", requests)) < 0)
        abort();
    close(file);
}

/* The ends that no destructor sees. */
void _exit(int status)
{
    tell();
    for (;;)
        syscall(SYS_exit_group, status);
}

static int is_refused(void)
{
    if (!counts || __atomic_add_fetch(&requests, 1, __ATOMIC_SEQ_CST) != refused)
        return 0;
    errno = ENOMEM;
    return 1;
}

void *malloc(size_t size)
{
    return is_refused() ? NULL : __libc_malloc(size);
}

void *calloc(size_t count, size_t size)
{
    return is_refused() ? NULL : __libc_calloc(count, size);
}

void *realloc(void *memory, size_t size)
{
    return is_refused() ? NULL : __libc_realloc(memory, size);
}

void *aligned_alloc(size_t alignment, size_t size)
{
    return is_refused() ? NULL : __libc_memalign(alignment, size);
}

int posix_memalign(void **memory, size_t alignment, size_t size)
{
    void *got = aligned_alloc(alignment, size);
    if (got)
        *memory = got;
    return got ? 0 : ENOMEM;
}
