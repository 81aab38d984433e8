/* Put before the C library (LD_PRELOAD), this refuses one of a program's allocations: that of the number REFUSED, counted
   from 1, of whatever thread; none where it is 0. At the program's end how many there were is written to the file that
   ALLOCATIONS names. */
#include <errno.h>
#include <stdio.h>
#include <stdlib.h>
#include <sys/syscall.h>
#include <unistd.h>

void *__libc_malloc(size_t size);
void *__libc_calloc(size_t count, size_t size);
void *__libc_realloc(void *block, size_t size);
void *__libc_memalign(size_t align, size_t size);

static unsigned long count, refused;

__attribute__((constructor)) static void begin(void)
{
    const char *number = getenv("REFUSED");
    refused = number ? strtoul(number, NULL, 10) : 0;
    count = 0;
}

__attribute__((destructor)) static void end(void)
{
    const char *name = getenv("ALLOCATIONS");
    unsigned long allocations = count;
    FILE *file = name ? fopen(name, "w") : NULL;
    if (!file)
        return;
    fprintf(file, "%lu\n", allocations);
    fclose(file);
}

/* A program may end by this, which calls no destructor. */
void _exit(int status)
{
    end();
    for (;;)
        syscall(SYS_exit_group, status);
}

static int is_refused(void)
{
    if (__atomic_add_fetch(&count, 1, __ATOMIC_RELAXED) != refused)
        return 0;
    /* The C library relies on it where it starts a thread. */
    errno = ENOMEM;
    return 1;
}

void *malloc(size_t size)
{
    return is_refused() ? NULL : __libc_malloc(size);
}

void *calloc(size_t number, size_t size)
{
    return is_refused() ? NULL : __libc_calloc(number, size);
}

void *realloc(void *block, size_t size)
{
    return is_refused() ? NULL : __libc_realloc(block, size);
}

void *aligned_alloc(size_t align, size_t size)
{
    return is_refused() ? NULL : __libc_memalign(align, size);
}
