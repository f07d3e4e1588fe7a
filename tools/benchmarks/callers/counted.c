/* Counts the allocations of a process, in which it is preloaded: malloc, calloc, realloc and aligned ones, of glibc. */
#include <errno.h>
#include <stddef.h>

extern void *__libc_malloc(size_t size);
extern void *__libc_calloc(size_t count, size_t size);
extern void *__libc_realloc(void *former, size_t size);
extern void *__libc_memalign(size_t alignment, size_t size);

static _Atomic unsigned long long counted;

unsigned long long palqytun_allocations(void)
{
    return counted;
}

void *malloc(size_t size)
{
    counted++;
    return __libc_malloc(size);
}

void *calloc(size_t count, size_t size)
{
    counted++;
    return __libc_calloc(count, size);
}

void *realloc(void *former, size_t size)
{
    counted++;
    return __libc_realloc(former, size);
}

void *aligned_alloc(size_t alignment, size_t size)
{
    counted++;
    return __libc_memalign(alignment, size);
}

int posix_memalign(void **made, size_t alignment, size_t size)
{
    counted++;
    *made = __libc_memalign(alignment, size);
    return *made ? 0 : ENOMEM;
}
