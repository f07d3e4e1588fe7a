/* Loaded before a program (LD_PRELOAD): the most bytes that the heap had more than at `heap_mark`, as malloc_usable_size counts them, how many
   allocations were made since, and how many bytes memcpy and memmove copied. For programs of one thread. */
#include <malloc.h>
#include <stddef.h>
#include <stdint.h>

void *__libc_malloc(size_t size);
void *__libc_calloc(size_t count, size_t size);
void *__libc_realloc(void *old, size_t size);
void *__libc_memalign(size_t align, size_t size);
void __libc_free(void *it);

static int64_t now, most, base;
static uint64_t count, copied;

static void *made(void *it)
{
    if (it != NULL) {
        now += (int64_t)malloc_usable_size(it);
        most = now > most ? now : most;
        count++;
    }
    return it;
}

void *malloc(size_t size)
{
    return made(__libc_malloc(size));
}

void *calloc(size_t many, size_t size)
{
    return made(__libc_calloc(many, size));
}

void free(void *it)
{
    if (it != NULL)
        now -= (int64_t)malloc_usable_size(it);
    __libc_free(it);
}

void *realloc(void *old, size_t size)
{
    int64_t before = old == NULL ? 0 : (int64_t)malloc_usable_size(old);
    void *it = __libc_realloc(old, size);
    if (it != NULL)
        now -= before;
    return made(it);
}

void *aligned_alloc(size_t align, size_t size)
{
    return made(__libc_memalign(align, size));
}

int posix_memalign(void **to, size_t align, size_t size)
{
    *to = made(__libc_memalign(align, size));
    return *to == NULL ? 12 : 0;
}

/* Byte by byte, through `volatile`: else the compiler would call memcpy or memmove here. */
static void *moved(void *to, const void *from, size_t len)
{
    volatile unsigned char *there = to;
    const volatile unsigned char *here = from;
    copied += len;
    if (there < here)
        for (size_t i = 0; i < len; i++)
            there[i] = here[i];
    else
        for (size_t i = len; i > 0; i--)
            there[i - 1] = here[i - 1];
    return to;
}

void *memmove(void *to, const void *from, size_t len)
{
    return moved(to, from, len);
}

void *memcpy(void *to, const void *from, size_t len)
{
    return moved(to, from, len);
}

/* Begins anew. Returns 0, so that it is called as the others are. */
uint64_t heap_mark(void)
{
    base = most = now;
    count = copied = 0;
    return 0;
}

uint64_t heap_peak(void)
{
    return (uint64_t)(most - base);
}

uint64_t heap_count(void)
{
    return count;
}

uint64_t heap_copied(void)
{
    return copied;
}
