/* Refuses allocations of a program that it is loaded before, or that it is linked into.

   REFUSE_AT=N refuses the Nth, and then makes the file REFUSED.

   REFUSE_EACH=DIR refuses each in turn, in a child that goes on without it while the program has it; as many children at a time as there are
   processors. The child's standard output and error are DIR/N.out and DIR/N.err. A line of DIR/ends is N, how many bytes the program
   had written to its own output and error, which must be files, as its input must, and the child's status as wait tells it. */
#include <errno.h>
#include <fcntl.h>
#include <stddef.h>
#include <stdio.h>
#include <stdlib.h>
#include <sys/wait.h>
#include <unistd.h>

void *__libc_malloc(size_t size);
void *__libc_calloc(size_t count, size_t size);
void *__libc_realloc(void *old, size_t size);
void *__libc_memalign(size_t align, size_t size);

/* How many seconds a child has, and the most that run at a time. */
enum { SECONDS = 300, MOST = 64 };

/* A child: which allocation it lacks, and what the program had written before. */
struct run {
    pid_t child;
    unsigned long at;
    long output, error;
};

static unsigned long at, seen;
static const char *refused, *each;
static struct run running[MOST];
static int many, most = 1;
/* Whether nothing is refused any more: in a child after its refusal, and in here. */
static int is_over;

/* What is allocated before this, the loader asked for. */
__attribute__((constructor)) static void begin(void)
{
    const char *number = getenv("REFUSE_AT");
    refused = getenv("REFUSED");
    each = getenv("REFUSE_EACH");
    at = number ? strtoul(number, NULL, 10) : 0;
    long processors = sysconf(_SC_NPROCESSORS_ONLN);
    most = processors < 1 ? 1 : processors > MOST ? MOST : (int)processors;
}

/* Has this descriptor be that of the file. */
static void place(int descriptor, const char *path, int flags, off_t from)
{
    int file = open(path, flags, 0600);
    if (file < 0 || lseek(file, from, SEEK_SET) < 0 || dup2(file, descriptor) < 0)
        _exit(125);
    close(file);
}

/* Goes on as the child whose allocation is refused. Its input is its own, from the place at which the program's was before the fork: by now
   the program may have read on. */
static void go_on(off_t input)
{
    char path[4096];
    alarm(SECONDS);
    place(0, "/proc/self/fd/0", O_RDONLY, input);
    snprintf(path, sizeof path, "%s/%lu.out", each, seen);
    place(1, path, O_CREAT | O_WRONLY, 0);
    snprintf(path, sizeof path, "%s/%lu.err", each, seen);
    place(2, path, O_CREAT | O_WRONLY, 0);
}

static void tell(const struct run *run, int status)
{
    char text[4096];
    snprintf(text, sizeof text, "%s/ends", each);
    int file = open(text, O_CREAT | O_WRONLY | O_APPEND, 0600);
    int size = snprintf(text, sizeof text, "%lu %ld %ld %d\n", run->at, run->output, run->error, status);
    if (file < 0 || write(file, text, size) != size)
        _exit(125);
    close(file);
}

/* Waits for a child that ends. */
static void end_one(void)
{
    int status = 0, i = 0;
    pid_t child = wait(&status);
    while (i < many && running[i].child != child)
        ++i;
    if (i == many)
        _exit(125);
    tell(&running[i], status);
    running[i] = running[--many];
}

/* Whether this is the child that goes on without the allocation. */
static int is_in_child(void)
{
    struct run run = {0, ++seen, lseek(1, 0, SEEK_CUR), lseek(2, 0, SEEK_CUR)};
    off_t input = lseek(0, 0, SEEK_CUR);
    is_over = 1;
    run.child = fork();
    if (run.child < 0)
        _exit(125);
    if (run.child == 0) {
        many = 0;
        go_on(input);
        return 1;
    }
    running[many++] = run;
    if (many == most)
        end_one();
    is_over = 0;
    return 0;
}

/* The program ends once all children have. */
__attribute__((destructor)) static void end(void)
{
    is_over = 1;
    while (many > 0)
        end_one();
}

static int is_refused(void)
{
    if (is_over)
        return 0;
    if (each != NULL) {
        if (!is_in_child())
            return 0;
    } else {
        if (at == 0 || ++seen != at)
            return 0;
        int file = open(refused, O_CREAT | O_WRONLY, 0600);
        if (file >= 0)
            close(file);
    }
    errno = ENOMEM;
    return 1;
}

void *malloc(size_t size)
{
    return is_refused() ? NULL : __libc_malloc(size);
}

void *calloc(size_t count, size_t size)
{
    return is_refused() ? NULL : __libc_calloc(count, size);
}

void *realloc(void *old, size_t size)
{
    return is_refused() ? NULL : __libc_realloc(old, size);
}

void *memalign(size_t align, size_t size)
{
    return is_refused() ? NULL : __libc_memalign(align, size);
}

void *aligned_alloc(size_t align, size_t size)
{
    return memalign(align, size);
}

int posix_memalign(void **to, size_t align, size_t size)
{
    void *made = memalign(align, size);
    if (made == NULL)
        return ENOMEM;
    *to = made;
    return 0;
}
