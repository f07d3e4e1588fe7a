/* A layer below SQLite that writes down what a disk is asked for. It is loaded before the C library (LD_PRELOAD).

   DISK_OF is the path of a database. What is written to it, to its log and to the file of acknowledgements goes into the file DISK_LOG, in order, once
   it is done; so do cuts, and that a file was brought to the disk. power.py makes of it what a disk may hold after a loss of power. A record is five
   numbers of 64 bits: the kind, the file (0 the database, 1 its log, 2 the acknowledgements), the offset, the length, and how many bytes follow. */
#define _GNU_SOURCE
#include <dlfcn.h>
#include <fcntl.h>
#include <pthread.h>
#include <stdarg.h>
#include <stdint.h>
#include <stdlib.h>
#include <string.h>
#include <sys/uio.h>
#include <unistd.h>

enum { WRITTEN = 1, CUT, SYNCED };
enum { MOST = 4096 };

static pthread_mutex_t one_at_a_time = PTHREAD_MUTEX_INITIALIZER;
static signed char files[MOST]; /* by descriptor: the number of its file and one, or 0 */
static int log_file = -1;

static int number_of(const char *path) {
    const char *of = getenv("DISK_OF");
    if (of == NULL || path == NULL || strncmp(path, of, strlen(of)) != 0) return -1;
    const char *ending = path + strlen(of);
    return *ending == 0 ? 0 : strcmp(ending, "-wal") == 0 ? 1 : strcmp(ending, "-acknowledged") == 0 ? 2 : -1;
}

static int file_of(int descriptor) { return descriptor >= 0 && descriptor < MOST ? files[descriptor] - 1 : -1; }

static void *real(const char *name) {
    void *found = dlsym(RTLD_NEXT, name);
    if (found == NULL) abort();
    return found;
}

/* The caller has the lock. */
static void record(int kind, int file, uint64_t at, uint64_t length, const void *data) {
    static int (*opens)(const char *, int, ...);
    if (log_file < 0) {
        opens = real("open64");
        log_file = opens(getenv("DISK_LOG"), O_CREAT | O_WRONLY | O_APPEND, 0600);
        if (log_file < 0) abort();
    }
    uint64_t head[5] = {(uint64_t)kind, (uint64_t)file, at, length, data == NULL ? 0 : length};
    struct iovec parts[2] = {{head, sizeof head}, {(void *)(uintptr_t)data, head[4]}};
    if (writev(log_file, parts, 2) != (ssize_t)(sizeof head + head[4])) abort();
}

static int opened(int descriptor, const char *path) {
    if (descriptor >= 0 && descriptor < MOST) files[descriptor] = (signed char)(number_of(path) + 1);
    return descriptor;
}

int open64(const char *path, int flags, ...) {
    va_list more;
    va_start(more, flags);
    int mode = va_arg(more, int);
    va_end(more);
    int (*next)(const char *, int, ...) = real("open64");
    return opened(next(path, flags, mode), path);
}

int close(int descriptor) {
    int (*next)(int) = real("close");
    if (descriptor >= 0 && descriptor < MOST) files[descriptor] = 0;
    return next(descriptor);
}

ssize_t pwrite64(int descriptor, const void *data, size_t length, off64_t at) {
    ssize_t (*next)(int, const void *, size_t, off64_t) = real("pwrite64");
    int file = file_of(descriptor);
    if (file < 0) return next(descriptor, data, length, at);
    pthread_mutex_lock(&one_at_a_time);
    ssize_t done = next(descriptor, data, length, at);
    if (done > 0) record(WRITTEN, file, (uint64_t)at, (uint64_t)done, data);
    pthread_mutex_unlock(&one_at_a_time);
    return done;
}

ssize_t write(int descriptor, const void *data, size_t length) {
    ssize_t (*next)(int, const void *, size_t) = real("write");
    int file = file_of(descriptor);
    if (file < 0) return next(descriptor, data, length);
    pthread_mutex_lock(&one_at_a_time);
    off64_t at = lseek64(descriptor, 0, SEEK_CUR);
    ssize_t done = next(descriptor, data, length);
    if (done > 0) record(WRITTEN, file, (uint64_t)at, (uint64_t)done, data);
    pthread_mutex_unlock(&one_at_a_time);
    return done;
}

int ftruncate64(int descriptor, off64_t length) {
    int (*next)(int, off64_t) = real("ftruncate64");
    int file = file_of(descriptor);
    if (file < 0) return next(descriptor, length);
    pthread_mutex_lock(&one_at_a_time);
    int done = next(descriptor, length);
    if (done == 0) record(CUT, file, 0, (uint64_t)length, NULL);
    pthread_mutex_unlock(&one_at_a_time);
    return done;
}

/* What was written by the time of the call is on the disk after it. */
static int synced(int descriptor, const char *name) {
    int (*next)(int) = real(name);
    int file = file_of(descriptor);
    if (file < 0) return next(descriptor);
    pthread_mutex_lock(&one_at_a_time);
    int done = next(descriptor);
    if (done == 0) record(SYNCED, file, 0, 0, NULL);
    pthread_mutex_unlock(&one_at_a_time);
    return done;
}

int fsync(int descriptor) { return synced(descriptor, "fsync"); }

int fdatasync(int descriptor) { return synced(descriptor, "fdatasync"); }
