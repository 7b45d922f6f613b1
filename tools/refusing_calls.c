/* A library to be loaded before the C library (LD_PRELOAD), by which single calls of a program are refused. What it does is
 * said by environment variables, each a decimal number; one that isn't there changes nothing:
 *
 *   REFUSE_ALLOCATION=N   the Nth allocation answers that there is no memory
 *   REFUSE_FROM=N         so does each from the Nth on
 *   FAIL_READ=N           the Nth read of standard input fails with EIO
 *   FAIL_WRITE=N          the Nth write to standard output does
 *   STEP=N                a read or write of these moves at most N bytes
 *   SHORT_READ=N          the Nth read of standard input moves at most one byte
 *   SHORT_WRITE=N         so does the Nth write to standard output
 *   REFUSE_THREAD=N       the Nth thread isn't started
 *
 * An allocation is a call of malloc, calloc, realloc, aligned_alloc or posix_memalign, from whichever thread. At the end four
 * counts go as a line "ALLOCATIONS READS WRITES THREADS" to the descriptor that COUNTS names.
 */
#define _GNU_SOURCE
#include <dlfcn.h>
#include <errno.h>
#include <pthread.h>
#include <stdatomic.h>
#include <stdio.h>
#include <stdlib.h>
#include <sys/syscall.h>
#include <sys/uio.h>
#include <unistd.h>

extern void *__libc_malloc(size_t size);
extern void *__libc_calloc(size_t count, size_t size);
extern void *__libc_realloc(void *block, size_t size);
extern void *__libc_memalign(size_t alignment, size_t size);

static atomic_long allocations, reads, writes, threads;
static long refused, refused_from, failed_read, failed_write, short_read, short_write, refused_thread, step, counts;
static ssize_t (*real_read)(int, void *, size_t);
static ssize_t (*real_write)(int, const void *, size_t);
static int (*real_create)(pthread_t *, const pthread_attr_t *, void *(*)(void *), void *);

static long number_of(const char *name) {
    const char *text = getenv(name);
    return text ? atol(text) : 0;
}

__attribute__((constructor)) static void begin(void) {
    real_read = dlsym(RTLD_NEXT, "read");
    real_write = dlsym(RTLD_NEXT, "write");
    real_create = dlsym(RTLD_NEXT, "pthread_create");
    refused = number_of("REFUSE_ALLOCATION");
    refused_from = number_of("REFUSE_FROM");
    failed_read = number_of("FAIL_READ");
    failed_write = number_of("FAIL_WRITE");
    short_read = number_of("SHORT_READ");
    short_write = number_of("SHORT_WRITE");
    refused_thread = number_of("REFUSE_THREAD");
    step = number_of("STEP");
    counts = number_of("COUNTS");
    atomic_store(&allocations, 0);
}

/* Tells the counts, once. */
__attribute__((destructor)) static void end(void) {
    char line[120];
    long file = counts;
    counts = 0;
    if (file > 0) {
        int length = snprintf(line, sizeof line, "%ld %ld %ld %ld\n", atomic_load(&allocations), atomic_load(&reads), atomic_load(&writes), atomic_load(&threads));
        if (real_write((int)file, line, (size_t)length) != length) abort();
    }
}

void _exit(int status) {
    end();
    for (;;) syscall(SYS_exit_group, status);
}

int pthread_create(pthread_t *thread, const pthread_attr_t *how, void *(*work)(void *), void *with) {
    long number = atomic_fetch_add(&threads, 1) + 1;
    return number == refused_thread ? EAGAIN : real_create(thread, how, work, with);
}

/* Counts an allocation, and says whether it is refused. */
static int is_refused(void) {
    long number = atomic_fetch_add(&allocations, 1) + 1;
    if (number != refused && (refused_from == 0 || number < refused_from)) return 0;
    errno = ENOMEM;
    return 1;
}

void *malloc(size_t size) { return is_refused() ? NULL : __libc_malloc(size); }

void *calloc(size_t count, size_t size) { return is_refused() ? NULL : __libc_calloc(count, size); }

void *realloc(void *block, size_t size) { return is_refused() ? NULL : __libc_realloc(block, size); }

void *aligned_alloc(size_t alignment, size_t size) { return is_refused() ? NULL : __libc_memalign(alignment, size); }

int posix_memalign(void **block, size_t alignment, size_t size) {
    if (is_refused()) return ENOMEM;
    *block = __libc_memalign(alignment, size);
    return *block ? 0 : ENOMEM;
}

/* How many of the bytes a call moves whose number is this. */
static size_t moved(size_t size, long number, long cut) {
    size_t most = number == cut ? 1 : step > 0 ? (size_t)step : size;
    return size < most ? size : most;
}

ssize_t read(int file, void *bytes, size_t size) {
    if (file != STDIN_FILENO) return real_read(file, bytes, size);
    long number = atomic_fetch_add(&reads, 1) + 1;
    if (number == failed_read) {
        errno = EIO;
        return -1;
    }
    return real_read(file, bytes, moved(size, number, short_read));
}

ssize_t write(int file, const void *bytes, size_t size) {
    if (file != STDOUT_FILENO) return real_write(file, bytes, size);
    long number = atomic_fetch_add(&writes, 1) + 1;
    if (number == failed_write) {
        errno = EIO;
        return -1;
    }
    return real_write(file, bytes, moved(size, number, short_write));
}

ssize_t __write(int file, const void *bytes, size_t size) { return write(file, bytes, size); }

ssize_t writev(int file, const struct iovec *parts, int count) {
    for (int place = 0; place < count; place++)
        if (parts[place].iov_len > 0) return write(file, parts[place].iov_base, parts[place].iov_len);
    return 0;
}
