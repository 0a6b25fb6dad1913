/* For the tests: a library to preload into a program (LD_PRELOAD). It lets one allocation, the start of one thread, one
   read or one write fail. It replaces malloc, calloc, realloc, getentropy, pthread_create, read and write of the C library.
   A hash state is drawn with getentropy, which counts as an allocation.

   REFUSE_GROWTH=N  the Nth call of malloc, calloc, realloc and getentropy together returns NULL, or -1.
   REFUSE_START=N   the Nth call of pthread_create returns EAGAIN.
   REFUSE_READ=N    the Nth read from standard input fails with EIO.
   REFUSE_WRITE=N   the Nth write to standard output fails with EIO.
   MOST_READ=N      each read from standard input returns at most N bytes.
   MOST_WRITTEN=N   each write to standard output takes at most N bytes.

   Calls count from 1. If a call fails, the library prints the line `refused` to standard error. */
#define _GNU_SOURCE
#include <dlfcn.h>
#include <errno.h>
#include <limits.h>
#include <pthread.h>
#include <stdatomic.h>
#include <stdlib.h>
#include <sys/syscall.h>
#include <unistd.h>

void *__libc_malloc(size_t);
void *__libc_calloc(size_t, size_t);
void *__libc_realloc(void *, size_t);

static long refused_growth, refused_start, refused_read, refused_write, most_read, most_written;
static atomic_long growths, starts, reads, writes;

static long number_or(const char *name, long otherwise) {
    const char *text = getenv(name);
    return text ? atol(text) : otherwise;
}

static long number(const char *name) {
    return number_or(name, 0);
}

__attribute__((constructor)) static void begin(void) {
    refused_growth = number("REFUSE_GROWTH");
    refused_start = number("REFUSE_START");
    refused_read = number("REFUSE_READ");
    refused_write = number("REFUSE_WRITE");
    most_read = number_or("MOST_READ", LONG_MAX);
    most_written = number_or("MOST_WRITTEN", LONG_MAX);
}

static int is_refused(atomic_long *calls, long refused) {
    if (refused == 0 || atomic_fetch_add(calls, 1) + 1 != refused)
        return 0;
    if (syscall(SYS_write, 2, "refused\n", 8) < 0)
        _exit(1);
    return 1;
}

static void *nothing(void) {
    errno = ENOMEM;
    return NULL;
}

void *malloc(size_t size) {
    return is_refused(&growths, refused_growth) ? nothing() : __libc_malloc(size);
}

void *calloc(size_t count, size_t size) {
    return is_refused(&growths, refused_growth) ? nothing() : __libc_calloc(count, size);
}

void *realloc(void *old, size_t size) {
    return is_refused(&growths, refused_growth) ? nothing() : __libc_realloc(old, size);
}

int getentropy(void *place, size_t size) {
    static int (*fill)(void *, size_t);
    if (is_refused(&growths, refused_growth)) {
        errno = EIO;
        return -1;
    }
    if (!fill)
        fill = dlsym(RTLD_NEXT, "getentropy");
    return fill(place, size);
}

int pthread_create(pthread_t *thread, const pthread_attr_t *how, void *(*run)(void *), void *with) {
    static int (*create)(pthread_t *, const pthread_attr_t *, void *(*)(void *), void *);
    if (is_refused(&starts, refused_start))
        return EAGAIN;
    if (!create)
        create = dlsym(RTLD_NEXT, "pthread_create");
    return create(thread, how, run, with);
}

static ssize_t failed(void) {
    errno = EIO;
    return -1;
}

static size_t at_most(size_t size, long most) {
    return size < (size_t)most ? size : (size_t)most;
}

ssize_t read(int device, void *place, size_t size) {
    if (device == 0) {
        if (is_refused(&reads, refused_read))
            return failed();
        size = at_most(size, most_read);
    }
    return syscall(SYS_read, device, place, size);
}

ssize_t write(int device, const void *bytes, size_t size) {
    if (device == 1) {
        if (is_refused(&writes, refused_write))
            return failed();
        size = at_most(size, most_written);
    }
    return syscall(SYS_write, device, bytes, size);
}
