/* For the tests: a library to preload into a program (LD_PRELOAD). It counts the blocks of memory that the program has
   not freed when it ends, and prints the line `N blocks are left` to standard error. It replaces malloc, calloc,
   realloc, free and the aligned allocation functions of the C library. */
#define _GNU_SOURCE
#include <errno.h>
#include <stdatomic.h>
#include <stdio.h>
#include <stdlib.h>
#include <sys/syscall.h>
#include <unistd.h>

void *__libc_malloc(size_t);
void *__libc_calloc(size_t, size_t);
void *__libc_realloc(void *, size_t);
void *__libc_memalign(size_t, size_t);
void __libc_free(void *);

static atomic_long blocks;

static void *counted(void *block) {
    if (block)
        atomic_fetch_add(&blocks, 1);
    return block;
}

void *malloc(size_t size) {
    return counted(__libc_malloc(size));
}

void *calloc(size_t count, size_t size) {
    return counted(__libc_calloc(count, size));
}

void *memalign(size_t alignment, size_t size) {
    return counted(__libc_memalign(alignment, size));
}

void *aligned_alloc(size_t alignment, size_t size) {
    return memalign(alignment, size);
}

int posix_memalign(void **place, size_t alignment, size_t size) {
    void *block = memalign(alignment, size);
    if (!block)
        return ENOMEM;
    *place = block;
    return 0;
}

void *realloc(void *old, size_t size) {
    return old ? __libc_realloc(old, size) : malloc(size);
}

void free(void *block) {
    if (block)
        atomic_fetch_sub(&blocks, 1);
    __libc_free(block);
}

/* The program calls this function when it ends. */
void _exit(int status) {
    char line[40];
    int size = snprintf(line, sizeof line, "%ld blocks are left\n", atomic_load(&blocks));
    if (write(2, line, size) < 0)
        status = 1;
    syscall(SYS_exit_group, status);
    __builtin_unreachable();
}
