/* For tests/depth.py: a library to preload into a program (LD_PRELOAD). A thread for which 64 MiB of stack are requested, a worker,
   gets 64 KiB. */
#define _GNU_SOURCE
#include <dlfcn.h>
#include <pthread.h>

int pthread_attr_setstacksize(pthread_attr_t *attributes, size_t size) {
    static int (*set)(pthread_attr_t *, size_t);
    if (set == NULL)
        *(void **)&set = dlsym(RTLD_NEXT, "pthread_attr_setstacksize");
    return set(attributes, size == 64 << 20 ? 64 << 10 : size);
}
