/* Loaded before the C library, it refuses the program's allocation of the number in REFUSE, counted from 1. It then makes the file
   that REFUSE_MARK names, where there is one. So it refuses the thread of the number in REFUSE_THREAD. */
#define _GNU_SOURCE
#include <dlfcn.h>
#include <errno.h>
#include <fcntl.h>
#include <pthread.h>
#include <stdatomic.h>
#include <stdlib.h>
#include <unistd.h>

static atomic_long made;

static int is_refused(void) {
    const char *number = getenv("REFUSE");
    if (atomic_fetch_add(&made, 1) + 1 != (number ? atol(number) : 0)) return 0;
    const char *mark = getenv("REFUSE_MARK");
    if (mark) close(creat(mark, 0600));
    return 1;
}

void *malloc(size_t size) {
    static void *(*next)(size_t);
    if (!next) next = dlsym(RTLD_NEXT, "malloc");
    if (is_refused()) { errno = ENOMEM; return NULL; }
    return next(size);
}

void *realloc(void *memory, size_t size) {
    static void *(*next)(void *, size_t);
    if (!next) next = dlsym(RTLD_NEXT, "realloc");
    if (is_refused()) { errno = ENOMEM; return NULL; }
    return next(memory, size);
}

void *aligned_alloc(size_t alignment, size_t size) {
    static void *(*next)(size_t, size_t);
    if (!next) next = dlsym(RTLD_NEXT, "aligned_alloc");
    if (is_refused()) { errno = ENOMEM; return NULL; }
    return next(alignment, size);
}

int posix_memalign(void **memory, size_t alignment, size_t size) {
    static int (*next)(void **, size_t, size_t);
    if (!next) next = dlsym(RTLD_NEXT, "posix_memalign");
    if (is_refused()) return ENOMEM;
    return next(memory, alignment, size);
}

int pthread_create(pthread_t *thread, const pthread_attr_t *attributes, void *(*start)(void *), void *with) {
    static int (*next)(pthread_t *, const pthread_attr_t *, void *(*)(void *), void *);
    static atomic_long started;
    if (!next) next = dlsym(RTLD_NEXT, "pthread_create");
    const char *number = getenv("REFUSE_THREAD");
    if (atomic_fetch_add(&started, 1) + 1 == (number ? atol(number) : 0)) return EAGAIN;
    return next(thread, attributes, start, with);
}
