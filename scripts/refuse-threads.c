/* Preloaded into a program: refuses to start the thread of the number REFUSE_AT, counted from 1. */
#define _GNU_SOURCE
#include <dlfcn.h>
#include <errno.h>
#include <pthread.h>
#include <stdlib.h>

int pthread_create(pthread_t *thread, const pthread_attr_t *how, void *(*start)(void *),
                   void *with) {
    static int (*real)(pthread_t *, const pthread_attr_t *, void *(*)(void *), void *);
    static unsigned long seen;
    const char *number = getenv("REFUSE_AT");
    if (!real) real = dlsym(RTLD_NEXT, "pthread_create");
    if (number && __atomic_add_fetch(&seen, 1, __ATOMIC_RELAXED) == strtoul(number, 0, 10))
        return EAGAIN;
    return real(thread, how, start, with);
}
