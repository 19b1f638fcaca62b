// Refuses one request for memory, or the start of one thread or of every one: the request that REFUSE_MEMORY numbers, from 0
// on, or the start that REFUSE_THREAD does; with REFUSE_THREADS, each. What was refused makes the file that REFUSED names.
#define _GNU_SOURCE
#include <dlfcn.h>
#include <errno.h>
#include <fcntl.h>
#include <pthread.h>
#include <stdlib.h>
#include <unistd.h>

static long requests, starts;

static void tell(void) {
    int file = open(getenv("REFUSED"), O_WRONLY | O_CREAT, 0600);
    if (file >= 0) close(file);
}

static int is_refused(const char *name, long *count) {
    const char *wanted = getenv(name);
    if (!wanted || __atomic_fetch_add(count, 1, __ATOMIC_SEQ_CST) != atol(wanted)) return 0;
    tell();
    return 1;
}

void *malloc(size_t size) {
    static void *(*real)(size_t);
    if (!real) real = (void *(*)(size_t))dlsym(RTLD_NEXT, "malloc");
    if (!is_refused("REFUSE_MEMORY", &requests)) return real(size);
    errno = ENOMEM;
    return NULL;
}

void *realloc(void *block, size_t size) {
    static void *(*real)(void *, size_t);
    if (!real) real = (void *(*)(void *, size_t))dlsym(RTLD_NEXT, "realloc");
    if (!is_refused("REFUSE_MEMORY", &requests)) return real(block, size);
    errno = ENOMEM;
    return NULL;
}

int pthread_create(pthread_t *thread, const pthread_attr_t *attributes, void *(*start)(void *), void *argument) {
    static int (*real)(pthread_t *, const pthread_attr_t *, void *(*)(void *), void *);
    if (!real) real = (int (*)(pthread_t *, const pthread_attr_t *, void *(*)(void *), void *))dlsym(RTLD_NEXT, "pthread_create");
    if (getenv("REFUSE_THREADS")) {
        tell();
        return EAGAIN;
    }
    return is_refused("REFUSE_THREAD", &starts) ? EAGAIN : real(thread, attributes, start, argument);
}
