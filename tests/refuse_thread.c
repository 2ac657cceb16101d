/* Preloaded: the system starts no thread at the REFUSE-th start, and tells so on file descriptor 9. */
#define _GNU_SOURCE
#include <dlfcn.h>
#include <errno.h>
#include <pthread.h>
#include <stdatomic.h>
#include <stdlib.h>
#include <unistd.h>

static atomic_long starts;

int pthread_create(pthread_t *thread, const pthread_attr_t *attributes, void *(*run)(void *), void *with) {
    static int (*next)(pthread_t *, const pthread_attr_t *, void *(*)(void *), void *);
    const char *count = getenv("REFUSE");
    if (!next) next = dlsym(RTLD_NEXT, "pthread_create");
    if (count && atomic_fetch_add(&starts, 1) + 1 == strtol(count, NULL, 10)) {
        if (write(9, "refused\n", 8) != 8) _exit(99);
        return EAGAIN;
    }
    return next(thread, attributes, run, with);
}
