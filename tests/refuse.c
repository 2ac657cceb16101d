/* Preloaded: refuses the REFUSE-th request for memory, and tells so on file descriptor 9. */
#define _GNU_SOURCE
#include <dlfcn.h>
#include <stddef.h>
#include <stdlib.h>
#include <unistd.h>

static long left;

__attribute__((constructor)) static void begin(void) {
    const char *count = getenv("REFUSE");
    left = count ? strtol(count, NULL, 10) : 0;
}

static int refuses(void) {
    if (left == 0 || --left > 0) return 0;
    if (write(9, "refused\n", 8) != 8) _exit(99);
    return 1;
}

void *malloc(size_t size) {
    static void *(*next)(size_t);
    if (!next) next = dlsym(RTLD_NEXT, "malloc");
    return refuses() ? NULL : next(size);
}

void *realloc(void *block, size_t size) {
    static void *(*next)(void *, size_t);
    if (!next) next = dlsym(RTLD_NEXT, "realloc");
    return refuses() ? NULL : next(block, size);
}
