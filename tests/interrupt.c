/* Preloaded: of two reads the first is interrupted, of three writes to the standard output the first is interrupted and the
   second takes no byte; the others move seven bytes at most. With IN_VAIN set to the name of a call, each one of it is in vain. */
#define _GNU_SOURCE
#include <dlfcn.h>
#include <errno.h>
#include <stdlib.h>
#include <string.h>
#include <sys/types.h>

static int is_in_vain(const char *call) {
    const char *name = getenv("IN_VAIN");
    return name && strcmp(name, call) == 0;
}

static size_t at_most_seven(size_t count) {
    return count < 7 ? count : 7;
}

ssize_t read(int file, void *into, size_t count) {
    static ssize_t (*next)(int, void *, size_t);
    static unsigned long calls;
    if (!next) next = dlsym(RTLD_NEXT, "read");
    if (calls++ % 2 == 0 || is_in_vain("read")) {
        errno = EINTR;
        return -1;
    }
    return next(file, into, at_most_seven(count));
}

ssize_t write(int file, const void *from, size_t count) {
    static ssize_t (*next)(int, const void *, size_t);
    static unsigned long calls;
    unsigned long turn;
    if (!next) next = dlsym(RTLD_NEXT, "write");
    if (file != 1) return next(file, from, count);
    turn = calls++ % 3;
    if (turn == 0) {
        errno = EINTR;
        return -1;
    }
    if (turn == 1 || is_in_vain("write")) return 0;
    return next(file, from, at_most_seven(count));
}
