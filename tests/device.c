/* Preloaded: each read of a file whose path ends in that of DEVICE moves STEP bytes at most, and so does each write to the standard
   output where DEVICE is "output". With FAILS set, that many such calls move bytes, and those behind them fail. */
#define _GNU_SOURCE
#include <dlfcn.h>
#include <errno.h>
#include <stdio.h>
#include <stdlib.h>
#include <string.h>
#include <sys/types.h>
#include <unistd.h>

static int is_device(const char *path) {
    const char *name = getenv("DEVICE");
    size_t length = strlen(path), end = name ? strlen(name) : 0;
    return end && length >= end && strcmp(path + length - end, name) == 0;
}

/* Whether one more call fails; else how many bytes it may move. */
static int fails(size_t *count) {
    static unsigned long calls;
    const char *most = getenv("FAILS");
    size_t step = strtoul(getenv("STEP"), NULL, 10);
    if (most && calls >= strtoul(most, NULL, 10)) {
        errno = EIO;
        return 1;
    }
    calls++;
    if (*count > step) *count = step;
    return 0;
}

ssize_t read(int file, void *into, size_t count) {
    static ssize_t (*next)(int, void *, size_t);
    char link[64], path[4096] = "";
    if (!next) next = dlsym(RTLD_NEXT, "read");
    snprintf(link, sizeof link, "/proc/self/fd/%d", file);
    if (readlink(link, path, sizeof path - 1) > 0 && is_device(path) && fails(&count)) return -1;
    return next(file, into, count);
}

ssize_t write(int file, const void *from, size_t count) {
    static ssize_t (*next)(int, const void *, size_t);
    if (!next) next = dlsym(RTLD_NEXT, "write");
    if (file == 1 && is_device("output") && fails(&count)) return -1;
    return next(file, from, count);
}
