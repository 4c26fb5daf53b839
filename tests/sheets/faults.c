/* Stands before the C library's read and write: reads come in pieces of 100 bytes, and where FAULT says so the second read or the first write fails. */
#define _GNU_SOURCE
#include <dlfcn.h>
#include <errno.h>
#include <stdlib.h>
#include <string.h>
#include <unistd.h>

static int fails(const char *call, int *made, int which) {
    const char *fault = getenv("FAULT");
    if (++*made != which || !fault || strcmp(fault, call)) return 0;
    errno = EIO;
    return 1;
}

ssize_t read(int file, void *bytes, size_t count) {
    static ssize_t (*next)(int, void *, size_t);
    static int made;
    if (!next) *(void **)&next = dlsym(RTLD_NEXT, "read");
    return fails("read", &made, 2) ? -1 : next(file, bytes, count < 100 ? count : 100);
}

ssize_t write(int file, const void *bytes, size_t count) {
    static ssize_t (*next)(int, const void *, size_t);
    static int made;
    if (!next) *(void **)&next = dlsym(RTLD_NEXT, "write");
    return fails("write", &made, 1) ? -1 : next(file, bytes, count);
}
