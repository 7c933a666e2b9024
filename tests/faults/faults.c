/* Reads and writes that come short or fail, for a program that is started with this library preloaded:
 *   READ_MOST, WRITE_MOST    the most bytes that one read of standard input, one write to standard output, moves
 *   READ_FAILS, WRITE_FAILS  the number of the read or write, from 1, that fails with EIO, and all after it do */
#define _GNU_SOURCE
#include <dlfcn.h>
#include <errno.h>
#include <stdlib.h>
#include <unistd.h>

static size_t number(const char *name, size_t otherwise) {
    const char *text = getenv(name);
    return text != NULL ? strtoul(text, NULL, 10) : otherwise;
}

ssize_t read(int fd, void *room, size_t size) {
    static size_t calls;
    static ssize_t (*next)(int, void *, size_t);
    if (next == NULL) next = (ssize_t (*)(int, void *, size_t))dlsym(RTLD_NEXT, "read");
    if (fd != 0) return next(fd, room, size);
    const size_t most = number("READ_MOST", size);
    if (++calls >= number("READ_FAILS", (size_t)-1)) {
        errno = EIO;
        return -1;
    }
    return next(fd, room, size < most ? size : most);
}

ssize_t write(int fd, const void *bytes, size_t size) {
    static size_t calls;
    static ssize_t (*next)(int, const void *, size_t);
    if (next == NULL) next = (ssize_t (*)(int, const void *, size_t))dlsym(RTLD_NEXT, "write");
    if (fd != 1) return next(fd, bytes, size);
    const size_t most = number("WRITE_MOST", size);
    if (++calls >= number("WRITE_FAILS", (size_t)-1)) {
        errno = EIO;
        return -1;
    }
    return next(fd, bytes, size < most ? size : most);
}
