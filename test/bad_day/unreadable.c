/* LD_PRELOAD library: a file with sectors that cannot be read, as a disc has them.

   UNREADABLE_FILE    the file's absolute path
   UNREADABLE_BLOCKS  its bad blocks of 2,048 bytes, by their addresses, with spaces between
   A read that touches one fails with EIO, or ends before it. */
#define _GNU_SOURCE
#include <dlfcn.h>
#include <errno.h>
#include <stdio.h>
#include <stdlib.h>
#include <string.h>
#include <sys/types.h>
#include <unistd.h>

enum { BLOCK = 2048 };

static int is_file(int fd) {
    char link[64], path[4096];
    const char *wanted = getenv("UNREADABLE_FILE");
    snprintf(link, sizeof link, "/proc/self/fd/%d", fd);
    ssize_t size = wanted ? readlink(link, path, sizeof path - 1) : -1;
    if (size < 0) return 0;
    path[size] = 0;
    return !strcmp(path, wanted);
}

/* The bytes from an offset on that can be read, at most `count`. */
static size_t readable(off_t offset, size_t count) {
    const char *at = getenv("UNREADABLE_BLOCKS");
    char *end;
    while (at && *at) {
        off_t bad = strtoll(at, &end, 10) * (off_t)BLOCK;
        if (end == at) break;
        at = end;
        if (offset < bad + BLOCK && bad < offset + (off_t)count) count = bad > offset ? (size_t)(bad - offset) : 0;
    }
    return count;
}

ssize_t pread64(int fd, void *bytes, size_t count, off64_t offset) {
    static ssize_t (*next)(int, void *, size_t, off64_t);
    if (!next) next = (ssize_t (*)(int, void *, size_t, off64_t))dlsym(RTLD_NEXT, "pread64");
    if (count && is_file(fd)) {
        count = readable(offset, count);
        if (!count) { errno = EIO; return -1; }
    }
    return next(fd, bytes, count, offset);
}

ssize_t pread(int fd, void *bytes, size_t count, off_t offset) { return pread64(fd, bytes, count, offset); }

ssize_t read(int fd, void *bytes, size_t count) {
    static ssize_t (*next)(int, void *, size_t);
    if (!next) next = (ssize_t (*)(int, void *, size_t))dlsym(RTLD_NEXT, "read");
    if (count && is_file(fd)) {
        count = readable(lseek(fd, 0, SEEK_CUR), count);
        if (!count) { errno = EIO; return -1; }
    }
    return next(fd, bytes, count);
}
