/* A library for LD_PRELOAD that counts the calls by which a command and the programs that it starts change files below a folder, and
   does something at one of them.

   CHAOS_ROOM    the folder; what is elsewhere, and what is no regular file, does not count
   CHAOS_COUNT   a file of 8 bytes with the count, which all processes share
   CHAOS_AT      the call that is meant, from 1
   CHAOS_ACTION  0 kills the group of processes before the call; else the call fails with this errno */
#define _GNU_SOURCE
#include <dlfcn.h>
#include <errno.h>
#include <fcntl.h>
#include <limits.h>
#include <signal.h>
#include <stdarg.h>
#include <stdint.h>
#include <stdio.h>
#include <stdlib.h>
#include <string.h>
#include <sys/mman.h>
#include <sys/sendfile.h>
#include <sys/stat.h>
#include <sys/types.h>
#include <unistd.h>

static int64_t *count;
static long at = -1;
static int action;
static const char *room;

__attribute__((constructor)) static void begin(void) {
    const char *path = getenv("CHAOS_COUNT");
    room = getenv("CHAOS_ROOM");
    if (!path || !room) return;
    int (*open_it)(const char *, int, ...) = dlsym(RTLD_NEXT, "open");
    int fd = open_it(path, O_RDWR | O_CLOEXEC);
    if (fd < 0) return;
    void *shared = mmap(NULL, 8, PROT_READ | PROT_WRITE, MAP_SHARED, fd, 0);
    close(fd);
    if (shared == MAP_FAILED) return;
    at = getenv("CHAOS_AT") ? atol(getenv("CHAOS_AT")) : -1;
    action = getenv("CHAOS_ACTION") ? atoi(getenv("CHAOS_ACTION")) : 0;
    count = shared;
}

static int below(const char *path) {
    size_t length = room ? strlen(room) : 0;
    return path && length && !strncmp(path, room, length) && (path[length] == '/' || !path[length]);
}

/* Whether what a descriptor leads to is below the room. */
static int is_below(int fd) {
    char from[64], whole[PATH_MAX];
    snprintf(from, sizeof from, "/proc/self/fd/%d", fd);
    ssize_t length = readlink(from, whole, sizeof whole - 1);
    if (length < 0) return 0;
    whole[length] = 0;
    return below(whole);
}

/* Whether a path, from a folder's descriptor or the current folder on, is below the room. */
static int is_ours(int folder, const char *path) {
    char whole[PATH_MAX];
    if (!count || !path) return 0;
    if (path[0] == '/') return below(path);
    return folder == AT_FDCWD ? getcwd(whole, sizeof whole) && below(whole) : is_below(folder);
}

static int is_our_file(int fd) {
    struct stat status;
    return count && !fstat(fd, &status) && (S_ISREG(status.st_mode) || S_ISDIR(status.st_mode)) && is_below(fd);
}

/* Counts a call; whether it fails. */
static int fails(int ours) {
    if (!ours || __atomic_add_fetch(count, 1, __ATOMIC_SEQ_CST) != at) return 0;
    if (!action) {
        kill(0, SIGKILL);
        for (;;) pause();
    }
    errno = action;
    return 1;
}

#define REAL(name, result, ...) \
    static result (*real)(__VA_ARGS__); \
    if (!real) real = (result(*)(__VA_ARGS__))dlsym(RTLD_NEXT, #name)

#define OPEN(name) \
    int name(const char *path, int flags, ...) { \
        REAL(name, int, const char *, int, ...); \
        mode_t mode = 0; \
        if (flags & (O_CREAT | O_TMPFILE)) { va_list rest; va_start(rest, flags); mode = va_arg(rest, mode_t); va_end(rest); } \
        if (flags & (O_CREAT | O_TRUNC) && fails(is_ours(AT_FDCWD, path))) return -1; \
        return real(path, flags, mode); \
    }
OPEN(open)
OPEN(open64)

#define OPENAT(name) \
    int name(int folder, const char *path, int flags, ...) { \
        REAL(name, int, int, const char *, int, ...); \
        mode_t mode = 0; \
        if (flags & (O_CREAT | O_TMPFILE)) { va_list rest; va_start(rest, flags); mode = va_arg(rest, mode_t); va_end(rest); } \
        if (flags & (O_CREAT | O_TRUNC) && fails(is_ours(folder, path))) return -1; \
        return real(folder, path, flags, mode); \
    }
OPENAT(openat)
OPENAT(openat64)

ssize_t write(int fd, const void *data, size_t size) { REAL(write, ssize_t, int, const void *, size_t); return fails(is_our_file(fd)) ? -1 : real(fd, data, size); }
ssize_t pwrite(int fd, const void *data, size_t size, off_t place) { REAL(pwrite, ssize_t, int, const void *, size_t, off_t); return fails(is_our_file(fd)) ? -1 : real(fd, data, size, place); }
ssize_t pwrite64(int fd, const void *data, size_t size, off64_t place) { REAL(pwrite64, ssize_t, int, const void *, size_t, off64_t); return fails(is_our_file(fd)) ? -1 : real(fd, data, size, place); }
int fsync(int fd) { REAL(fsync, int, int); return fails(is_our_file(fd)) ? -1 : real(fd); }
int fdatasync(int fd) { REAL(fdatasync, int, int); return fails(is_our_file(fd)) ? -1 : real(fd); }
int ftruncate(int fd, off_t size) { REAL(ftruncate, int, int, off_t); return fails(is_our_file(fd)) ? -1 : real(fd, size); }
int ftruncate64(int fd, off64_t size) { REAL(ftruncate64, int, int, off64_t); return fails(is_our_file(fd)) ? -1 : real(fd, size); }
int fchmod(int fd, mode_t mode) { REAL(fchmod, int, int, mode_t); return fails(is_our_file(fd)) ? -1 : real(fd, mode); }
int rename(const char *from, const char *to) { REAL(rename, int, const char *, const char *); return fails(is_ours(AT_FDCWD, to)) ? -1 : real(from, to); }
int renameat(int one, const char *from, int two, const char *to) { REAL(renameat, int, int, const char *, int, const char *); return fails(is_ours(two, to)) ? -1 : real(one, from, two, to); }
int link(const char *from, const char *to) { REAL(link, int, const char *, const char *); return fails(is_ours(AT_FDCWD, to)) ? -1 : real(from, to); }
int linkat(int one, const char *from, int two, const char *to, int flags) { REAL(linkat, int, int, const char *, int, const char *, int); return fails(is_ours(two, to)) ? -1 : real(one, from, two, to, flags); }
int unlink(const char *path) { REAL(unlink, int, const char *); return fails(is_ours(AT_FDCWD, path)) ? -1 : real(path); }
int unlinkat(int folder, const char *path, int flags) { REAL(unlinkat, int, int, const char *, int); return fails(is_ours(folder, path)) ? -1 : real(folder, path, flags); }
int mkdir(const char *path, mode_t mode) { REAL(mkdir, int, const char *, mode_t); return fails(is_ours(AT_FDCWD, path)) ? -1 : real(path, mode); }
int mkdirat(int folder, const char *path, mode_t mode) { REAL(mkdirat, int, int, const char *, mode_t); return fails(is_ours(folder, path)) ? -1 : real(folder, path, mode); }
int rmdir(const char *path) { REAL(rmdir, int, const char *); return fails(is_ours(AT_FDCWD, path)) ? -1 : real(path); }
int chmod(const char *path, mode_t mode) { REAL(chmod, int, const char *, mode_t); return fails(is_ours(AT_FDCWD, path)) ? -1 : real(path, mode); }
