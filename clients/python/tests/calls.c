/* A library for LD_PRELOAD that logs what a process does to the files below a folder, and what it sends over sockets.

   WATCHED      the folder, as an absolute path without links
   WATCHED_LOG  the log: for each call that was done a struct record, the path, and the bytes

   A record is written after its call, with what the call did. */
#define _GNU_SOURCE
#include <dlfcn.h>
#include <errno.h>
#include <fcntl.h>
#include <limits.h>
#include <stdint.h>
#include <stdio.h>
#include <stdlib.h>
#include <string.h>
#include <sys/socket.h>
#include <sys/uio.h>
#include <unistd.h>

/* In the order of `Kind` in test_order.py. */
enum kind { WRITTEN, SYNCED, CUT, REMOVED, SENT, RENAMED };

struct record {
    uint32_t kind, path, data, unused;
    int64_t offset;
};

static void note(enum kind kind, const char *path, int64_t offset, const void *data, size_t length) {
    static int log_descriptor = -1;
    const char *watched = getenv("WATCHED"), *log = getenv("WATCHED_LOG");
    if (!watched || !log || (kind != SENT && strncmp(path, watched, strlen(watched)))) return;
    int error = errno;
    if (log_descriptor < 0) log_descriptor = open(log, O_WRONLY | O_CREAT | O_APPEND | O_CLOEXEC, 0600);
    struct record record = { kind, (uint32_t)strlen(path), (uint32_t)length, 0, offset };
    struct iovec parts[3] = { { &record, sizeof record }, { (void *)(uintptr_t)path, record.path }, { (void *)(uintptr_t)data, length } };
    if (writev(log_descriptor, parts, 3) != (ssize_t)(sizeof record + record.path + length)) abort();
    errno = error;
}

static void note_file(enum kind kind, int descriptor, int64_t offset, const void *data, size_t length) {
    char link[64], path[PATH_MAX];
    snprintf(link, sizeof link, "/proc/self/fd/%d", descriptor);
    ssize_t count = readlink(link, path, sizeof path - 1);
    if (count < 0) return;
    path[count] = 0;
    note(kind, path, offset, data, length);
}

#define REAL(result, name, ...) \
    static result (*real)(__VA_ARGS__); \
    if (!real) real = (result (*)(__VA_ARGS__))dlsym(RTLD_NEXT, #name)

#define WRITES(name, position) \
    ssize_t name(int descriptor, const void *data, size_t length, position offset) { \
        REAL(ssize_t, name, int, const void *, size_t, position); \
        ssize_t done = real(descriptor, data, length, offset); \
        if (done > 0) note_file(WRITTEN, descriptor, offset, data, (size_t)done); \
        return done; \
    }

#define SYNCS(name) \
    int name(int descriptor) { \
        REAL(int, name, int); \
        int failed = real(descriptor); \
        if (!failed) note_file(SYNCED, descriptor, 0, "", 0); \
        return failed; \
    }

#define CUTS(name, position) \
    int name(int descriptor, position length) { \
        REAL(int, name, int, position); \
        int failed = real(descriptor, length); \
        if (!failed) note_file(CUT, descriptor, length, "", 0); \
        return failed; \
    }

WRITES(pwrite, off_t)
WRITES(pwrite64, off64_t)
SYNCS(fsync)
SYNCS(fdatasync)
CUTS(ftruncate, off_t)
CUTS(ftruncate64, off64_t)

int unlink(const char *path) {
    REAL(int, unlink, const char *);
    int failed = real(path);
    if (!failed) note(REMOVED, path, 0, "", 0);
    return failed;
}

int unlinkat(int folder, const char *name, int flags) {
    REAL(int, unlinkat, int, const char *, int);
    int failed = real(folder, name, flags);
    if (!failed) {
        char link[64], path[PATH_MAX];
        snprintf(link, sizeof link, "/proc/self/fd/%d", folder);
        ssize_t count = folder == AT_FDCWD || *name == '/' ? -1 : readlink(link, path, sizeof path - 1);
        if (count < 0) count = 0;
        snprintf(path + count, sizeof path - (size_t)count, "%s%s", count ? "/" : "", name);
        note(REMOVED, path, 0, "", 0);
    }
    return failed;
}

int rename(const char *path, const char *to) {
    REAL(int, rename, const char *, const char *);
    int failed = real(path, to);
    if (!failed) note(RENAMED, path, 0, to, strlen(to));
    return failed;
}

ssize_t send(int descriptor, const void *data, size_t length, int flags) {
    REAL(ssize_t, send, int, const void *, size_t, int);
    ssize_t done = real(descriptor, data, length, flags);
    if (done > 0) note(SENT, "", 0, data, (size_t)done);
    return done;
}

ssize_t sendmsg(int descriptor, const struct msghdr *message, int flags) {
    REAL(ssize_t, sendmsg, int, const struct msghdr *, int);
    ssize_t done = real(descriptor, message, flags);
    size_t left = done > 0 ? (size_t)done : 0;
    for (const struct iovec *part = message->msg_iov; left; part++) {
        size_t length = part->iov_len < left ? part->iov_len : left;
        note(SENT, "", 0, part->iov_base, length);
        left -= length;
    }
    return done;
}
