/* Files, frames and descriptors for the tests in C. They compile as C99 and as C++. */
#ifndef SUPPORT_H
#define SUPPORT_H

#include "check.h"
#include "udfburn.h"

#include <dirent.h>
#include <fcntl.h>
#include <string.h>
#include <sys/stat.h>
#include <unistd.h>

#define MOMENT UINT64_C(1700000000000000)

/* Seconds after which a child that hangs is ended. No call takes nearly as long, however slow the machine is. */
enum { PATIENCE = 300 };

/* The example of docs/PROTOCOL.md: client 7, number 1, moment 0 creates /a with "hello"; its answer; Get, and its answer. */
static const uint8_t create_a[] = {0x26, 0, 0, 0, 1, 7, 0, 0, 0, 0, 0, 0, 0, 1, 0, 0, 0, 0, 0, 0, 0, 0, 0, 0, 0, 0, 0, 0, 0,
                                   1, 1, 0, 0x61, 5, 0, 0, 0, 0x68, 0x65, 0x6C, 0x6C, 0x6F};
static const uint8_t created[] = {6, 0, 0, 0, 0, 0, 1, 0, 0, 0};
static const uint8_t get_a[] = {5, 0, 0, 0, 0x10, 1, 1, 0, 0x61};
static const uint8_t got_a[] = {0x0B, 0, 0, 0, 0x40, 0, 5, 0, 0, 0, 0x68, 0x65, 0x6C, 0x6C, 0x6F};
static const uint8_t not_found[] = {2, 0, 0, 0, 0x60, 0};
static const uint8_t too_long[] = {0, 0, 0, 0x80};
static const uint8_t told_too_long[] = {4, 0, 0, 0, 0x26, 0, 0x33, 0};

static inline int image_at(const char *path) { return open(path, O_RDWR | O_CLOEXEC); }

/* Writes a file of these bytes. */
static inline void put_file(const char *path, const void *bytes, size_t count) {
    int fd = open(path, O_WRONLY | O_CREAT | O_TRUNC | O_CLOEXEC, 0644);
    EXPECT(fd >= 0 && write(fd, bytes, count) == (ssize_t)count && close(fd) == 0);
}

/* The bytes of a file, which the caller frees. */
static inline uint8_t *file_bytes(const char *path, size_t *count) {
    struct stat found;
    int fd = open(path, O_RDONLY | O_CLOEXEC);
    if (fd < 0 || fstat(fd, &found)) abort();
    uint8_t *bytes = (uint8_t *)malloc((size_t)found.st_size + 1);
    if (!bytes || read(fd, bytes, (size_t)found.st_size) != found.st_size) abort();
    *count = (size_t)found.st_size;
    close(fd);
    return bytes;
}

static inline int is_same_file(const char *one, const char *other) {
    size_t length, count;
    uint8_t *first = file_bytes(one, &length), *second = file_bytes(other, &count);
    int is_same = length == count && !memcmp(first, second, count);
    free(first);
    free(second);
    return is_same;
}

static inline int is_closed(int fd) { return fcntl(fd, F_GETFD) == -1; }

/* The descriptor that this process has of a file. */
static inline int descriptor_of(const char *path) {
    struct stat wanted, found;
    int fd = 0;
    if (stat(path, &wanted)) abort();
    while (fd < 100 && (fstat(fd, &found) || found.st_dev != wanted.st_dev || found.st_ino != wanted.st_ino)) fd++;
    return fd;
}

/* How many descriptors this process has open. */
static inline int descriptors(void) {
    int count = 0;
    DIR *folder = opendir("/proc/self/fd");
    while (readdir(folder)) count++;
    closedir(folder);
    return count;
}

/* A volume at a new path. */
static inline void make(const char *path) {
    unlink(path);
    STATUS(UDFBURN_OK, udfburn_format(path, "DISC", MOMENT, 600));
}

static inline udfburn *opened(const char *path) {
    udfburn *handle = NULL;
    STATUS(UDFBURN_OK, udfburn_open(path, &handle));
    if (!handle) exit(EXIT_FAILURE);
    return handle;
}

/* The answers that wait are these, and none is left then. */
static inline void expect_answers(udfburn *handle, const uint8_t *wanted, size_t count) {
    uint8_t bytes[64];
    EXPECT(udfburn_answered(handle) == count);
    EXPECT(udfburn_take(handle, bytes, sizeof bytes) == count && !memcmp(bytes, wanted, count));
    EXPECT(udfburn_answered(handle) == 0);
}

#endif
