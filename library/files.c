/* The files that volumes are in: how they are opened by their paths, and which of them this process works on.
 * SPDX-License-Identifier: MIT OR Apache-2.0 */
#define _POSIX_C_SOURCE 200809L

#include "internal.h"

#include <errno.h>
#include <fcntl.h>
#include <stdlib.h>
#include <string.h>
#include <sys/stat.h>
#include <unistd.h>

/* ---- By their paths ---- */

static int open_again(int folder, const char *name, int flags, mode_t mode) {
    int fd;
    do fd = openat(folder, name, flags | O_CLOEXEC, mode);
    while (fd < 0 && errno == EINTR);
    return fd;
}

static int32_t no_folder(void) {
    udfburn_note_as(UDFBURN_DEVICE, "open", errno);
    return UDFBURN_DEVICE;
}

int32_t udfburn_find_place(const char *path, struct udfburn_place *place) {
    const char *slash = strrchr(path, '/');
    place->name = slash ? slash + 1 : path;
    if (!slash || slash == path) {
        place->folder = open_again(AT_FDCWD, slash ? "/" : ".", O_RDONLY | O_DIRECTORY, 0);
    } else {
        size_t length = (size_t)(slash - path);
        char *folder = malloc(length + 1);
        if (!folder) return UDFBURN_MEMORY;
        memcpy(folder, path, length);
        folder[length] = '\0';
        place->folder = open_again(AT_FDCWD, folder, O_RDONLY | O_DIRECTORY, 0);
        free(folder);
    }
    return place->folder < 0 ? no_folder() : UDFBURN_OK;
}

int32_t udfburn_sync_folder(const struct udfburn_place *place) {
    int status;
    do status = fsync(place->folder);
    while (status && errno == EINTR);
    if (status) udfburn_note("fsync", errno);
    return status ? UDFBURN_DEVICE : UDFBURN_OK;
}

/* Notes why there is no descriptor. A path without a last part names no file; a lease of another process delays an open. */
static int none(const struct udfburn_place *place, const char *call, int error) {
    if (error == ENOENT && place->name[0] != '\0') udfburn_note_as(UDFBURN_NO_IMAGE, call, error);
    else if (error == EWOULDBLOCK) udfburn_note_as(UDFBURN_BUSY, call, error);
    else udfburn_note(call, error);
    return -1;
}

/* It is looked at first, since to open a pipe may wait, and a device may act. */
static int open_for(const struct udfburn_place *place, int access) {
    struct stat found;
    if (fstatat(place->folder, place->name, &found, AT_SYMLINK_NOFOLLOW)) return none(place, "stat", errno);
    if (!S_ISREG(found.st_mode)) return none(place, "stat", S_ISLNK(found.st_mode) ? ELOOP : S_ISDIR(found.st_mode) ? EISDIR : EINVAL);
    int fd = open_again(place->folder, place->name, access | O_NOFOLLOW | O_NONBLOCK | O_NOCTTY, 0);
    return fd < 0 ? none(place, "open", errno) : fd;
}

int udfburn_open_regular(const struct udfburn_place *place) { return open_for(place, O_RDWR); }

int udfburn_open_to_read(const struct udfburn_place *place) { return open_for(place, O_RDONLY); }

int udfburn_open_or_make(const struct udfburn_place *place) {
    int fd = open_again(place->folder, place->name, O_RDWR | O_CREAT | O_EXCL, 0666);
    if (fd < 0 && errno != EEXIST) udfburn_note("open", errno);
    return fd < 0 && errno == EEXIST ? udfburn_open_regular(place) : fd;
}

/* ---- By their descriptors ---- */

static struct udfburn_file *files;

int udfburn_duplicate(int fd) {
    int other = fcntl(fd, F_DUPFD_CLOEXEC, STDERR_FILENO + 1);
    if (other < 0) udfburn_note("fcntl", errno);
    return other;
}

int32_t udfburn_move_up(int32_t fd) {
    if (fd > STDERR_FILENO) return fd;
    int32_t moved = udfburn_duplicate(fd);
    close(fd);
    return moved;
}

/* Whether the core can have this descriptor: of a regular file, to read it and to write it anywhere. No program that is
 * started from here gets it, since it would keep the lock. */
static int is_usable(int32_t fd, struct stat *found) {
    int flags = fcntl(fd, F_GETFL), error = EINVAL;
    if (flags >= 0 && (flags & O_ACCMODE) == O_RDWR && !(flags & O_APPEND) && !fstat(fd, found) && S_ISREG(found->st_mode)) {
        if (!fcntl(fd, F_SETFD, FD_CLOEXEC)) return 1;
        error = errno;
    } else if (flags < 0) {
        error = errno;
    }
    udfburn_note_as(UDFBURN_DEVICE, "fcntl", error);
    return 0;
}

static int is_same(const struct udfburn_file *file, const struct stat *found) {
    return file->device == found->st_dev && file->number == found->st_ino;
}

int32_t udfburn_enter_file(struct udfburn_file *file, int32_t fd, uint32_t capacity) {
    struct stat found;
    int is_new = 1;
    file->fd = -1;
    if (!is_usable(fd, &found)) return UDFBURN_DEVICE;
    if (found.st_size / UDFBURN_BLOCK > capacity) return UDFBURN_VOLUME;
    udfburn_lock();
    for (const struct udfburn_file *other = files; other; other = other->next)
        if (is_same(other, &found)) is_new = 0;
    if (is_new) {
        file->fd = fd;
        file->must_have_name = 0;
        file->device = found.st_dev;
        file->number = found.st_ino;
        file->next = files;
        files = file;
    }
    udfburn_unlock();
    if (!is_new) udfburn_note_as(UDFBURN_BUSY, "open", EBUSY);
    return is_new ? UDFBURN_OK : UDFBURN_DEVICE;
}

void udfburn_leave_file(struct udfburn_file *file) {
    if (file->fd < 0) return;
    udfburn_lock();
    struct udfburn_file **link = &files;
    while (*link != file) link = &(*link)->next;
    *link = file->next;
    udfburn_unlock();
    file->fd = -1;
}

int udfburn_is_file(const struct udfburn_file *file) {
    struct stat found;
    return file->fd >= 0 && !fstat(file->fd, &found) && is_same(file, &found);
}

int udfburn_has_file(const struct udfburn_file *file) {
    struct stat found;
    if (file->fd < 0) return 1;
    if (fstat(file->fd, &found) || !is_same(file, &found)) {
        udfburn_note_as(UDFBURN_DEVICE, "fstat", EBADF);
        return 0;
    }
    if (file->must_have_name && found.st_nlink == 0) {
        udfburn_note_as(UDFBURN_DEVICE, "fstat", ENOENT);
        return 0;
    }
    return 1;
}
