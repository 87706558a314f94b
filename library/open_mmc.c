/* A disc in a recorder: the calls of udfburn.h on it. SPDX-License-Identifier: MIT OR Apache-2.0 */
#define _POSIX_C_SOURCE 200809L

#include "mmc.h"

#include <errno.h>
#include <fcntl.h>
#include <stdlib.h>
#include <sys/stat.h>
#include <unistd.h>

enum { ANCHOR = 256 };

/* Opens a device for this process alone. It is not waited for a disc, since the drive says itself that there is none. */
static int open_device(const char *device) {
    struct stat found;
    int fd = open(device, O_RDWR | O_NONBLOCK | O_EXCL | O_CLOEXEC);
    if (fd < 0) {
        if (errno == EBUSY) udfburn_note_as(UDFBURN_BUSY, "open", errno);
        else udfburn_note("open", errno);
        return -1;
    }
    if (fstat(fd, &found) == 0 && (S_ISBLK(found.st_mode) || S_ISCHR(found.st_mode))) return udfburn_move_up(fd);
    udfburn_note_as(UDFBURN_DEVICE, "open", ENODEV);
    close(fd);
    return -1;
}

static void end(struct udfburn_mmc *mmc) {
    udfburn_end_mmc(mmc);
    close(mmc->fd);
    free(mmc);
}

/* The disc in a drive, ready to be written. */
static int32_t begin(const char *device, struct udfburn_mmc **out) {
    struct udfburn_mmc *mmc = calloc(1, sizeof *mmc);
    if (!mmc) return UDFBURN_MEMORY;
    mmc->process = getpid();
    mmc->fd = open_device(device);
    int32_t status = mmc->fd < 0 ? UDFBURN_DEVICE : udfburn_begin_mmc(mmc);
    if (status == UDFBURN_OK) *out = mmc;
    else if (mmc->fd < 0) free(mmc);
    else end(mmc);
    return status;
}

static struct udfburn_drive drive_of(struct udfburn_mmc *mmc) {
    return (struct udfburn_drive){mmc, udfburn_mmc_capacity, udfburn_mmc_next, udfburn_mmc_read, udfburn_mmc_write};
}

/* Says where a disc can have no volume, since a write that failed spoiled one of its first blocks. */
static void note_spoiled(struct udfburn_mmc *mmc, int32_t status) {
    if (status != UDFBURN_VOLUME || mmc->next == 0) return;
    if (mmc->next > ANCHOR && udfburn_is_unreadable(mmc, ANCHOR)) {
        udfburn_note_as(UDFBURN_VOLUME, "anchor", EIO);
        return;
    }
    for (uint32_t address = 0; address < ANCHOR && address < mmc->next; address++)
        if (udfburn_is_unreadable(mmc, address)) {
            udfburn_note_as(UDFBURN_VOLUME, "header", EIO);
            return;
        }
}

static int32_t format(const char *device, const char *label, uint64_t moment) {
    struct udfburn_mmc *mmc;
    int32_t status = begin(device, &mmc);
    if (status != UDFBURN_OK) return status;
    const struct udfburn_drive drive = drive_of(mmc);
    status = udfburn_format_drive_in(&drive, label, moment);
    note_spoiled(mmc, status);
    end(mmc);
    return status;
}

int32_t udfburn_format_mmc(const char *device, const char *label, uint64_t moment) {
    struct udfburn_call call;
    udfburn_enter_without(&call, device);
    return udfburn_leave(&call, device && label ? format(device, label, moment) : UDFBURN_ARGUMENT);
}

static void release(void *port) {
    struct udfburn_mmc *mmc = ((struct udfburn_port *)port)->drive.context;
    udfburn_release_port(port);
    end(mmc);
}

static int32_t open_mmc(const char *device, uint32_t flags, udfburn **out) {
    struct udfburn_mmc *mmc;
    int32_t status = begin(device, &mmc);
    if (status != UDFBURN_OK) return status;
    mmc->verifies = (flags & UDFBURN_VERIFY) != 0;
    const struct udfburn_drive drive = drive_of(mmc);
    /* It reads back the whole packet itself. */
    status = udfburn_open_drive_in(&drive, 0, out);
    if (status == UDFBURN_OK) {
        (*out)->release = release;
        mmc->port = (*out)->port;
        udfburn_keep_path(*out, device);
    } else {
        note_spoiled(mmc, status);
        end(mmc);
    }
    return status;
}

int32_t udfburn_open_mmc(const char *device, uint32_t flags, udfburn **out) {
    struct udfburn_call call;
    if (out) *out = NULL;
    udfburn_enter_without(&call, device);
    int is_valid = device && out && !(flags & ~(uint32_t)UDFBURN_VERIFY);
    return udfburn_leave(&call, is_valid ? open_mmc(device, flags, out) : UDFBURN_ARGUMENT);
}

static int32_t check(const char *device, const char **broken) {
    struct udfburn_mmc *mmc;
    int32_t status = begin(device, &mmc);
    if (status != UDFBURN_OK) return status;
    const struct udfburn_drive drive = drive_of(mmc);
    status = udfburn_check_drive_in(&drive, broken);
    end(mmc);
    return status;
}

int32_t udfburn_mmc_check(const char *device, const char **broken) {
    struct udfburn_call call;
    if (broken) *broken = NULL;
    udfburn_enter_without(&call, device);
    return udfburn_leave(&call, device ? check(device, broken) : UDFBURN_ARGUMENT);
}
