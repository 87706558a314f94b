/* The core's calls of the system on a file, which have the names udfburn_port_* in the library. They go to the functions of the drive
 * that has the number, and to the system for any other number. What fails is noted for the call of udfburn.h that it is made for.
 * SPDX-License-Identifier: MIT OR Apache-2.0 */
#define _POSIX_C_SOURCE 200809L

#include "internal.h"

#include <errno.h>
#include <fcntl.h>
#include <stdlib.h>
#include <string.h>
#include <sys/file.h>
#include <unistd.h>

/* No descriptor of the system is so great: its table would take 8 GiB. */
#define FIRST_NUMBER 0x40000000

/* ---- Drives that are open ---- */

static struct udfburn_port *ports;

/* The port of a number, or NULL. It stays, since the handle that it serves is in a call. */
static struct udfburn_port *port_of(int number) {
    if (number < FIRST_NUMBER) return NULL;
    udfburn_lock();
    struct udfburn_port *port = ports;
    while (port && port->number != number) port = port->next;
    udfburn_unlock();
    return port;
}

static int is_same(const struct udfburn_drive *one, const struct udfburn_drive *other) {
    return one->context == other->context && one->capacity == other->capacity && one->next == other->next
        && one->read == other->read && one->write == other->write;
}

/* Enters a port under the least number that is free, unless its drive is there already. The ports are in order. */
static int enter(struct udfburn_port *port) {
    int is_new = 1;
    udfburn_lock();
    for (const struct udfburn_port *other = ports; other; other = other->next)
        if (is_same(&other->drive, &port->drive)) is_new = 0;
    if (is_new) {
        struct udfburn_port **gap = &ports;
        port->number = FIRST_NUMBER;
        for (; *gap && (*gap)->number == port->number; gap = &(*gap)->next) port->number++;
        port->next = *gap;
        *gap = port;
    }
    udfburn_unlock();
    return is_new;
}

void udfburn_release_port(void *entered) {
    struct udfburn_port *port = entered;
    udfburn_lock();
    struct udfburn_port **link = &ports;
    while (*link != port) link = &(*link)->next;
    *link = port->next;
    udfburn_unlock();
    free(port);
}

/* The core tries a call that a signal interrupted again, so no other failure may look like one. */
static int failed(const char *function, int32_t number) {
    udfburn_note(function, number);
    errno = EIO;
    return -1;
}

int32_t udfburn_make_port(const struct udfburn_drive *drive, struct udfburn_port **made) {
    int32_t number;
    struct udfburn_port *port = calloc(1, sizeof *port);
    if (!port) return UDFBURN_MEMORY;
    port->drive = *drive;
    port->process = getpid();
    if (!enter(port)) {
        free(port);
        udfburn_note_as(UDFBURN_BUSY, "open", EBUSY);
        return UDFBURN_DEVICE;
    }
    /* Only now, since another thread may be in a call on the drive until then. */
    if ((number = drive->capacity(drive->context, &port->capacity)) != 0) {
        failed("drive.capacity", number);
        udfburn_release_port(port);
        return UDFBURN_DEVICE;
    }
    *made = port;
    return UDFBURN_OK;
}

int32_t udfburn_open_core(void *core, int32_t number) {
    return port_of(number) ? udfburn_core_open_drive(core, number) : udfburn_core_open_fd(core, number);
}

/* The address after the last block, as the drive gives it. */
static int ask_next(const struct udfburn_port *port, uint32_t *address) {
    int32_t number = port->drive.next(port->drive.context, address);
    if (number != 0) return failed("drive.next", number);
    return *address > port->capacity ? failed("drive.next", ERANGE) : 0;
}

int udfburn_next_of(const struct udfburn_port *port, uint32_t *address) {
    if (port->end == 0) return ask_next(port, address);
    *address = port->end;
    return 0;
}

/* ---- The calls ---- */

/* What the system returned, which is noted if it is a failure that is not tried again. */
static ssize_t noted(const char *call, ssize_t returned) {
    if (returned < 0 && errno != EINTR) udfburn_note(call, errno);
    return returned;
}

/* Of `count` bytes from `offset` on: the blocks that they are. */
static int blocks_of(size_t count, off_t offset, uint32_t *address, uint32_t *blocks) {
    if (offset < 0 || offset % UDFBURN_BLOCK != 0 || count % UDFBURN_BLOCK != 0 || offset / UDFBURN_BLOCK > UINT32_MAX
        || count / UDFBURN_BLOCK > UINT32_MAX)
        return failed("drive", EINVAL);
    *address = (uint32_t)(offset / UDFBURN_BLOCK);
    *blocks = (uint32_t)(count / UDFBURN_BLOCK);
    return 0;
}

ssize_t udfburn_port_pread(int number, void *into, size_t count, off_t offset);
ssize_t udfburn_port_pread(int number, void *into, size_t count, off_t offset) {
    const struct udfburn_port *port = port_of(number);
    uint32_t address, blocks, next;
    int32_t outcome;
    if (!port) {
        ssize_t done = noted("pread", pread(number, into, count, offset));
        if (done == 0 && count > 0) udfburn_note("pread", ENODATA);
        return done;
    }
    if (blocks_of(count, offset, &address, &blocks) || udfburn_next_of(port, &next)) return -1;
    if (address > next || blocks > next - address) return failed("drive.next", ENODATA);
    outcome = port->drive.read(port->drive.context, address, blocks, into);
    return outcome != 0 ? failed("drive.read", outcome) : (ssize_t)count;
}

int32_t udfburn_read_exact(int32_t number, uint32_t address, uint32_t count, void *blocks) {
    size_t done = 0, length = (size_t)count * UDFBURN_BLOCK;
    off_t offset = (off_t)address * UDFBURN_BLOCK;
    while (done < length) {
        ssize_t part = udfburn_port_pread(number, (char *)blocks + done, length - done, offset + (off_t)done);
        if (part > 0) done += (size_t)part;
        else if (part == 0 || errno != EINTR) return EIO;
    }
    return 0;
}

/* Whether a drive gives what was just written there. */
static int is_there(const struct udfburn_port *port, uint32_t address, uint32_t count, const uint8_t *written) {
    uint8_t found[UDFBURN_BLOCK];
    for (uint32_t i = 0; i < count; i++) {
        int32_t outcome = port->drive.read(port->drive.context, address + i, 1, found);
        if (outcome != 0) return failed("drive.read", outcome);
        if (memcmp(found, written + (size_t)i * UDFBURN_BLOCK, sizeof found)) return failed("drive.verify", EIO);
    }
    return 0;
}

/* Whether a function of the drive was divided by fork(), and this is the child: only the parent goes on with the call. */
static int is_child(const struct udfburn_port *port) {
    if (port->process == getpid()) return 0;
    udfburn_note_as(UDFBURN_MISUSE, "drive.write", EPERM);
    errno = EIO;
    return 1;
}

ssize_t udfburn_port_pwrite(int number, const void *from, size_t count, off_t offset);
ssize_t udfburn_port_pwrite(int number, const void *from, size_t count, off_t offset) {
    struct udfburn_port *port = port_of(number);
    uint32_t address, blocks, next;
    int32_t outcome;
    if (!port) return noted("pwrite", pwrite(number, from, count, offset));
    if (blocks_of(count, offset, &address, &blocks) || ask_next(port, &next)) return -1;
    /* No address is written twice, whatever became of the drive meanwhile. */
    if (address != next || blocks > port->capacity - next) return failed("drive.next", ERANGE);
    if (is_child(port)) return -1;
    outcome = port->drive.write(port->drive.context, address, blocks, from);
    if (is_child(port)) return -1;
    if (outcome != 0) return failed("drive.write", outcome);
    if (ask_next(port, &next)) return -1;
    /* A drive that does not have what it took has not kept it. */
    if (next < address + blocks) return failed("drive.next", ERANGE);
    if (port->verifies && is_there(port, address, blocks, from)) return -1;
    /* The core takes what it writes for the end. It learns the other one when its volume is opened again. */
    if (next > address + blocks) port->end = address + blocks;
    return (ssize_t)count;
}

/* What was written is durable already. */
int udfburn_port_fsync(int number);
int udfburn_port_fsync(int number) { return port_of(number) ? 0 : (int)noted("fsync", fsync(number)); }

/* Nothing is cut off a medium that is written once. To cut it to what it has succeeds. */
int udfburn_port_ftruncate(int number, off_t length);
int udfburn_port_ftruncate(int number, off_t length) {
    const struct udfburn_port *port = port_of(number);
    uint32_t next;
    if (!port) return (int)noted("ftruncate", ftruncate(number, length));
    if (udfburn_next_of(port, &next)) return -1;
    return (off_t)next * UDFBURN_BLOCK == length ? 0 : failed("drive.write", EROFS);
}

off_t udfburn_port_lseek(int number, off_t offset, int whence);
off_t udfburn_port_lseek(int number, off_t offset, int whence) {
    const struct udfburn_port *port = port_of(number);
    uint32_t next;
    if (!port) return noted("lseek", lseek(number, offset, whence));
    if (whence != SEEK_END || offset != 0) return failed("drive", EINVAL);
    return udfburn_next_of(port, &next) ? -1 : (off_t)next * UDFBURN_BLOCK;
}

/* A drive is open once, which `enter` sees to. */
int udfburn_port_flock(int number, int operation);
int udfburn_port_flock(int number, int operation) {
    if (port_of(number)) return 0;
    int status = flock(number, operation);
    if (status == 0) udfburn_note_lock(number);
    else if (errno == EWOULDBLOCK) udfburn_note_as(UDFBURN_BUSY, "flock", errno);
    else udfburn_note("flock", errno);
    return status;
}

int udfburn_port_posix_fadvise(int number, off_t offset, off_t length, int advice);
int udfburn_port_posix_fadvise(int number, off_t offset, off_t length, int advice) {
    if (port_of(number)) return 0;
    int error = posix_fadvise(number, offset, length, advice);
    /* The other advice is a hint, whose result nobody looks at. */
    if (error != 0 && advice == POSIX_FADV_DONTNEED) udfburn_note("posix_fadvise", error);
    return error;
}

/* The port is released with its handle. The lock of a file is given up by itself, since a child may have the same one. */
int udfburn_port_close(int number);
int udfburn_port_close(int number) {
    if (port_of(number)) return 0;
    if (udfburn_gives_up(number)) flock(number, LOCK_UN);
    return close(number);
}
