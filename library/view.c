/* A part of a medium that is only read: its first blocks, up to the end of a commit. So are the volume as it was then, and the format
 * alone. It is a drive of the library's own. SPDX-License-Identifier: MIT OR Apache-2.0 */
#define _POSIX_C_SOURCE 200809L

#include "internal.h"

#include <errno.h>
#include <stdlib.h>
#include <string.h>
#include <sys/stat.h>
#include <unistd.h>

/* The blocks that a format writes. */
enum { FORMAT_BLOCKS = 262, TRIES = 5 };

/* What the functions of the drive work on. */
struct view {
    int32_t number;             /* of a file or a drive */
    int is_own;                 /* whether the number is a descriptor that goes with the view */
    uint32_t next;
};

static int32_t capacity_of(void *context, uint32_t *blocks) {
    (void)context;
    *blocks = UDFBURN_GREATEST_CAPACITY;
    return 0;
}

static int32_t next_of(void *context, uint32_t *address) {
    *address = ((const struct view *)context)->next;
    return 0;
}

static int32_t read_blocks(void *context, uint32_t address, uint32_t count, void *blocks) {
    const struct view *view = context;
    return udfburn_read_exact(view->number, address, count, blocks);
}

static int32_t write_nothing(void *context, uint32_t address, uint32_t count, const void *blocks) {
    (void)context, (void)address, (void)count, (void)blocks;
    return EROFS;
}

static void release(void *port) {
    struct view *view = ((struct udfburn_port *)port)->drive.context;
    if (view->is_own) close(view->number);
    udfburn_release_port(port);
    free(view);
}

/* A handle on the first blocks of a medium. The number is closed with it if it is its own, and also if it cannot be made. */
static int32_t open_view(int32_t number, int is_own, uint32_t next, udfburn **out) {
    struct view *view = calloc(1, sizeof *view);
    struct udfburn_port *port = NULL;
    udfburn *handle = view ? udfburn_new_handle() : NULL;
    int32_t status = handle ? UDFBURN_OK : UDFBURN_MEMORY;
    if (view) *view = (struct view){number, is_own, next};
    if (status == UDFBURN_OK) {
        const struct udfburn_drive drive = {view, capacity_of, next_of, read_blocks, write_nothing};
        status = udfburn_make_port(&drive, &port);
    }
    if (!port) {
        udfburn_close_in(handle);
        if (is_own) close(number);
        free(view);
        return status;
    }
    handle->port = port;
    handle->release = release;
    handle->is_read_only = 1;
    return udfburn_open_number(handle, port->number, out);
}

int32_t udfburn_identify(udfburn *handle) {
    udfburn *format = NULL;
    struct udfburn_core_status found;
    if (handle->is_identified) return UDFBURN_OK;
    int32_t status = open_view(handle->number, 0, FORMAT_BLOCKS, &format);
    if (status == UDFBURN_OK) status = udfburn_core_status(format->core, &found);
    /* A volume is read by its newest commit, also where its format is damaged. */
    if (status == UDFBURN_OK || status == UDFBURN_VOLUME) {
        handle->identity = status == UDFBURN_OK ? found.moment : UINT64_MAX;
        handle->is_identified = 1;
        status = UDFBURN_OK;
    }
    udfburn_close_in(format);
    return status;
}

/* The address of the block that ends this commit, by the log of a handle. */
static int32_t end_of(udfburn *handle, uint32_t commit, uint32_t *address) {
    struct udfburn_core_commit found = {0, 0, 0, 0, 0};
    do {
        int32_t status = udfburn_core_log(handle->core, found.address, &found);
        if (status != UDFBURN_OK) return status;
        if (commit != UDFBURN_NEWEST && commit > found.number) return UDFBURN_NONE;
    } while (commit != UDFBURN_NEWEST && commit != found.number);
    *address = found.address;
    return UDFBURN_OK;
}

/* ---- A group that is not settled ----
 *
 * While the core settles a group the file ends with its head: 280 bytes after the last whole block, which say where the group's marks are.
 * Where one of these is missing nothing of the group was answered. crates/settling/src/head.rt has the numbers. */

enum { MARKS_AT = 20, MOST_MARKS = 64, SUM_AT = MARKS_AT + 4 * MOST_MARKS, HEAD_BYTES = SUM_AT + 4 };

static uint32_t number_at(const uint8_t *head, size_t at) {
    return head[at] | (uint32_t)head[at + 1] << 8 | (uint32_t)head[at + 2] << 16 | (uint32_t)head[at + 3] << 24;
}

/* Whether these bytes are the head of a group in a file of so many blocks. Its marks are in order, and the last one is its last block. */
static int is_head(const uint8_t *head, uint32_t count) {
    uint32_t sum = 0x811C9DC5, from = number_at(head, 8), used = number_at(head, 16);
    for (size_t i = 0; i < SUM_AT; i++) sum = (sum ^ head[i]) * 0x01000193;
    int is_one = !memcmp(head, "UDFGROUP", 8) && number_at(head, SUM_AT) == sum && number_at(head, 12) == count && from > 0 && from <= count;
    if (!is_one || used > MOST_MARKS) return 0;
    for (uint32_t i = 0; i < used; i++) {
        uint32_t mark = number_at(head, MARKS_AT + 4 * (size_t)i);
        if (mark < from || mark >= count) return 0;
        from = mark + 1;
    }
    return from == count;
}

/* Leaves a group out of the blocks that count, where a mark of it is missing. Not 0 if a mark cannot be read. */
static int leave_out(int fd, const uint8_t *head, uint32_t *count) {
    static const uint8_t missing[UDFBURN_BLOCK];
    uint8_t block[UDFBURN_BLOCK];
    for (uint32_t i = 0; i < number_at(head, 16); i++) {
        if (udfburn_read_exact(fd, number_at(head, MARKS_AT + 4 * (size_t)i), 1, block)) return -1;
        if (!memcmp(block, missing, sizeof block)) {
            *count = number_at(head, 8);
            return 0;
        }
    }
    return 0;
}

/* How many blocks of a file of this size count. Not 0 if it cannot be read, or is not so long any more. */
static int count_blocks(int fd, off_t size, uint32_t *count) {
    uint8_t head[HEAD_BYTES];
    ssize_t done;
    *count = (uint32_t)(size / UDFBURN_BLOCK);
    if (size % UDFBURN_BLOCK != HEAD_BYTES) return 0;
    while ((done = pread(fd, head, sizeof head, size - HEAD_BYTES)) < 0 && errno == EINTR) {}
    if (done != HEAD_BYTES) {
        udfburn_note("pread", done < 0 ? errno : ENODATA);
        return -1;
    }
    return is_head(head, *count) ? leave_out(fd, head, count) : 0;
}

/* ---- What a file has ---- */

/* Opens what the file has now. The writer may cut a commit off meanwhile that failed. So the view ends with a commit in the end, and what
 * comes after it is not looked at any more. */
static int32_t open_once(int fd, uint32_t commit, udfburn **out) {
    struct stat found;
    uint32_t end, next;
    if (fstat(fd, &found)) return UDFBURN_DEVICE;
    if (found.st_size / UDFBURN_BLOCK > UDFBURN_GREATEST_CAPACITY) return UDFBURN_VOLUME;
    if (count_blocks(fd, found.st_size, &next)) return UDFBURN_DEVICE;
    int32_t status = open_view(fd, 0, next, out);
    if (status != UDFBURN_OK) return status;
    status = end_of(*out, commit, &end);
    udfburn_close_in(*out);
    *out = NULL;
    if (status != UDFBURN_OK) return status;
    int own = udfburn_duplicate(fd);
    return own < 0 ? UDFBURN_DEVICE : open_view(own, 1, end + 1, out);
}

static int32_t open_read(const char *path, uint32_t commit, udfburn **out) {
    struct udfburn_place place;
    int32_t status = udfburn_find_place(path, &place);
    if (status != UDFBURN_OK) return status;
    int fd = udfburn_open_to_read(&place);
    status = UDFBURN_DEVICE;
    close(place.folder);
    for (int i = 0; fd >= 0 && i < TRIES && status == UDFBURN_DEVICE; i++) status = open_once(fd, commit, out);
    if (fd >= 0) close(fd);
    if (status == UDFBURN_OK) udfburn_keep_path(*out, path);
    return status;
}

int32_t udfburn_open_read(const char *path, uint32_t commit, udfburn **out) {
    struct udfburn_call call;
    if (out) *out = NULL;
    udfburn_enter_without(&call, path);
    return udfburn_leave(&call, path && out ? open_read(path, commit, out) : UDFBURN_ARGUMENT);
}
