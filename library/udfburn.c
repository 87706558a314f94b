/* The calls of udfburn.h on volumes and on streams of frames: they check their arguments, and call the core.
 * SPDX-License-Identifier: MIT OR Apache-2.0 */
#define _POSIX_C_SOURCE 200809L

#include "internal.h"

#include <errno.h>
#include <stdlib.h>
#include <string.h>
#include <unistd.h>

#ifndef UDFBURN_VERSION
#error "the build says the version"
#endif

const char *udfburn_version(void) { return UDFBURN_VERSION; }

/* ---- New volumes ---- */

static int32_t refused(int32_t fd, int32_t status) {
    if (fd >= 0) close(fd);
    return status;
}

/* What a new volume is made with. */
static int32_t check_words(const char *label, uint64_t moment, uint32_t capacity) {
    if (!label) return UDFBURN_ARGUMENT;
    if (capacity < UDFBURN_LEAST_CAPACITY || capacity > UDFBURN_GREATEST_CAPACITY) return UDFBURN_VOLUME;
    return moment < UDFBURN_MOMENT_LIMIT ? UDFBURN_OK : UDFBURN_VOLUME;
}

static int32_t format_fd(int32_t fd, const char *label, uint64_t moment, uint32_t capacity) {
    struct udfburn_file file;
    int32_t status = fd < 0 ? UDFBURN_ARGUMENT : check_words(label, moment, capacity);
    if (status != UDFBURN_OK) return refused(fd, status);
    fd = udfburn_move_up(fd);
    status = udfburn_enter_file(&file, fd, capacity);
    if (status != UDFBURN_OK) return refused(fd, status);
    status = udfburn_core_format_fd(fd, (const uint8_t *)label, strlen(label), moment, capacity);
    udfburn_leave_file(&file);
    return status;
}

int32_t udfburn_format_fd(int32_t fd, const char *label, uint64_t moment, uint32_t capacity) {
    struct udfburn_call call;
    udfburn_enter_without(&call, NULL);
    return udfburn_leave(&call, format_fd(fd, label, moment, capacity));
}

static int32_t format(const char *path, const char *label, uint64_t moment, uint32_t capacity) {
    struct udfburn_place place;
    int32_t status = path ? check_words(label, moment, capacity) : UDFBURN_ARGUMENT;
    if (status == UDFBURN_OK) status = udfburn_find_place(path, &place);
    if (status != UDFBURN_OK) return status;
    int fd = udfburn_open_or_make(&place);
    status = fd < 0 ? UDFBURN_DEVICE : udfburn_sync_folder(&place);
    close(place.folder);
    return status == UDFBURN_OK ? format_fd(fd, label, moment, capacity) : refused(fd, status);
}

int32_t udfburn_format(const char *path, const char *label, uint64_t moment, uint32_t capacity) {
    struct udfburn_call call;
    udfburn_enter_without(&call, path);
    return udfburn_leave(&call, format(path, label, moment, capacity));
}

/* ---- Handles ---- */

udfburn *udfburn_new_handle(void) {
    udfburn *handle = calloc(1, sizeof *handle);
    if (!handle) return NULL;
    udfburn_own(handle);
    handle->file.fd = handle->number = -1;
    if (udfburn_core_new(&handle->core) == UDFBURN_OK) return handle;
    free(handle);
    return NULL;
}

static int32_t give(udfburn *handle, int32_t status, udfburn **out) {
    if (status == UDFBURN_OK) *out = handle;
    else udfburn_close_in(handle);
    return status;
}

int32_t udfburn_open_number(udfburn *handle, int32_t number, udfburn **out) {
    handle->number = number;
    return give(handle, udfburn_open_core(handle->core, number), out);
}

static int32_t open_fd(int32_t fd, udfburn **out) {
    fd = udfburn_move_up(fd);
    udfburn *handle = udfburn_new_handle();
    int32_t status = handle ? udfburn_enter_file(&handle->file, fd, UDFBURN_GREATEST_CAPACITY) : UDFBURN_MEMORY;
    if (status == UDFBURN_OK) return udfburn_open_number(handle, fd, out);
    udfburn_close_in(handle);
    return refused(fd, status);
}

int32_t udfburn_open_fd(int32_t fd, udfburn **out) {
    struct udfburn_call call;
    if (out) *out = NULL;
    udfburn_enter_without(&call, NULL);
    return udfburn_leave(&call, fd < 0 || !out ? refused(fd, UDFBURN_ARGUMENT) : open_fd(fd, out));
}

static int32_t open_path(const char *path, udfburn **out) {
    struct udfburn_place place;
    int32_t status = udfburn_find_place(path, &place);
    if (status != UDFBURN_OK) return status;
    int fd = udfburn_open_regular(&place);
    udfburn *handle = NULL;
    status = fd < 0 ? UDFBURN_DEVICE : open_fd(fd, &handle);
    if (status == UDFBURN_OK) {
        handle->file.must_have_name = 1;
        udfburn_keep_path(handle, path);
        status = udfburn_check_file(handle) == UDFBURN_OK ? udfburn_sync_folder(&place) : UDFBURN_DEVICE;
    }
    close(place.folder);
    if (status == UDFBURN_OK) *out = handle;
    else udfburn_close_in(handle);
    return status;
}

int32_t udfburn_open(const char *path, udfburn **out) {
    struct udfburn_call call;
    if (out) *out = NULL;
    udfburn_enter_without(&call, path);
    return udfburn_leave(&call, path && out ? open_path(path, out) : UDFBURN_ARGUMENT);
}

static int32_t open_memory(const char *label, uint64_t moment, uint32_t capacity, udfburn **out) {
    int32_t status = out ? check_words(label, moment, capacity) : UDFBURN_ARGUMENT;
    if (status != UDFBURN_OK) return status;
    udfburn *handle = udfburn_new_handle();
    if (!handle) return UDFBURN_MEMORY;
    handle->in_memory = handle->is_identified = 1;
    handle->identity = moment;
    status = udfburn_core_open_memory(handle->core, (const uint8_t *)label, strlen(label), moment, capacity);
    /* A drive in memory fails where there is no more of it. */
    return give(handle, status == UDFBURN_DEVICE ? UDFBURN_MEMORY : status, out);
}

int32_t udfburn_open_memory(const char *label, uint64_t moment, uint32_t capacity, udfburn **out) {
    struct udfburn_call call;
    if (out) *out = NULL;
    udfburn_enter_without(&call, NULL);
    return udfburn_leave(&call, open_memory(label, moment, capacity, out));
}

/* The core's handle is a block of malloc. */
static void drop_core(void *core) {
    if (core) udfburn_core_end(core);
    free(core);
}

void udfburn_close_in(udfburn *handle) {
    if (!handle) return;
    udfburn_leave_file(&handle->file);
    drop_core(handle->core);
    if (handle->release) handle->release(handle->port);
    free(handle->kept);
    free(handle);
}

/* In a child: a call was on the handle when its parent was forked. Nobody ends that call here, so what it was changing stays as it is. */
static void abandon(udfburn *handle) {
    int fd = handle->file.fd;
    udfburn_leave_file(&handle->file);
    if (fd >= 0) close(fd);
    if (handle->release) handle->release(handle->port);
}

static void close_of_parent(udfburn *handle) {
    struct udfburn_call call;
    if (__atomic_exchange_n(&handle->is_busy, 1, __ATOMIC_ACQUIRE)) {
        abandon(handle);
        return;
    }
    /* The lock is the parent's, so it is not given up. */
    udfburn_enter_without(&call, NULL);
    udfburn_close_in(handle);
    udfburn_leave(&call, UDFBURN_OK);
}

void udfburn_close(udfburn *handle) {
    struct udfburn_call call;
    if (handle && !udfburn_is_own(handle)) close_of_parent(handle);
    else if (handle && udfburn_enter_lost(&call, handle) == UDFBURN_OK) {
        udfburn_drop_group(handle);
        /* The number may be that of another file by mistake, whose lock is not ours. */
        if (!udfburn_is_file(&handle->file)) call.locked = -1;
        call.handle = NULL;
        udfburn_close_in(handle);
        udfburn_leave(&call, UDFBURN_OK);
    }
}

int32_t udfburn_check_file(udfburn *handle) {
    if (!handle->lost && !udfburn_has_file(&handle->file)) {
        handle->lost = udfburn_is_file(&handle->file) ? ENOENT : EBADF;
        handle->ended = UDFBURN_DEVICE;
    }
    return handle->lost ? UDFBURN_DEVICE : UDFBURN_OK;
}

/* ---- Drives that go on further than the end of a commit ---- */

/* Takes the answers that wait in the core out of it. */
static int32_t keep_answers(udfburn *handle) {
    size_t kept = handle->kept_count - handle->kept_taken, count = udfburn_core_answered(handle->core);
    if (kept > 0) memmove(handle->kept, handle->kept + handle->kept_taken, kept);
    handle->kept_count = kept;
    handle->kept_taken = 0;
    if (count == 0) return UDFBURN_OK;
    uint8_t *room = realloc(handle->kept, kept + count);
    if (!room) return UDFBURN_MEMORY;
    handle->kept = room;
    handle->kept_count += udfburn_core_take(handle->core, room + kept, count);
    return UDFBURN_OK;
}

/* Another core on the drive, as it goes on now. UDFBURN_VOLUME: its volume does not have so many commits. */
static int32_t open_again(const udfburn *handle, uint32_t commits, void **core) {
    struct udfburn_core_status found;
    int32_t status = udfburn_core_new(core);
    if (status != UDFBURN_OK) *core = NULL;
    if (status == UDFBURN_OK) status = udfburn_core_open_drive(*core, handle->number);
    if (status == UDFBURN_OK) status = udfburn_core_status(*core, &found);
    return status == UDFBURN_OK && found.commits != commits ? UDFBURN_VOLUME : status;
}

int32_t udfburn_follow_drive(udfburn *handle) {
    struct udfburn_port *port = handle->port;
    struct udfburn_core_status told;
    void *core = NULL;
    if (!port || port->end == 0) return UDFBURN_OK;
    uint32_t end = port->end;
    int32_t status = udfburn_core_status(handle->core, &told);
    if (status == UDFBURN_OK) status = keep_answers(handle);
    if (status == UDFBURN_OK) {
        port->end = 0;
        status = open_again(handle, told.commits, &core);
        drop_core(status == UDFBURN_OK ? handle->core : core);
        if (status == UDFBURN_OK) handle->core = core;
        else port->end = end;
    }
    if (status == UDFBURN_OK || status == UDFBURN_MEMORY) return status;
    /* A commit that the drive does not give any more is not acknowledged. */
    udfburn_note("drive.next", EIO);
    handle->lost = EIO;
    return UDFBURN_DEVICE;
}

/* ---- Frames ---- */

/* Follows the frames of a stream through bytes that came, up to the end of the frame in which it is. Returns how many these are. */
static size_t follow(udfburn *handle, const uint8_t *bytes, size_t count) {
    size_t done = 0;
    while (done < count && handle->length_bytes < 4) handle->length |= (uint32_t)bytes[done++] << 8 * handle->length_bytes++;
    if (handle->length_bytes < 4) return done;
    size_t part = count - done < handle->length ? count - done : handle->length;
    handle->length -= (uint32_t)part;
    if (handle->length == 0) handle->length_bytes = 0;
    return done + part;
}

/* The same through all of them. */
static size_t follow_all(udfburn *handle, const uint8_t *bytes, size_t count) {
    size_t done = 0;
    while (done < count) done += follow(handle, bytes + done, count - done);
    return done;
}

int udfburn_between_frames(const udfburn *handle) {
    return handle->length_bytes == 0 && udfburn_answered_in(handle) == 0;
}

static int32_t answer_part(udfburn *handle, const uint8_t *bytes, size_t count) {
    struct udfburn_port *port = handle->port;
    if (port) port->answers = 1;
    int32_t status = udfburn_core_answer(handle->core, bytes, count);
    if (port) port->answers = 0;
    return status;
}

int32_t udfburn_answer_in(udfburn *handle, const void *bytes, size_t count) {
    const uint8_t *from = bytes;
    int32_t status = UDFBURN_OK;
    if (handle->group_lost != UDFBURN_OK) return handle->group_lost;
    if (handle->ended != UDFBURN_OK || udfburn_check_file(handle) != UDFBURN_OK) return handle->ended;
    /* To a drive one message after another, since it may go on elsewhere after each commit. */
    while (count > 0 && status == UDFBURN_OK) {
        size_t part = handle->port ? follow(handle, from, count) : follow_all(handle, from, count);
        status = answer_part(handle, from, part);
        if (status == UDFBURN_OK) status = udfburn_follow_drive(handle);
        from += part;
        count -= part;
    }
    /* Where the core took the open group back the stream goes on after the group. */
    if (status != UDFBURN_OK && handle->in_group && handle->file.fd >= 0)
        status = handle->group_lost = status == UDFBURN_DEVICE ? udfburn_why_lost() : status;
    else handle->ended = status;
    /* An answer is of no use where nobody can find the file any more. */
    return udfburn_check_file(handle) == UDFBURN_OK ? status : UDFBURN_DEVICE;
}

int32_t udfburn_answer(udfburn *handle, const void *bytes, size_t count) {
    struct udfburn_call call;
    int32_t status = udfburn_enter(&call, handle);
    if (status != UDFBURN_OK) return status;
    int is_wrong = (!bytes && count > 0) || count > PTRDIFF_MAX;
    if (handle->in_group) return udfburn_leave(&call, UDFBURN_MISUSE);
    return udfburn_leave(&call, is_wrong ? UDFBURN_ARGUMENT : udfburn_answer_in(handle, bytes, count));
}

static size_t kept_of(const udfburn *handle) { return handle->kept_count - handle->kept_taken; }

size_t udfburn_answered_in(const udfburn *handle) {
    return handle->lost ? 0 : kept_of(handle) + udfburn_core_answered(handle->core);
}

size_t udfburn_answered(const udfburn *handle) {
    struct udfburn_call call;
    /* The handle is not changed but for what says that a call is on it. */
    if (udfburn_enter(&call, (udfburn *)handle) != UDFBURN_OK) return 0;
    size_t count = udfburn_answered_in(handle);
    udfburn_leave(&call, UDFBURN_OK);
    return count;
}

size_t udfburn_take_in(udfburn *handle, void *into, size_t room) {
    size_t count = udfburn_answered_in(handle), kept = kept_of(handle);
    if (!into || room == 0 || count == 0) return 0;
    if (room > count) room = count;
    size_t first = room < kept ? room : kept;
    if (first > 0) memcpy(into, handle->kept + handle->kept_taken, first);
    handle->kept_taken += first;
    return first + (room > first ? udfburn_core_take(handle->core, (uint8_t *)into + first, room - first) : 0);
}

size_t udfburn_take(udfburn *handle, void *into, size_t room) {
    struct udfburn_call call;
    if (udfburn_enter(&call, handle) != UDFBURN_OK) return 0;
    size_t count = udfburn_take_in(handle, into, room);
    udfburn_leave(&call, UDFBURN_OK);
    return count;
}

/* ---- A volume in memory ---- */

int32_t udfburn_next_block(udfburn *handle, uint32_t *address, void *block) {
    struct udfburn_call call;
    int32_t status = udfburn_enter(&call, handle);
    if (status != UDFBURN_OK) return status;
    return udfburn_leave(&call, address && block ? udfburn_core_next_block(handle->core, address, block) : UDFBURN_ARGUMENT);
}

int32_t udfburn_took(udfburn *handle) {
    struct udfburn_call call;
    int32_t status = udfburn_enter(&call, handle);
    return status == UDFBURN_OK ? udfburn_leave(&call, udfburn_core_took(handle->core)) : status;
}
