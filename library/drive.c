/* A drive of the caller's own: the calls of udfburn.h on it. Its functions are called by port.c.
 * SPDX-License-Identifier: MIT OR Apache-2.0 */
#include "internal.h"

#include <stdlib.h>
#include <string.h>

static int is_whole(const struct udfburn_drive *drive) {
    return drive && drive->capacity && drive->next && drive->read && drive->write;
}

/* UDFBURN_VOLUME where more is written than a volume may have. */
static int32_t check_length(const struct udfburn_port *port) {
    uint32_t next;
    if (udfburn_next_of(port, &next)) return UDFBURN_DEVICE;
    return next > UDFBURN_GREATEST_CAPACITY ? UDFBURN_VOLUME : UDFBURN_OK;
}

/* Whether a drive has the volume that this format makes, with no commit yet. One that is written in packets may have copies of its VAT ICB. */
static int32_t has_format(const struct udfburn_port *port, const char *label, uint64_t moment, uint32_t capacity) {
    struct udfburn_core_status found;
    void *core = NULL;
    int32_t status = udfburn_core_new(&core);
    if (status != UDFBURN_OK) return status;
    status = udfburn_core_open_drive(core, port->number);
    if (status == UDFBURN_OK) status = udfburn_core_status(core, &found);
    udfburn_core_end(core);
    free(core);
    if (status != UDFBURN_OK) return status;
    int is_same = found.commits == 0 && found.moment == moment && found.capacity == capacity && found.label_length == strlen(label)
        && !memcmp(found.label, label, found.label_length);
    return is_same ? UDFBURN_OK : UDFBURN_VOLUME;
}

int32_t udfburn_format_drive_in(const struct udfburn_drive *drive, const char *label, uint64_t moment) {
    struct udfburn_port *port;
    int32_t status = udfburn_make_port(drive, &port);
    if (status != UDFBURN_OK) return status;
    uint32_t capacity = port->capacity < UDFBURN_GREATEST_CAPACITY ? port->capacity : UDFBURN_GREATEST_CAPACITY;
    if (capacity < UDFBURN_LEAST_CAPACITY || moment >= UDFBURN_MOMENT_LIMIT) status = UDFBURN_VOLUME;
    if (status == UDFBURN_OK) status = check_length(port);
    if (status == UDFBURN_OK) {
        status = udfburn_core_format_fd(port->number, (const uint8_t *)label, strlen(label), moment, capacity);
        if (status == UDFBURN_VOLUME) status = has_format(port, label, moment, capacity);
    }
    udfburn_release_port(port);
    return status;
}

int32_t udfburn_format_drive(const struct udfburn_drive *drive, const char *label, uint64_t moment) {
    struct udfburn_call call;
    udfburn_enter_without(&call, NULL);
    return udfburn_leave(&call, is_whole(drive) && label ? udfburn_format_drive_in(drive, label, moment) : UDFBURN_ARGUMENT);
}

int32_t udfburn_open_drive_in(const struct udfburn_drive *drive, uint32_t flags, udfburn **out) {
    struct udfburn_port *port;
    int32_t status = udfburn_make_port(drive, &port);
    if (status != UDFBURN_OK) return status;
    port->verifies = (flags & UDFBURN_VERIFY) != 0;
    udfburn *handle = udfburn_new_handle();
    status = handle ? check_length(port) : UDFBURN_MEMORY;
    if (status == UDFBURN_OK) status = udfburn_open_number(handle, port->number, out);
    else udfburn_close_in(handle);
    if (status == UDFBURN_OK) {
        (*out)->port = port;
        (*out)->release = udfburn_release_port;
    } else {
        udfburn_release_port(port);
    }
    return status;
}

int32_t udfburn_open_drive_with(const struct udfburn_drive *drive, uint32_t flags, udfburn **out) {
    struct udfburn_call call;
    if (out) *out = NULL;
    udfburn_enter_without(&call, NULL);
    int is_valid = is_whole(drive) && out && !(flags & ~(uint32_t)UDFBURN_VERIFY);
    return udfburn_leave(&call, is_valid ? udfburn_open_drive_in(drive, flags, out) : UDFBURN_ARGUMENT);
}

int32_t udfburn_open_drive(const struct udfburn_drive *drive, udfburn **out) {
    return udfburn_open_drive_with(drive, 0, out);
}
