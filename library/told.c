/* The calls of udfburn.h that say what a volume is, and how it came to be. SPDX-License-Identifier: MIT OR Apache-2.0 */
#include "internal.h"

#include <string.h>

static int32_t tell_status(udfburn *handle, struct udfburn_status *status) {
    struct udfburn_core_status found;
    if (!status) return UDFBURN_ARGUMENT;
    if (udfburn_check_file(handle) != UDFBURN_OK) return UDFBURN_DEVICE;
    int32_t outcome = udfburn_core_status(handle->core, &found);
    if (outcome != UDFBURN_OK) return outcome;
    if (found.label_length >= sizeof status->label) return UDFBURN_VOLUME;
    status->moment = found.moment;
    status->capacity = found.capacity;
    /* A file may be longer than its volume: what is beyond the capacity is none of it. */
    status->next = found.next < found.capacity ? found.next : found.capacity;
    status->commits = found.commits;
    status->files = found.files;
    status->directories = found.directories;
    status->clients = found.clients;
    memset(status->label, 0, sizeof status->label);
    memcpy(status->label, found.label, found.label_length);
    return UDFBURN_OK;
}

int32_t udfburn_status(udfburn *handle, struct udfburn_status *status) {
    struct udfburn_call call;
    int32_t outcome = udfburn_enter(&call, handle);
    return outcome == UDFBURN_OK ? udfburn_leave(&call, tell_status(handle, status)) : outcome;
}

static int32_t tell_commit(udfburn *handle, struct udfburn_commit *commit) {
    struct udfburn_core_commit found;
    if (!commit) return UDFBURN_ARGUMENT;
    if (udfburn_check_file(handle) != UDFBURN_OK) return UDFBURN_DEVICE;
    int32_t outcome = udfburn_core_log(handle->core, commit->address, &found);
    if (outcome != UDFBURN_OK) return outcome;
    commit->moment = found.moment;
    commit->number = found.number;
    commit->address = found.address;
    commit->files = found.files;
    commit->directories = found.directories;
    return UDFBURN_OK;
}

int32_t udfburn_log(udfburn *handle, struct udfburn_commit *commit) {
    struct udfburn_call call;
    int32_t outcome = udfburn_enter(&call, handle);
    return outcome == UDFBURN_OK ? udfburn_leave(&call, tell_commit(handle, commit)) : outcome;
}

/* ---- The same, and more ---- */

static int32_t describe(udfburn *handle, struct udfburn_volume *volume) {
    struct udfburn_volume told;
    struct udfburn_core_status status;
    struct udfburn_core_commit newest;
    if (!volume || !udfburn_has_room(volume->size, sizeof told)) return UDFBURN_ARGUMENT;
    if (udfburn_check_file(handle) != UDFBURN_OK) return UDFBURN_DEVICE;
    int32_t outcome = udfburn_core_status(handle->core, &status);
    if (outcome == UDFBURN_OK) outcome = udfburn_core_log(handle->core, 0, &newest);
    if (outcome == UDFBURN_OK) outcome = udfburn_identify(handle);
    if (outcome == UDFBURN_OK && status.label_length >= sizeof told.label) outcome = UDFBURN_VOLUME;
    if (outcome != UDFBURN_OK) return outcome;
    memset(&told, 0, sizeof told);
    told.size = volume->size;
    told.identity = handle->identity;
    told.moment = status.moment;
    told.capacity = status.capacity;
    /* A file may be longer than its volume: what is beyond the capacity is none of it. */
    told.next = status.next < status.capacity ? status.next : status.capacity;
    told.unused = told.next > newest.address ? told.next - newest.address - 1 : 0;
    told.commits = status.commits;
    told.files = status.files;
    told.directories = status.directories;
    told.clients = status.clients;
    memcpy(told.label, status.label, status.label_length);
    udfburn_tell(volume, volume->size, &told, sizeof told);
    return UDFBURN_OK;
}

int32_t udfburn_describe(udfburn *handle, struct udfburn_volume *volume) {
    struct udfburn_call call;
    int32_t outcome = udfburn_enter(&call, handle);
    return outcome == UDFBURN_OK ? udfburn_leave(&call, describe(handle, volume)) : outcome;
}

static int32_t expect(udfburn *handle, uint32_t commit) {
    struct udfburn_core_commit newest;
    if (handle->ended != UDFBURN_OK) return handle->ended;
    if (udfburn_check_file(handle) != UDFBURN_OK) return UDFBURN_DEVICE;
    int32_t outcome = udfburn_core_log(handle->core, 0, &newest);
    if (outcome != UDFBURN_OK || newest.number >= commit) return outcome;
    handle->ended = UDFBURN_OLDER;
    return UDFBURN_OLDER;
}

int32_t udfburn_expect(udfburn *handle, uint32_t commit) {
    struct udfburn_call call;
    int32_t outcome = udfburn_enter(&call, handle);
    return outcome == UDFBURN_OK ? udfburn_leave(&call, expect(handle, commit)) : outcome;
}
