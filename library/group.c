/* The calls of udfburn.h by which requests are a group: on a file the disk has them when the group is settled.
 * SPDX-License-Identifier: MIT OR Apache-2.0 */
#include "internal.h"

static int32_t begin(udfburn *handle) {
    if (handle->in_group) return UDFBURN_MISUSE;
    if (handle->is_read_only) return UDFBURN_READ_ONLY;
    if (handle->ended != UDFBURN_OK) return handle->ended;
    if (!udfburn_between_frames(handle)) return UDFBURN_ARGUMENT;
    if (udfburn_check_file(handle) != UDFBURN_OK) return UDFBURN_DEVICE;
    /* Where writes are in order, on a drive or in memory, this changes nothing. */
    udfburn_core_begin(handle->core);
    handle->in_group = 1;
    return UDFBURN_OK;
}

int32_t udfburn_begin(udfburn *handle) {
    struct udfburn_call call;
    int32_t status = udfburn_enter(&call, handle);
    return status == UDFBURN_OK ? udfburn_leave(&call, begin(handle)) : status;
}

/* Another file may have got the descriptor by mistake: nothing is cut off that one. */
void udfburn_drop_group(udfburn *handle) {
    if (handle->in_group && udfburn_is_file(&handle->file)) udfburn_core_take_back(handle->core);
    handle->in_group = 0;
}

static int32_t settle(udfburn *handle) {
    int32_t lost = handle->group_lost;
    if (!handle->in_group) return UDFBURN_MISUSE;
    handle->group_lost = UDFBURN_OK;
    if (lost != UDFBURN_OK) {
        handle->in_group = 0;
        if (handle->why.call) udfburn_note_as(lost, handle->why.call, handle->why.error);
        return lost;
    }
    if (handle->ended != UDFBURN_OK || udfburn_check_file(handle) != UDFBURN_OK) {
        udfburn_drop_group(handle);
        return handle->ended;
    }
    handle->in_group = 0;
    int32_t status = udfburn_core_settle(handle->core);
    if (status == UDFBURN_DEVICE) status = udfburn_why_lost();
    /* It is of no use where nobody can find the file any more. */
    return udfburn_check_file(handle) == UDFBURN_OK ? status : UDFBURN_DEVICE;
}

int32_t udfburn_settle(udfburn *handle) {
    struct udfburn_call call;
    int32_t status = udfburn_enter_lost(&call, handle);
    return status == UDFBURN_OK ? udfburn_leave(&call, settle(handle)) : status;
}
