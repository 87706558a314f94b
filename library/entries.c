/* The names of a directory with what they name, in one call. SPDX-License-Identifier: MIT OR Apache-2.0 */
#include "internal.h"

#include <stdbool.h>
#include <stdlib.h>
#include <string.h>

/* What the names of a directory are, each in `stride` bytes, and their texts after them. */
static int32_t entries_of(udfburn *handle, const char *path, const struct udfburn_name *names, size_t count, size_t stride,
                          char *into) {
    struct udfburn_node node;
    char *text = into + count * stride;
    size_t length = strlen(path);
    char *whole = malloc(length + UDFBURN_NAME_LIMIT + 2);
    int32_t status = whole ? UDFBURN_OK : UDFBURN_MEMORY;
    for (size_t i = 0; i < count && status == UDFBURN_OK; i++) {
        struct udfburn_entry entry = {text, 0, 0, names[i].kind, 0};
        strcpy(whole, length == 1 ? "" : path);
        strcat(strcat(whole, "/"), names[i].name);
        status = udfburn_look_at(handle, whole, &node);
        if (status == UDFBURN_OK) {
            entry.size = node.size;
            entry.moment = node.moment;
            udfburn_tell(into + i * stride, stride, &entry, sizeof entry);
            strcpy(text, names[i].name);
            text += strlen(text) + 1;
        }
    }
    free(whole);
    return status;
}

static int32_t entries(udfburn *handle, const char *path, size_t stride, struct udfburn_entry **found, size_t *count) {
    struct udfburn_name *names;
    size_t number, text = 1;
    int32_t status = udfburn_list_in(handle, path, &names, &number);
    if (status != UDFBURN_OK) {
        return status;
    }
    for (size_t i = 0; i < number; i++) {
        text += strlen(names[i].name) + 1;
    }
    char *made = malloc(number * stride + text);
    status = made ? entries_of(handle, path, names, number, stride, made) : UDFBURN_MEMORY;
    free(names);
    if (status != UDFBURN_OK) {
        free(made);
        return status;
    }
    *found = (struct udfburn_entry *)(void *)made;
    *count = number;
    return UDFBURN_OK;
}

int32_t udfburn_entries(udfburn *handle, const char *path, size_t stride, struct udfburn_entry **found, size_t *count) {
    struct udfburn_call call;
    if (found) {
        *found = NULL;
    }
    if (count) {
        *count = 0;
    }
    int32_t status = udfburn_enter(&call, handle);
    if (status != UDFBURN_OK) {
        return status;
    }
    bool is_valid = path && found && count && udfburn_has_room(stride, sizeof **found) && stride % sizeof(void *) == 0;
    return udfburn_leave(&call, is_valid ? entries(handle, path, stride, found, count) : UDFBURN_ARGUMENT);
}
