/* udfburn_put: what a reader gives becomes one file, piece by piece, under a name of its own in the root. Its last request gives it the
 * path that it was asked for. SPDX-License-Identifier: MIT OR Apache-2.0 */
#include "internal.h"

#include <errno.h>
#include <inttypes.h>
#include <stdio.h>
#include <stdlib.h>
#include <string.h>

enum { PIECE = UDFBURN_FILE_LIMIT, NAME_ROOM = 64 };

/* What a call works on. */
struct put {
    udfburn *handle;
    struct udfburn_request *request;
    const char *path;
    udfburn_reader reader;
    void *context;
    uint8_t *piece;             /* what the reader gave last */
    size_t length;              /* its bytes: PIECE, or fewer at the end of the stream */
    uint64_t offset;            /* of the piece */
    uint64_t begun;             /* bytes that the unfinished file has, of this call or of an earlier one; 0: there is none */
    char unfinished[NAME_ROOM];
    char former[NAME_ROOM];     /* an unfinished file whose beginning is copied to another one */
};

/* ---- The reader ---- */

/* Reads the piece at the offset. A reader may fork: in the child the volume is not written. */
static int32_t fill(struct put *put) {
    for (put->length = 0; put->length < PIECE;) {
        size_t room = PIECE - put->length;
        int64_t count = put->reader(put->context, put->offset + put->length, put->piece + put->length, room);
        if (!udfburn_is_own(put->handle)) return UDFBURN_MISUSE;
        if (count == 0) return UDFBURN_OK;
        if (count < 0 || (uint64_t)count > room) {
            udfburn_note_as(UDFBURN_READER, "reader", count > 0 ? EOVERFLOW : count < INT32_MIN ? INT32_MIN : (int32_t)count);
            return UDFBURN_READER;
        }
        put->length += (size_t)count;
    }
    return UDFBURN_OK;
}

/* ---- Requests ---- */

enum step { CREATE, APPEND, RENAME, REMOVE };

/* Sends one of the requests, with the client's next number. `to` is of a rename. */
static int32_t send(struct put *put, enum step step, const char *path, const char *to) {
    struct udfburn_request *request = put->request;
    request->number = 0;
    request->commit = 0;
    switch (step) {
    case CREATE: return udfburn_create_in(put->handle, request, path, put->piece, put->length);
    case APPEND: return udfburn_append_in(put->handle, request, path, put->offset, put->piece, put->length);
    case RENAME: return udfburn_rename_in(put->handle, request, path, to);
    default: return udfburn_remove_in(put->handle, request, path);
    }
}

/* Removes a file that is there. */
static int32_t remove_file(struct put *put, const char *path) {
    struct udfburn_node node;
    int32_t status = udfburn_look_at(put->handle, path, &node);
    if (status != UDFBURN_OK) return status == UDFBURN_NOT_FOUND ? UDFBURN_OK : status;
    return node.kind == UDFBURN_FILE ? send(put, REMOVE, path, NULL) : UDFBURN_IS_DIRECTORY;
}

static int32_t remove_unfinished(struct put *put) {
    int32_t status = remove_file(put, put->former);
    put->begun = 0;
    return status == UDFBURN_OK ? remove_file(put, put->unfinished) : status;
}

/* ---- What an earlier call left ---- */

/* Looks for an unfinished file. A former one has nothing that is needed any more. */
static int32_t find_begun(struct put *put) {
    struct udfburn_node node;
    int32_t status = remove_file(put, put->former);
    if (status == UDFBURN_OK) status = udfburn_look_at(put->handle, put->unfinished, &node);
    if (status == UDFBURN_NOT_FOUND) return UDFBURN_OK;
    if (status == UDFBURN_OK && node.kind != UDFBURN_FILE) return UDFBURN_IS_DIRECTORY;
    if (status == UDFBURN_OK) put->begun = node.size;
    return status == UDFBURN_OK && node.size == 0 ? remove_unfinished(put) : status;
}

/* Copies what comes before the offset to a new unfinished file. It is as the stream: it was compared. */
static int32_t copy_beginning(struct put *put) {
    uint64_t end = put->offset;
    size_t length = put->length;
    uint8_t *own = put->piece, *room = malloc(PIECE);
    int32_t status = room ? UDFBURN_OK : UDFBURN_MEMORY;
    put->piece = room;
    for (put->offset = 0; put->offset < end && status == UDFBURN_OK; put->offset += PIECE) {
        status = udfburn_read_in(put->handle, put->former, put->offset, room, PIECE, &put->length);
        if (status == UDFBURN_OK && put->length != PIECE) status = UDFBURN_VOLUME;
        if (status == UDFBURN_OK) status = send(put, put->offset == 0 ? CREATE : APPEND, put->unfinished, NULL);
    }
    free(room);
    put->piece = own;
    put->length = length;
    put->offset = end;
    return status;
}

/* The unfinished file does not go on as the stream does at the offset: another one has what comes before it. */
static int32_t begin_anew(struct put *put) {
    int32_t status = UDFBURN_OK;
    if (put->offset > 0) {
        status = send(put, RENAME, put->unfinished, put->former);
        if (status == UDFBURN_OK) status = copy_beginning(put);
    }
    if (status == UDFBURN_OK) status = remove_file(put, put->offset > 0 ? put->former : put->unfinished);
    put->begun = put->offset;
    return status;
}

/* ---- Pieces ---- */

/* Whether the bytes of a file of this size at the offset are those of the piece: UDFBURN_OK, UDFBURN_USED, or why it is not known. */
static int32_t is_there(struct put *put, const char *path, uint64_t size) {
    uint64_t rest = size > put->offset ? size - put->offset : 0;
    if (put->length != (rest < PIECE ? rest : PIECE)) return UDFBURN_USED;
    return put->length > 0 ? udfburn_has_bytes(put->handle, path, put->offset, put->piece, put->length) : UDFBURN_OK;
}

/* Has the piece in the unfinished file. */
static int32_t store_piece(struct put *put) {
    if (put->begun > put->offset) {
        int32_t status = is_there(put, put->unfinished, put->begun);
        if (status == UDFBURN_USED) status = begin_anew(put);
        if (status != UDFBURN_OK || put->begun > put->offset) return status;
    }
    if (put->length == 0) return UDFBURN_OK;
    if (put->offset >= UDFBURN_GREATEST_FILE) return UDFBURN_TOO_LONG;
    int32_t status = send(put, put->offset == 0 ? CREATE : APPEND, put->unfinished, NULL);
    if (status == UDFBURN_OK) put->begun = put->offset + put->length;
    return status;
}

/* Stores a stream by its pieces, the first of which was read. */
static int32_t store_pieces(struct put *put) {
    int32_t status = find_begun(put);
    if (status == UDFBURN_OK) status = store_piece(put);
    while (status == UDFBURN_OK && put->length == PIECE) {
        put->offset += PIECE;
        status = fill(put);
        if (status == UDFBURN_OK) status = store_piece(put);
    }
    if (status == UDFBURN_OK) status = send(put, RENAME, put->unfinished, put->path);
    /* It never gets whole on this volume. What the reader is told is why, whatever becomes of the removal. */
    if (status == UDFBURN_FULL || status == UDFBURN_TOO_LONG) remove_unfinished(put);
    return status;
}

/* Stores a stream that is shorter than a piece: one request does it. */
static int32_t store_short(struct put *put) {
    int32_t status = remove_unfinished(put);
    return status == UDFBURN_OK ? send(put, CREATE, put->path, NULL) : status;
}

/* A file is there already: it stays, whether it has the bytes of the stream or others. */
static int32_t compare(struct put *put, uint64_t size) {
    struct udfburn_core_commit newest;
    int32_t status;
    for (;; put->offset += PIECE) {
        status = fill(put);
        if (status == UDFBURN_OK) status = is_there(put, put->path, size);
        if (status != UDFBURN_OK) return status == UDFBURN_USED ? UDFBURN_EXISTS : status;
        if (put->length < PIECE) break;
    }
    status = udfburn_core_log(put->handle->core, 0, &newest);
    if (status == UDFBURN_OK) {
        put->request->commit = newest.number;
        put->request->repeated = 1;
    }
    return status;
}

/* ---- The call ---- */

static int32_t store(struct put *put) {
    struct udfburn_node node;
    int32_t status = udfburn_look_at(put->handle, put->path, &node);
    if (status == UDFBURN_OK) return node.kind == UDFBURN_FILE ? compare(put, node.size) : UDFBURN_EXISTS;
    /* No byte is read for a path that no file can have. */
    status = udfburn_room_in(put->handle, put->path, 0);
    if (status == UDFBURN_OK) status = fill(put);
    if (status != UDFBURN_OK) return status;
    return put->length < PIECE ? store_short(put) : store_pieces(put);
}

static int32_t put_in(struct put *put) {
    const struct udfburn_request *request = put->request;
    static const char beginning[] = "/" UDFBURN_UNFINISHED;
    if (!request || !put->path || !put->reader || request->client == 0 || request->moment >= UDFBURN_MOMENT_LIMIT) return UDFBURN_ARGUMENT;
    /* The blocks of each request are taken before the next one. */
    if (put->handle->in_memory || !strncmp(put->path, beginning, sizeof beginning - 1)) return UDFBURN_ARGUMENT;
    if (put->handle->is_read_only) return UDFBURN_READ_ONLY;
    snprintf(put->unfinished, sizeof put->unfinished, "%s%016" PRIx64, beginning, request->client);
    snprintf(put->former, sizeof put->former, "%s-former", put->unfinished);
    put->piece = malloc(PIECE);
    int32_t status = put->piece ? store(put) : UDFBURN_MEMORY;
    free(put->piece);
    return status;
}

int32_t udfburn_put(udfburn *handle, struct udfburn_request *request, const char *path, udfburn_reader reader, void *context) {
    struct udfburn_call call;
    struct put put = {handle, request, path, reader, context, NULL, 0, 0, 0, "", ""};
    int32_t status = udfburn_enter(&call, handle);
    if (request) {
        request->number = 0;
        request->commit = request->repeated = 0;
    }
    if (status != UDFBURN_OK) return status;
    status = udfburn_leave(&call, put_in(&put));
    /* The commits of its other requests say nothing to the caller. */
    if (status != UDFBURN_OK && request) request->commit = 0;
    return status;
}
