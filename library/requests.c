/* The requests and queries of docs/PROTOCOL.md as calls of udfburn.h: each is one frame, and the one answer to it.
 * SPDX-License-Identifier: MIT OR Apache-2.0 */
#include "internal.h"

#include <stdbool.h>
#include <stdlib.h>
#include <string.h>

enum kind { CREATE = 1, REPLACE = 2, MAKE_DIRECTORY = 3, RENAME = 4, REMOVE = 5, APPEND = 6, GET = 16, LIST = 17, STAT = 18, READ = 19 };

/* Codes of answers. Up to LAST_RESULT they are results of committed requests. */
enum code {
    DONE = 0, LAST_RESULT = 10,
    STALE = 32, GAP = 33, CLIENTS_FULL = 34, FULL = 35, FAULT = 36, MEMORY = 37, MALFORMED = 38, DAMAGED = 39,
    DATA = 64, NAMES = 65, NODE = 66, NOT_FOUND = 96, IS_DIRECTORY = 97, NOT_DIRECTORY = 98, TOO_LONG = 99
};

/* The cause of a malformed message that is the fault of a path. */
enum { BAD_NAME = 55 };

enum {
    FIRST_REFUSAL = 32,                                                         /* the status of code 0 */
    MOST_NAMES = 255, LONGEST_NAME = 65535, PAYLOAD_LIMIT = 1114112,            /* of a path and a frame */
    LENGTH_BYTES = 4, CODE_BYTES = 2, NODE_BYTES = 17, NAME_HEAD = 3            /* of an answer */
};

/* A message before it is a frame. Queries have no request, only Rename has `to`. Create, Replace and Append have data, and Read
 * asks for `length` bytes; only Append and Read have an offset. */
struct message {
    enum kind kind;
    const struct udfburn_request *request;
    const char *path;
    const char *to;
    const void *data;
    size_t length;
    uint64_t offset;
};

/* An answer: `fields` is what follows its code. Short answers, such as those to requests, need no allocation. */
struct answer {
    uint16_t code;
    const uint8_t *fields;
    size_t length;
    uint8_t *allocated;
    uint8_t room[32];
};

/* ---- numbers */

static uint8_t *put_number(uint8_t *at, uint64_t value, size_t bytes) {
    for (size_t i = 0; i < bytes; i++) {
        *at++ = (uint8_t)(value >> (8 * i));
    }
    return at;
}

static uint64_t number_at(const uint8_t *at, size_t bytes) {
    uint64_t value = 0;
    for (size_t i = bytes; i > 0; i--) {
        value = value << 8 | at[i - 1];
    }
    return value;
}

/* ---- frames */

/* The bytes that a path takes in a frame. 0 for a text that is not a path: "/", or names with a slash before each. */
static size_t path_size(const char *path) {
    size_t size = 1, names = 0;
    if (path[0] == '/' && path[1] == 0) {
        return size;
    }
    while (*path == '/') {
        size_t length = strcspn(path + 1, "/");
        if (length == 0 || length > LONGEST_NAME || ++names > MOST_NAMES) {
            return 0;
        }
        size += 2 + length;
        path += 1 + length;
    }
    return *path == 0 && names > 0 ? size : 0;
}

static uint8_t *put_path(uint8_t *at, const char *path) {
    uint8_t *names = at++;
    *names = 0;
    while (path[0] == '/' && path[1] != 0) {
        size_t length = strcspn(path + 1, "/");
        at = put_number(at, length, 2);
        memcpy(at, path + 1, length);
        at += length;
        path += 1 + length;
        ++*names;
    }
    return at;
}

static bool has_data(const struct message *message) {
    return message->kind == CREATE || message->kind == REPLACE || message->kind == APPEND;
}

static bool has_offset(const struct message *message) {
    return message->kind == APPEND || message->kind == READ;
}

/* The bytes of a message's fields after its paths. */
static size_t tail_size(const struct message *message) {
    size_t numbers = (has_offset(message) ? 8 : 0) + (has_data(message) || message->kind == READ ? 4 : 0);
    return numbers + (has_data(message) ? message->length : 0);
}

/* The bytes of a message's payload. */
static int32_t payload_size(const struct message *message, size_t *size) {
    size_t path = path_size(message->path), to = message->to ? path_size(message->to) : 0;
    if (path == 0 || (message->to && to == 0)) {
        return UDFBURN_TEXT;
    }
    if (message->length > UDFBURN_FILE_LIMIT) {
        return UDFBURN_ARGUMENT;
    }
    *size = 1 + (message->request ? 24 : 0) + path + to + tail_size(message);
    /* No valid path needs more than a payload has room for beside the largest file. */
    return *size <= PAYLOAD_LIMIT ? UDFBURN_OK : UDFBURN_TEXT;
}

static void put_message(uint8_t *at, const struct message *message, size_t payload) {
    at = put_number(at, payload, LENGTH_BYTES);
    *at++ = (uint8_t)message->kind;
    if (message->request) {
        at = put_number(at, message->request->client, 8);
        at = put_number(at, message->request->number, 8);
        at = put_number(at, message->request->moment, 8);
    }
    at = put_path(at, message->path);
    if (message->to) {
        at = put_path(at, message->to);
    }
    if (has_offset(message)) {
        at = put_number(at, message->offset, 8);
    }
    if (has_data(message) || message->kind == READ) {
        at = put_number(at, message->length, 4);
    }
    if (has_data(message) && message->length > 0) {
        memcpy(at, message->data, message->length);
    }
}

/* ---- answers */

static void drop_answers(udfburn *handle) {
    uint8_t dropped[256];
    while (udfburn_take_in(handle, dropped, sizeof dropped) > 0) {
    }
}

/* Takes the one answer that waits. On failure the request may be committed all the same. */
static int32_t take_answer(udfburn *handle, struct answer *answer) {
    size_t waiting = udfburn_answered_in(handle);
    uint8_t *bytes = answer->room;
    if (waiting > sizeof answer->room) {
        bytes = answer->allocated = malloc(waiting);
        if (!bytes) {
            drop_answers(handle);
            return UDFBURN_MEMORY;
        }
    }
    size_t taken = udfburn_take_in(handle, bytes, waiting);
    if (taken < LENGTH_BYTES + CODE_BYTES || number_at(bytes, LENGTH_BYTES) != taken - LENGTH_BYTES) {
        return UDFBURN_DEVICE;
    }
    answer->code = (uint16_t)number_at(bytes + LENGTH_BYTES, CODE_BYTES);
    answer->fields = bytes + LENGTH_BYTES + CODE_BYTES;
    answer->length = taken - LENGTH_BYTES - CODE_BYTES;
    return UDFBURN_OK;
}

/* Whether the stream takes a frame: UDFBURN_OK, or why not. */
static int32_t ready(const udfburn *handle) {
    if (handle->ended != UDFBURN_OK) {
        return handle->ended;
    }
    return udfburn_between_frames(handle) ? UDFBURN_OK : UDFBURN_ARGUMENT;
}

/* Sends one message as one frame, and takes its answer, which `end_answer` frees. */
static int32_t exchange(udfburn *handle, const struct message *message, struct answer *answer) {
    size_t payload;
    answer->allocated = NULL;
    int32_t status = ready(handle);
    if (status == UDFBURN_OK) {
        status = payload_size(message, &payload);
    }
    if (status != UDFBURN_OK) {
        return status;
    }
    uint8_t *frame = malloc(LENGTH_BYTES + payload);
    if (!frame) {
        return UDFBURN_MEMORY;
    }
    put_message(frame, message, payload);
    status = udfburn_answer_in(handle, frame, LENGTH_BYTES + payload);
    free(frame);
    if (status != UDFBURN_OK) {
        drop_answers(handle);
        return status;
    }
    return take_answer(handle, answer);
}

static void end_answer(struct answer *answer) {
    free(answer->allocated);
}

static bool is_bad_name(const struct answer *answer) {
    return answer->length == 2 && number_at(answer->fields, 2) == BAD_NAME;
}

/* The status of an answer that is neither the result of a committed request nor what a query asked for. */
static int32_t refusal(const struct answer *answer) {
    switch (answer->code) {
    case STALE: return UDFBURN_STALE;
    case GAP: return UDFBURN_GAP;
    case CLIENTS_FULL: return UDFBURN_CLIENTS_FULL;
    case FULL: return UDFBURN_FULL;
    case FAULT: return UDFBURN_DEVICE;
    case MEMORY: return UDFBURN_MEMORY;
    case MALFORMED: return is_bad_name(answer) ? UDFBURN_TEXT : UDFBURN_ARGUMENT;
    case DAMAGED: return UDFBURN_VOLUME;
    case NOT_FOUND: return UDFBURN_NOT_FOUND;
    case IS_DIRECTORY: return UDFBURN_IS_DIRECTORY;
    case NOT_DIRECTORY: return UDFBURN_NOT_DIRECTORY;
    case TOO_LONG: return UDFBURN_TOO_LONG;
    default: return UDFBURN_DEVICE;
    }
}

/* ---- queries */

/* Asks one question. At UDFBURN_OK the answer has this code. The caller ends the answer in any case. */
static int32_t ask_message(udfburn *handle, const struct message *message, enum code expected, struct answer *answer) {
    int32_t status = exchange(handle, message, answer);
    if (status != UDFBURN_OK) {
        return status;
    }
    return answer->code == expected ? UDFBURN_OK : refusal(answer);
}

/* The same of a question about a path alone. */
static int32_t ask(udfburn *handle, enum kind kind, const char *path, enum code expected, struct answer *answer) {
    struct message message = {kind, NULL, path, NULL, NULL, 0, 0};
    return ask_message(handle, &message, expected, answer);
}

int32_t udfburn_look_at(udfburn *handle, const char *path, struct udfburn_node *node) {
    struct answer answer;
    int32_t status = ask(handle, STAT, path, NODE, &answer);
    if (status == UDFBURN_OK && answer.length != NODE_BYTES) {
        status = UDFBURN_DEVICE;
    }
    if (status == UDFBURN_OK) {
        node->kind = answer.fields[0];
        node->moment = number_at(answer.fields + 1, 8);
        node->size = number_at(answer.fields + 9, 8);
    }
    end_answer(&answer);
    return status;
}

int32_t udfburn_stat(udfburn *handle, const char *path, struct udfburn_node *node) {
    struct udfburn_call call;
    int32_t status = udfburn_enter(&call, handle);
    if (status != UDFBURN_OK) {
        return status;
    }
    return udfburn_leave(&call, path && node ? udfburn_look_at(handle, path, node) : UDFBURN_ARGUMENT);
}

/* The bytes of the file in an answer to Get or Read. */
static int32_t data_of(const struct answer *answer, const uint8_t **data, size_t *length) {
    if (answer->length < 4 || number_at(answer->fields, 4) != answer->length - 4) {
        return UDFBURN_DEVICE;
    }
    *data = answer->fields + 4;
    *length = answer->length - 4;
    return UDFBURN_OK;
}

static int32_t copy_file(udfburn *handle, const char *path, void *into, size_t room, size_t *length) {
    struct answer answer;
    const uint8_t *data;
    if (!path || (!into && room > 0) || !length) {
        return UDFBURN_ARGUMENT;
    }
    *length = 0;
    int32_t status = ask(handle, GET, path, DATA, &answer);
    if (status == UDFBURN_OK) {
        status = data_of(&answer, &data, length);
    }
    if (status == UDFBURN_OK && *length > room) {
        status = UDFBURN_ROOM;
    }
    if (status == UDFBURN_OK && *length > 0) {
        memcpy(into, data, *length);
    }
    end_answer(&answer);
    return status;
}

int32_t udfburn_get(udfburn *handle, const char *path, void *into, size_t room, size_t *length) {
    struct udfburn_call call;
    int32_t status = udfburn_enter(&call, handle);
    return status == UDFBURN_OK ? udfburn_leave(&call, copy_file(handle, path, into, room, length)) : status;
}

/* Reads up to `room` bytes of a file, at most UDFBURN_FILE_LIMIT: fewer at its end alone. */
static int32_t read_piece(udfburn *handle, const char *path, uint64_t offset, void *into, size_t room, size_t *length) {
    struct answer answer;
    const uint8_t *data;
    struct message message = {READ, NULL, path, NULL, NULL, room, offset};
    int32_t status = ask_message(handle, &message, DATA, &answer);
    if (status == UDFBURN_OK) {
        status = data_of(&answer, &data, length);
    }
    if (status == UDFBURN_OK && *length > room) {
        status = UDFBURN_DEVICE;
    }
    if (status == UDFBURN_OK && *length > 0) {
        memcpy(into, data, *length);
    }
    end_answer(&answer);
    return status;
}

int32_t udfburn_read_in(udfburn *handle, const char *path, uint64_t offset, void *into, size_t room, size_t *length) {
    uint8_t *at = into;
    size_t taken = 0, piece, count;
    if (!path || (!into && room > 0) || !length) {
        return UDFBURN_ARGUMENT;
    }
    *length = 0;
    do {
        piece = room - taken < UDFBURN_FILE_LIMIT ? room - taken : UDFBURN_FILE_LIMIT;
        int32_t status = read_piece(handle, path, offset + taken, at, piece, &count);
        if (status != UDFBURN_OK) {
            return status;
        }
        taken += count;
        at = count > 0 ? at + count : at;
    } while (count == piece && taken < room);
    *length = taken;
    return UDFBURN_OK;
}

int32_t udfburn_read(udfburn *handle, const char *path, uint64_t offset, void *into, size_t room, size_t *length) {
    struct udfburn_call call;
    if (length) {
        *length = 0;
    }
    int32_t status = udfburn_enter(&call, handle);
    return status == UDFBURN_OK ? udfburn_leave(&call, udfburn_read_in(handle, path, offset, into, room, length)) : status;
}

/* The bytes of all names in an answer to List, with a NUL after each. 0 if the names do not end with the answer. */
static size_t names_size(const struct answer *answer, size_t count) {
    size_t at = 2, size = 1;
    for (size_t i = 0; i < count; i++) {
        if (answer->length - at < NAME_HEAD) {
            return 0;
        }
        size_t length = (size_t)number_at(answer->fields + at + 1, 2);
        at += NAME_HEAD;
        if (answer->length - at < length) {
            return 0;
        }
        size += length + 1;
        at += length;
    }
    return at == answer->length ? size : 0;
}

static void put_names(const struct answer *answer, struct udfburn_name *names, size_t count) {
    const uint8_t *at = answer->fields + 2;
    char *text = (char *)(names + count);
    for (size_t i = 0; i < count; i++) {
        size_t length = (size_t)number_at(at + 1, 2);
        names[i].kind = at[0];
        names[i].name = text;
        memcpy(text, at + NAME_HEAD, length);
        text[length] = '\0';
        text += length + 1;
        at += NAME_HEAD + length;
    }
}

/* The names of an answer to List, in one block of memory: the structs, and their texts after them. */
static int32_t names_of(const struct answer *answer, struct udfburn_name **names, size_t *count) {
    if (answer->length < 2) {
        return UDFBURN_DEVICE;
    }
    size_t found = (size_t)number_at(answer->fields, 2), text = names_size(answer, found);
    if (text == 0) {
        return UDFBURN_DEVICE;
    }
    struct udfburn_name *made = malloc(found * sizeof *made + text);
    if (!made) {
        return UDFBURN_MEMORY;
    }
    put_names(answer, made, found);
    *names = made;
    *count = found;
    return UDFBURN_OK;
}

int32_t udfburn_list_in(udfburn *handle, const char *path, struct udfburn_name **names, size_t *count) {
    struct answer answer;
    int32_t status = ask(handle, LIST, path, NAMES, &answer);
    if (status == UDFBURN_OK) {
        status = names_of(&answer, names, count);
    }
    end_answer(&answer);
    return status;
}

int32_t udfburn_list(udfburn *handle, const char *path, struct udfburn_name **names, size_t *count) {
    struct udfburn_call call;
    if (names) {
        *names = NULL;
    }
    if (count) {
        *count = 0;
    }
    int32_t status = udfburn_enter(&call, handle);
    if (status != UDFBURN_OK) {
        return status;
    }
    return udfburn_leave(&call, path && names && count ? udfburn_list_in(handle, path, names, count) : UDFBURN_ARGUMENT);
}

void udfburn_free(void *memory) {
    free(memory);
}

/* ---- requests */

/* Whether the file has the bytes of the message at their place: UDFBURN_OK, UDFBURN_USED, or why it is not known. */
static int32_t same_bytes(udfburn *handle, const struct message *message) {
    struct answer answer;
    const uint8_t *data;
    size_t length;
    struct message piece = {READ, NULL, message->path, NULL, NULL, message->length, message->offset};
    int32_t status = ask_message(handle, &piece, DATA, &answer);
    if (status == UDFBURN_OK) {
        status = data_of(&answer, &data, &length);
    }
    if (status == UDFBURN_OK && (length != message->length || (length > 0 && memcmp(data, message->data, length)))) {
        status = UDFBURN_USED;
    }
    end_answer(&answer);
    return status;
}

int32_t udfburn_has_bytes(udfburn *handle, const char *path, uint64_t offset, const void *data, size_t length) {
    struct message message = {APPEND, NULL, path, NULL, data, length, offset};
    return same_bytes(handle, &message);
}

/* Whether a file has the bytes of the message, and may have got no others but by appends since. */
static int32_t confirm_file(udfburn *handle, const struct message *message, const struct udfburn_node *node) {
    uint64_t end = message->offset + message->length;
    bool has_grown = node->size > end && end > 0 && end % UDFBURN_FILE_LIMIT == 0;
    if (node->kind != UDFBURN_FILE || (node->size != end && !has_grown)) {
        return UDFBURN_USED;
    }
    if (!has_grown && node->moment != message->request->moment) {
        return UDFBURN_USED;
    }
    return same_bytes(handle, message);
}

/* Whether the tree shows that a repeated request is done. */
static int32_t confirm(udfburn *handle, const struct message *message) {
    struct udfburn_node node;
    const char *there = message->to ? message->to : message->path;
    const char *gone = message->kind == RENAME || message->kind == REMOVE ? message->path : NULL;
    int32_t status = gone ? udfburn_look_at(handle, gone, &node) : UDFBURN_NOT_FOUND;
    if (status != UDFBURN_NOT_FOUND) {
        return status == UDFBURN_OK ? UDFBURN_USED : status;
    }
    if (message->kind == REMOVE) {
        return UDFBURN_OK;
    }
    status = udfburn_look_at(handle, there, &node);
    if (status != UDFBURN_OK) {
        return status == UDFBURN_NOT_FOUND ? UDFBURN_USED : status;
    }
    if (message->kind == MAKE_DIRECTORY && node.kind != UDFBURN_DIRECTORY) {
        return UDFBURN_USED;
    }
    return has_data(message) ? confirm_file(handle, message, &node) : UDFBURN_OK;
}

/* The status of an answer to a request. `latest` is the client's latest number before it. */
static int32_t outcome(udfburn *handle, const struct message *message, const struct answer *answer, uint64_t latest,
                       struct udfburn_request *request) {
    if (answer->code > LAST_RESULT) {
        return refusal(answer);
    }
    if (answer->length != 4) {
        return UDFBURN_DEVICE;
    }
    request->commit = (uint32_t)number_at(answer->fields, 4);
    request->repeated = request->number <= latest;
    if (answer->code != DONE) {
        return FIRST_REFUSAL + answer->code;
    }
    return request->repeated ? confirm(handle, message) : UDFBURN_OK;
}

static int32_t last_number(udfburn *handle, uint64_t client, uint64_t *number) {
    if (client == 0 || !number) {
        return UDFBURN_ARGUMENT;
    }
    int32_t status = ready(handle);
    if (status == UDFBURN_OK) {
        status = udfburn_check_file(handle);
    }
    return status == UDFBURN_OK ? udfburn_core_last_number(handle->core, client, number) : status;
}

int32_t udfburn_last_number(udfburn *handle, uint64_t client, uint64_t *number) {
    struct udfburn_call call;
    int32_t status = udfburn_enter(&call, handle);
    return status == UDFBURN_OK ? udfburn_leave(&call, last_number(handle, client, number)) : status;
}

/* Clears what an earlier call left in a request. */
static void clear(struct udfburn_request *request) {
    if (request) {
        request->commit = 0;
        request->repeated = 0;
    }
}

/* Runs a request whose pointers were checked. */
static int32_t run_in(udfburn *handle, struct udfburn_request *request, struct message *message) {
    uint64_t latest;
    struct answer answer;
    if (request->moment >= UDFBURN_MOMENT_LIMIT) {
        return UDFBURN_ARGUMENT;
    }
    if (handle->is_read_only) {
        return UDFBURN_READ_ONLY;
    }
    int32_t status = ready(handle);
    if (status == UDFBURN_OK) {
        status = last_number(handle, request->client, &latest);
    }
    if (status != UDFBURN_OK) {
        return status;
    }
    if (request->number == 0) {
        request->number = latest + 1;
    }
    message->request = request;
    status = exchange(handle, message, &answer);
    if (status == UDFBURN_OK) {
        status = outcome(handle, message, &answer, latest, request);
    }
    end_answer(&answer);
    return status;
}

/* Runs a request, unless a pointer that it needs is missing. */
static int32_t run(udfburn *handle, struct udfburn_request *request, struct message *message, bool is_whole) {
    struct udfburn_call call;
    clear(request);
    int32_t status = udfburn_enter(&call, handle);
    if (status != UDFBURN_OK) {
        return status;
    }
    return udfburn_leave(&call, is_whole && request ? run_in(handle, request, message) : UDFBURN_ARGUMENT);
}

static int32_t run_on(udfburn *handle, struct udfburn_request *request, enum kind kind, const char *path,
                      const void *data, size_t length) {
    struct message message = {kind, NULL, path, NULL, data, length, 0};
    return run(handle, request, &message, path && (data || length == 0));
}

int32_t udfburn_create(udfburn *handle, struct udfburn_request *request, const char *path, const void *data,
                       size_t length) {
    return run_on(handle, request, CREATE, path, data, length);
}

int32_t udfburn_replace(udfburn *handle, struct udfburn_request *request, const char *path, const void *data,
                        size_t length) {
    return run_on(handle, request, REPLACE, path, data, length);
}

int32_t udfburn_append(udfburn *handle, struct udfburn_request *request, const char *path, uint64_t offset,
                       const void *data, size_t length) {
    struct message message = {APPEND, NULL, path, NULL, data, length, offset};
    return run(handle, request, &message, path && data && length > 0);
}

int32_t udfburn_mkdir(udfburn *handle, struct udfburn_request *request, const char *path) {
    return run_on(handle, request, MAKE_DIRECTORY, path, NULL, 0);
}

int32_t udfburn_remove(udfburn *handle, struct udfburn_request *request, const char *path) {
    return run_on(handle, request, REMOVE, path, NULL, 0);
}

int32_t udfburn_rename(udfburn *handle, struct udfburn_request *request, const char *from, const char *to) {
    struct message message = {RENAME, NULL, from, to, NULL, 0, 0};
    return run(handle, request, &message, from && to);
}

/* ---- requests from within another call */

int32_t udfburn_create_in(udfburn *handle, struct udfburn_request *request, const char *path, const void *data, size_t length) {
    struct message message = {CREATE, NULL, path, NULL, data, length, 0};
    return run_in(handle, request, &message);
}

int32_t udfburn_append_in(udfburn *handle, struct udfburn_request *request, const char *path, uint64_t offset, const void *data,
                          size_t length) {
    struct message message = {APPEND, NULL, path, NULL, data, length, offset};
    return run_in(handle, request, &message);
}

int32_t udfburn_rename_in(udfburn *handle, struct udfburn_request *request, const char *from, const char *to) {
    struct message message = {RENAME, NULL, from, to, NULL, 0, 0};
    return run_in(handle, request, &message);
}

int32_t udfburn_remove_in(udfburn *handle, struct udfburn_request *request, const char *path) {
    struct message message = {REMOVE, NULL, path, NULL, NULL, 0, 0};
    return run_in(handle, request, &message);
}

/* ---- names of statuses */

#define STATUS(status) case status: return #status

const char *udfburn_error_name(int32_t status) {
    switch (status) {
    STATUS(UDFBURN_OK);
    STATUS(UDFBURN_MEMORY);
    STATUS(UDFBURN_DEVICE);
    STATUS(UDFBURN_TOO_LONG);
    STATUS(UDFBURN_TEXT);
    STATUS(UDFBURN_VOLUME);
    STATUS(UDFBURN_ARGUMENT);
    STATUS(UDFBURN_NONE);
    STATUS(UDFBURN_MISUSE);
    STATUS(UDFBURN_BUSY);
    STATUS(UDFBURN_NO_IMAGE);
    STATUS(UDFBURN_NO_SPACE);
    STATUS(UDFBURN_READ_ONLY);
    STATUS(UDFBURN_OLDER);
    STATUS(UDFBURN_READER);
    STATUS(UDFBURN_NO_PARENT);
    STATUS(UDFBURN_NOT_FOUND);
    STATUS(UDFBURN_EXISTS);
    STATUS(UDFBURN_IS_DIRECTORY);
    STATUS(UDFBURN_NOT_EMPTY);
    STATUS(UDFBURN_INTO_ITSELF);
    STATUS(UDFBURN_ROOT);
    STATUS(UDFBURN_TOO_DEEP);
    STATUS(UDFBURN_DIRECTORY_FULL);
    STATUS(UDFBURN_TREE_FULL);
    STATUS(UDFBURN_NOT_DIRECTORY);
    STATUS(UDFBURN_STALE);
    STATUS(UDFBURN_GAP);
    STATUS(UDFBURN_CLIENTS_FULL);
    STATUS(UDFBURN_FULL);
    STATUS(UDFBURN_USED);
    STATUS(UDFBURN_ROOM);
    default: return "UDFBURN_UNKNOWN";
    }
}
