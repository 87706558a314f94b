/* Whether a file fits: what its commit may take, as the core computes it before it writes. docs/FORMAT.md has the layout.
 * SPDX-License-Identifier: MIT OR Apache-2.0 */
#include "internal.h"

#include <string.h>

enum {
    INSIDE = 1872,              /* bytes of a file that is in its entry */
    PARENT = 40, IDENTIFIER = 38, LEAST_FILLED = 1720,          /* bytes of a directory's identifiers */
    TABLE_HEAD = 196, RECORD = 48, ADDRESS = 4,                 /* bytes of a table */
    PARTITION = 257,
    IN_ENTRY = 117, IN_BLOCK = 125,     /* extents of a file that its entry has room for, and how many more with each descriptor block */
    FILLED = 34                 /* blocks after a commit by which a packet is filled up: to 32 of them, with three copies at least */
};

static uint64_t blocks_for(uint64_t bytes) { return (bytes + UDFBURN_BLOCK - 1) / UDFBURN_BLOCK; }

/* The descriptor blocks that an append writes which leaves a file of so many bytes. */
static uint64_t descriptor_blocks(uint64_t size) {
    uint64_t extents = (size + UDFBURN_FILE_LIMIT - 1) / UDFBURN_FILE_LIMIT;
    return extents > IN_ENTRY ? (extents - IN_ENTRY + IN_BLOCK - 1) / IN_BLOCK : 0;
}

/* The bytes of a directory's identifier of this name: one byte for each character, or two where one is above U+00FF. */
static uint64_t identifier_size(const char *name) {
    uint64_t characters = 0, width = 1;
    for (const unsigned char *at = (const unsigned char *)name; *at; at++) {
        if ((*at & 0xC0) != 0x80) characters++;
        /* The first byte of one above U+00FF. */
        if (*at > 0xC3) width = 2;
    }
    return (IDENTIFIER + 1 + width * characters + 3) / 4 * 4;
}

static uint64_t number_at(const uint8_t *at, int bytes) {
    uint64_t value = 0;
    while (bytes > 0) value = value << 8 | at[--bytes];
    return value;
}

/* How many addresses the newest table has, by its entry and its head. In memory no block can be looked at, so it is the most that it can
 * have after so many commits. */
static int32_t addresses_of(udfburn *handle, const struct udfburn_core_status *status, uint64_t *addresses) {
    struct udfburn_core_commit newest;
    uint8_t block[UDFBURN_BLOCK];
    if (handle->number < 0) {
        *addresses = 2 + (uint64_t)status->commits;
        return UDFBURN_OK;
    }
    int32_t outcome = udfburn_core_log(handle->core, 0, &newest);
    if (outcome != UDFBURN_OK) return outcome;
    if (udfburn_read_exact(handle->number, newest.address, 1, block)) return UDFBURN_DEVICE;
    uint64_t size = number_at(block + 56, 8), first = number_at(block + 180, 4) + PARTITION;
    if (first >= newest.address) return UDFBURN_VOLUME;
    if (udfburn_read_exact(handle->number, (uint32_t)first, 1, block)) return UDFBURN_DEVICE;
    uint64_t head = number_at(block, 2);
    if (size < head) return UDFBURN_VOLUME;
    *addresses = (size - head) / ADDRESS;
    return UDFBURN_OK;
}

/* The blocks of a volume that commits may take, those of the table's data that each one writes, and those that a drive may fill up after
 * it. */
struct blocks {
    uint64_t next, capacity, table, filled;
};

static int32_t blocks_of(udfburn *handle, int has_new_node, struct blocks *blocks) {
    struct udfburn_core_status status;
    uint64_t addresses;
    int32_t outcome = udfburn_core_status(handle->core, &status);
    if (outcome == UDFBURN_OK) outcome = addresses_of(handle, &status, &addresses);
    if (outcome != UDFBURN_OK) return outcome;
    uint64_t nodes = (uint64_t)status.files + status.directories + (has_new_node ? 1 : 0);
    if (nodes > UDFBURN_NODES) return UDFBURN_TREE_FULL;
    /* The request may be the first one of its client. */
    uint64_t clients = status.clients < UDFBURN_CLIENTS ? status.clients + 1 : UDFBURN_CLIENTS;
    if (addresses < nodes + 1) addresses = nodes + 1;
    if (addresses > UDFBURN_NODES + 1) addresses = UDFBURN_NODES + 1;
    blocks->next = status.next;
    blocks->capacity = status.capacity;
    blocks->filled = handle->port ? FILLED : 0;
    blocks->table = blocks_for(TABLE_HEAD + RECORD * clients + ADDRESS * addresses);
    return UDFBURN_OK;
}

/* Whether a commit fits that has so many blocks of a file's bytes, and so many others before its table. As many again as the bytes and the
 * table have may be zeros before them. */
static int has_blocks(const struct blocks *blocks, uint64_t data, uint64_t others) {
    return blocks->next + 2 * data + others + 2 * blocks->table + 1 <= blocks->capacity;
}

static int32_t fits(udfburn *handle, uint64_t data, uint64_t others, int has_new_node) {
    struct blocks blocks;
    int32_t status = blocks_of(handle, has_new_node, &blocks);
    if (status != UDFBURN_OK) return status;
    return has_blocks(&blocks, data, others) ? UDFBURN_OK : UDFBURN_FULL;
}

/* The same, and the commit is made: without zeros, which only bytes that look like the end of a commit need. */
static int is_taken(struct blocks *blocks, uint64_t data, uint64_t others) {
    int is_enough = has_blocks(blocks, data, others);
    blocks->next += data + others + blocks->table + 1 + blocks->filled;
    return is_enough;
}

/* The parent of a path: its own path is cut off before its last name, which is returned; NULL for a path without one. It takes room for
 * one more byte. */
static const char *cut_name(char *path) {
    char *slash = strrchr(path, '/');
    if (!slash || !slash[1]) return NULL;
    const char *name = slash + 1;
    if (slash == path) memmove(slash + 2, slash + 1, strlen(slash + 1) + 1), name++;
    slash[slash == path ? 1 : 0] = '\0';
    return name;
}

/* The most blocks of the parent's directory with one more name. */
static int32_t directory_of(udfburn *handle, char *path, uint64_t *blocks) {
    struct udfburn_name *names = NULL;
    size_t count = 0, depth = 0;
    for (const char *at = path; *at; at++) depth += *at == '/';
    const char *name = cut_name(path);
    if (!name) return UDFBURN_TEXT;
    if (depth > UDFBURN_DEPTH) return UDFBURN_TOO_DEEP;
    int32_t status = udfburn_list_in(handle, path, &names, &count);
    if (status != UDFBURN_OK) return status == UDFBURN_NOT_FOUND || status == UDFBURN_NOT_DIRECTORY ? UDFBURN_NO_PARENT : status;
    if (count >= UDFBURN_NAMES) status = UDFBURN_DIRECTORY_FULL;
    uint64_t bytes = PARENT + identifier_size(name);
    for (size_t i = 0; i < count; i++) bytes += identifier_size(names[i].name);
    udfburn_free(names);
    *blocks = 2 + bytes / LEAST_FILLED;
    return status;
}

/* Whether the commits fit by which udfburn_put() stores a file of several pieces: those that make it in the root, append to it and rename
 * it, after one that removes what another call began there. */
static int32_t has_room_for_pieces(udfburn *handle, uint64_t size, uint64_t parent) {
    char unfinished[64] = "/" UDFBURN_UNFINISHED "0123456789abcdef-former";
    uint64_t root, piece = UDFBURN_FILE_LIMIT;
    struct blocks blocks;
    int32_t status = directory_of(handle, unfinished, &root);
    if (status == UDFBURN_OK) status = blocks_of(handle, 1, &blocks);
    if (status != UDFBURN_OK) return status;
    int is_enough = is_taken(&blocks, 0, root);
    for (uint64_t at = 0; at < size; at += piece) {
        uint64_t bytes = size - at < piece ? size - at : piece;
        is_enough &= is_taken(&blocks, blocks_for(bytes), 1 + (at == 0 ? root : descriptor_blocks(at + bytes)));
    }
    return is_enough && is_taken(&blocks, 0, root + parent) ? UDFBURN_OK : UDFBURN_FULL;
}

int32_t udfburn_room_in(udfburn *handle, const char *path, uint64_t size) {
    struct udfburn_node node;
    char parent[UDFBURN_PATH_LIMIT + 2];
    uint64_t directory, data = size <= INSIDE ? 0 : blocks_for(size);
    int is_long = size > UDFBURN_FILE_LIMIT;
    if (size > UDFBURN_GREATEST_FILE) return UDFBURN_ARGUMENT;
    if (strlen(path) > UDFBURN_PATH_LIMIT) return UDFBURN_TEXT;
    int32_t status = udfburn_look_at(handle, path, &node);
    if (status == UDFBURN_OK && node.kind == UDFBURN_FILE) return is_long ? UDFBURN_EXISTS : fits(handle, data, 1, 0);
    if (status == UDFBURN_OK) return UDFBURN_IS_DIRECTORY;
    if (status != UDFBURN_NOT_FOUND && status != UDFBURN_NOT_DIRECTORY) return status;
    strcpy(parent, path);
    status = directory_of(handle, parent, &directory);
    if (status != UDFBURN_OK) return status;
    return is_long ? has_room_for_pieces(handle, size, directory) : fits(handle, data, 1 + directory, 1);
}

int32_t udfburn_room(udfburn *handle, const char *path, uint64_t size) {
    struct udfburn_call call;
    int32_t status = udfburn_enter(&call, handle);
    return status == UDFBURN_OK ? udfburn_leave(&call, path ? udfburn_room_in(handle, path, size) : UDFBURN_ARGUMENT) : status;
}
