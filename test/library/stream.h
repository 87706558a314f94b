/* Streams for the tests of udfburn_put: the bytes follow from a number, so that each can be asked for again at any offset. */
#ifndef STREAM_H
#define STREAM_H

#include "support.h"

enum { PIECE = UDFBURN_FILE_LIMIT };

/* What a reader gives, and what it noted. */
struct stream {
    uint64_t size, differs;     /* from the offset `differs` on the bytes are those of `other` */
    uint8_t seed, other;
    size_t most;                /* bytes that it gives at once; 0: as many as there is room for */
    uint64_t fails_at;          /* where it returns `fails` instead */
    int64_t fails;
    uint64_t next;              /* the offset that must come */
    int calls, ends;
    udfburn *handle;            /* what a reader of its own works on */
};

static inline uint8_t byte_at(const struct stream *stream, uint64_t offset) {
    uint64_t mixed = (offset + 1) * UINT64_C(0x9E3779B97F4A7C15);
    return (uint8_t)((mixed >> 32) + (offset < stream->differs ? stream->seed : stream->other));
}

static inline struct stream stream_of(uint8_t seed, uint64_t size) {
    struct stream stream = {size, UINT64_MAX, seed, seed, 0, UINT64_MAX, 0, 0, 0, 0, NULL};
    return stream;
}

static inline int64_t give(void *context, uint64_t offset, void *into, size_t room) {
    struct stream *stream = (struct stream *)context;
    EXPECT(offset == stream->next && room > 0 && room <= PIECE && stream->ends == 0);
    stream->calls++;
    if (stream->fails && offset >= stream->fails_at) return stream->fails;
    uint64_t count = offset < stream->size ? stream->size - offset : 0;
    if (count > room) count = room;
    if (stream->most > 0 && count > stream->most) count = stream->most;
    if (stream->fails && offset + count > stream->fails_at) count = stream->fails_at - offset;
    for (uint64_t i = 0; i < count; i++) ((uint8_t *)into)[i] = byte_at(stream, offset + i);
    stream->next += count;
    if (count == 0) stream->ends++;
    return (int64_t)count;
}

/* Stores the stream from its beginning, as client 7. */
static inline int32_t put_stream(udfburn *handle, const char *path, struct stream *stream, struct udfburn_request *request) {
    struct udfburn_request made = {7, 99, MOMENT, 99, 99};
    *request = made;
    stream->next = 0;
    stream->calls = stream->ends = 0;
    return udfburn_put(handle, request, path, give, stream);
}

/* The file has the bytes of the stream, and no others. */
static inline int has_stream(udfburn *handle, const char *path, const struct stream *stream) {
    static uint8_t found[PIECE];
    struct udfburn_node node = {0, 0, 9};
    size_t count;
    if (udfburn_stat(handle, path, &node) != UDFBURN_OK || node.kind != UDFBURN_FILE || node.size != stream->size) return 0;
    for (uint64_t at = 0; at < stream->size; at += count) {
        if (udfburn_read(handle, path, at, found, sizeof found, &count) != UDFBURN_OK || count == 0) return 0;
        for (size_t i = 0; i < count; i++)
            if (found[i] != byte_at(stream, at + i)) return 0;
    }
    return 1;
}

/* How many names the root has. */
static inline size_t names_of_root(udfburn *handle) {
    struct udfburn_name *names;
    size_t count;
    STATUS(UDFBURN_OK, udfburn_list(handle, "/", &names, &count));
    udfburn_free(names);
    return count;
}

static inline uint32_t commits_of(udfburn *handle) {
    struct udfburn_status status;
    STATUS(UDFBURN_OK, udfburn_status(handle, &status));
    return status.commits;
}

#endif
