/* Files that grow by pieces: udfburn_append and udfburn_read.
 * usage: appends FOLDER [most]; with `most` a file gets more pieces than its entry can list. */
#ifndef _GNU_SOURCE
#define _GNU_SOURCE
#endif
#include "support.h"

enum { PIECE = UDFBURN_FILE_LIMIT, CAPACITY = 4000 };

static uint8_t bytes[3 * PIECE], found[3 * PIECE + 1];

static struct udfburn_request numbered(uint64_t number) {
    struct udfburn_request request = {7, number, MOMENT, 99, 99};
    return request;
}

static udfburn *in_memory(uint32_t capacity) {
    udfburn *handle = NULL;
    STATUS(UDFBURN_OK, udfburn_open_memory("DISC", MOMENT, capacity, &handle));
    if (!handle) exit(EXIT_FAILURE);
    return handle;
}

static int32_t create(udfburn *handle, const char *path, size_t length) {
    struct udfburn_request request = numbered(0);
    return udfburn_create(handle, &request, path, bytes, length);
}

/* Appends the bytes that belong at this offset. */
static int32_t append(udfburn *handle, const char *path, uint64_t offset, size_t length) {
    struct udfburn_request request = numbered(0);
    return udfburn_append(handle, &request, path, offset, bytes + offset % PIECE, length);
}

static uint64_t size_of(udfburn *handle, const char *path) {
    struct udfburn_node node = {0, 0, 9};
    STATUS(UDFBURN_OK, udfburn_stat(handle, path, &node));
    EXPECT(node.kind == UDFBURN_FILE);
    return node.size;
}

/* `room` bytes from an offset on are these. */
static int reads(udfburn *handle, const char *path, uint64_t offset, size_t room, const uint8_t *wanted, size_t length) {
    size_t count = 99;
    memset(found, 0xEE, sizeof found);
    return udfburn_read(handle, path, offset, found, room, &count) == UDFBURN_OK && count == length && !memcmp(found, wanted, length)
        && found[length] == 0xEE;
}

/* The file of two pieces and five bytes. */
static udfburn *grown(const char *path) {
    make(path);
    EXPECT(unlink(path) == 0);
    STATUS(UDFBURN_OK, udfburn_format(path, "DISC", MOMENT, CAPACITY));
    udfburn *handle = opened(path);
    struct udfburn_request request = numbered(0);
    STATUS(UDFBURN_OK, create(handle, "/a", PIECE));
    STATUS(UDFBURN_OK, udfburn_append(handle, &request, "/a", PIECE, bytes + PIECE, PIECE));
    EXPECT(request.number == 2 && request.commit == 2 && request.repeated == 0);
    request = numbered(3);
    request.moment = MOMENT + 1;
    STATUS(UDFBURN_OK, udfburn_append(handle, &request, "/a", 2 * PIECE, bytes + 2 * PIECE, 5));
    EXPECT(request.number == 3 && request.commit == 3 && request.repeated == 0);
    return handle;
}

static void is_grown(udfburn *handle) {
    const uint8_t none[1] = {0};
    struct udfburn_entry *entries;
    size_t count = 99;
    EXPECT(size_of(handle, "/a") == 2 * PIECE + 5);
    STATUS(UDFBURN_OK, udfburn_entries(handle, "/", sizeof *entries, &entries, &count));
    EXPECT(count == 1 && entries[0].size == 2 * PIECE + 5 && entries[0].moment == MOMENT + 1);
    udfburn_free(entries);
    STATUS(UDFBURN_TOO_LONG, udfburn_get(handle, "/a", found, sizeof found, &count));
    EXPECT(count == 0);
    EXPECT(reads(handle, "/a", 0, 3 * PIECE, bytes, 2 * PIECE + 5));
    EXPECT(reads(handle, "/a", 0, 1, bytes, 1));
    EXPECT(reads(handle, "/a", PIECE - 1, 2, bytes + PIECE - 1, 2));
    EXPECT(reads(handle, "/a", PIECE - 7, PIECE + 9, bytes + PIECE - 7, PIECE + 9));
    EXPECT(reads(handle, "/a", 3, 2 * PIECE, bytes + 3, 2 * PIECE));
    EXPECT(reads(handle, "/a", 2 * PIECE, PIECE, bytes + 2 * PIECE, 5));
    EXPECT(reads(handle, "/a", 2 * PIECE + 4, 1, bytes + 2 * PIECE + 4, 1));
    EXPECT(reads(handle, "/a", 2 * PIECE + 5, 1, none, 0));
    EXPECT(reads(handle, "/a", 2 * PIECE + 6, PIECE, none, 0));
    EXPECT(reads(handle, "/a", UINT64_MAX, 2 * PIECE, none, 0));
    EXPECT(reads(handle, "/a", PIECE, 0, none, 0));
    STATUS(UDFBURN_OK, udfburn_read(handle, "/a", PIECE, NULL, 0, &count));
    EXPECT(count == 0);
}

static void grows(const char *path) {
    struct udfburn_request request = numbered(0);
    udfburn *handle = grown(path);
    is_grown(handle);
    udfburn_close(handle);
    handle = opened(path);
    is_grown(handle);
    udfburn_close(handle);
    /* As it was after each commit, beside the newest state. */
    for (uint32_t commit = 1; commit <= 3; commit++) {
        size_t length = commit == 3 ? 2 * PIECE + 5 : commit * PIECE;
        STATUS(UDFBURN_OK, udfburn_open_read(path, commit, &handle));
        EXPECT(size_of(handle, "/a") == length);
        EXPECT(reads(handle, "/a", 0, 3 * PIECE, bytes, length));
        STATUS(UDFBURN_READ_ONLY, udfburn_append(handle, &request, "/a", length, bytes, 1));
        udfburn_close(handle);
    }
    unlink(path);
}

static void refused(void) {
    struct udfburn_request request = numbered(0);
    udfburn *handle = in_memory(CAPACITY);
    STATUS(UDFBURN_OK, create(handle, "/a", PIECE));
    STATUS(UDFBURN_OK, create(handle, "/short", 5));
    STATUS(UDFBURN_OK, create(handle, "/empty", 0));
    STATUS(UDFBURN_OK, udfburn_mkdir(handle, &request, "/d"));
    STATUS(UDFBURN_EXISTS, append(handle, "/a", 0, 1));
    STATUS(UDFBURN_EXISTS, append(handle, "/a", PIECE - 1, 1));
    STATUS(UDFBURN_EXISTS, append(handle, "/a", PIECE + 1, 1));
    STATUS(UDFBURN_EXISTS, append(handle, "/a", 2 * PIECE, 1));
    STATUS(UDFBURN_EXISTS, append(handle, "/a", UINT64_MAX, 1));
    STATUS(UDFBURN_EXISTS, append(handle, "/short", 0, 1));
    STATUS(UDFBURN_EXISTS, append(handle, "/short", 5, 1));
    STATUS(UDFBURN_EXISTS, append(handle, "/empty", UDFBURN_GREATEST_FILE, 1));
    STATUS(UDFBURN_NOT_FOUND, append(handle, "/none", 0, 1));
    STATUS(UDFBURN_IS_DIRECTORY, append(handle, "/d", 0, 1));
    STATUS(UDFBURN_ROOT, append(handle, "/", 0, 1));
    EXPECT(size_of(handle, "/a") == PIECE && size_of(handle, "/short") == 5 && size_of(handle, "/empty") == 0);
    STATUS(UDFBURN_OK, append(handle, "/empty", 0, 5));
    EXPECT(reads(handle, "/empty", 0, 9, bytes, 5));
    STATUS(UDFBURN_EXISTS, append(handle, "/empty", 0, 5));
    udfburn_close(handle);
    /* 1,028 blocks may be needed for a piece. Of these volumes 779 are used by the first one. */
    handle = in_memory(779 + 1028);
    STATUS(UDFBURN_OK, create(handle, "/a", PIECE));
    STATUS(UDFBURN_OK, append(handle, "/a", PIECE, PIECE));
    STATUS(UDFBURN_FULL, append(handle, "/a", 2 * PIECE, PIECE));
    EXPECT(size_of(handle, "/a") == 2 * PIECE);
    udfburn_close(handle);
    handle = in_memory(779 + 1027);
    STATUS(UDFBURN_OK, create(handle, "/a", PIECE));
    STATUS(UDFBURN_FULL, append(handle, "/a", PIECE, PIECE));
    STATUS(UDFBURN_OK, append(handle, "/a", PIECE, PIECE - UDFBURN_BLOCK));
    udfburn_close(handle);
}

static void arguments(void) {
    struct udfburn_request request = numbered(0);
    size_t count = 99;
    uint8_t byte;
    udfburn *handle = in_memory(CAPACITY);
    STATUS(UDFBURN_OK, create(handle, "/a", 0));
    STATUS(UDFBURN_ARGUMENT, udfburn_append(NULL, &request, "/a", 0, "x", 1));
    STATUS(UDFBURN_ARGUMENT, udfburn_append(handle, NULL, "/a", 0, "x", 1));
    STATUS(UDFBURN_ARGUMENT, udfburn_append(handle, &request, NULL, 0, "x", 1));
    STATUS(UDFBURN_ARGUMENT, udfburn_append(handle, &request, "/a", 0, NULL, 1));
    STATUS(UDFBURN_ARGUMENT, udfburn_append(handle, &request, "/a", 0, NULL, 0));
    STATUS(UDFBURN_ARGUMENT, udfburn_append(handle, &request, "/a", 0, "x", 0));
    EXPECT(request.number == 0 && request.commit == 0);
    STATUS(UDFBURN_ARGUMENT, udfburn_append(handle, &request, "/a", 0, bytes, PIECE + 1));
    STATUS(UDFBURN_ARGUMENT, udfburn_append(handle, &request, "/a", 0, bytes, SIZE_MAX));
    STATUS(UDFBURN_TEXT, udfburn_append(handle, &request, "a", 0, "x", 1));
    EXPECT(request.commit == 0);
    count = 9;
    STATUS(UDFBURN_ARGUMENT, udfburn_read(NULL, "/a", 0, &byte, 1, &count));
    EXPECT(count == 0);
    count = 9;
    STATUS(UDFBURN_ARGUMENT, udfburn_read(handle, NULL, 0, &byte, 1, &count));
    EXPECT(count == 0);
    count = 9;
    STATUS(UDFBURN_ARGUMENT, udfburn_read(handle, "/a", 0, NULL, 1, &count));
    EXPECT(count == 0);
    STATUS(UDFBURN_ARGUMENT, udfburn_read(handle, "/a", 0, &byte, 1, NULL));
    STATUS(UDFBURN_TEXT, udfburn_read(handle, "//", 0, &byte, 1, &count));
    STATUS(UDFBURN_NOT_FOUND, udfburn_read(handle, "/b", 0, &byte, 1, &count));
    STATUS(UDFBURN_IS_DIRECTORY, udfburn_read(handle, "/", 0, NULL, 0, &count));
    EXPECT(count == 0 && size_of(handle, "/a") == 0);
    udfburn_close(handle);
}

/* The tree decides whether a number that was committed before was of this request. */
static void repeats(void) {
    struct udfburn_request first = numbered(1), second = numbered(2), third = numbered(3), other = numbered(2);
    udfburn *handle = in_memory(CAPACITY);
    STATUS(UDFBURN_OK, udfburn_create(handle, &first, "/a", bytes, PIECE));
    for (int turn = 0; turn < 3; turn++) {
        STATUS(UDFBURN_OK, udfburn_append(handle, &second, "/a", PIECE, bytes + PIECE, PIECE));
        EXPECT(second.commit == 2 && second.repeated == (turn > 0));
        STATUS(UDFBURN_OK, udfburn_create(handle, &first, "/a", bytes, PIECE));
        EXPECT(first.commit == 1 && first.repeated == 1);
    }
    EXPECT(size_of(handle, "/a") == 2 * PIECE);
    /* Not these bytes, not there, or at another moment. */
    STATUS(UDFBURN_USED, udfburn_append(handle, &other, "/a", PIECE, bytes, PIECE));
    STATUS(UDFBURN_USED, udfburn_append(handle, &other, "/a", PIECE, bytes + PIECE, PIECE - 1));
    STATUS(UDFBURN_USED, udfburn_append(handle, &other, "/a", 2 * PIECE, bytes + PIECE, PIECE));
    STATUS(UDFBURN_USED, udfburn_append(handle, &other, "/b", PIECE, bytes + PIECE, PIECE));
    STATUS(UDFBURN_USED, udfburn_append(handle, &other, "/", PIECE, bytes + PIECE, PIECE));
    STATUS(UDFBURN_USED, udfburn_append(handle, &other, "/a", UINT64_MAX, bytes + PIECE, 1));
    other.moment++;
    STATUS(UDFBURN_USED, udfburn_append(handle, &other, "/a", PIECE, bytes + PIECE, PIECE));
    /* More was appended since. */
    STATUS(UDFBURN_OK, udfburn_append(handle, &third, "/a", 2 * PIECE, bytes + 2 * PIECE, 5));
    STATUS(UDFBURN_OK, udfburn_append(handle, &second, "/a", PIECE, bytes + PIECE, PIECE));
    STATUS(UDFBURN_OK, udfburn_create(handle, &first, "/a", bytes, PIECE));
    STATUS(UDFBURN_OK, udfburn_append(handle, &third, "/a", 2 * PIECE, bytes + 2 * PIECE, 5));
    other = numbered(2);
    STATUS(UDFBURN_USED, udfburn_append(handle, &other, "/a", PIECE, bytes, PIECE));
    STATUS(UDFBURN_USED, udfburn_append(handle, &other, "/a", PIECE, bytes + PIECE, PIECE - 1));
    EXPECT(size_of(handle, "/a") == 2 * PIECE + 5);
    udfburn_close(handle);
    /* The bytes are gone: an empty file that got others, and a file that was replaced. */
    handle = in_memory(CAPACITY);
    first = numbered(1), second = numbered(2), third = numbered(3);
    STATUS(UDFBURN_OK, udfburn_create(handle, &first, "/a", NULL, 0));
    STATUS(UDFBURN_OK, udfburn_append(handle, &second, "/a", 0, bytes, PIECE));
    STATUS(UDFBURN_USED, udfburn_create(handle, &first, "/a", NULL, 0));
    STATUS(UDFBURN_OK, udfburn_append(handle, &second, "/a", 0, bytes, PIECE));
    STATUS(UDFBURN_OK, udfburn_replace(handle, &third, "/a", bytes, 5));
    STATUS(UDFBURN_USED, udfburn_append(handle, &second, "/a", 0, bytes, PIECE));
    udfburn_close(handle);
}

/* A volume in memory whose file has one piece. */
static udfburn *begun(uint32_t capacity) {
    udfburn *handle = in_memory(capacity);
    STATUS(UDFBURN_OK, create(handle, "/a", PIECE));
    return handle;
}

static uint32_t next_of(udfburn *handle) {
    struct udfburn_status status;
    STATUS(UDFBURN_OK, udfburn_status(handle, &status));
    return status.next;
}

/* 244 pieces: an entry has room for 117 extents, and each descriptor block for 125 more. An append takes 514 blocks and as many
 * descriptor blocks as its file has then, and asks for 514 more. */
static void many_pieces(void) {
    enum { MANY = 244 };
    static const uint64_t borders[] = {117, 118, 119, 242, 243, 244};
    uint32_t before[MANY + 1];
    udfburn *handle = begun(140000);
    for (uint64_t count = 2; count <= MANY; count++) {
        uint64_t offset = (count - 1) * PIECE;
        uint32_t descriptors = count > 242 ? 2 : count > 117;
        before[count] = next_of(handle);
        STATUS(UDFBURN_OK, append(handle, "/a", offset, PIECE));
        EXPECT(next_of(handle) == before[count] + 515 + descriptors);
    }
    EXPECT(size_of(handle, "/a") == (uint64_t)MANY * PIECE);
    for (size_t i = 0; i < sizeof borders / sizeof *borders; i++) {
        uint64_t end = borders[i] * PIECE;
        EXPECT(reads(handle, "/a", end - 5, 5, bytes + (end - 5) % PIECE, 5));
        EXPECT(reads(handle, "/a", end - PIECE, PIECE, bytes, PIECE));
    }
    STATUS(UDFBURN_EXISTS, append(handle, "/a", UDFBURN_GREATEST_FILE, 1));
    udfburn_close(handle);
    for (size_t i = 0; i < 2; i++) {
        uint64_t count = 117 + i, offset = (count - 1) * PIECE;
        uint32_t needed = before[count] + 1028 + (uint32_t)i;
        for (uint32_t lacking = 0; lacking < 2; lacking++) {
            handle = begun(needed - lacking);
            for (uint64_t at = PIECE; at < offset; at += PIECE) STATUS(UDFBURN_OK, append(handle, "/a", at, PIECE));
            STATUS(lacking ? UDFBURN_FULL : UDFBURN_OK, append(handle, "/a", offset, PIECE));
            EXPECT(size_of(handle, "/a") == offset + (lacking ? 0 : PIECE));
            udfburn_close(handle);
        }
    }
}

int main(int argc, char **argv) {
    if (argc < 2 || chdir(argv[1])) return 2;
    for (size_t i = 0; i < sizeof bytes; i++) bytes[i] = (uint8_t)(i * 31 + (i >> 8) + (i >> 20));
    grows("grown.img");
    refused();
    arguments();
    repeats();
    if (argc > 2) many_pieces();
    return finish("appends");
}
