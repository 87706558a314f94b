/* Files from streams: udfburn_put, and what udfburn_room says of them.
 * usage: puts FOLDER [most]; with `most` also files of which the entry cannot list all pieces. */
#ifndef _GNU_SOURCE
#define _GNU_SOURCE
#endif
#include "stream.h"

#include <errno.h>
#include <sys/wait.h>

enum { CAPACITY = 8000 };

#define UNFINISHED "/" UDFBURN_UNFINISHED "0000000000000007"
#define FORMER UNFINISHED "-former"

static struct udfburn_request request;

static udfburn *made(const char *path, uint32_t capacity) {
    unlink(path);
    STATUS(UDFBURN_OK, udfburn_format(path, "DISC", MOMENT, capacity));
    return opened(path);
}

static int is_told(udfburn *handle, int32_t error) {
    struct udfburn_reason reason;
    reason.size = sizeof reason;
    STATUS(UDFBURN_OK, udfburn_reason(handle, &reason));
    return reason.status == UDFBURN_READER && reason.error == error && !strcmp(reason.call, "reader");
}

static int is_missing(udfburn *handle, const char *path) {
    struct udfburn_node node;
    return udfburn_stat(handle, path, &node) == UDFBURN_NOT_FOUND;
}

/* How many pieces are under the name of the unfinished file. */
static uint64_t begun(udfburn *handle) {
    struct udfburn_node node;
    return udfburn_stat(handle, UNFINISHED, &node) == UDFBURN_OK ? node.size / PIECE : 0;
}

/* ---- Sizes ---- */

static void of_size(udfburn *handle, uint64_t size, size_t most, const char *path) {
    struct stream stream = stream_of((uint8_t)(size + most), size);
    uint32_t before = commits_of(handle), requests = size < PIECE ? 1 : (uint32_t)((size + PIECE - 1) / PIECE + 1);
    size_t names = names_of_root(handle);
    stream.most = most;
    STATUS(UDFBURN_OK, put_stream(handle, path, &stream, &request));
    EXPECT(request.number == before + requests && request.commit == before + requests && request.repeated == 0);
    EXPECT(stream.next == size && stream.ends == 1 && commits_of(handle) == before + requests);
    EXPECT(has_stream(handle, path, &stream) && names_of_root(handle) == names + 1);
    /* Once more: it is read, and nothing is committed. */
    STATUS(UDFBURN_OK, put_stream(handle, path, &stream, &request));
    EXPECT(request.number == 0 && request.commit == before + requests && request.repeated == 1 && commits_of(handle) == before + requests);
}

static void sizes(void) {
    static const uint64_t all[] = {0, 1, 1873, PIECE - 1, PIECE, PIECE + 1, 2 * PIECE, 3 * PIECE - 1, 3 * PIECE};
    udfburn *handle = made("sizes.img", 40000);
    char path[64];
    for (size_t i = 0; i < sizeof all / sizeof *all; i++) {
        snprintf(path, sizeof path, "/%zu", i);
        of_size(handle, all[i], 0, path);
        strcat(path, "-odd");
        of_size(handle, all[i], 99991, path);
    }
    of_size(handle, 3000, 7, "/small");
    udfburn_close(handle);
    handle = opened("sizes.img");
    struct stream stream = stream_of((uint8_t)(3 * PIECE), 3 * PIECE);
    EXPECT(has_stream(handle, "/8", &stream));
    udfburn_close(handle);
    unlink("sizes.img");
}

/* ---- Paths and arguments ---- */

/* What is refused before a byte is read. */
static void refused(udfburn *handle, int32_t status, const char *path) {
    struct stream stream = stream_of(1, PIECE);
    uint32_t before = commits_of(handle);
    STATUS(status, put_stream(handle, path, &stream, &request));
    EXPECT(stream.calls == 0 && request.number == 0 && request.commit == 0 && request.repeated == 0 && commits_of(handle) == before);
}

static void paths(void) {
    char deep[40] = "";
    udfburn *handle = made("paths.img", CAPACITY), *memory = NULL;
    struct stream stream = stream_of(1, PIECE + 5);
    struct udfburn_request other = {7, 0, MOMENT, 0, 0};
    STATUS(UDFBURN_OK, udfburn_mkdir(handle, &other, "/d"));
    STATUS(UDFBURN_OK, put_stream(handle, "/d/file", &stream, &request));
    EXPECT(has_stream(handle, "/d/file", &stream) && names_of_root(handle) == 1);
    for (int i = 0; i < 17; i++) strcat(deep, "/d");
    refused(handle, UDFBURN_EXISTS, "/d");
    refused(handle, UDFBURN_EXISTS, "/");
    refused(handle, UDFBURN_NO_PARENT, "/none/file");
    refused(handle, UDFBURN_NO_PARENT, "/d/file/file");
    refused(handle, UDFBURN_TOO_DEEP, deep);
    refused(handle, UDFBURN_TEXT, "file");
    refused(handle, UDFBURN_TEXT, "/d/");
    refused(handle, UDFBURN_TEXT, "/d/..");
    refused(handle, UDFBURN_ARGUMENT, NULL);
    refused(handle, UDFBURN_ARGUMENT, UNFINISHED);
    refused(handle, UDFBURN_ARGUMENT, "/" UDFBURN_UNFINISHED "other");
    STATUS(UDFBURN_ARGUMENT, udfburn_put(NULL, &request, "/a", give, &stream));
    STATUS(UDFBURN_ARGUMENT, udfburn_put(handle, NULL, "/a", give, &stream));
    STATUS(UDFBURN_ARGUMENT, udfburn_put(handle, &request, "/a", NULL, &stream));
    other.client = 0;
    STATUS(UDFBURN_ARGUMENT, udfburn_put(handle, &other, "/a", give, &stream));
    other.client = 7;
    other.moment = UDFBURN_MOMENT_LIMIT;
    STATUS(UDFBURN_ARGUMENT, udfburn_put(handle, &other, "/a", give, &stream));
    udfburn_close(handle);
    STATUS(UDFBURN_OK, udfburn_open_read("paths.img", UDFBURN_NEWEST, &handle));
    refused(handle, UDFBURN_READ_ONLY, "/a");
    udfburn_close(handle);
    STATUS(UDFBURN_OK, udfburn_open_memory("DISC", MOMENT, CAPACITY, &memory));
    refused(memory, UDFBURN_ARGUMENT, "/a");
    udfburn_close(memory);
    unlink("paths.img");
}

/* A file that is there stays as it is. */
static void files_that_are_there(void) {
    static const uint64_t others[] = {0, 5, PIECE - 1, PIECE, PIECE + 4, PIECE + 6, 2 * PIECE, 3 * PIECE};
    udfburn *handle = made("there.img", CAPACITY);
    struct stream first = stream_of(1, PIECE + 5), stream;
    STATUS(UDFBURN_OK, put_stream(handle, "/a", &first, &request));
    uint32_t commits = commits_of(handle);
    for (size_t i = 0; i < sizeof others / sizeof *others; i++) {
        stream = stream_of(1, others[i]);
        STATUS(UDFBURN_EXISTS, put_stream(handle, "/a", &stream, &request));
        EXPECT(request.number == 0 && request.commit == 0);
    }
    for (uint64_t at = 0; at < first.size; at += first.size - 1) {
        stream = first;
        stream.differs = at;
        stream.other = 2;
        STATUS(UDFBURN_EXISTS, put_stream(handle, "/a", &stream, &request));
    }
    stream = first;
    stream.fails_at = PIECE + 1;
    stream.fails = -1;
    STATUS(UDFBURN_READER, put_stream(handle, "/a", &stream, &request));
    EXPECT(commits_of(handle) == commits && has_stream(handle, "/a", &first) && names_of_root(handle) == 1);
    udfburn_close(handle);
    unlink("there.img");
}

/* ---- Readers ---- */

static int64_t give_too_many(void *context, uint64_t offset, void *into, size_t room) {
    (void)context, (void)offset, (void)into;
    return (int64_t)room + 1;
}

/* Every call on the handle that is in the call does nothing; another handle serves. */
static int64_t give_and_call(void *context, uint64_t offset, void *into, size_t room) {
    struct stream *stream = (struct stream *)context;
    struct udfburn_request other = {7, 0, MOMENT, 0, 0};
    struct udfburn_node node;
    struct stream inner = stream_of(9, 5);
    udfburn *memory;
    STATUS(UDFBURN_MISUSE, udfburn_stat(stream->handle, "/", &node));
    STATUS(UDFBURN_MISUSE, udfburn_create(stream->handle, &other, "/inner", "x", 1));
    STATUS(UDFBURN_MISUSE, udfburn_put(stream->handle, &other, "/inner", give, &inner));
    udfburn_close(stream->handle);
    STATUS(UDFBURN_OK, udfburn_open_memory("DISC", MOMENT, 600, &memory));
    STATUS(UDFBURN_OK, udfburn_create(memory, &other, "/other", "x", 1));
    udfburn_close(memory);
    return give(context, offset, into, room);
}

/* The child goes on with the call of its parent, which is refused before it writes. */
static int64_t give_and_fork(void *context, uint64_t offset, void *into, size_t room) {
    struct stream *stream = (struct stream *)context;
    int64_t count = give(context, offset, into, room);
    if (offset >= PIECE && stream->handle) {
        stream->handle = NULL;
        fflush(stdout);
        if (fork() == 0) stream->seed = 77;
    }
    return count;
}

static void readers(void) {
    udfburn *handle = made("readers.img", CAPACITY);
    struct stream stream = stream_of(1, 3 * PIECE + 5);
    STATUS(UDFBURN_READER, udfburn_put(handle, &request, "/many", give_too_many, NULL));
    EXPECT(is_told(handle, EOVERFLOW) && commits_of(handle) == 0);
    stream.handle = handle;
    STATUS(UDFBURN_OK, udfburn_put(handle, &request, "/calls", give_and_call, &stream));
    EXPECT(has_stream(handle, "/calls", &stream) && names_of_root(handle) == 1);
    udfburn_close(handle);
    unlink("readers.img");
}

static void readers_that_fork(void) {
    udfburn *handle = made("forks.img", CAPACITY);
    struct stream stream = stream_of(1, 3 * PIECE + 5);
    int ended = 1;
    stream.handle = handle;
    int32_t status = udfburn_put(handle, &request, "/forks", give_and_fork, &stream);
    if (stream.seed == 77) _exit(status == UDFBURN_MISUSE && request.commit == 0 ? 0 : 1);
    STATUS(UDFBURN_OK, status);
    EXPECT(wait(&ended) > 0 && ended == 0);
    EXPECT(has_stream(handle, "/forks", &stream));
    udfburn_close(handle);
    unlink("forks.img");
}

/* A reader that fails anywhere: the next call goes on after the pieces that are there. */
static void readers_that_fail(void) {
    static const uint64_t where[] = {0, 1, PIECE - 1, PIECE, PIECE + 1, 2 * PIECE, 3 * PIECE - 1, 3 * PIECE + 4, 3 * PIECE + 5};
    for (size_t i = 0; i < sizeof where / sizeof *where; i++) {
        udfburn *handle = made("fails.img", CAPACITY);
        struct stream stream = stream_of(1, 3 * PIECE + 5);
        stream.fails_at = where[i];
        stream.fails = i % 2 ? -EIO : INT64_MIN;
        STATUS(UDFBURN_READER, put_stream(handle, "/a", &stream, &request));
        EXPECT(is_told(handle, i % 2 ? -EIO : INT32_MIN));
        EXPECT(request.commit == 0 && begun(handle) == where[i] / PIECE && is_missing(handle, "/a"));
        EXPECT(commits_of(handle) == where[i] / PIECE && request.number == where[i] / PIECE);
        stream.fails = 0;
        if (i % 2) udfburn_close(handle), handle = opened("fails.img");
        STATUS(UDFBURN_OK, put_stream(handle, "/a", &stream, &request));
        EXPECT(has_stream(handle, "/a", &stream) && names_of_root(handle) == 1 && commits_of(handle) == 5 && request.commit == 5);
        udfburn_close(handle);
    }
    unlink("fails.img");
}

/* ---- What an earlier call left ---- */

/* Begins a stream of three pieces and five bytes, and leaves so many pieces of it. */
static udfburn *left(uint64_t pieces) {
    udfburn *handle = made("left.img", CAPACITY + 4000);
    struct stream stream = stream_of(1, 3 * PIECE + 5);
    stream.fails_at = pieces * PIECE;
    stream.fails = -1;
    STATUS(UDFBURN_READER, put_stream(handle, "/first", &stream, &request));
    EXPECT(begun(handle) == pieces && commits_of(handle) == pieces);
    return handle;
}

/* Another stream gets its own bytes, whatever it has in common with the one that was begun. */
static void another_stream(uint64_t pieces, uint64_t differs, uint64_t size) {
    udfburn *handle = left(pieces);
    struct stream stream = stream_of(1, size);
    stream.differs = differs;
    stream.other = 2;
    STATUS(UDFBURN_OK, put_stream(handle, "/second", &stream, &request));
    EXPECT(has_stream(handle, "/second", &stream) && names_of_root(handle) == 1);
    stream = stream_of(1, 3 * PIECE + 5);
    STATUS(UDFBURN_OK, put_stream(handle, "/first", &stream, &request));
    EXPECT(has_stream(handle, "/first", &stream) && names_of_root(handle) == 2);
    udfburn_close(handle);
    unlink("left.img");
}

static void other_streams(void) {
    static const uint64_t sizes_of[] = {5, PIECE, PIECE + 1, 2 * PIECE, 3 * PIECE, 4 * PIECE};
    static const uint64_t places[] = {0, PIECE - 1, PIECE, 2 * PIECE - 1, 2 * PIECE, UINT64_MAX};
    for (uint64_t pieces = 1; pieces <= 3; pieces++)
        for (size_t i = 0; i < sizeof sizes_of / sizeof *sizes_of; i++)
            for (size_t j = 0; j < sizeof places / sizeof *places; j++)
                if (places[j] == UINT64_MAX || places[j] < sizes_of[i]) another_stream(pieces, places[j], sizes_of[i]);
}

/* What is in the place of an unfinished file, and is none of a call: a directory stays, other files are no beginning. */
static void odd_things(void) {
    udfburn *handle = made("odd.img", CAPACITY);
    struct stream stream = stream_of(1, 2 * PIECE), other = stream_of(1, 2 * PIECE);
    struct udfburn_request theirs = {9, 0, MOMENT, 0, 0};
    STATUS(UDFBURN_OK, udfburn_mkdir(handle, &theirs, UNFINISHED));
    STATUS(UDFBURN_IS_DIRECTORY, put_stream(handle, "/a", &stream, &request));
    theirs.number = 0;
    STATUS(UDFBURN_OK, udfburn_rename(handle, &theirs, UNFINISHED, FORMER));
    STATUS(UDFBURN_IS_DIRECTORY, put_stream(handle, "/a", &stream, &request));
    theirs.number = 0;
    STATUS(UDFBURN_OK, udfburn_remove(handle, &theirs, FORMER));
    for (size_t length = 0; length < 10; length += 5) {
        char path[8];
        snprintf(path, sizeof path, "/%zu", length);
        theirs.number = 0;
        STATUS(UDFBURN_OK, udfburn_create(handle, &theirs, UNFINISHED, "theirs", length));
        theirs.number = 0;
        STATUS(UDFBURN_OK, udfburn_create(handle, &theirs, FORMER, "theirs", length));
        STATUS(UDFBURN_OK, put_stream(handle, path, &stream, &request));
        EXPECT(has_stream(handle, path, &stream) && is_missing(handle, UNFINISHED) && is_missing(handle, FORMER));
    }
    /* Each client has its own. */
    other.fails_at = PIECE;
    other.fails = -1;
    theirs.number = 0;
    STATUS(UDFBURN_READER, udfburn_put(handle, &theirs, "/theirs", give, &other));
    STATUS(UDFBURN_OK, put_stream(handle, "/b", &stream, &request));
    EXPECT(has_stream(handle, "/b", &stream) && names_of_root(handle) == 4);
    udfburn_close(handle);
    unlink("odd.img");
}

/* ---- Room ---- */

/* Where there is room by udfburn_room the file is stored, and where it is not nothing of it stays. */
static void room(void) {
    static const uint64_t sizes_of[] = {PIECE, PIECE + 1, 2 * PIECE - 2048, 2 * PIECE, 3 * PIECE};
    int fits = 0, full = 0;
    for (uint32_t capacity = 1200; capacity < 2400; capacity += 37) {
        for (size_t i = 0; i < sizeof sizes_of / sizeof *sizes_of; i++) {
            udfburn *handle = made("room.img", capacity);
            struct stream stream = stream_of(1, sizes_of[i]);
            int32_t there_is = udfburn_room(handle, "/a", sizes_of[i]), status = put_stream(handle, "/a", &stream, &request);
            EXPECT(there_is == UDFBURN_OK || there_is == UDFBURN_FULL);
            EXPECT(status == UDFBURN_OK || (status == UDFBURN_FULL && there_is == UDFBURN_FULL));
            EXPECT(status == UDFBURN_OK ? has_stream(handle, "/a", &stream) && names_of_root(handle) == 1 : names_of_root(handle) == 0);
            EXPECT(status == UDFBURN_OK || request.commit == 0);
            fits += there_is == UDFBURN_OK;
            full += status == UDFBURN_FULL;
            udfburn_close(handle);
        }
    }
    EXPECT(fits > 30 && full > 30);
    unlink("room.img");
}

/* A volume whose root has two hundred long names and what is removed before a stream is stored, and the block that is written next. */
static uint32_t large_root(uint32_t capacity) {
    struct udfburn_request other = {7, 0, MOMENT, 0, 0};
    struct udfburn_status status;
    char path[256];
    udfburn *handle = made("root.img", capacity);
    for (int i = 0; i < 200; i++) {
        snprintf(path, sizeof path, "/%0250d", i);
        other.number = 0;
        STATUS(UDFBURN_OK, udfburn_create(handle, &other, path, NULL, 0));
    }
    other.number = 0;
    STATUS(UDFBURN_OK, udfburn_create(handle, &other, UNFINISHED, "x", 1));
    STATUS(UDFBURN_OK, udfburn_status(handle, &status));
    udfburn_close(handle);
    return status.next;
}

/* The same where the root is written with the first piece, and once more with the last request. */
static void room_beside_names(void) {
    size_t length;
    int fits = 0, full = 0;
    large_root(large_root(20000) + 1400);
    uint8_t *image = file_bytes("root.img", &length);
    for (uint64_t size = PIECE + 1; size < 2 * PIECE; size += 16000) {
        put_file("root.img", image, length);
        udfburn *handle = opened("root.img");
        struct stream stream = stream_of(1, size);
        int32_t there_is = udfburn_room(handle, "/a", size), status = put_stream(handle, "/a", &stream, &request);
        EXPECT(status == UDFBURN_OK || (status == UDFBURN_FULL && there_is == UDFBURN_FULL));
        fits += there_is == UDFBURN_OK;
        full += status == UDFBURN_FULL;
        udfburn_close(handle);
    }
    EXPECT(fits > 10 && full > 5);
    free(image);
    unlink("root.img");
}

static void what_room_says(void) {
    udfburn *handle = made("says.img", CAPACITY);
    struct udfburn_request other = {7, 0, MOMENT, 0, 0};
    STATUS(UDFBURN_OK, udfburn_create(handle, &other, "/a", "a", 1));
    STATUS(UDFBURN_OK, udfburn_room(handle, "/a", PIECE));
    STATUS(UDFBURN_EXISTS, udfburn_room(handle, "/a", PIECE + 1));
    STATUS(UDFBURN_NO_PARENT, udfburn_room(handle, "/d/a", PIECE + 1));
    STATUS(UDFBURN_OK, udfburn_room(handle, "/b", 10 * PIECE));
    STATUS(UDFBURN_FULL, udfburn_room(handle, "/b", UDFBURN_GREATEST_FILE));
    STATUS(UDFBURN_ARGUMENT, udfburn_room(handle, "/b", (uint64_t)UDFBURN_GREATEST_FILE + 1));
    udfburn_close(handle);
    unlink("says.img");
}

/* ---- Limits ---- */

/* The least volume that by udfburn_room has room for a file of so many pieces. */
static uint32_t least_capacity(uint64_t pieces) {
    uint32_t low = 512, high = 450000;
    while (low < high) {
        uint32_t middle = low + (high - low) / 2;
        udfburn *handle = made("least.img", middle);
        if (udfburn_room(handle, "/a", pieces * PIECE) == UDFBURN_OK) high = middle;
        else low = middle + 1;
        udfburn_close(handle);
    }
    unlink("least.img");
    return low;
}

/* Files of which the entry cannot list all extents. With one piece more there must be as many more blocks as that takes. */
static void many_pieces(void) {
    enum { MANY = 243 };
    static const uint64_t counts[] = {116, 117, 118, 241, 242};
    static uint8_t piece[PIECE];
    uint32_t after[MANY + 1];
    struct udfburn_status status;
    udfburn *handle = made("most.img", 140000);
    for (uint64_t count = 1; count <= MANY; count++) {
        struct udfburn_request next = {7, 0, MOMENT, 0, 0};
        if (count == 1) STATUS(UDFBURN_OK, udfburn_create(handle, &next, "/a", piece, PIECE));
        else STATUS(UDFBURN_OK, udfburn_append(handle, &next, "/a", (count - 1) * PIECE, piece, PIECE));
        STATUS(UDFBURN_OK, udfburn_status(handle, &status));
        after[count] = status.next;
    }
    udfburn_close(handle);
    for (size_t i = 0; i < sizeof counts / sizeof *counts; i++) {
        uint64_t count = counts[i];
        EXPECT(least_capacity(count + 1) - least_capacity(count) == after[count + 1] - after[count]);
    }
    for (uint64_t count = 118; count <= MANY; count += MANY - 118) {
        struct stream stream = stream_of(1, count * PIECE);
        handle = made("most.img", least_capacity(count));
        STATUS(UDFBURN_OK, udfburn_room(handle, "/a", stream.size));
        STATUS(UDFBURN_FULL, udfburn_room(handle, "/a", stream.size + PIECE));
        STATUS(UDFBURN_OK, put_stream(handle, "/a", &stream, &request));
        EXPECT(has_stream(handle, "/a", &stream) && names_of_root(handle) == 1);
        STATUS(UDFBURN_OK, put_stream(handle, "/a", &stream, &request));
        EXPECT(request.repeated == 1);
        stream.size++;
        STATUS(UDFBURN_EXISTS, put_stream(handle, "/a", &stream, &request));
        udfburn_close(handle);
    }
    unlink("most.img");
}

/* The greatest file is larger than what any volume has room for. */
static void the_most(void) {
    udfburn *handle = made("most.img", UDFBURN_GREATEST_CAPACITY);
    STATUS(UDFBURN_OK, udfburn_room(handle, "/a", (uint64_t)850 * PIECE));
    STATUS(UDFBURN_FULL, udfburn_room(handle, "/a", UDFBURN_GREATEST_FILE));
    STATUS(UDFBURN_ARGUMENT, udfburn_room(handle, "/a", (uint64_t)UDFBURN_GREATEST_FILE + 1));
    udfburn_close(handle);
    unlink("most.img");
}

/* A root that is full of names takes no unfinished file. */
static void many_names(void) {
    udfburn *handle = made("names.img", 40000);
    struct udfburn_request other = {7, 0, MOMENT, 0, 0};
    struct stream stream = stream_of(1, PIECE + 1);
    char path[16];
    STATUS(UDFBURN_OK, udfburn_mkdir(handle, &other, "/d"));
    for (int i = 1; i < 511; i++) {
        snprintf(path, sizeof path, "/%d", i);
        other.number = 0;
        STATUS(UDFBURN_OK, udfburn_create(handle, &other, path, NULL, 0));
    }
    STATUS(UDFBURN_OK, put_stream(handle, "/last", &stream, &request));
    EXPECT(has_stream(handle, "/last", &stream) && names_of_root(handle) == 512);
    STATUS(UDFBURN_DIRECTORY_FULL, put_stream(handle, "/more", &stream, &request));
    EXPECT(stream.calls == 0);
    STATUS(UDFBURN_DIRECTORY_FULL, put_stream(handle, "/d/more", &stream, &request));
    EXPECT(request.commit == 0 && is_missing(handle, "/d/more"));
    stream.size = 5;
    STATUS(UDFBURN_OK, put_stream(handle, "/d/short", &stream, &request));
    udfburn_close(handle);
    unlink("names.img");
}

int main(int argc, char **argv) {
    if (argc < 2 || chdir(argv[1])) return 2;
    sizes();
    paths();
    files_that_are_there();
    readers();
    readers_that_fail();
    odd_things();
    what_room_says();
    if (argc > 2) {
        readers_that_fork();
        other_streams();
        room();
        room_beside_names();
        many_names();
        many_pieces();
        the_most();
    }
    return finish("puts");
}
