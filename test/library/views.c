/* What is told of a volume, its past, and what it has room for: udfburn_open_read, udfburn_expect, udfburn_describe, udfburn_entries,
 * udfburn_room.
 * usage: views FOLDER */
#ifndef _GNU_SOURCE
#define _GNU_SOURCE
#endif
#include "support.h"

#include <sys/file.h>
#include <sys/wait.h>

enum { CAPACITY = 600 };

static udfburn *read_at(const char *path, uint32_t commit) {
    udfburn *handle = NULL;
    STATUS(UDFBURN_OK, udfburn_open_read(path, commit, &handle));
    if (!handle) exit(EXIT_FAILURE);
    return handle;
}

static struct udfburn_volume described(udfburn *handle) {
    struct udfburn_volume volume;
    memset(&volume, 0xEE, sizeof volume);
    volume.size = sizeof volume;
    STATUS(UDFBURN_OK, udfburn_describe(handle, &volume));
    return volume;
}

static int32_t create(udfburn *handle, const char *path, size_t length) {
    static uint8_t data[UDFBURN_FILE_LIMIT];
    struct udfburn_request request = {7, 0, MOMENT + 1, 0, 0};
    return udfburn_create(handle, &request, path, data, length);
}

/* ---- Reading ---- */

/* Commits 1 to 5: a folder with three files of 10, 20 and 30 bytes, and one that is removed. */
static udfburn *with_commits(const char *path) {
    struct udfburn_request request = {7, 0, MOMENT + 1, 0, 0};
    make(path);
    udfburn *handle = opened(path);
    STATUS(UDFBURN_OK, udfburn_mkdir(handle, &request, "/d"));
    STATUS(UDFBURN_OK, create(handle, "/d/1", 10));
    STATUS(UDFBURN_OK, create(handle, "/d/2", 20));
    STATUS(UDFBURN_OK, create(handle, "/d/3", 30));
    request.number = 0;
    STATUS(UDFBURN_OK, udfburn_remove(handle, &request, "/d/1"));
    return handle;
}

static void as_it_was(const char *path, uint32_t commit) {
    struct udfburn_commit newest = {0, 0, 0, 0, 0};
    struct udfburn_node node;
    struct udfburn_volume volume;
    udfburn *handle = read_at(path, commit);
    char name[16];
    for (uint32_t i = 1; i <= 3; i++) {
        snprintf(name, sizeof name, "/d/%u", (unsigned)i);
        int is_there = commit > i && !(i == 1 && commit >= 5);
        STATUS(is_there ? UDFBURN_OK : UDFBURN_NOT_FOUND, udfburn_stat(handle, name, &node));
        EXPECT(!is_there || node.size == i * 10);
    }
    STATUS(UDFBURN_OK, udfburn_log(handle, &newest));
    EXPECT(newest.number == commit || commit == UDFBURN_NEWEST);
    volume = described(handle);
    EXPECT(volume.commits == newest.number && volume.identity == MOMENT && volume.next == newest.address + 1 && volume.unused == 0);
    while (newest.number > 0) STATUS(UDFBURN_OK, udfburn_log(handle, &newest));
    STATUS(UDFBURN_NONE, udfburn_log(handle, &newest));
    udfburn_close(handle);
}

static void nothing_is_written(const char *path) {
    struct udfburn_request request = {7, 0, MOMENT, 0, 0};
    size_t before, after;
    uint8_t *bytes = file_bytes(path, &before), *later, answer[6], frame[sizeof create_a];
    udfburn *handle = read_at(path, UDFBURN_NEWEST);
    STATUS(UDFBURN_READ_ONLY, create(handle, "/e", 1));
    STATUS(UDFBURN_READ_ONLY, udfburn_replace(handle, &request, "/d/2", "", 0));
    STATUS(UDFBURN_READ_ONLY, udfburn_mkdir(handle, &request, "/e"));
    STATUS(UDFBURN_READ_ONLY, udfburn_rename(handle, &request, "/d", "/e"));
    STATUS(UDFBURN_READ_ONLY, udfburn_remove(handle, &request, "/d/2"));
    EXPECT(request.number == 0);
    /* A frame asks the medium, which writes nothing: answer 36. */
    memcpy(frame, create_a, sizeof frame);
    frame[5] = 99;
    STATUS(UDFBURN_OK, udfburn_answer(handle, frame, sizeof frame));
    EXPECT(udfburn_take(handle, answer, sizeof answer) == 6 && answer[4] == 36);
    udfburn_close(handle);
    later = file_bytes(path, &after);
    EXPECT(before == after && !memcmp(bytes, later, before));
    free(bytes);
    free(later);
}

static void reading(void) {
    udfburn *handle = NULL, *writer = with_commits("views.img");
    int fd = image_at("views.img");
    /* Beside the writer, who goes on: what was opened stays as it was. */
    for (uint32_t commit = 0; commit <= 5; commit++) as_it_was("views.img", commit);
    udfburn *newest = read_at("views.img", UDFBURN_NEWEST);
    STATUS(UDFBURN_OK, create(writer, "/d/1", 10));
    EXPECT(described(newest).commits == 5 && described(writer).commits == 6);
    as_it_was("views.img", 5);
    STATUS(UDFBURN_NONE, udfburn_open_read("views.img", 7, &handle));
    EXPECT(!handle);
    udfburn_close(newest);
    /* It takes no lock, and nobody's. */
    EXPECT(flock(fd, LOCK_EX | LOCK_NB) == -1);
    udfburn_close(writer);
    newest = read_at("views.img", UDFBURN_NEWEST);
    EXPECT(flock(fd, LOCK_EX | LOCK_NB) == 0);
    udfburn_close(newest);
    close(fd);
    nothing_is_written("views.img");
    EXPECT(!chmod("views.img", 0400));
    udfburn_close(read_at("views.img", 3));
    EXPECT(!chmod("views.img", 0600));
}

/* The end of the file is what a writer was just writing, or what it cut off. */
static void beside_a_commit(void) {
    size_t count;
    uint8_t *bytes = file_bytes("views.img", &count);
    for (size_t length = count; length > count - 4 * UDFBURN_BLOCK; length -= 512) {
        put_file("cut.img", bytes, length);
        udfburn *handle = read_at("cut.img", 5);
        EXPECT(described(handle).commits == 5);
        udfburn_close(handle);
        handle = read_at("cut.img", UDFBURN_NEWEST);
        /* It goes on where a longer file is cut after its commit, since it looks at nothing behind it. */
        uint32_t next = described(handle).next;
        EXPECT(described(handle).commits == (length == count ? 6 : 5) && !truncate("cut.img", (off_t)next * UDFBURN_BLOCK));
        EXPECT(described(handle).commits == (length == count ? 6 : 5));
        udfburn_close(handle);
    }
    free(bytes);
}

/* A process writes, and another one reads what is there, again and again: each state that it sees is a whole one. */
static void beside_a_writer(void) {
    enum { FILES = 300 };
    int outcome = 0, is_over = 0;
    uint32_t seen = 0, opens = 0;
    unlink("beside.img");
    STATUS(UDFBURN_OK, udfburn_format("beside.img", "DISC", MOMENT, 20000));
    pid_t child = fork();
    if (child == 0) {
        udfburn *handle = opened("beside.img");
        char path[16];
        for (int i = 1; i <= FILES; i++) {
            snprintf(path, sizeof path, "/%d", i);
            STATUS(UDFBURN_OK, create(handle, path, (size_t)i * 100));
        }
        _exit(failed);
    }
    while (seen < FILES && opens++ < 100000) {
        struct udfburn_entry *found;
        size_t count;
        udfburn *handle = read_at("beside.img", UDFBURN_NEWEST);
        uint32_t commits = described(handle).commits;
        EXPECT(commits >= seen);
        seen = commits;
        STATUS(UDFBURN_OK, udfburn_entries(handle, "/", sizeof *found, &found, &count));
        EXPECT(count == commits);
        for (size_t i = 0; i < count; i++) EXPECT(found[i].size == (i + 1) * 100);
        udfburn_free(found);
        udfburn_close(handle);
        if (is_over) break;
        is_over = waitpid(child, &outcome, WNOHANG) == child;
    }
    if (!is_over) EXPECT(waitpid(child, &outcome, 0) == child);
    EXPECT(seen == FILES && opens > 1 && outcome == 0);
}

static void what_cannot_be_read(void) {
    udfburn *handle = (udfburn *)&handle;
    STATUS(UDFBURN_ARGUMENT, udfburn_open_read(NULL, 0, &handle));
    EXPECT(!handle);
    STATUS(UDFBURN_ARGUMENT, udfburn_open_read("views.img", 0, NULL));
    STATUS(UDFBURN_NO_IMAGE, udfburn_open_read("missing.img", 0, &handle));
    STATUS(UDFBURN_DEVICE, udfburn_open_read("none/missing.img", 0, &handle));
    STATUS(UDFBURN_DEVICE, udfburn_open_read(".", 0, &handle));
    EXPECT(!mkfifo("pipe", 0600) && !symlink("views.img", "link"));
    STATUS(UDFBURN_DEVICE, udfburn_open_read("pipe", 0, &handle));
    STATUS(UDFBURN_DEVICE, udfburn_open_read("link", 0, &handle));
    put_file("empty.img", "", 0);
    STATUS(UDFBURN_VOLUME, udfburn_open_read("empty.img", UDFBURN_NEWEST, &handle));
    put_file("text", "somebody's only copy", 20);
    STATUS(UDFBURN_VOLUME, udfburn_open_read("text", 0, &handle));
    EXPECT(!truncate("text", (off_t)5 << 30));
    STATUS(UDFBURN_VOLUME, udfburn_open_read("text", 0, &handle));
    EXPECT(!handle);
}

/* ---- What it is ---- */

static void descriptions(void) {
    struct udfburn_volume volume;
    struct { struct udfburn_volume volume; uint8_t more[64]; } longer;
    udfburn *handle = NULL;
    make("told.img");
    handle = opened("told.img");
    STATUS(UDFBURN_OK, udfburn_answer(handle, create_a, sizeof create_a));
    expect_answers(handle, created, sizeof created);
    volume = described(handle);
    EXPECT(volume.identity == MOMENT && volume.moment == 0 && volume.capacity == 600 && volume.unused == 0 && volume.commits == 1);
    EXPECT(volume.files == 1 && volume.directories == 1 && volume.clients == 1 && !strcmp(volume.label, "DISC"));
    STATUS(UDFBURN_ARGUMENT, udfburn_describe(NULL, &volume));
    STATUS(UDFBURN_ARGUMENT, udfburn_describe(handle, NULL));
    volume.size--;
    STATUS(UDFBURN_ARGUMENT, udfburn_describe(handle, &volume));
    memset(&longer, 0xEE, sizeof longer);
    longer.volume.size = sizeof longer;
    STATUS(UDFBURN_OK, udfburn_describe(handle, &longer.volume));
    EXPECT(longer.volume.size == sizeof longer && longer.more[0] == 0 && longer.more[63] == 0);
    uint32_t next = described(handle).next;
    udfburn_close(handle);
    /* Blocks behind the newest commit, and a file that is longer than its volume. */
    EXPECT(!truncate("told.img", (off_t)(next + 5) * UDFBURN_BLOCK));
    handle = opened("told.img");
    EXPECT(described(handle).next == next + 5 && described(handle).unused == 5);
    udfburn_close(handle);
    STATUS(UDFBURN_OK, udfburn_open_memory("DISC", MOMENT + 3, CAPACITY, &handle));
    volume = described(handle);
    EXPECT(volume.identity == MOMENT + 3 && volume.next == 262 && volume.unused == 0);
    udfburn_close(handle);
}

static void beyond_the_capacity(void) {
    struct udfburn_status status;
    udfburn *handle = NULL;
    make("long.img");
    EXPECT(!truncate("long.img", 700 * UDFBURN_BLOCK));
    int32_t outcome = udfburn_open("long.img", &handle);
    EXPECT(outcome == UDFBURN_OK || outcome == UDFBURN_VOLUME);
    if (handle) {
        EXPECT(described(handle).next == 600);
        STATUS(UDFBURN_OK, udfburn_status(handle, &status));
        EXPECT(status.next == 600);
    }
    udfburn_close(handle);
}

/* The format's own table is damaged: the volume is read by its newest commit, and nobody knows when it was made. */
static void a_damaged_format(void) {
    uint8_t zeros[UDFBURN_BLOCK] = {0};
    udfburn_close(with_commits("told.img"));
    int fd = image_at("told.img");
    EXPECT(pwrite(fd, zeros, sizeof zeros, 261 * UDFBURN_BLOCK) == UDFBURN_BLOCK && !close(fd));
    udfburn *handle = opened("told.img");
    EXPECT(described(handle).identity == UINT64_MAX && described(handle).commits == 5);
    udfburn_close(handle);
}

static void expectations(void) {
    struct udfburn_node node;
    size_t count;
    uint8_t *bytes;
    uint64_t number;
    udfburn *handle = with_commits("told.img");
    STATUS(UDFBURN_OK, udfburn_expect(handle, 0));
    STATUS(UDFBURN_OK, udfburn_expect(handle, 5));
    STATUS(UDFBURN_OK, udfburn_stat(handle, "/d", &node));
    udfburn_close(handle);
    /* One bit in the last block: it cannot be told from a commit that was interrupted, but by who keeps the number. */
    bytes = file_bytes("told.img", &count);
    bytes[count - UDFBURN_BLOCK + 20] ^= 1;
    put_file("flipped.img", bytes, count);
    free(bytes);
    handle = opened("flipped.img");
    EXPECT(described(handle).commits == 4 && described(handle).unused > 0);
    STATUS(UDFBURN_OK, udfburn_expect(handle, 4));
    STATUS(UDFBURN_OLDER, udfburn_expect(handle, 5));
    STATUS(UDFBURN_OLDER, create(handle, "/new", 1));
    STATUS(UDFBURN_OLDER, udfburn_stat(handle, "/d", &node));
    STATUS(UDFBURN_OLDER, udfburn_last_number(handle, 7, &number));
    STATUS(UDFBURN_OLDER, udfburn_answer(handle, get_a, sizeof get_a));
    STATUS(UDFBURN_OLDER, udfburn_expect(handle, 0));
    EXPECT(described(handle).commits == 4);
    udfburn_close(handle);
    STATUS(UDFBURN_ARGUMENT, udfburn_expect(NULL, 0));
    EXPECT(is_same_file("told.img", "told.img"));
}

static void entries(void) {
    struct later { struct udfburn_entry entry; uint8_t more[16]; } *longer;
    struct udfburn_entry *found = NULL;
    size_t count;
    udfburn *handle = with_commits("told.img");
    STATUS(UDFBURN_OK, udfburn_entries(handle, "/d", sizeof *found, &found, &count));
    EXPECT(count == 2 && !strcmp(found[0].name, "2") && found[0].size == 20 && found[0].kind == UDFBURN_FILE);
    EXPECT(found[1].moment == MOMENT + 1 && !strcmp(found[1].name, "3") && found[1].size == 30 && found[1].reserved == 0);
    udfburn_free(found);
    STATUS(UDFBURN_OK, udfburn_entries(handle, "/", sizeof *longer, (struct udfburn_entry **)(void *)&longer, &count));
    EXPECT(count == 1 && !strcmp(longer[0].entry.name, "d") && longer[0].entry.size == 2 && longer[0].more[0] == 0 && longer[0].more[15] == 0);
    EXPECT(longer[0].entry.kind == UDFBURN_DIRECTORY);
    udfburn_free(longer);
    static const size_t wrong[] = {0, sizeof *found - 8, sizeof *found + 1, SIZE_MAX, 1 << 20};
    for (size_t i = 0; i < sizeof wrong / sizeof *wrong; i++) {
        found = (struct udfburn_entry *)&count;
        STATUS(UDFBURN_ARGUMENT, udfburn_entries(handle, "/", wrong[i], &found, &count));
        EXPECT(!found && count == 0);
    }
    STATUS(UDFBURN_NOT_DIRECTORY, udfburn_entries(handle, "/d/2", sizeof *found, &found, &count));
    STATUS(UDFBURN_NOT_FOUND, udfburn_entries(handle, "/e", sizeof *found, &found, &count));
    STATUS(UDFBURN_ARGUMENT, udfburn_entries(handle, NULL, sizeof *found, &found, &count));
    STATUS(UDFBURN_ARGUMENT, udfburn_entries(handle, "/", sizeof *found, NULL, &count));
    STATUS(UDFBURN_ARGUMENT, udfburn_entries(handle, "/", sizeof *found, &found, NULL));
    STATUS(UDFBURN_ARGUMENT, udfburn_entries(NULL, "/", sizeof *found, &found, &count));
    udfburn_close(handle);
}

/* ---- Room ---- */

/* Nearer and nearer to the end of a volume: whether there is room is what the request says of it. */
static void is_exact(int on_file, const char *path, size_t length) {
    static uint8_t data[UDFBURN_FILE_LIMIT];
    int refused = 0, fitted = 0;
    for (uint32_t filler = 40; filler < 90; filler++) {
        udfburn *handle = NULL;
        struct udfburn_request request = {7, 0, MOMENT, 0, 0}, last = request;
        if (on_file) {
            unlink("room.img");
            STATUS(UDFBURN_OK, udfburn_format("room.img", "DISC", MOMENT, 512));
            handle = opened("room.img");
        } else {
            STATUS(UDFBURN_OK, udfburn_open_memory("DISC", MOMENT, 512, &handle));
        }
        STATUS(UDFBURN_OK, create(handle, "/old", 5000));
        STATUS(UDFBURN_OK, udfburn_mkdir(handle, &request, "/d"));
        STATUS(UDFBURN_OK, create(handle, "/filler", 2048 * filler));
        int32_t said = udfburn_room(handle, path, length), is_old = !strcmp(path, "/old");
        STATUS(said, is_old ? udfburn_replace(handle, &last, path, data, length) : create(handle, path, length));
        fitted += said == UDFBURN_OK;
        refused += said == UDFBURN_FULL;
        udfburn_close(handle);
    }
    EXPECT(fitted > 0 && refused > 0);
}

static void rooms(void) {
    static const char wide[] = "/d/\xE6\xBC\xA2\xE5\xAD\x97.\xC3\xA9";
    udfburn *handle = with_commits("told.img");
    STATUS(UDFBURN_OK, udfburn_room(handle, "/d/4", 0));
    STATUS(UDFBURN_OK, udfburn_room(handle, "/d/2", 100000));
    STATUS(UDFBURN_FULL, udfburn_room(handle, "/d/4", UDFBURN_FILE_LIMIT));
    STATUS(UDFBURN_FULL, udfburn_room(handle, "/d/2", UDFBURN_FILE_LIMIT));
    STATUS(UDFBURN_ARGUMENT, udfburn_room(handle, "/d/4", (uint64_t)UDFBURN_GREATEST_FILE + 1));
    STATUS(UDFBURN_IS_DIRECTORY, udfburn_room(handle, "/d", 1));
    STATUS(UDFBURN_IS_DIRECTORY, udfburn_room(handle, "/", 1));
    STATUS(UDFBURN_NO_PARENT, udfburn_room(handle, "/e/4", 1));
    STATUS(UDFBURN_NO_PARENT, udfburn_room(handle, "/d/2/4", 1));
    STATUS(UDFBURN_TEXT, udfburn_room(handle, "", 1));
    STATUS(UDFBURN_TEXT, udfburn_room(handle, "d", 1));
    STATUS(UDFBURN_TEXT, udfburn_room(handle, "/d/", 1));
    STATUS(UDFBURN_TOO_DEEP, udfburn_room(handle, "/1/2/3/4/5/6/7/8/9/10/11/12/13/14/15/16/17", 1));
    STATUS(UDFBURN_ARGUMENT, udfburn_room(handle, NULL, 1));
    STATUS(UDFBURN_ARGUMENT, udfburn_room(NULL, "/d", 1));
    udfburn_close(handle);
    for (int on_file = 0; on_file < 2; on_file++) {
        is_exact(on_file, "/new", 2048 * 78);
        is_exact(on_file, "/d/new", 2048 * 77 + 1);
        is_exact(on_file, wide, 2048 * 79);
        is_exact(on_file, "/old", 2048 * 80);
    }
}

/* Files of long names until none fits: no request is refused that was said to fit. Wide characters take two bytes there. */
static void until_it_is_full(const char *character) {
    char path[400], *end;
    int32_t said = UDFBURN_OK;
    int count = 0;
    unlink("room.img");
    STATUS(UDFBURN_OK, udfburn_format("room.img", "DISC", MOMENT, 1500));
    udfburn *handle = opened("room.img");
    while (said == UDFBURN_OK && count < 512) {
        end = path;
        *end++ = '/';
        for (int i = 0; i < 90 + count % 30; i++) end += sprintf(end, "%s", character);
        sprintf(end, "%d", count);
        said = udfburn_room(handle, path, (size_t)(count * 397 % 9000));
        int32_t done = create(handle, path, (size_t)(count * 397 % 9000));
        EXPECT(said == UDFBURN_OK ? done == UDFBURN_OK : done == said);
        count++;
    }
    EXPECT(count > 50 && said == UDFBURN_FULL);
    udfburn_close(handle);
}

int main(int argc, char **argv) {
    if (argc != 2 || chdir(argv[1])) return EXIT_FAILURE;
    int before = descriptors();
    reading();
    beside_a_commit();
    beside_a_writer();
    what_cannot_be_read();
    descriptions();
    beyond_the_capacity();
    a_damaged_format();
    expectations();
    entries();
    rooms();
    until_it_is_full("n");
    until_it_is_full("\xC3\xA4");
    until_it_is_full("\xE6\xBC\xA2");
    EXPECT(descriptors() == before);
    return finish("views");
}
