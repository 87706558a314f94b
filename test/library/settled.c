/* Requests between udfburn_begin() and udfburn_settle().
 * usage: settled FOLDER               what the two calls do and refuse, and what is there where a group is not settled
 *        settled IMAGE COUNT GROUPS   makes directories, so many in each of so many groups, and prints a dot where a group is settled.
 *                                     What is lost is sent again, three times at most, and printed as `!`
 *        settled IMAGE COUNT GROUPS open      then sends a group more, and closes the volume before it is settled
 *        settled IMAGE                prints how many commits a reader finds, how many a writer, and the last number */
#ifndef _GNU_SOURCE
#define _GNU_SOURCE
#endif

enum { CLIENT = 7, TRIES = 3, CAPACITY = 600 };

#include "memory_drive.h"

#include <inttypes.h>
#include <sys/wait.h>

static uint32_t commits_of(udfburn *handle) {
    struct udfburn_status status;
    memset(&status, 0, sizeof status);
    STATUS(UDFBURN_OK, udfburn_status(handle, &status));
    return status.commits;
}

static uint64_t last_of(udfburn *handle) {
    uint64_t number = UINT64_MAX;
    STATUS(UDFBURN_OK, udfburn_last_number(handle, CLIENT, &number));
    return number;
}

/* Request `number` makes the directory /dNNN. */
static int32_t make_directory(udfburn *handle, unsigned number) {
    struct udfburn_request request = {CLIENT, number, 0, 0, 0};
    char path[8];
    snprintf(path, sizeof path, "/d%03u", number % 1000);
    int32_t status = udfburn_mkdir(handle, &request, path);
    EXPECT(status != UDFBURN_OK || request.commit == number);
    return status;
}

static int is_there(udfburn *handle, const char *path) {
    struct udfburn_node node;
    int32_t status = udfburn_stat(handle, path, &node);
    EXPECT(status == UDFBURN_OK || status == UDFBURN_NOT_FOUND);
    return status == UDFBURN_OK;
}

/* ---- Groups of a program, whose calls may fail or be its last ---- */

static void say(const char *what) {
    /* At once: it may be killed in the next call. */
    if (write(1, what, 1) != 1) exit(EXIT_FAILURE);
}

/* Sends the requests up to a number as a group, from the one on that the volume does not have. */
static int32_t send_group(udfburn *handle, unsigned to) {
    struct udfburn_reason reason;
    uint64_t last = 0;
    int32_t status = udfburn_last_number(handle, CLIENT, &last), settled;
    if (status == UDFBURN_OK) status = udfburn_begin(handle);
    if (status != UDFBURN_OK) return status;
    unsigned next = (unsigned)last + 1;
    while (next <= to && status == UDFBURN_OK) status = make_directory(handle, next++);
    /* A group that is lost says so at each call, and why. */
    if (status != UDFBURN_OK) STATUS(status, make_directory(handle, next));
    settled = udfburn_settle(handle);
    EXPECT(status == UDFBURN_OK || settled == status);
    if (settled == UDFBURN_OK) return UDFBURN_OK;
    reason.size = sizeof reason;
    STATUS(UDFBURN_OK, udfburn_reason(handle, &reason));
    EXPECT(reason.status == settled && reason.error != 0 && reason.call[0] != '\0');
    STATUS(UDFBURN_MISUSE, udfburn_settle(handle));
    return settled;
}

/* The requests of a group that is not settled. Where the disk cannot have them, the rest is refused. */
static void leave_open(udfburn *handle, unsigned from, unsigned count) {
    STATUS(UDFBURN_OK, udfburn_begin(handle));
    int32_t status = UDFBURN_OK;
    for (unsigned i = 0; i < count && status == UDFBURN_OK; i++) status = make_directory(handle, from + i);
}

static int send_groups(const char *image, unsigned count, unsigned groups, int is_left_open) {
    udfburn *handle = opened(image);
    for (unsigned group = 1; group <= groups; group++) {
        int tries = 0;
        while (send_group(handle, group * count) != UDFBURN_OK && tries < TRIES) {
            say("!");
            tries++;
        }
        if (tries == TRIES) break;
        EXPECT(last_of(handle) == group * count);
        if (!failed) say(".");
    }
    if (is_left_open) leave_open(handle, groups * count + 1, count);
    udfburn_close(handle);
    return failed ? EXIT_FAILURE : EXIT_SUCCESS;
}

static int tell(const char *image) {
    udfburn *handle = NULL;
    STATUS(UDFBURN_OK, udfburn_open_read(image, UDFBURN_NEWEST, &handle));
    uint32_t read = commits_of(handle);
    udfburn_close(handle);
    handle = opened(image);
    printf("%" PRIu32 " %" PRIu32 " %" PRIu64 "\n", read, commits_of(handle), last_of(handle));
    udfburn_close(handle);
    return failed ? EXIT_FAILURE : EXIT_SUCCESS;
}

/* ---- What the calls do ---- */

/* Each call has its own status, by the tree that those before it left, and queries see that tree. */
static void statuses(void) {
    struct udfburn_request request = {CLIENT, 0, MOMENT, 0, 0}, same;
    uint8_t bytes[8];
    size_t length;
    make("group.img");
    udfburn *handle = opened("group.img");
    STATUS(UDFBURN_OK, udfburn_begin(handle));
    STATUS(UDFBURN_NO_PARENT, udfburn_create(handle, &request, "/d/a", "one", 3));
    EXPECT(request.number == 1 && request.commit == 1);
    request.number = 0;
    STATUS(UDFBURN_OK, udfburn_mkdir(handle, &request, "/d"));
    request.number = 0;
    STATUS(UDFBURN_OK, udfburn_create(handle, &request, "/d/a", "one", 3));
    same = request;
    STATUS(UDFBURN_OK, udfburn_create(handle, &same, "/d/a", "one", 3));
    EXPECT(request.commit == 3 && !request.repeated && same.commit == 3 && same.repeated);
    request.number = 0;
    STATUS(UDFBURN_EXISTS, udfburn_create(handle, &request, "/d/a", "two", 3));
    STATUS(UDFBURN_OK, udfburn_get(handle, "/d/a", bytes, sizeof bytes, &length));
    EXPECT(length == 3 && !memcmp(bytes, "one", 3) && commits_of(handle) == 4 && last_of(handle) == 4);
    STATUS(UDFBURN_OK, udfburn_settle(handle));
    EXPECT(is_there(handle, "/d/a") && commits_of(handle) == 4);
    udfburn_close(handle);
    handle = opened("group.img");
    EXPECT(is_there(handle, "/d/a") && commits_of(handle) == 4);
    udfburn_close(handle);
}

/* What does not fit is refused, and the group goes on. */
static void misuse(void) {
    struct udfburn_reason reason;
    udfburn *reader = NULL;
    make("misuse.img");
    udfburn *handle = opened("misuse.img");
    reason.size = sizeof reason;
    STATUS(UDFBURN_ARGUMENT, udfburn_begin(NULL));
    STATUS(UDFBURN_ARGUMENT, udfburn_settle(NULL));
    STATUS(UDFBURN_MISUSE, udfburn_settle(handle));
    STATUS(UDFBURN_OK, udfburn_answer(handle, create_a, 7));
    STATUS(UDFBURN_ARGUMENT, udfburn_begin(handle));
    STATUS(UDFBURN_OK, udfburn_answer(handle, create_a + 7, sizeof create_a - 7));
    STATUS(UDFBURN_ARGUMENT, udfburn_begin(handle));
    expect_answers(handle, created, sizeof created);
    STATUS(UDFBURN_OK, udfburn_begin(handle));
    STATUS(UDFBURN_MISUSE, udfburn_begin(handle));
    STATUS(UDFBURN_OK, udfburn_reason(handle, &reason));
    EXPECT(reason.status == UDFBURN_MISUSE && reason.error == 0);
    /* It is told without the handle too, as each misuse. */
    STATUS(UDFBURN_OK, udfburn_reason(NULL, &reason));
    EXPECT(reason.status == UDFBURN_MISUSE);
    STATUS(UDFBURN_MISUSE, udfburn_answer(handle, get_a, sizeof get_a));
    STATUS(UDFBURN_OK, make_directory(handle, 2));
    STATUS(UDFBURN_OK, udfburn_settle(handle));
    STATUS(UDFBURN_MISUSE, udfburn_settle(handle));
    STATUS(UDFBURN_OK, udfburn_answer(handle, get_a, sizeof get_a));
    expect_answers(handle, got_a, sizeof got_a);
    udfburn_close(handle);
    STATUS(UDFBURN_OK, udfburn_open_read("misuse.img", UDFBURN_NEWEST, &reader));
    STATUS(UDFBURN_READ_ONLY, udfburn_begin(reader));
    STATUS(UDFBURN_MISUSE, udfburn_settle(reader));
    EXPECT(is_there(reader, "/d002"));
    udfburn_close(reader);
}

/* Of a group that is closed nothing is there, in the file either. What was settled before stays. */
static void closed_open(void) {
    make("closed.img");
    udfburn *handle = opened("closed.img");
    STATUS(UDFBURN_OK, udfburn_begin(handle));
    STATUS(UDFBURN_OK, make_directory(handle, 1));
    STATUS(UDFBURN_OK, udfburn_settle(handle));
    size_t length, count;
    uint8_t *before = file_bytes("closed.img", &length);
    STATUS(UDFBURN_OK, udfburn_begin(handle));
    STATUS(UDFBURN_OK, make_directory(handle, 2));
    STATUS(UDFBURN_OK, make_directory(handle, 3));
    udfburn_close(handle);
    uint8_t *after = file_bytes("closed.img", &count);
    EXPECT(length == count && !memcmp(before, after, count));
    free(before);
    free(after);
    handle = opened("closed.img");
    EXPECT(is_there(handle, "/d001") && !is_there(handle, "/d002") && last_of(handle) == 1);
    STATUS(UDFBURN_OK, make_directory(handle, 2));
    udfburn_close(handle);
}

/* ---- Files that grow in a group ---- */

enum { STREAM = 2 * UDFBURN_FILE_LIMIT + 5 };

static uint8_t piece[UDFBURN_FILE_LIMIT];

static int64_t give(void *context, uint64_t offset, void *into, size_t room) {
    (void)context;
    size_t count = offset < STREAM ? STREAM - (size_t)offset : 0;
    if (count > room) count = room;
    memset(into, 7, count);
    return (int64_t)count;
}

static void expect_size(udfburn *handle, const char *path, uint64_t size) {
    struct udfburn_node node;
    memset(&node, 0, sizeof node);
    STATUS(UDFBURN_OK, udfburn_stat(handle, path, &node));
    EXPECT(node.size == size);
}

static void growing(void) {
    struct udfburn_request request = {CLIENT, 0, MOMENT, 0, 0};
    unlink("growing.img");
    STATUS(UDFBURN_OK, udfburn_format("growing.img", "DISC", MOMENT, 6000));
    udfburn *handle = opened("growing.img");
    STATUS(UDFBURN_OK, udfburn_begin(handle));
    STATUS(UDFBURN_OK, udfburn_put(handle, &request, "/stream", give, NULL));
    request.number = 0;
    STATUS(UDFBURN_OK, udfburn_create(handle, &request, "/grows", piece, sizeof piece));
    request.number = 0;
    STATUS(UDFBURN_OK, udfburn_append(handle, &request, "/grows", sizeof piece, piece, 9));
    expect_size(handle, "/grows", sizeof piece + 9);
    STATUS(UDFBURN_OK, udfburn_settle(handle));
    udfburn_close(handle);
    handle = opened("growing.img");
    expect_size(handle, "/stream", STREAM);
    expect_size(handle, "/grows", sizeof piece + 9);
    udfburn_close(handle);
}

/* A reader beside a group sees what was settled. */
static void readers(void) {
    udfburn *reader = NULL;
    make("read.img");
    udfburn *handle = opened("read.img");
    STATUS(UDFBURN_OK, udfburn_begin(handle));
    for (unsigned i = 1; i <= 5; i++) STATUS(UDFBURN_OK, make_directory(handle, i));
    STATUS(UDFBURN_OK, udfburn_open_read("read.img", UDFBURN_NEWEST, &reader));
    EXPECT(commits_of(reader) == 0);
    udfburn_close(reader);
    STATUS(UDFBURN_OK, udfburn_settle(handle));
    STATUS(UDFBURN_OK, udfburn_open_read("read.img", UDFBURN_NEWEST, &reader));
    EXPECT(commits_of(reader) == 5);
    udfburn_close(reader);
    udfburn_close(handle);
}

/* A child that closes its copy of the handle takes nothing from the group. */
static void children(void) {
    int status;
    make("child.img");
    udfburn *handle = opened("child.img");
    STATUS(UDFBURN_OK, udfburn_begin(handle));
    STATUS(UDFBURN_OK, make_directory(handle, 1));
    pid_t child = fork();
    if (child == 0) {
        int others = udfburn_settle(handle) != UDFBURN_MISUSE;
        others += udfburn_begin(handle) != UDFBURN_MISUSE;
        udfburn_close(handle);
        _exit(others);
    }
    EXPECT(child > 0 && waitpid(child, &status, 0) == child && status == 0);
    STATUS(UDFBURN_OK, make_directory(handle, 2));
    STATUS(UDFBURN_OK, udfburn_settle(handle));
    udfburn_close(handle);
    handle = opened("child.img");
    EXPECT(is_there(handle, "/d001") && is_there(handle, "/d002"));
    udfburn_close(handle);
}

/* A file that lost its name, and one whose descriptor is another's by mistake: that one is not cut. */
static void lost_files(void) {
    struct stat before, after;
    make("lost.img");
    udfburn *handle = opened("lost.img");
    STATUS(UDFBURN_OK, udfburn_begin(handle));
    STATUS(UDFBURN_OK, make_directory(handle, 1));
    EXPECT(!unlink("lost.img"));
    STATUS(UDFBURN_DEVICE, udfburn_settle(handle));
    STATUS(UDFBURN_DEVICE, udfburn_begin(handle));
    udfburn_close(handle);

    make("lost.img");
    make("other.img");
    handle = opened("lost.img");
    STATUS(UDFBURN_OK, udfburn_begin(handle));
    STATUS(UDFBURN_OK, make_directory(handle, 1));
    udfburn *other = opened("other.img");
    for (unsigned i = 1; i <= 5; i++) STATUS(UDFBURN_OK, make_directory(other, i));
    int fd = descriptor_of("lost.img");
    EXPECT(!stat("other.img", &before) && dup2(descriptor_of("other.img"), fd) == fd);
    STATUS(UDFBURN_DEVICE, udfburn_settle(handle));
    udfburn_close(handle);
    EXPECT(!stat("other.img", &after) && before.st_size == after.st_size);
    udfburn_close(other);
}

/* Where writes are in order, each request is as without a group. */
static void in_order(void) {
    static struct medium medium;
    static const struct udfburn_drive drive = {&medium, medium_capacity, medium_next, medium_read, medium_write};
    uint8_t block[UDFBURN_BLOCK];
    uint32_t address;
    udfburn *handle = NULL;
    STATUS(UDFBURN_OK, udfburn_format_drive(&drive, "DISC", MOMENT));
    STATUS(UDFBURN_OK, udfburn_open_drive(&drive, &handle));
    STATUS(UDFBURN_OK, udfburn_begin(handle));
    STATUS(UDFBURN_MISUSE, udfburn_begin(handle));
    STATUS(UDFBURN_OK, make_directory(handle, 1));
    udfburn_close(handle);
    STATUS(UDFBURN_OK, udfburn_open_drive(&drive, &handle));
    EXPECT(is_there(handle, "/d001"));
    STATUS(UDFBURN_OK, udfburn_begin(handle));
    STATUS(UDFBURN_OK, make_directory(handle, 2));
    STATUS(UDFBURN_OK, udfburn_settle(handle));
    STATUS(UDFBURN_MISUSE, udfburn_settle(handle));
    udfburn_close(handle);
    STATUS(UDFBURN_OK, udfburn_open_memory("DISC", MOMENT, 600, &handle));
    while (udfburn_took(handle) == UDFBURN_OK) {}
    STATUS(UDFBURN_OK, udfburn_begin(handle));
    STATUS(UDFBURN_OK, make_directory(handle, 1));
    STATUS(UDFBURN_OK, udfburn_next_block(handle, &address, block));
    STATUS(UDFBURN_OK, udfburn_settle(handle));
    udfburn_close(handle);
}

int main(int argc, char **argv) {
    if (argc > 3) return send_groups(argv[1], (unsigned)atoi(argv[2]), (unsigned)atoi(argv[3]), argc > 4);
    if (argc != 2) return EXIT_FAILURE;
    if (chdir(argv[1])) return tell(argv[1]);
    statuses();
    misuse();
    closed_open();
    growing();
    readers();
    children();
    lost_files();
    in_order();
    return finish("settled");
}
