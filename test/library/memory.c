/* A volume's life while allocations are refused: each call that says UDFBURN_MEMORY is made again, on a handle that is opened anew.
 * It prints `done`, or `memory` where it was refused again and again.
 * usage: memory IMAGE */
#ifndef _GNU_SOURCE
#define _GNU_SOURCE
#endif
#include "support.h"

enum { TRIES = 4, STREAM = UDFBURN_FILE_LIMIT + 5 };

static const char *image;
static udfburn *handle;
static uint8_t data[100000];

/* A step of the life: one call, and what it must give. */
typedef int32_t (*step)(void);

static struct udfburn_request request_of(uint64_t number) {
    struct udfburn_request request = {7, number, MOMENT, 0, 0};
    return request;
}

static int32_t format(void) { return udfburn_format(image, "DISC", MOMENT, 3000); }

static int32_t open_again(void) {
    udfburn_close(handle);
    handle = NULL;
    return udfburn_open(image, &handle);
}

static int32_t make_directory(void) {
    struct udfburn_request request = request_of(1);
    return udfburn_mkdir(handle, &request, "/d");
}

static int32_t create(void) {
    struct udfburn_request request = request_of(2);
    return udfburn_create(handle, &request, "/d/x", data, sizeof data);
}

static int32_t replace(void) {
    struct udfburn_request request = request_of(3);
    return udfburn_replace(handle, &request, "/d/x", "short", 5);
}

static int32_t rename_it(void) {
    struct udfburn_request request = request_of(4);
    return udfburn_rename(handle, &request, "/d/x", "/y");
}

static int32_t remove_it(void) {
    struct udfburn_request request = request_of(5);
    return udfburn_remove(handle, &request, "/d");
}

static int64_t give(void *context, uint64_t offset, void *into, size_t room) {
    (void)context;
    size_t count = offset < STREAM ? STREAM - (size_t)offset : 0;
    if (count > room) count = room;
    memset(into, 7, count);
    return (int64_t)count;
}

/* The same client's other requests keep their numbers. */
static int32_t put(void) {
    struct udfburn_request request = request_of(0);
    request.client = 8;
    return udfburn_put(handle, &request, "/z", give, NULL);
}

/* A group that lost a request is taken back: all of it is sent again. */
static int32_t group(void) {
    struct udfburn_request request = request_of(1);
    request.client = 9;
    int32_t status = udfburn_begin(handle);
    if (status == UDFBURN_OK) status = udfburn_mkdir(handle, &request, "/g");
    request.number = 2;
    if (status == UDFBURN_OK) status = udfburn_create(handle, &request, "/g/x", data, sizeof data);
    return status == UDFBURN_OK ? udfburn_settle(handle) : status;
}

static int32_t get(void) {
    uint8_t bytes[5];
    size_t count;
    int32_t status = udfburn_get(handle, "/y", bytes, sizeof bytes, &count);
    EXPECT(status != UDFBURN_OK || (count == 5 && !memcmp(bytes, "short", 5)));
    return status;
}

static int32_t list(void) {
    struct udfburn_name *names;
    size_t count;
    int32_t status = udfburn_list(handle, "/", &names, &count);
    int is_all = count == 3 && !strcmp(names[0].name, "y") && !strcmp(names[1].name, "z") && !strcmp(names[2].name, "g");
    EXPECT(status == UDFBURN_OK ? is_all : !names && count == 0);
    udfburn_free(names);
    return status;
}

static int32_t look(void) {
    uint64_t number;
    int32_t outcome = udfburn_last_number(handle, 7, &number);
    EXPECT(outcome != UDFBURN_OK || number == 5);
    return outcome;
}

/* The format, the five requests, the three of the stream, and the two of the group. */
static int32_t all_commits(void) {
    struct udfburn_commit commit = {0, 0, 0, 0, 0};
    struct udfburn_status volume;
    int32_t outcome;
    uint32_t count = 0;
    while ((outcome = udfburn_log(handle, &commit)) == UDFBURN_OK) count++;
    if (outcome != UDFBURN_NONE) return outcome;
    EXPECT(count == 11 && commit.number == 0);
    outcome = udfburn_status(handle, &volume);
    EXPECT(outcome != UDFBURN_OK || volume.commits == 10);
    return outcome;
}

static int32_t in_memory(void) {
    udfburn *volume;
    uint32_t address;
    int32_t status = udfburn_open_memory("DISC", MOMENT, 600, &volume);
    if (status != UDFBURN_OK) return status;
    status = udfburn_answer(volume, create_a, sizeof create_a);
    EXPECT(status == UDFBURN_MEMORY || udfburn_next_block(volume, &address, data) == UDFBURN_OK);
    memset(data, 0, UDFBURN_BLOCK);
    udfburn_close(volume);
    return status;
}

/* Runs a step, again where it was refused. */
static int is_done(step step) {
    for (int i = 0; i < TRIES; i++) {
        int32_t status = step();
        if (status == UDFBURN_OK) return 1;
        STATUS(UDFBURN_MEMORY, status);
        if (status != UDFBURN_MEMORY) return 0;
        if (handle && open_again() != UDFBURN_OK) udfburn_close(handle), handle = NULL;
        if (!handle && step != format && step != open_again && open_again() != UDFBURN_OK) return 0;
    }
    return 0;
}

int main(int argc, char **argv) {
    static const step steps[] = {format, open_again, make_directory, create, replace, rename_it, remove_it, put, group, get, list, look,
                                 all_commits, in_memory};
    if (argc != 2) return EXIT_FAILURE;
    image = argv[1];
    size_t done = 0;
    while (done < sizeof steps / sizeof *steps && is_done(steps[done])) done++;
    udfburn_close(handle);
    /* No allocation is made for this line. */
    const char *said = failed ? "failed\n" : done == sizeof steps / sizeof *steps ? "done\n" : "memory\n";
    return write(1, said, strlen(said)) == (ssize_t)strlen(said) && !failed ? EXIT_SUCCESS : EXIT_FAILURE;
}
