/* A volume in memory while allocations are refused: after UDFBURN_MEMORY the blocks that wait are written, or none of them, and the
 * volume goes on as a file. Its last line is `done`, or `memory` where no volume could be made.
 * usage: blocks IMAGE all|none */
#ifndef _GNU_SOURCE
#define _GNU_SOURCE
#endif
#include "support.h"

enum { CAPACITY = 1000, REQUESTS = 5 };

static uint8_t medium[CAPACITY * UDFBURN_BLOCK], data[100000];
static uint32_t written;

static void collect(udfburn *handle) {
    uint32_t address;
    while (udfburn_next_block(handle, &address, medium + (size_t)written * UDFBURN_BLOCK) == UDFBURN_OK) {
        EXPECT(address == written++);
        STATUS(UDFBURN_OK, udfburn_took(handle));
    }
}

static int32_t request_of(udfburn *handle, uint64_t number) {
    struct udfburn_request request = {7, number, MOMENT, 0, 0};
    switch (number) {
    case 1: return udfburn_mkdir(handle, &request, "/d");
    case 2: return udfburn_create(handle, &request, "/d/x", data, sizeof data);
    case 3: return udfburn_create(handle, &request, "/y", "short", 5);
    case 4: return udfburn_rename(handle, &request, "/y", "/d/z");
    default: return udfburn_replace(handle, &request, "/d/x", data, 5000);
    }
}

static int is_file(udfburn *handle, const char *path, const void *wanted, size_t length) {
    static uint8_t found[sizeof data];
    size_t count;
    return udfburn_get(handle, path, found, sizeof found, &count) == UDFBURN_OK && count == length && !memcmp(found, wanted, length);
}

/* The rest on a file, of which the first request may have been committed in memory: the status of the first call that failed. */
static int32_t go_on(const char *image, uint64_t number) {
    struct udfburn_status status;
    udfburn *handle;
    int32_t outcome = udfburn_open(image, &handle);
    for (; number <= REQUESTS && outcome == UDFBURN_OK; number++) outcome = request_of(handle, number);
    if (outcome == UDFBURN_OK) outcome = udfburn_status(handle, &status);
    if (outcome == UDFBURN_OK) {
        EXPECT(status.commits == REQUESTS && status.files == 2 && status.directories == 2);
        outcome = is_file(handle, "/d/x", data, 5000) && is_file(handle, "/d/z", "short", 5) ? UDFBURN_OK : UDFBURN_MEMORY;
    }
    udfburn_close(handle);
    return outcome;
}

int main(int argc, char **argv) {
    udfburn *handle;
    int32_t status = UDFBURN_OK;
    uint64_t number;
    if (argc != 3) return EXIT_FAILURE;
    memset(data, 'x', sizeof data);
    status = udfburn_open_memory("DISC", MOMENT, CAPACITY, &handle);
    EXPECT(status == UDFBURN_OK || status == UDFBURN_MEMORY);
    if (status != UDFBURN_OK) {
        printf(failed ? "failed\n" : "memory\n");
        return failed;
    }
    collect(handle);
    for (number = 1; number <= REQUESTS; number++) {
        status = request_of(handle, number);
        EXPECT(status == UDFBURN_OK || status == UDFBURN_MEMORY);
        if (status == UDFBURN_OK || !strcmp(argv[2], "all")) collect(handle);
        if (status != UDFBURN_OK) break;
    }
    udfburn_close(handle);
    put_file(argv[1], medium, (size_t)written * UDFBURN_BLOCK);
    status = go_on(argv[1], number);
    /* One allocation is refused, and it may be here. */
    if (status == UDFBURN_MEMORY) status = go_on(argv[1], number);
    STATUS(UDFBURN_OK, status);
    printf(failed ? "failed\n" : "done\n");
    return failed;
}
