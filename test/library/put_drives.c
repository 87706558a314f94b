/* udfburn_put on a drive of which each write fails in turn, and each read: no other file is changed, the file has its path when it is whole,
 * and the next call makes it so. And on one that fills packets up, where udfburn_room says that there is room.
 * usage: put_drives FOLDER */
#ifndef _GNU_SOURCE
#define _GNU_SOURCE
#endif

enum { CAPACITY = 6000, MOST_CALLS = 5000 };

#include "memory_drive.h"
#include "stream.h"

static struct {
    struct medium medium;
    uint32_t unit;              /* blocks of a packet; 0: nothing is filled up */
    int writes, reads;          /* until one fails; 0: none does */
    uint32_t kept;              /* blocks of the failed write that are there */
} disc;

static int32_t read_blocks(void *context, uint32_t address, uint32_t count, void *blocks) {
    return disc.reads > 0 && --disc.reads == 0 ? 5 : medium_read(context, address, count, blocks);
}

/* With at least three copies of the VAT ICB, up to the end of the packet, as far as the disc goes. */
static void fill_up(const void *block) {
    struct medium *medium = &disc.medium;
    for (uint32_t copies = 0; medium->next < medium->capacity && (copies < 3 || medium->next % disc.unit); copies++) {
        udfburn_copy_vat_icb(block, medium->next, block_of(medium, medium->next));
        medium->next++;
    }
}

static int32_t write_blocks(void *context, uint32_t address, uint32_t count, const void *blocks) {
    int fails = disc.writes > 0 && --disc.writes == 0;
    write_first((struct medium *)context, address, count, blocks, fails && count > disc.kept ? disc.kept : count);
    if (disc.unit > 0 && count == 1 && udfburn_is_vat_icb(blocks, address)) fill_up(blocks);
    return fails ? 5 : 0;
}

static const struct udfburn_drive drive = {&disc.medium, medium_capacity, medium_next, read_blocks, write_blocks};

static udfburn *open_again(udfburn *handle) {
    udfburn_close(handle);
    disc.writes = disc.reads = 0;
    handle = NULL;
    STATUS(UDFBURN_OK, udfburn_open_drive_with(&drive, UDFBURN_VERIFY, &handle));
    if (!handle) exit(EXIT_FAILURE);
    return handle;
}

/* A blank disc with a file of another client. */
static udfburn *new_disc(const struct stream *kept, uint32_t capacity, uint32_t unit) {
    struct udfburn_request request = {9, 0, MOMENT, 0, 0};
    struct stream stream = *kept;
    disc.medium.next = 0;
    disc.medium.capacity = capacity;
    disc.unit = unit;
    disc.writes = disc.reads = 0;
    STATUS(UDFBURN_OK, udfburn_format_drive(&drive, "DISC", MOMENT));
    udfburn *handle = open_again(NULL);
    STATUS(UDFBURN_OK, udfburn_put(handle, &request, "/kept", give, &stream));
    return handle;
}

/* Whether the call met the failure: the last one does not. */
static int fails_at(int writes, int reads, uint32_t left) {
    struct stream kept = stream_of(5, 3000), stream = stream_of(1, 2 * PIECE + 5);
    struct udfburn_request request;
    struct udfburn_node node;
    udfburn *handle = new_disc(&kept, CAPACITY, 0);
    disc.writes = writes;
    disc.reads = reads;
    disc.kept = left;
    int32_t status = put_stream(handle, "/file", &stream, &request);
    int met = (writes > 0 && disc.writes == 0) || (reads > 0 && disc.reads == 0);
    STATUS(met ? UDFBURN_DEVICE : UDFBURN_OK, status);
    EXPECT(met == (request.commit == 0));
    handle = open_again(handle);
    EXPECT(has_stream(handle, "/kept", &kept));
    EXPECT(udfburn_stat(handle, "/file", &node) == UDFBURN_NOT_FOUND || has_stream(handle, "/file", &stream));
    STATUS(UDFBURN_OK, put_stream(handle, "/file", &stream, &request));
    EXPECT(has_stream(handle, "/file", &stream) && has_stream(handle, "/kept", &kept) && names_of_root(handle) == 2);
    EXPECT(commits_of(handle) == 5);
    udfburn_close(handle);
    return met;
}

/* Where there is room by udfburn_room the file is stored. */
static void packets(uint32_t unit) {
    struct stream kept = stream_of(5, 3000);
    int fits = 0, full = 0;
    for (uint32_t capacity = 1700; capacity < 2000; capacity += 11) {
        struct stream stream = stream_of(1, 2 * PIECE);
        struct udfburn_request request;
        udfburn *handle = new_disc(&kept, capacity, unit);
        int32_t room = udfburn_room(handle, "/file", stream.size), status = put_stream(handle, "/file", &stream, &request);
        EXPECT(status == UDFBURN_OK || (status == UDFBURN_FULL && room == UDFBURN_FULL));
        EXPECT(status == UDFBURN_OK ? has_stream(handle, "/file", &stream) && names_of_root(handle) == 2 : names_of_root(handle) == 1);
        EXPECT(has_stream(handle, "/kept", &kept));
        fits += room == UDFBURN_OK;
        full += status == UDFBURN_FULL;
        udfburn_close(handle);
    }
    EXPECT(fits > 3 && full > 3);
}

int main(int argc, char **argv) {
    static const uint32_t kept[] = {0, 1, 300};
    if (argc != 2) return 2;
    for (size_t i = 0; i < sizeof kept / sizeof *kept; i++) {
        int number = 1;
        while (number < MOST_CALLS && fails_at(number, 0, kept[i])) number++;
        EXPECT(number > 8 && number < MOST_CALLS);
    }
    int number = 1;
    while (number < MOST_CALLS && fails_at(0, number, 0)) number += 1 + number / 16;
    EXPECT(number > 8 && number < MOST_CALLS);
    packets(16);
    packets(32);
    (void)argv;
    return finish("put_drives");
}
