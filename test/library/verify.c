/* A drive that flips a bit of a block now and then, which it does not say: with UDFBURN_VERIFY no file is acknowledged that is not there.
 * usage: verify ROUNDS */
#ifndef _GNU_SOURCE
#define _GNU_SOURCE
#endif

enum { CAPACITY = 3000, FILES = 40, LONGEST = 20000, TRIES = 50 };

#include "chance.h"
#include "memory_drive.h"

static struct {
    struct medium medium;
    uint32_t rate;              /* one write in so many flips a bit; 0: none */
    uint32_t reads;             /* blocks that were read */
    int32_t fails;              /* what a read returns */
} disc;

static int32_t read_blocks(void *context, uint32_t address, uint32_t count, void *blocks) {
    int32_t status = medium_read(context, address, count, blocks);
    disc.reads += count;
    return disc.fails ? disc.fails : status;
}

static int32_t write_blocks(void *context, uint32_t address, uint32_t count, const void *blocks) {
    int32_t status = medium_write(context, address, count, blocks);
    if (disc.rate > 0 && chance(disc.rate) == 0) block_of(&disc.medium, address)[chance(count * UDFBURN_BLOCK)] ^= (uint8_t)(1 << chance(8));
    return status;
}

static const struct udfburn_drive drive = {&disc.medium, medium_capacity, medium_next, read_blocks, write_blocks};

static size_t content(int number, uint8_t *bytes) {
    size_t length = (size_t)(number * 1733 % LONGEST);
    memset(bytes, 'a' + number % 26, length);
    return length;
}

/* Creates files, each sent again with its number until it is acknowledged, and returns how many of these are not there. */
static int lost(uint32_t rate, uint32_t flags) {
    static uint8_t data[LONGEST], found[LONGEST];
    udfburn *handle = NULL;
    char path[16];
    int acknowledged = 0, count = 0;
    size_t length;
    memset(&disc, 0, sizeof disc);
    STATUS(UDFBURN_OK, udfburn_format_drive(&drive, "DISC", MOMENT));
    disc.rate = rate;
    for (int number = 0; number < FILES; number++) {
        struct udfburn_request request = {9, (uint64_t)number + 1, MOMENT, 0, 0};
        int32_t status = UDFBURN_DEVICE;
        snprintf(path, sizeof path, "/%d", number);
        for (int tries = 0; tries < TRIES && status == UDFBURN_DEVICE; tries++) {
            if (!handle) STATUS(UDFBURN_OK, udfburn_open_drive_with(&drive, flags, &handle));
            status = udfburn_create(handle, &request, path, data, content(number, data));
            if (status == UDFBURN_OK) continue;
            udfburn_close(handle);
            handle = NULL;
        }
        if (status != UDFBURN_OK) break;
        acknowledged++;
    }
    udfburn_close(handle);
    EXPECT(acknowledged > 10);
    disc.rate = 0;
    handle = NULL;
    if (udfburn_open_drive(&drive, &handle) != UDFBURN_OK) return acknowledged;
    for (int number = 0; number < acknowledged; number++) {
        size_t wanted = content(number, data);
        snprintf(path, sizeof path, "/%d", number);
        count += udfburn_get(handle, path, found, sizeof found, &length) != UDFBURN_OK || length != wanted || memcmp(found, data, wanted);
    }
    udfburn_close(handle);
    return count;
}

static void one_flip(void) {
    struct udfburn_request request = {9, 0, MOMENT, 0, 0};
    struct udfburn_reason reason;
    udfburn *handle = NULL;
    uint32_t reads;
    EXPECT(lost(0, UDFBURN_VERIFY) == 0);
    STATUS(UDFBURN_ARGUMENT, udfburn_open_drive_with(&drive, 2, &handle));
    STATUS(UDFBURN_ARGUMENT, udfburn_open_drive_with(NULL, 0, &handle));
    STATUS(UDFBURN_ARGUMENT, udfburn_open_drive_with(&drive, 0, NULL));
    STATUS(UDFBURN_OK, udfburn_open_drive_with(&drive, UDFBURN_VERIFY, &handle));
    uint32_t before = disc.medium.next;
    reads = disc.reads;
    STATUS(UDFBURN_OK, udfburn_mkdir(handle, &request, "/d"));
    EXPECT(disc.reads - reads >= disc.medium.next - before);
    disc.rate = 1;
    request.number = 0;
    STATUS(UDFBURN_DEVICE, udfburn_mkdir(handle, &request, "/e"));
    reason.size = sizeof reason;
    STATUS(UDFBURN_OK, udfburn_reason(handle, &reason));
    EXPECT(!strcmp(reason.call, "drive.verify"));
    udfburn_close(handle);
    disc.rate = 0;
    STATUS(UDFBURN_OK, udfburn_open_drive_with(&drive, UDFBURN_VERIFY, &handle));
    STATUS(UDFBURN_OK, udfburn_mkdir(handle, &request, "/e"));
    EXPECT(!request.repeated);
    /* What cannot be read back is not acknowledged. */
    disc.fails = 5;
    request.number = 0;
    STATUS(UDFBURN_DEVICE, udfburn_mkdir(handle, &request, "/f"));
    udfburn_close(handle);
}

int main(int argc, char **argv) {
    int without = 0;
    if (argc != 2) return EXIT_FAILURE;
    one_flip();
    for (int round = 0; round < atoi(argv[1]); round++) {
        state = (uint64_t)round * 7919 + 13;
        without += lost(20, 0);
        EXPECT(lost(20, UDFBURN_VERIFY) == 0);
    }
    /* So the drive does flip bits. */
    EXPECT(without > 0);
    return finish("verify");
}
