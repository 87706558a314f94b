/* A drive whose calls fail by chance, and one that lies by chance. After failures, what was acknowledged is there when the drive
 * works again. Lies may cost what the volume holds, but no call crashes or does not end.
 * usage: chance ROUNDS */
#ifndef _GNU_SOURCE
#define _GNU_SOURCE
#endif
#include "chance.h"
#include "support.h"

enum { CAPACITY = 4000, FILES = 30, LONGEST = 90000, TRIES = 200 };

static struct {
    uint8_t blocks[CAPACITY * UDFBURN_BLOCK];
    uint32_t next;
    uint32_t failures;          /* one write in so many fails, and one other call in four times as many; 0: none */
    uint32_t lies;              /* one answer in so many is wrong; 0: none */
} disc;

static uint8_t data[LONGEST], found[LONGEST];

static int one_in(uint32_t rate) { return rate > 0 && chance(rate) == 0; }

static int32_t capacity_of(void *context, uint32_t *blocks) {
    (void)context;
    *blocks = one_in(disc.lies) ? (one_in(2) ? UINT32_MAX : chance(5000)) : (uint32_t)CAPACITY;
    return one_in(disc.failures * 4);
}

static int32_t next_of(void *context, uint32_t *address) {
    (void)context;
    *address = disc.next;
    if (one_in(disc.lies)) *address = one_in(2) ? disc.next + chance(5) - 2 : one_in(2) ? UINT32_MAX : chance(CAPACITY + 10);
    return one_in(disc.failures * 4) ? -7 : 0;
}

static int32_t read_blocks(void *context, uint32_t address, uint32_t count, void *blocks) {
    (void)context;
    EXPECT(disc.lies > 0 || (address <= disc.next && count <= disc.next - address));
    if (address >= CAPACITY || count > CAPACITY - address) return 1;
    memcpy(blocks, disc.blocks + (size_t)address * UDFBURN_BLOCK, (size_t)count * UDFBURN_BLOCK);
    if (one_in(disc.lies))
        for (int i = 0; i < 20; i++) ((uint8_t *)blocks)[chance(count * UDFBURN_BLOCK)] = (uint8_t)chance(256);
    return one_in(disc.failures * 4);
}

static int32_t write_blocks(void *context, uint32_t address, uint32_t count, const void *blocks) {
    (void)context;
    EXPECT(count > 0 && (disc.lies > 0 || address == disc.next));
    if (address >= CAPACITY || count > CAPACITY - address) return 1;
    if (one_in(disc.lies)) return 0;
    int fails = one_in(disc.failures);
    uint32_t kept = fails ? chance(count + 1) : count;
    for (uint32_t i = 0; i < kept; i++) {
        uint8_t *block = disc.blocks + (size_t)(address + i) * UDFBURN_BLOCK;
        /* Of a write that fails any choice of the blocks is there, and the others are zeros. */
        if (fails && one_in(2)) memset(block, 0, UDFBURN_BLOCK);
        else memcpy(block, (const uint8_t *)blocks + (size_t)i * UDFBURN_BLOCK, UDFBURN_BLOCK);
    }
    disc.next = address + kept;
    return fails ? 5 : 0;
}

static const struct udfburn_drive drive = {&disc, capacity_of, next_of, read_blocks, write_blocks};

/* The bytes of a file, which its number says. */
static size_t content(int number, uint8_t *bytes) {
    size_t length = number % 3 == 0 ? LONGEST - (size_t)number * 1000 : (size_t)number * 97;
    memset(bytes, number, length);
    return length;
}

/* Sends one request until its status says what became of it, on a handle that is opened again now and then. */
static int32_t send(udfburn **handle, struct udfburn_request *request, const char *path, size_t length) {
    int32_t status = UDFBURN_DEVICE;
    for (int tries = 0; tries < TRIES && (status == UDFBURN_DEVICE || status == UDFBURN_MEMORY); tries++) {
        if (!*handle) status = udfburn_open_drive(&drive, handle);
        if (*handle) status = udfburn_create(*handle, request, path, data, length);
        if (status != UDFBURN_OK && one_in(2)) {
            udfburn_close(*handle);
            *handle = NULL;
        }
    }
    return status;
}

static void look_around(udfburn *handle) {
    struct udfburn_commit commit = {0, 0, 0, 0, 0};
    struct udfburn_name *names;
    struct udfburn_status status;
    uint64_t number;
    size_t count;
    if (!handle) return;
    if (udfburn_list(handle, "/", &names, &count) == UDFBURN_OK) udfburn_free(names);
    for (int i = 0; i < FILES + 2 && udfburn_log(handle, &commit) == UDFBURN_OK; i++) continue;
    udfburn_status(handle, &status);
    udfburn_last_number(handle, 9, &number);
    udfburn_get(handle, "/0", found, sizeof found, &count);
}

/* A new volume, on which files are created until one cannot be: how many were acknowledged. */
static int fill(uint32_t failures, uint32_t lies) {
    udfburn *handle = NULL;
    int number = 0;
    int32_t status = UDFBURN_OK;
    memset(&disc, 0, sizeof disc);
    STATUS(UDFBURN_OK, udfburn_format_drive(&drive, "DISC", MOMENT));
    disc.failures = failures;
    disc.lies = lies;
    while (number < FILES && status == UDFBURN_OK) {
        struct udfburn_request request = {9, (uint64_t)number + 1, MOMENT, 0, 0};
        char path[16];
        snprintf(path, sizeof path, "/%d", number);
        status = send(&handle, &request, path, content(number, data));
        if (status == UDFBURN_OK) number++;
        if (lies > 0) look_around(handle);
    }
    if (lies == 0) EXPECT(status == UDFBURN_OK || status == UDFBURN_DEVICE || status == UDFBURN_FULL);
    udfburn_close(handle);
    disc.failures = disc.lies = 0;
    return number;
}

static void has_files(int count) {
    udfburn *handle = NULL;
    STATUS(UDFBURN_OK, udfburn_open_drive(&drive, &handle));
    for (int number = 0; handle && number < count; number++) {
        size_t length, wanted = content(number, data);
        char path[16];
        snprintf(path, sizeof path, "/%d", number);
        STATUS(UDFBURN_OK, udfburn_get(handle, path, found, sizeof found, &length));
        EXPECT(length == wanted && !memcmp(found, data, length));
    }
    udfburn_close(handle);
}

int main(int argc, char **argv) {
    int acknowledged = 0, lied = 0;
    if (argc != 2) return EXIT_FAILURE;
    int rounds = atoi(argv[1]);
    for (int round = 0; round < rounds; round++) {
        state = (uint64_t)round * 7919 + 13;
        int count = fill(4 + chance(40), 0);
        has_files(count);
        acknowledged += count;
        lied += fill(0, 200 + chance(3000));
    }
    EXPECT(acknowledged > 5 * rounds && lied > rounds);
    return finish("chance");
}
