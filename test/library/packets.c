/* Drives of the caller's own that are written in packets: they hold the blocks of a commit back up to its last one, and go on at the next
 * unit. usage: packets FOLDER */
#ifndef _GNU_SOURCE
#define _GNU_SOURCE
#endif

enum { CAPACITY = 2000, FILES = 20, LONGEST = 9000, NONE_FAILS = -1 };

#include "memory_drive.h"

/* What a drive does beside what it owes. */
enum fault { NONE, JUMPS_EARLY, LOSES_A_COMMIT, LOSES_A_VAT_ICB, COPIES_THE_FIRST, LOSES_A_BLOCK, LIES_BETWEEN, GOES_BEYOND, FORGETS_WHAT_IT_HOLDS };

static struct {
    struct medium medium;
    uint8_t held[CAPACITY * UDFBURN_BLOCK];
    uint32_t count;             /* blocks that are held */
    uint32_t unit, copies;
    uint32_t packets;
    int left;                   /* blocks that the next packet leaves, which fails; or NONE_FAILS */
    enum fault fault;
} disc;

static uint8_t *block_at(uint32_t address) { return block_of(&disc.medium, address); }

static uint8_t *held_at(uint32_t number) { return disc.held + (size_t)number * UDFBURN_BLOCK; }

static int32_t next_of(void *context, uint32_t *address) {
    (void)context;
    *address = disc.medium.next + (disc.fault == FORGETS_WHAT_IT_HOLDS ? 0 : disc.count);
    return 0;
}

static int32_t read_blocks(void *context, uint32_t address, uint32_t count, void *blocks) {
    (void)context;
    for (uint32_t i = 0; i < count; i++, address++) {
        EXPECT(address < disc.medium.next + disc.count);
        memcpy((uint8_t *)blocks + (size_t)i * UDFBURN_BLOCK, address < disc.medium.next ? block_at(address) : held_at(address - disc.medium.next), UDFBURN_BLOCK);
    }
    return 0;
}

/* Writes what is held as one packet, which is filled up. */
static int32_t write_packet(void) {
    uint32_t last = disc.count - 1, end = disc.medium.next + disc.count;
    uint32_t wanted = disc.copies ? end + disc.copies : end;
    disc.packets++;
    if (disc.left != NONE_FAILS) {
        memcpy(block_at(disc.medium.next), disc.held, (size_t)disc.left * UDFBURN_BLOCK);
        disc.medium.next += (uint32_t)disc.left;
        disc.count = 0;
        disc.left = NONE_FAILS;
        return 7;
    }
    if (disc.fault != LOSES_A_COMMIT) memcpy(block_at(disc.medium.next), disc.held, (size_t)disc.count * UDFBURN_BLOCK);
    if (disc.fault == LOSES_A_BLOCK) memset(block_at(disc.medium.next + 3), 0, UDFBURN_BLOCK);
    if (disc.fault == LOSES_A_VAT_ICB) memset(block_at(disc.medium.next + last), 0, UDFBURN_BLOCK);
    for (; end < wanted || end % disc.unit; end++) {
        EXPECT(end < CAPACITY);
        if (disc.copies && disc.fault != LOSES_A_COMMIT && disc.fault != LOSES_A_VAT_ICB) udfburn_copy_vat_icb(held_at(last), end, block_at(end));
        if (disc.fault == COPIES_THE_FIRST) udfburn_copy_vat_icb(block_at(261), end, block_at(end));
        if (disc.fault == LIES_BETWEEN) memset(block_at(end), 1, 9);
    }
    disc.count = 0;
    disc.medium.next = disc.fault == GOES_BEYOND ? CAPACITY + 1 : end;
    return 0;
}

static int32_t write_blocks(void *context, uint32_t address, uint32_t count, const void *blocks) {
    (void)context;
    EXPECT(address == disc.medium.next + disc.count && count <= CAPACITY - address && count > 0);
    memcpy(held_at(disc.count), blocks, (size_t)count * UDFBURN_BLOCK);
    disc.count += count;
    return disc.fault == JUMPS_EARLY || (count == 1 && udfburn_is_vat_icb(blocks, address)) ? write_packet() : 0;
}

static const struct udfburn_drive drive = {&disc.medium, medium_capacity, next_of, read_blocks, write_blocks};

static void blank(uint32_t unit, uint32_t copies) {
    memset(&disc, 0, sizeof disc);
    disc.unit = unit;
    disc.copies = copies;
    disc.left = NONE_FAILS;
}

static void format(uint32_t unit, uint32_t copies) {
    blank(unit, copies);
    STATUS(UDFBURN_OK, udfburn_format_drive(&drive, "DISC", MOMENT));
    EXPECT(disc.packets == 1 && disc.count == 0 && disc.medium.next % unit == 0 && disc.medium.next >= 262 + copies);
}

static udfburn *opened_on_disc(void) {
    udfburn *handle = NULL;
    STATUS(UDFBURN_OK, udfburn_open_drive(&drive, &handle));
    if (!handle) exit(EXIT_FAILURE);
    return handle;
}

static size_t content(int number, uint8_t *bytes) {
    size_t length = (size_t)(number * 1733 % LONGEST);
    memset(bytes, 'a' + number % 26, length);
    return length;
}

static int32_t create(udfburn *handle, int number) {
    uint8_t bytes[LONGEST];
    char path[16];
    struct udfburn_request request = {9, (uint64_t)number + 1, MOMENT, 0, 0};
    sprintf(path, "/%d", number);
    int32_t status = udfburn_create(handle, &request, path, bytes, content(number, bytes));
    EXPECT(status != UDFBURN_OK || request.commit == (uint32_t)number + 1);
    return status;
}

static void has(udfburn *handle, int number) {
    uint8_t wanted[LONGEST], found[LONGEST];
    char path[16];
    size_t count, length = content(number, wanted);
    sprintf(path, "/%d", number);
    STATUS(UDFBURN_OK, udfburn_get(handle, path, found, sizeof found, &count));
    EXPECT(count == length && !memcmp(found, wanted, length));
}

/* Each commit is one packet. What is told of the volume afterwards is what the medium has, without a new open. */
static void files(uint32_t unit, uint32_t copies) {
    struct udfburn_status status;
    struct udfburn_volume volume;
    format(unit, copies);
    udfburn *handle = opened_on_disc();
    for (int number = 0; number < FILES; number++) {
        uint32_t packets = disc.packets;
        STATUS(UDFBURN_OK, create(handle, number));
        EXPECT(disc.packets == packets + 1 && disc.count == 0);
        STATUS(UDFBURN_OK, udfburn_status(handle, &status));
        EXPECT(status.next == disc.medium.next && status.commits == (uint32_t)number + 1 && status.files == (uint32_t)number + 1);
        volume.size = sizeof volume;
        STATUS(UDFBURN_OK, udfburn_describe(handle, &volume));
        EXPECT(volume.next == disc.medium.next && (copies == 0 || volume.unused == 0) && volume.identity == MOMENT);
        STATUS(UDFBURN_OK, udfburn_room(handle, "/new", 5000));
        STATUS(UDFBURN_OK, udfburn_expect(handle, (uint32_t)number + 1));
        has(handle, number);
    }
    struct udfburn_commit commit = {0, 0, 0, 0, 0};
    uint32_t number = FILES;
    int32_t outcome;
    while ((outcome = udfburn_log(handle, &commit)) == UDFBURN_OK && commit.number > 0) {
        EXPECT(commit.number == number || commit.number == number - 1);
        number = commit.number;
    }
    STATUS(UDFBURN_OK, outcome);
    EXPECT(number <= 1);
    udfburn_close(handle);
    handle = opened_on_disc();
    for (int i = 0; i < FILES; i++) has(handle, i);
    STATUS(UDFBURN_OK, create(handle, FILES));
    udfburn_close(handle);
}

/* Several messages in one call, cut anywhere: each is answered, in order, also while answers wait. */
static void frames(size_t piece) {
    uint8_t stream[2 * sizeof create_a + 2 * sizeof get_a], wanted[2 * sizeof created + 2 * sizeof got_a], found[sizeof wanted];
    size_t length = 0, taken = 0;
    memcpy(stream, get_a, sizeof get_a);
    memcpy(stream + sizeof get_a, create_a, sizeof create_a);
    memcpy(stream + sizeof get_a + sizeof create_a, create_a, sizeof create_a);
    /* The second one has the number 2 and creates /b. */
    stream[sizeof get_a + sizeof create_a + 13] = 2;
    stream[sizeof get_a + sizeof create_a + 32] = 'b';
    length = sizeof get_a + 2 * sizeof create_a;
    memcpy(stream + length, get_a, sizeof get_a);
    length += sizeof get_a;
    format(16, 3);
    udfburn *handle = opened_on_disc();
    for (size_t at = 0; at < length; at += piece) {
        STATUS(UDFBURN_OK, udfburn_answer(handle, stream + at, length - at < piece ? length - at : piece));
        /* Some are taken early. */
        if (at % 3 == 0 && udfburn_answered(handle) > taken) taken += udfburn_take(handle, found + taken, 1);
    }
    size_t size = 0;
    memcpy(wanted, not_found, sizeof not_found);
    size += sizeof not_found;
    memcpy(wanted + size, created, sizeof created);
    size += sizeof created;
    memcpy(wanted + size, created, sizeof created);
    wanted[size + 6] = 2;
    size += sizeof created;
    memcpy(wanted + size, got_a, sizeof got_a);
    size += sizeof got_a;
    EXPECT(udfburn_answered(handle) == size - taken);
    while (taken < size) {
        size_t count = udfburn_take(handle, found + taken, 5);
        EXPECT(count == (size - taken < 5 ? size - taken : 5));
        if (count == 0) break;
        taken += count;
    }
    EXPECT(udfburn_answered(handle) == 0 && !memcmp(found, wanted, size));
    EXPECT(disc.packets == 3);
    udfburn_close(handle);
}

/* A packet that fails, and leaves some of its blocks: the request runs once on the handle that is opened then. It has four blocks before
 * its last one: the entry, the directory's two and the table. */
static void packets_that_fail(void) {
    for (int left = 0; left <= 3; left++) {
        struct udfburn_node node;
        format(16, 3);
        udfburn *handle = opened_on_disc();
        STATUS(UDFBURN_OK, create(handle, 0));
        disc.left = left;
        STATUS(UDFBURN_DEVICE, create(handle, 1));
        STATUS(UDFBURN_DEVICE, udfburn_stat(handle, "/1", &node));
        udfburn_close(handle);
        handle = opened_on_disc();
        STATUS(UDFBURN_NOT_FOUND, udfburn_stat(handle, "/1", &node));
        STATUS(UDFBURN_OK, create(handle, 1));
        has(handle, 0);
        has(handle, 1);
        udfburn_close(handle);
    }
}

/* What is held when power is lost is gone, and what was acknowledged is there. */
static void power_is_lost(void) {
    format(32, 3);
    for (int number = 0; number < FILES; number++) {
        udfburn *handle = opened_on_disc();
        STATUS(UDFBURN_OK, create(handle, number));
        udfburn_close(handle);
        disc.count = 0;
        memset(disc.held, 0xA5, sizeof disc.held);
        handle = opened_on_disc();
        for (int i = 0; i <= number; i++) has(handle, i);
        udfburn_close(handle);
    }
}

/* A drive that breaks a rule has nothing acknowledged. */
static void broken_rules(void) {
    struct udfburn_reason reason;
    struct udfburn_status status;
    static const enum fault faults[] = {JUMPS_EARLY, LOSES_A_COMMIT, LOSES_A_VAT_ICB, COPIES_THE_FIRST, GOES_BEYOND, FORGETS_WHAT_IT_HOLDS};
    for (size_t i = 0; i < sizeof faults / sizeof *faults; i++) {
        format(16, 3);
        udfburn *handle = opened_on_disc();
        STATUS(UDFBURN_OK, create(handle, 0));
        disc.fault = faults[i];
        STATUS(UDFBURN_DEVICE, create(handle, 1));
        reason.size = sizeof reason;
        STATUS(UDFBURN_OK, udfburn_reason(handle, &reason));
        EXPECT(!strcmp(reason.call, "drive.next"));
        if (faults[i] >= LOSES_A_COMMIT && faults[i] <= COPIES_THE_FIRST) {
            EXPECT(udfburn_answered(handle) == 0);
            STATUS(UDFBURN_DEVICE, create(handle, 1));
            STATUS(UDFBURN_DEVICE, udfburn_status(handle, &status));
            STATUS(UDFBURN_OK, udfburn_reason(handle, &reason));
            EXPECT(!strcmp(reason.call, "drive.next"));
        }
        udfburn_close(handle);
    }
    /* In frames: no answer waits. */
    format(16, 3);
    udfburn *handle = opened_on_disc();
    disc.fault = LOSES_A_COMMIT;
    STATUS(UDFBURN_DEVICE, udfburn_answer(handle, create_a, sizeof create_a));
    EXPECT(udfburn_answered(handle) == 0);
    STATUS(UDFBURN_DEVICE, udfburn_answer(handle, get_a, sizeof get_a));
    STATUS(UDFBURN_DEVICE, udfburn_expect(handle, 0));
    udfburn_close(handle);
    /* A drive that went on too early is followed, and no new open is needed. */
    format(16, 3);
    handle = opened_on_disc();
    disc.fault = JUMPS_EARLY;
    STATUS(UDFBURN_DEVICE, create(handle, 0));
    disc.fault = NONE;
    STATUS(UDFBURN_OK, create(handle, 0));
    has(handle, 0);
    udfburn_close(handle);
}

static void checks(void) {
    static const struct { uint32_t unit, copies; enum fault fault; const char *broken; } trials[] = {
        {16, 3, NONE, NULL}, {32, 3, NONE, NULL}, {1, 3, NONE, NULL}, {16, 0, NONE, NULL},
        {16, 3, JUMPS_EARLY, "next is not the address after the blocks that were written"},
        {16, 3, LOSES_A_COMMIT, "read did not give what was written"}, {16, 3, LOSES_A_VAT_ICB, "read did not give what was written"},
        {16, 3, LOSES_A_BLOCK, "read did not give what was written"},
        {16, 3, COPIES_THE_FIRST, "read did not give what was written"}, {16, 3, LIES_BETWEEN, "read did not give what was written"},
        {16, 3, GOES_BEYOND, "next is not the address after the blocks that were written"},
        {16, 3, FORGETS_WHAT_IT_HOLDS, "next is not the address after the blocks that were written"},
    };
    for (size_t i = 0; i < sizeof trials / sizeof *trials; i++) {
        const char *broken = "";
        blank(trials[i].unit, trials[i].copies);
        disc.fault = trials[i].fault;
        STATUS(trials[i].broken ? UDFBURN_DEVICE : UDFBURN_OK, udfburn_drive_check(&drive, &broken));
        EXPECT(trials[i].broken ? broken && !strcmp(broken, trials[i].broken) : !broken);
    }
}

/* A VAT ICB is one at its address alone, and with none of its bytes changed; a copy is one at the other address. */
static void vat_icbs(void) {
    uint8_t block[UDFBURN_BLOCK], copy[UDFBURN_BLOCK];
    format(1, 0);
    memcpy(block, block_at(261), sizeof block);
    EXPECT(udfburn_is_vat_icb(block, 261) == 1 && !udfburn_is_vat_icb(block, 262) && !udfburn_is_vat_icb(block, 0) && !udfburn_is_vat_icb(NULL, 261));
    for (uint32_t address = 0; address < 261; address++) EXPECT(!udfburn_is_vat_icb(block_at(address), address));
    /* Its tag, and the 176 bytes that the tag's CRC covers. */
    EXPECT(block[10] == 176 && block[11] == 0);
    for (size_t at = 0; at < 192; at++) {
        block[at] ^= 1;
        EXPECT(!udfburn_is_vat_icb(block, 261));
        block[at] ^= 1;
    }
    udfburn_copy_vat_icb(block, 70000, copy);
    EXPECT(udfburn_is_vat_icb(copy, 70000) && !udfburn_is_vat_icb(copy, 261) && copy[12] == (70000 - 257) % 256 && !memcmp(copy + 16, block + 16, 2032));
    udfburn_copy_vat_icb(copy, 261, copy);
    EXPECT(!memcmp(copy, block, sizeof copy));
    udfburn_copy_vat_icb(NULL, 262, copy);
    udfburn_copy_vat_icb(block, 262, NULL);
    EXPECT(!memcmp(copy, block, sizeof copy));
}

int main(int argc, char **argv) {
    if (argc != 2 || chdir(argv[1])) return EXIT_FAILURE;
    files(16, 3);
    files(32, 3);
    files(1, 3);
    files(16, 0);
    frames(1000);
    frames(1);
    frames(7);
    packets_that_fail();
    power_is_lost();
    broken_rules();
    checks();
    vat_icbs();
    return finish("packets");
}
