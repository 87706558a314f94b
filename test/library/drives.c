/* Drives of the caller's own: several at once, writes that fail, and drives that break a rule.
 * usage: drives FOLDER */
#ifndef _GNU_SOURCE
#define _GNU_SOURCE
#endif

enum { CAPACITY = 600 };

#include "memory_drive.h"

/* What is wrong with a drive. */
enum fault {
    NONE, CAPACITY_FAILS, CAPACITY_GROWS, NEXT_FAILS, NEXT_LAGS, READ_FAILS, READ_GIVES_OTHERS, READ_GIVES_MORE, WRITE_FAILS,
    WRITE_LOSES_ONE, TOO_SMALL, NEXT_BEYOND, LARGER_THAN_A_VOLUME
};

/* A medium, and what becomes of a write. */
struct disc {
    struct medium medium;
    uint32_t calls;             /* of capacity, while it grows */
    uint32_t asked;             /* calls of capacity and next */
    uint32_t reads;
    uint32_t writes;
    uint32_t longest;           /* of a write */
    uint32_t last;              /* blocks of the last write */
    uint32_t failing;           /* the write that fails, counted from 1; 0: none */
    uint32_t left;              /* how many blocks it leaves */
    enum fault fault;
};

static int32_t capacity_of(void *context, uint32_t *blocks) {
    struct disc *disc = (struct disc *)context;
    disc->asked++;
    if (disc->fault == LARGER_THAN_A_VOLUME) return *blocks = UINT32_MAX, 0;
    *blocks = disc->fault == TOO_SMALL ? UDFBURN_LEAST_CAPACITY - 1 : CAPACITY + (disc->fault == CAPACITY_GROWS ? disc->calls++ : 0);
    return disc->fault == CAPACITY_FAILS;
}

static int32_t next_of(void *context, uint32_t *address) {
    struct disc *disc = (struct disc *)context;
    disc->asked++;
    if (disc->fault == LARGER_THAN_A_VOLUME) return *address = UDFBURN_GREATEST_CAPACITY + 1, 0;
    *address = disc->fault == NEXT_BEYOND ? CAPACITY + 1 : disc->fault == NEXT_LAGS && disc->medium.next > 0 ? disc->medium.next - 1 : disc->medium.next;
    return disc->fault == NEXT_FAILS ? -1 : 0;
}

static int32_t read_blocks(void *context, uint32_t address, uint32_t count, void *blocks) {
    struct disc *disc = (struct disc *)context;
    disc->reads++;
    medium_read(&disc->medium, address, count, blocks);
    if (disc->fault == READ_GIVES_OTHERS && address + count > 100) ((uint8_t *)blocks)[count * UDFBURN_BLOCK - 1] ^= 1;
    if (disc->fault == READ_GIVES_MORE) ((uint8_t *)blocks)[count * UDFBURN_BLOCK] = 0;
    return disc->fault == READ_FAILS;
}

static int32_t write_blocks(void *context, uint32_t address, uint32_t count, const void *blocks) {
    struct disc *disc = (struct disc *)context;
    int fails = ++disc->writes == disc->failing || disc->fault == WRITE_FAILS;
    uint32_t kept = fails ? disc->left : count;
    write_first(&disc->medium, address, count, blocks, kept);
    /* Of a write that fails any choice of the blocks may be there. */
    if (fails && kept > 1) memset(block_of(&disc->medium, address), 0, UDFBURN_BLOCK);
    if (disc->fault == WRITE_LOSES_ONE && count > 60) memset(block_of(&disc->medium, address + 50), 0, UDFBURN_BLOCK);
    disc->last = count;
    if (count > disc->longest) disc->longest = count;
    return fails ? 5 : 0;
}

static struct disc discs[3];

static struct udfburn_drive drive_of(struct disc *disc) {
    struct udfburn_drive drive = {disc, capacity_of, next_of, read_blocks, write_blocks};
    return drive;
}

static struct udfburn_drive blank(struct disc *disc) {
    memset(disc, 0, sizeof *disc);
    return drive_of(disc);
}

static udfburn *opened_on(struct disc *disc) {
    struct udfburn_drive drive = drive_of(disc);
    udfburn *handle = NULL;
    STATUS(UDFBURN_OK, udfburn_open_drive(&drive, &handle));
    if (!handle) exit(EXIT_FAILURE);
    return handle;
}

static void is_on_disc(const struct disc *disc, const char *path) {
    size_t count;
    uint8_t *bytes = file_bytes(path, &count);
    EXPECT(count == (size_t)disc->medium.next * UDFBURN_BLOCK && !memcmp(bytes, disc->medium.blocks, count));
    free(bytes);
}

/* A drive gets the blocks that a file gets, the last of each commit alone. Two drives and a file are open at once. */
static void as_a_file(void) {
    make("drives.img");
    udfburn *file = opened("drives.img");
    struct udfburn_drive one = blank(&discs[0]), two = blank(&discs[1]);
    STATUS(UDFBURN_OK, udfburn_format_drive(&one, "DISC", MOMENT));
    EXPECT(discs[0].last == 1 && discs[0].longest > 32);
    STATUS(UDFBURN_OK, udfburn_format_drive(&two, "OTHER", MOMENT));
    udfburn *first = opened_on(&discs[0]), *second = opened_on(&discs[1]);
    STATUS(UDFBURN_OK, udfburn_answer(file, create_a, sizeof create_a));
    STATUS(UDFBURN_OK, udfburn_answer(first, create_a, sizeof create_a));
    EXPECT(discs[0].last == 1);
    is_on_disc(&discs[0], "drives.img");
    STATUS(UDFBURN_OK, udfburn_answer(second, get_a, sizeof get_a));
    expect_answers(second, not_found, sizeof not_found);
    expect_answers(first, created, sizeof created);
    udfburn_close(first);
    udfburn_close(file);
    STATUS(UDFBURN_OK, udfburn_answer(second, create_a, sizeof create_a));
    expect_answers(second, created, sizeof created);
    udfburn_close(second);
    first = opened_on(&discs[0]);
    STATUS(UDFBURN_OK, udfburn_answer(first, get_a, sizeof get_a));
    expect_answers(first, got_a, sizeof got_a);
    udfburn_close(first);
}

/* A volume that is open is not opened again for a message, which would take the reads of an opening and more. */
static void a_volume_stays_open(void) {
    uint32_t before = discs[0].reads;
    udfburn *handle = opened_on(&discs[0]);
    uint32_t opening = discs[0].reads - before;
    for (int i = 0; i < 2; i++) {
        before = discs[0].reads;
        STATUS(UDFBURN_OK, udfburn_answer(handle, get_a, sizeof get_a));
        EXPECT(discs[0].reads - before < opening);
        expect_answers(handle, got_a, sizeof got_a);
    }
    udfburn_close(handle);
}

static void a_drive_is_held(void) {
    struct udfburn_drive drive = drive_of(&discs[0]);
    udfburn *handle = opened_on(&discs[0]), *second = handle;
    uint32_t asked = discs[0].asked;
    STATUS(UDFBURN_BUSY, udfburn_open_drive(&drive, &second));
    EXPECT(!second);
    STATUS(UDFBURN_BUSY, udfburn_format_drive(&drive, "DISC", MOMENT));
    /* Another thread may be in a call on the handle, and one function of a drive is called at a time. */
    EXPECT(discs[0].asked == asked);
    udfburn_close(handle);
    udfburn_close(opened_on(&discs[0]));
}

/* Client 3 creates a file of 70 blocks, which goes out in several writes. */
static int32_t create_long(udfburn *handle) {
    static uint8_t data[70 * UDFBURN_BLOCK];
    struct udfburn_request request = {3, 1, MOMENT, 0, 0};
    memset(data, 'x', sizeof data);
    int32_t status = udfburn_create(handle, &request, "/long", data, sizeof data);
    if (status == UDFBURN_OK) EXPECT(request.commit == 1);
    return status;
}

static void is_long(udfburn *handle) {
    struct udfburn_node node;
    uint64_t number;
    STATUS(UDFBURN_OK, udfburn_stat(handle, "/long", &node));
    EXPECT(node.size == 70 * UDFBURN_BLOCK);
    STATUS(UDFBURN_OK, udfburn_last_number(handle, 3, &number));
    EXPECT(number == 1);
}

/* How many writes a commit takes. */
static uint32_t writes_of_a_commit(void) {
    struct udfburn_drive drive = blank(&discs[2]);
    STATUS(UDFBURN_OK, udfburn_format_drive(&drive, "DISC", MOMENT));
    uint32_t before = discs[2].writes;
    udfburn *handle = opened_on(&discs[2]);
    STATUS(UDFBURN_OK, create_long(handle));
    udfburn_close(handle);
    return discs[2].writes - before;
}

/* Each write of a commit fails in turn, and leaves some of its blocks. */
static void writes_that_fail(void) {
    static const uint32_t left[] = {0, 1, 2, 3};
    uint32_t writes = writes_of_a_commit();
    EXPECT(writes >= 2);
    for (uint32_t number = 1; number <= writes; number++) {
        for (size_t i = 0; i < sizeof left / sizeof *left; i++) {
            struct disc *disc = &discs[2];
            struct udfburn_drive drive = blank(disc);
            STATUS(UDFBURN_OK, udfburn_format_drive(&drive, "DISC", MOMENT));
            udfburn *handle = opened_on(disc);
            disc->failing = disc->writes + number;
            /* The last write of a commit has one block. */
            disc->left = number == writes && left[i] > 1 ? 1 : left[i];
            STATUS(UDFBURN_DEVICE, create_long(handle));
            /* The blocks before the last one were written and counted when it failed and left nothing. */
            if (disc->left == 0 && (number == 1 || number == writes)) {
                STATUS(UDFBURN_OK, create_long(handle));
            } else {
                struct udfburn_node node;
                STATUS(UDFBURN_DEVICE, create_long(handle));
                STATUS(UDFBURN_DEVICE, udfburn_stat(handle, "/long", &node));
            }
            udfburn_close(handle);
            handle = opened_on(disc);
            STATUS(UDFBURN_OK, create_long(handle));
            is_long(handle);
            udfburn_close(handle);
        }
    }
}

/* A format that failed after any write is finished. */
static void formats_that_fail(void) {
    for (uint32_t number = 1; number <= 3; number++) {
        struct udfburn_drive drive = blank(&discs[2]);
        discs[2].failing = number;
        discs[2].left = number == 1 ? 100 : 1;
        int32_t status = udfburn_format_drive(&drive, "DISC", MOMENT);
        EXPECT(status == UDFBURN_DEVICE || (status == UDFBURN_OK && discs[2].writes < number));
        STATUS(UDFBURN_VOLUME, udfburn_format_drive(&drive, "OTHER", MOMENT));
        STATUS(UDFBURN_OK, udfburn_format_drive(&drive, "DISC", MOMENT));
        udfburn_close(opened_on(&discs[2]));
    }
}

static void wrong_arguments(void) {
    udfburn *handle = NULL;
    const char *broken = "";
    struct udfburn_drive drive = blank(&discs[2]);
    STATUS(UDFBURN_VOLUME, udfburn_open_drive(&drive, &handle));
    STATUS(UDFBURN_TEXT, udfburn_format_drive(&drive, "", MOMENT));
    STATUS(UDFBURN_VOLUME, udfburn_format_drive(&drive, "DISC", UDFBURN_MOMENT_LIMIT));
    discs[2].fault = TOO_SMALL;
    STATUS(UDFBURN_VOLUME, udfburn_format_drive(&drive, "DISC", MOMENT));
    discs[2].fault = NONE;
    EXPECT(discs[2].medium.next == 0);
    STATUS(UDFBURN_ARGUMENT, udfburn_format_drive(NULL, "DISC", MOMENT));
    STATUS(UDFBURN_ARGUMENT, udfburn_format_drive(&drive, NULL, MOMENT));
    STATUS(UDFBURN_ARGUMENT, udfburn_open_drive(NULL, &handle));
    STATUS(UDFBURN_ARGUMENT, udfburn_open_drive(&drive, NULL));
    STATUS(UDFBURN_ARGUMENT, udfburn_drive_check(NULL, &broken));
    for (int i = 0; i < 4; i++) {
        struct udfburn_drive other = drive;
        if (i == 0) other.capacity = NULL;
        if (i == 1) other.next = NULL;
        if (i == 2) other.read = NULL;
        if (i == 3) other.write = NULL;
        STATUS(UDFBURN_ARGUMENT, udfburn_format_drive(&other, "DISC", MOMENT));
        STATUS(UDFBURN_ARGUMENT, udfburn_open_drive(&other, &handle));
        STATUS(UDFBURN_ARGUMENT, udfburn_drive_check(&other, &broken));
        EXPECT(!broken);
    }
    EXPECT(!handle);
    STATUS(UDFBURN_OK, udfburn_format_drive(&drive, "DISC", MOMENT));
    discs[2].fault = READ_FAILS;
    STATUS(UDFBURN_DEVICE, udfburn_open_drive(&drive, &handle));
    discs[2].fault = NEXT_FAILS;
    STATUS(UDFBURN_DEVICE, udfburn_open_drive(&drive, &handle));
    discs[2].fault = NEXT_BEYOND;
    STATUS(UDFBURN_DEVICE, udfburn_open_drive(&drive, &handle));
    discs[2].fault = CAPACITY_FAILS;
    STATUS(UDFBURN_DEVICE, udfburn_open_drive(&drive, &handle));
    discs[2].fault = LARGER_THAN_A_VOLUME;
    STATUS(UDFBURN_VOLUME, udfburn_open_drive(&drive, &handle));
    STATUS(UDFBURN_VOLUME, udfburn_format_drive(&drive, "DISC", MOMENT));
    discs[2].fault = NONE;
    udfburn_close(opened_on(&discs[2]));
}

static void checks(void) {
    static const char *const wanted[] = {
        NULL, "capacity failed", "capacity is not always the same", "next failed",
        "next is not the address after the blocks that were written", "read failed", "read did not give what was written",
        "read gave more blocks than it was asked for", "write failed", "read did not give what was written",
        "the drive has less than 512 blocks"
    };
    const char *broken;
    for (int fault = NONE; fault <= TOO_SMALL; fault++) {
        struct udfburn_drive drive = blank(&discs[2]);
        discs[2].fault = (enum fault)fault;
        broken = "";
        STATUS(fault == NONE ? UDFBURN_OK : UDFBURN_DEVICE, udfburn_drive_check(&drive, &broken));
        EXPECT(fault == NONE ? !broken : broken && !strcmp(broken, wanted[fault]));
        discs[2].fault = NONE;
    }
    struct udfburn_drive drive = blank(&discs[2]);
    STATUS(UDFBURN_OK, udfburn_drive_check(&drive, NULL));
    STATUS(UDFBURN_DEVICE, udfburn_drive_check(&drive, &broken));
    EXPECT(broken && !strcmp(broken, "the drive is not blank"));
    STATUS(UDFBURN_DEVICE, udfburn_drive_check(&drive, NULL));
}

int main(int argc, char **argv) {
    if (argc != 2 || chdir(argv[1])) return EXIT_FAILURE;
    as_a_file();
    a_volume_stays_open();
    a_drive_is_held();
    writes_that_fail();
    formats_that_fail();
    wrong_arguments();
    checks();
    return finish("drives");
}
