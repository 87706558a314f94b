/* Tries whether a blank drive of the caller's keeps what udfburn.h asks of it.
 * SPDX-License-Identifier: MIT OR Apache-2.0 */
#include "internal.h"

#include <stdlib.h>
#include <string.h>

/* The commits that are written, by their blocks before the VAT ICB: those of a format, one, a packet, more than a packet. On a drive of the
 * least capacity they end at its last block. */
static const uint32_t commits[] = {261, 1, 32, 1, 75, 2, 130, 1};
enum { COMMITS = sizeof commits / sizeof *commits, LONGEST = 262, GUARD = 64 };

/* A trial of a drive, with room for the longest commit and a guard after it. */
struct trial {
    const struct udfburn_drive *drive;
    uint32_t capacity;
    uint32_t written;
    uint32_t vat_icbs[COMMITS], ends[COMMITS];      /* of the commits so far: the address of the VAT ICB, and where the drive went on */
    int count;
    uint8_t *blocks;
};

/* The block of an address. No two are equal, and each eighth is zeros after its first bytes. */
static void fill(uint32_t address, uint8_t *block) {
    uint32_t state = address * 2654435761u + 1;
    for (int i = 0; i < UDFBURN_BLOCK; i++) {
        state = state * 1664525u + 1013904223u;
        block[i] = address % 8 == 7 && i >= 4 ? 0 : (uint8_t)(state >> 24);
    }
    for (int i = 0; i < 4; i++) block[i] = (uint8_t)(address >> 8 * i);
}

static void fill_vat_icb(uint32_t address, uint8_t *block) {
    fill(address, block);
    udfburn_make_vat_icb(block, address);
}

/* NULL, or the rule that the drive breaks. After a commit it may go on further than the blocks that were written. */
static const char *check_next(struct trial *trial, int may_jump) {
    uint32_t next = UINT32_MAX, capacity = 0;
    if (trial->drive->next(trial->drive->context, &next)) return "next failed";
    if (next != trial->written && trial->written == 0) return "the drive is not blank";
    if (next != trial->written && !(may_jump && next > trial->written && next <= trial->capacity))
        return "next is not the address after the blocks that were written";
    trial->written = next;
    if (trial->drive->capacity(trial->drive->context, &capacity)) return "capacity failed";
    return capacity == trial->capacity ? NULL : "capacity is not always the same";
}

/* Whether a block is what was written at this address; or, where the drive went on further, zeros or a copy of the VAT ICB. */
static int is_expected(const struct trial *trial, uint32_t address, const uint8_t *block) {
    static const uint8_t zeros[UDFBURN_BLOCK];
    uint8_t expected[UDFBURN_BLOCK];
    int i = 0;
    while (i < trial->count && address >= trial->ends[i]) i++;
    if (i == trial->count || address < trial->vat_icbs[i]) {
        fill(address, expected);
    } else {
        fill_vat_icb(trial->vat_icbs[i], expected);
        udfburn_copy_vat_icb(expected, address, expected);
        if (address > trial->vat_icbs[i] && !memcmp(block, zeros, UDFBURN_BLOCK)) return 1;
    }
    return !memcmp(block, expected, UDFBURN_BLOCK);
}

static const char *check_read(const struct trial *trial, uint32_t address, uint32_t count) {
    size_t length = (size_t)count * UDFBURN_BLOCK;
    memset(trial->blocks, 0xA5, length + GUARD);
    if (trial->drive->read(trial->drive->context, address, count, trial->blocks)) return "read failed";
    for (uint32_t i = 0; i < count; i++)
        if (!is_expected(trial, address + i, trial->blocks + (size_t)i * UDFBURN_BLOCK)) return "read did not give what was written";
    for (size_t i = 0; i < GUARD; i++)
        if (trial->blocks[length + i] != 0xA5) return "read gave more blocks than it was asked for";
    return NULL;
}

static const char *write_run(struct trial *trial, uint32_t count) {
    for (uint32_t i = 0; i < count; i++) fill(trial->written + i, trial->blocks + (size_t)i * UDFBURN_BLOCK);
    if (trial->drive->write(trial->drive->context, trial->written, count, trial->blocks)) return "write failed";
    trial->written += count;
    return check_next(trial, 0);
}

static const char *write_vat_icb(struct trial *trial) {
    uint32_t address = trial->written++;
    fill_vat_icb(address, trial->blocks);
    if (trial->drive->write(trial->drive->context, address, 1, trial->blocks)) return "write failed";
    const char *broken = check_next(trial, 1);
    trial->vat_icbs[trial->count] = address;
    trial->ends[trial->count++] = trial->written;
    return broken;
}

/* Writes a commit, and reads it before its end and after it. A commit for which there is no room is left out. */
static const char *write_commit(struct trial *trial, uint32_t count) {
    uint32_t first = trial->written;
    if (count + 1 > trial->capacity - first) return NULL;
    const char *broken = write_run(trial, count);
    if (!broken) broken = check_read(trial, first, count);
    if (!broken) broken = write_vat_icb(trial);
    return broken ? broken : check_read(trial, first, count + 1);
}

/* Reads all that was written in runs of this length. */
static const char *read_back(const struct trial *trial, uint32_t length) {
    const char *broken = NULL;
    for (uint32_t at = 0; at < trial->written && !broken; at += length) {
        uint32_t left = trial->written - at;
        broken = check_read(trial, at, left < length ? left : length);
    }
    return broken;
}

static const char *check_all(struct trial *trial) {
    static const uint32_t lengths[] = {1, 7, 32, LONGEST};
    if (trial->drive->capacity(trial->drive->context, &trial->capacity)) return "capacity failed";
    if (trial->capacity < UDFBURN_LEAST_CAPACITY) return "the drive has less than 512 blocks";
    const char *broken = check_next(trial, 0);
    for (int i = 0; i < COMMITS && !broken; i++) broken = write_commit(trial, commits[i]);
    for (size_t i = 0; i < sizeof lengths / sizeof *lengths && !broken; i++) broken = read_back(trial, lengths[i]);
    return broken ? broken : check_next(trial, 0);
}

int32_t udfburn_check_drive_in(const struct udfburn_drive *drive, const char **broken) {
    if (!drive || !drive->capacity || !drive->next || !drive->read || !drive->write) return UDFBURN_ARGUMENT;
    struct trial trial = {0};
    trial.drive = drive;
    trial.blocks = malloc((size_t)LONGEST * UDFBURN_BLOCK + GUARD);
    if (!trial.blocks) return UDFBURN_MEMORY;
    const char *found = check_all(&trial);
    free(trial.blocks);
    if (broken) *broken = found;
    return found ? UDFBURN_DEVICE : UDFBURN_OK;
}

int32_t udfburn_drive_check(const struct udfburn_drive *drive, const char **broken) {
    struct udfburn_call call;
    if (broken) *broken = NULL;
    udfburn_enter_without(&call, NULL);
    return udfburn_leave(&call, udfburn_check_drive_in(drive, broken));
}
