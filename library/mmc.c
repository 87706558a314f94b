/* A disc in a recorder, by the commands of MMC-6: a CD-R, DVD-R, DVD+R or BD-R that is written in packets, one for each commit.
 *
 * The blocks of a commit are held back up to its last one. The packet is then filled up with copies of that one to the medium's unit, as
 * otherwise the drive would fill it with zeros, in which Linux does not find the VAT ICB. When SYNCHRONIZE CACHE has succeeded, the drive
 * is asked where it writes next. SPDX-License-Identifier: MIT OR Apache-2.0 */
#define _GNU_SOURCE

#include "mmc.h"

#include <errno.h>
#include <stdlib.h>
#include <string.h>
#include <time.h>
#include <unistd.h>

/* Profiles (MMC-6 5.3.1). */
enum { CD_R = 0x09, DVD_R = 0x11, DVD_PLUS_R = 0x1B, BD_R = 0x41 };

enum {
    COPIES = 3,                 /* at least, since a drive may report the end of a track up to three blocks off */
    LINK = 7,                   /* blocks between two packets of a CD: run-out, link and run-in */
    PART = 32,                  /* blocks of a command */
    READY_TRIES = 600, READY_PAUSE = 100                        /* milliseconds */
};

/* Additional sense codes with their qualifiers (SPC-4 annex D). */
enum { NO_MEDIUM = 0x3A, INCOMPATIBLE_MEDIUM = 0x30, OUT_OF_RANGE = 0x2100, ILLEGAL_FOR_TRACK = 0x6400, INVALID_FIELD = 0x2400 };

static uint32_t number_at(const uint8_t *at, int bytes) {
    uint32_t value = 0;
    while (bytes-- > 0) value = value << 8 | *at++;
    return value;
}

static void put_number(uint8_t *at, uint32_t value, int bytes) {
    while (bytes > 0) at[--bytes] = (uint8_t)value, value >>= 8;
}

/* ---- Commands ---- */

/* Does a command, and notes why it failed. After a unit attention the disc may be another one, and what the drive had in its buffer is
 * lost: nothing is done with it any more. */
static int32_t run(struct udfburn_mmc *mmc, struct udfburn_command *command) {
    int32_t outcome = mmc->lost ? mmc->lost : udfburn_do(mmc->fd, command);
    if (udfburn_key_of(outcome) == UDFBURN_ATTENTION) mmc->lost = outcome;
    return udfburn_note_command(command, outcome);
}

/* A command that gives `least` bytes or more. */
static int32_t ask(struct udfburn_mmc *mmc, const char *name, uint8_t code, uint8_t how, uint32_t number, uint8_t *into, uint32_t room,
                   uint32_t least) {
    struct udfburn_command command = {name, {code, how}, 10, UDFBURN_FROM_DRIVE, into, room, least};
    memset(into, 0, room);
    put_number(command.block + 2, number, 4);
    put_number(command.block + 7, room, 2);
    return run(mmc, &command);
}

static struct udfburn_command synchronization(void) {
    return (struct udfburn_command){"SYNCHRONIZE CACHE", {0x35}, 10, UDFBURN_NOTHING, NULL, 0, 0};
}

/* Blocks from an address on, or to it. */
static void set_transfer(struct udfburn_command *command, uint32_t address, uint32_t count) {
    put_number(command->block + 2, address, 4);
    put_number(command->block + 7, count, 2);
    command->count = command->least = count * UDFBURN_BLOCK;
}

static int32_t write_part(struct udfburn_mmc *mmc, uint32_t address, uint32_t count, uint8_t *blocks) {
    struct udfburn_command command = {"WRITE(10)", {0x2A}, 10, UDFBURN_TO_DRIVE, blocks, 0, 0};
    set_transfer(&command, address, count);
    return run(mmc, &command);
}

/* Reads blocks; `how` may force the drive to read the medium. Nothing is noted. */
static int32_t read_part(struct udfburn_mmc *mmc, uint8_t how, uint32_t address, uint32_t count, uint8_t *blocks) {
    struct udfburn_command command = {"READ(10)", {0x28, how}, 10, UDFBURN_FROM_DRIVE, blocks, 0, 0};
    set_transfer(&command, address, count);
    int32_t outcome = mmc->lost ? mmc->lost : udfburn_do(mmc->fd, &command);
    if (udfburn_key_of(outcome) == UDFBURN_ATTENTION) mmc->lost = outcome;
    return outcome;
}

static int32_t note_read(int32_t outcome) {
    if (outcome != 0) udfburn_note_as(UDFBURN_DEVICE, "READ(10)", outcome);
    return outcome;
}

/* ---- Where the drive writes next ---- */

/* The number of the track, which is the only one, as the drive knows it before it is closed (MMC-6 6.26.2). */
static uint32_t track_number(const struct udfburn_mmc *mmc) { return mmc->profile == CD_R || mmc->profile == DVD_R ? 0xFF : 1; }

static int32_t ask_track(struct udfburn_mmc *mmc, uint8_t track[48]) {
    return ask(mmc, "READ TRACK INFORMATION", 0x52, 1, track_number(mmc), track, 48, 28);
}

/* Asks for the next address. A track that a loss of power damaged is repaired first. `free` is how many blocks come from there on. */
static int32_t look(struct udfburn_mmc *mmc, uint32_t *free_blocks) {
    enum { DAMAGE = 0x20, HAS_NEXT = 1 };
    uint8_t track[48];
    int32_t outcome = ask_track(mmc, track);
    if (outcome == 0 && (track[5] & DAMAGE) && !(track[7] & HAS_NEXT)) {
        struct udfburn_command repair = {"REPAIR TRACK", {0x58, 0, 0, 0, 0, (uint8_t)number_at(track + 2, 1)}, 10, UDFBURN_NOTHING, NULL, 0, 0};
        outcome = run(mmc, &repair);
        if (outcome == 0) outcome = ask_track(mmc, track);
    }
    if (outcome != 0) return outcome;
    if (!(track[7] & HAS_NEXT) || number_at(track + 8, 4) != 0) {
        udfburn_note_as(UDFBURN_READ_ONLY, "READ TRACK INFORMATION", EROFS);
        return EROFS;
    }
    mmc->next = number_at(track + 12, 4);
    *free_blocks = number_at(track + 16, 4);
    return 0;
}

/* ---- The disc that is put in ---- */

static int32_t refuse(int32_t status, const char *command, int32_t error) {
    udfburn_note_as(status, command, error);
    return status;
}

/* Waits until the drive is ready, and takes what it has to say of the time before. */
static int32_t wait_until_ready(struct udfburn_mmc *mmc) {
    const struct timespec pause = {0, READY_PAUSE * 1000000L};
    struct udfburn_command command = {"TEST UNIT READY", {0}, 6, UDFBURN_NOTHING, NULL, 0, 0};
    int32_t outcome = udfburn_do(mmc->fd, &command);
    for (int i = 0; i < READY_TRIES && udfburn_key_of(outcome) == UDFBURN_ATTENTION; i++) {
        outcome = udfburn_do(mmc->fd, &command);
        if (i > 3 && outcome != 0) nanosleep(&pause, NULL);
    }
    if (outcome == 0) return UDFBURN_OK;
    int is_not_ready = udfburn_key_of(outcome) == UDFBURN_NOT_READY, code = udfburn_code_of(outcome) >> 8;
    if (is_not_ready && code == NO_MEDIUM) outcome = ENOMEDIUM;
    if (is_not_ready && code == INCOMPATIBLE_MEDIUM) outcome = EMEDIUMTYPE;
    return refuse(UDFBURN_DEVICE, command.name, outcome);
}

/* Whether this is a drive for CD, DVD or BD: no other device gets further commands. */
static int32_t find_drive(struct udfburn_mmc *mmc) {
    enum { TYPE = 0x1F, CD_OR_DVD = 5 };
    uint8_t inquiry[36] = {0};
    struct udfburn_command command = {"INQUIRY", {0x12, 0, 0, 0, sizeof inquiry}, 6, UDFBURN_FROM_DRIVE, inquiry, sizeof inquiry, 5};
    int32_t outcome = udfburn_do(mmc->fd, &command);
    if (outcome == 0 && (inquiry[0] & TYPE) != CD_OR_DVD) outcome = ENODEV;
    return outcome != 0 ? refuse(UDFBURN_DEVICE, command.name, outcome) : UDFBURN_OK;
}

static int32_t find_medium(struct udfburn_mmc *mmc) {
    uint8_t configuration[8];
    if (ask(mmc, "GET CONFIGURATION", 0x46, 0, 0, configuration, sizeof configuration, sizeof configuration)) return UDFBURN_DEVICE;
    mmc->profile = number_at(configuration + 6, 2);
    switch (mmc->profile) {
    case CD_R: mmc->unit = 1; return UDFBURN_OK;
    case DVD_R:
    case DVD_PLUS_R: mmc->unit = 16; return UDFBURN_OK;
    case BD_R: mmc->unit = 32; return UDFBURN_OK;
    default: return refuse(UDFBURN_DEVICE, "GET CONFIGURATION", mmc->profile ? EMEDIUMTYPE : ENOMEDIUM);
    }
}

/* Only a disc with one track, which is not closed, is written. */
static int32_t check_disc(struct udfburn_mmc *mmc) {
    enum { EMPTY = 0, COMPLETE = 2, WITHOUT_OTHERS = 1 };
    static const char name[] = "READ DISC INFORMATION";
    uint8_t disc[34];
    if (ask(mmc, name, 0x51, 0, 0, disc, sizeof disc, 12)) return UDFBURN_DEVICE;
    mmc->is_blank = (disc[2] & 3) == EMPTY;
    int is_closed = (disc[2] & 3) >= COMPLETE || (disc[2] >> 2 & 3) > COMPLETE;
    if (is_closed) return refuse(UDFBURN_READ_ONLY, name, EROFS);
    uint32_t sessions = disc[9] << 8 | disc[4], first = disc[10] << 8 | disc[5], last = disc[11] << 8 | disc[6];
    int is_alone = sessions == WITHOUT_OTHERS && first == WITHOUT_OTHERS && last == WITHOUT_OTHERS;
    return is_alone ? UDFBURN_OK : refuse(UDFBURN_VOLUME, name, EEXIST);
}

/* Sets the write parameters of a CD-R to packets of any length, and those of a DVD-R to incremental recording (MMC-6 7.5). A drive that
 * does not take the sizes of links is left to choose them. */
static int32_t set_packets(struct udfburn_mmc *mmc) {
    enum { PAGE = 5, LEAST = 16, HEAD = 8, WITHOUT_UNDERRUN = 0x40, HAS_LINK = 0x20, ANY_SESSION = 0xC0, FIXED = 0x20, INCREMENT = 5, MODE_1 = 8 };
    int is_cd = mmc->profile == CD_R;
    uint8_t list[128];
    if (mmc->profile != CD_R && mmc->profile != DVD_R) return UDFBURN_OK;
    if (ask(mmc, "MODE SENSE(10)", 0x5A, 0, (uint32_t)PAGE << 24, list, sizeof list, HEAD + LEAST)) return UDFBURN_DEVICE;
    uint32_t at = HEAD + number_at(list + 6, 2);
    if (at + LEAST > sizeof list || (list[at] & 0x3F) != PAGE || at + 2 + list[at + 1] > sizeof list || list[at + 1] < LEAST - 2)
        return refuse(UDFBURN_DEVICE, "MODE SENSE(10)", EIO);
    uint8_t *page = list + at;
    memset(list, 0, at);
    page[0] &= 0x3F;
    page[2] = WITHOUT_UNDERRUN | HAS_LINK;
    page[3] = (uint8_t)(ANY_SESSION | INCREMENT | (is_cd ? 0 : FIXED));
    page[4] = MODE_1;
    page[5] = (uint8_t)(is_cd ? LINK : mmc->unit);
    page[8] = 0;
    put_number(page + 10, is_cd ? 0 : mmc->unit, 4);
    put_number(list + 6, 0, 2);
    memmove(list + HEAD, page, 2u + page[1]);
    struct udfburn_command command = {"MODE SELECT(10)", {0x55, 0x10}, 10, UDFBURN_TO_DRIVE, list, HEAD + 2u + list[HEAD + 1], 0};
    put_number(command.block + 7, command.count, 2);
    int32_t outcome = udfburn_do(mmc->fd, &command);
    if (udfburn_key_of(outcome) == UDFBURN_ILLEGAL) {
        list[HEAD + 2] = WITHOUT_UNDERRUN;
        list[HEAD + 3] &= (uint8_t)~FIXED;
        outcome = udfburn_do(mmc->fd, &command);
    }
    return outcome == 0 ? UDFBURN_OK : refuse(UDFBURN_DEVICE, command.name, outcome);
}

/* Locks the tray, or unlocks it. A drive without a lock goes on. */
static void lock_tray(struct udfburn_mmc *mmc, int is_locked) {
    struct udfburn_command command = {"PREVENT ALLOW MEDIUM REMOVAL", {0x1E, 0, 0, 0, (uint8_t)is_locked}, 6, UDFBURN_NOTHING, NULL, 0, 0};
    udfburn_do(mmc->fd, &command);
}

/* Has what an earlier process may have left in the drive's buffer brought to the medium: what is read from now on is there. There is none
 * where the disc is blank, and a drive may refuse then. */
static int32_t settle(struct udfburn_mmc *mmc) {
    struct udfburn_command command = synchronization();
    int32_t outcome = udfburn_do(mmc->fd, &command);
    if (udfburn_key_of(outcome) == UDFBURN_ILLEGAL && mmc->is_blank) outcome = 0;
    return outcome == 0 ? UDFBURN_OK : refuse(UDFBURN_DEVICE, command.name, outcome);
}

/* The blocks of a volume for which a disc has room, with the copies that fill its last packet up. */
static uint32_t room_of(const struct udfburn_mmc *mmc, uint32_t blocks) {
    if (mmc->unit == 1) blocks = blocks > LINK ? blocks - LINK : 0;
    if (blocks > UDFBURN_GREATEST_CAPACITY) blocks = UDFBURN_GREATEST_CAPACITY;
    return blocks - blocks % mmc->unit;
}

int32_t udfburn_begin_mmc(struct udfburn_mmc *mmc) {
    uint32_t free_blocks;
    int32_t status = find_drive(mmc);
    if (status == UDFBURN_OK) status = wait_until_ready(mmc);
    if (status != UDFBURN_OK) return status;
    lock_tray(mmc, 1);
    status = find_medium(mmc);
    if (status == UDFBURN_OK) status = check_disc(mmc);
    if (status == UDFBURN_OK) status = set_packets(mmc);
    if (status == UDFBURN_OK) status = settle(mmc);
    if (status != UDFBURN_OK) return status;
    int32_t outcome = look(mmc, &free_blocks);
    if (outcome != 0) return outcome == EROFS ? UDFBURN_READ_ONLY : UDFBURN_DEVICE;
    if (free_blocks > UINT32_MAX - mmc->next) return refuse(UDFBURN_DEVICE, "READ TRACK INFORMATION", ERANGE);
    mmc->capacity = room_of(mmc, mmc->next + free_blocks);
    return UDFBURN_OK;
}

void udfburn_end_mmc(struct udfburn_mmc *mmc) {
    /* A child has the parent's drive, which stays as it is. */
    if (mmc->process == getpid()) lock_tray(mmc, 0);
    for (int i = 0; i < UDFBURN_GROUPS; i++) free(mmc->groups[i].blocks);
    free(mmc->held);
}

/* ---- Reading ---- */

/* Whether sense data says that a block has no data, or none that can be read: after a write that failed, in the link between packets. Other
 * failures are those of the drive. At the end of what is written a drive may not count the last link. */
static int has_no_data(const struct udfburn_mmc *mmc, uint32_t address, int32_t outcome) {
    int key = udfburn_key_of(outcome), code = udfburn_code_of(outcome);
    if (key == UDFBURN_MEDIUM_ERROR || key == UDFBURN_BLANK_CHECK) return 1;
    if (key != UDFBURN_ILLEGAL) return 0;
    return code == ILLEGAL_FOR_TRACK || (code == OUT_OF_RANGE && mmc->profile == CD_R && address + LINK >= mmc->next);
}

static int is_empty(const struct udfburn_mmc *mmc, uint32_t address) {
    return address < UDFBURN_GREATEST_CAPACITY && mmc->empty[address / 8] >> address % 8 & 1;
}

/* Notes that a block has no data. A drive may take seconds to find that out. */
static void set_empty(struct udfburn_mmc *mmc, uint32_t address) {
    if (address < UDFBURN_GREATEST_CAPACITY) mmc->empty[address / 8] |= (uint8_t)(1 << address % 8);
}

/* Reads one block, which is zeros if it has no data. What could not be read is tried once more. */
static int32_t read_one(struct udfburn_mmc *mmc, uint32_t address, uint8_t *block) {
    int32_t outcome = read_part(mmc, 0, address, 1, block);
    if (udfburn_key_of(outcome) == UDFBURN_MEDIUM_ERROR) outcome = read_part(mmc, 0, address, 1, block);
    if (outcome == 0 || !has_no_data(mmc, address, outcome)) return note_read(outcome);
    memset(block, 0, UDFBURN_BLOCK);
    set_empty(mmc, address);
    return 0;
}

/* Reads blocks at once, or where that fails each by itself. */
static int32_t read_run(struct udfburn_mmc *mmc, uint32_t address, uint32_t count, uint8_t *blocks) {
    int32_t outcome = read_part(mmc, 0, address, count, blocks);
    int key = udfburn_key_of(outcome);
    if (key != UDFBURN_MEDIUM_ERROR && key != UDFBURN_BLANK_CHECK && key != UDFBURN_ILLEGAL) return note_read(outcome);
    for (uint32_t i = 0; i < count; i++) {
        outcome = read_one(mmc, address + i, blocks + (size_t)i * UDFBURN_BLOCK);
        if (outcome != 0) return outcome;
    }
    return 0;
}

int udfburn_is_unreadable(struct udfburn_mmc *mmc, uint32_t address) {
    uint8_t *block = malloc(UDFBURN_BLOCK);
    int32_t outcome = block ? read_part(mmc, 0, address, 1, block) : 0;
    free(block);
    return outcome != 0 && has_no_data(mmc, address, outcome);
}

static int32_t fill_group(struct udfburn_mmc *mmc, struct udfburn_group *group, uint32_t first) {
    uint32_t count = mmc->next - first < UDFBURN_GROUP ? mmc->next - first : UDFBURN_GROUP;
    if (!group->blocks) group->blocks = malloc((size_t)UDFBURN_GROUP * UDFBURN_BLOCK);
    if (!group->blocks) return ENOMEM;
    group->count = 0;
    for (uint32_t i = 0, run; i < count; i += run) {
        uint8_t *blocks = group->blocks + (size_t)i * UDFBURN_BLOCK;
        int has_none = is_empty(mmc, first + i);
        for (run = 1; i + run < count && is_empty(mmc, first + i + run) == has_none;) run++;
        if (has_none) memset(blocks, 0, (size_t)run * UDFBURN_BLOCK);
        int32_t outcome = has_none ? 0 : read_run(mmc, first + i, run, blocks);
        if (outcome != 0) return outcome;
    }
    group->first = first;
    group->count = count;
    return 0;
}

/* The group with a block of the medium: one that is kept, or one in the place of that which was not used for longest. What is on the
 * medium never changes, so it is read once. */
static int32_t find_group(struct udfburn_mmc *mmc, uint32_t address, struct udfburn_group **found) {
    uint32_t first = address - address % UDFBURN_GROUP;
    struct udfburn_group *group = mmc->groups;
    for (struct udfburn_group *at = mmc->groups; at < mmc->groups + UDFBURN_GROUPS; at++) {
        if (at->count > 0 && at->first == first) {
            group = at;
            break;
        }
        if (at->used < group->used) group = at;
    }
    int is_kept = group->count > 0 && group->first == first && address - first < group->count;
    int32_t outcome = is_kept ? 0 : fill_group(mmc, group, first);
    group->used = ++mmc->clock;
    *found = group;
    return outcome;
}

/* Copies a block of the medium. Zeros stand for one without data where the volume is looked for, and not where it belongs to a commit: they
 * would be taken for bytes of a file. */
static int32_t copy_block(struct udfburn_mmc *mmc, uint32_t address, uint8_t *block) {
    struct udfburn_group *group;
    int32_t outcome = find_group(mmc, address, &group);
    if (outcome != 0) return outcome;
    if (is_empty(mmc, address) && mmc->port && mmc->port->answers) return note_read(read_part(mmc, 0, address, 1, block));
    memcpy(block, group->blocks + (size_t)(address - group->first) * UDFBURN_BLOCK, UDFBURN_BLOCK);
    return 0;
}

int32_t udfburn_mmc_read(void *context, uint32_t address, uint32_t count, void *blocks) {
    struct udfburn_mmc *mmc = context;
    uint8_t *into = blocks;
    for (; count > 0; count--, address++, into += UDFBURN_BLOCK) {
        if (address >= mmc->next) {
            memcpy(into, mmc->held + (size_t)(address - mmc->next) * UDFBURN_BLOCK, UDFBURN_BLOCK);
            continue;
        }
        int32_t outcome = copy_block(mmc, address, into);
        if (outcome != 0) return outcome;
    }
    return 0;
}

/* ---- Writing ---- */

/* Has room for so many blocks more than those that are held. */
static int32_t make_room(struct udfburn_mmc *mmc, uint32_t more) {
    if (mmc->room - mmc->count >= more) return 0;
    uint32_t wanted = mmc->count + more + mmc->room;
    uint8_t *held = realloc(mmc->held, (size_t)wanted * UDFBURN_BLOCK);
    if (!held) return ENOMEM;
    mmc->held = held;
    mmc->room = wanted;
    return 0;
}

/* Adds copies of the last block, a VAT ICB, to what is held: up to the end of a unit, and as many as readers need. A volume that is full may
 * have room for fewer. */
static int32_t fill_up(struct udfburn_mmc *mmc) {
    if (make_room(mmc, COPIES + mmc->unit)) return ENOMEM;
    const uint8_t *last = mmc->held + (size_t)(mmc->count - 1) * UDFBURN_BLOCK;
    uint32_t end = mmc->next + mmc->count, least = end + COPIES;
    for (; end % mmc->unit != 0 || (end < least && end < mmc->capacity); end++)
        udfburn_copy_vat_icb(last, end, mmc->held + (size_t)(mmc->count++) * UDFBURN_BLOCK);
    return 0;
}

/* Compares the medium with what is held, from an address on. */
static int32_t compare(struct udfburn_mmc *mmc, uint32_t first) {
    enum { FROM_MEDIUM = 8 };
    uint8_t *found = malloc((size_t)PART * UDFBURN_BLOCK);
    int32_t outcome = found ? 0 : ENOMEM;
    for (uint32_t done = 0, part; outcome == 0 && done < mmc->count; done += part) {
        part = mmc->count - done < PART ? mmc->count - done : PART;
        outcome = read_part(mmc, FROM_MEDIUM, first + done, part, found);
        /* A drive may not know the bit by which it reads no cache. */
        if (outcome == UDFBURN_SENSE(UDFBURN_ILLEGAL, INVALID_FIELD)) outcome = read_part(mmc, 0, first + done, part, found);
        if (note_read(outcome) == 0 && memcmp(found, mmc->held + (size_t)done * UDFBURN_BLOCK, (size_t)part * UDFBURN_BLOCK)) {
            udfburn_note_as(UDFBURN_DEVICE, "drive.verify", EIO);
            outcome = EIO;
        }
    }
    free(found);
    return outcome;
}

/* Writes what is held, and has the drive bring it to the medium. Only then is it there: if the drive lost its buffer meanwhile, the next
 * address says so. */
static int32_t write_held(struct udfburn_mmc *mmc) {
    struct udfburn_command command = synchronization();
    uint32_t first = mmc->next, free_blocks;
    for (uint32_t done = 0, part; done < mmc->count; done += part) {
        part = mmc->count - done < PART ? mmc->count - done : PART;
        int32_t outcome = write_part(mmc, first + done, part, mmc->held + (size_t)done * UDFBURN_BLOCK);
        if (outcome != 0) return outcome;
    }
    int32_t outcome = run(mmc, &command);
    if (outcome == 0) outcome = look(mmc, &free_blocks);
    if (outcome != 0) return outcome;
    if (mmc->next < first + mmc->count) {
        udfburn_note_as(UDFBURN_DEVICE, "READ TRACK INFORMATION", EIO);
        return EIO;
    }
    for (uint32_t link = first + mmc->count; link < mmc->next && link < mmc->capacity; link++) set_empty(mmc, link);
    return mmc->verifies ? compare(mmc, first) : 0;
}

int32_t udfburn_mmc_write(void *context, uint32_t address, uint32_t count, const void *blocks) {
    struct udfburn_mmc *mmc = context;
    if (mmc->lost) return mmc->lost;
    if (address != mmc->next + mmc->count) return ERANGE;
    if (make_room(mmc, count)) return ENOMEM;
    memcpy(mmc->held + (size_t)mmc->count * UDFBURN_BLOCK, blocks, (size_t)count * UDFBURN_BLOCK);
    mmc->count += count;
    if (count != 1 || !udfburn_is_vat_icb(blocks, address)) return 0;
    int32_t outcome = fill_up(mmc);
    if (outcome == 0) outcome = write_held(mmc);
    mmc->count = 0;
    /* What a packet that failed left is found out when the disc is opened again. */
    if (outcome != 0 && mmc->lost == 0) mmc->lost = outcome;
    return outcome;
}

int32_t udfburn_mmc_capacity(void *context, uint32_t *blocks) {
    *blocks = ((const struct udfburn_mmc *)context)->capacity;
    return 0;
}

/* The link after the last packet of a full CD may lie beyond what a volume has: there is no next address then. */
int32_t udfburn_mmc_next(void *context, uint32_t *address) {
    const struct udfburn_mmc *mmc = context;
    uint32_t next = mmc->next + mmc->count;
    *address = next < mmc->capacity ? next : mmc->capacity;
    return mmc->lost;
}
