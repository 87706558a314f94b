/* Commits files of 4 KiB to a volume in memory, in directories of 400 names, and takes the blocks after each commit. At several sizes
 * of the tree it times 50 commits, beside a copy of their blocks. Then it opens these blocks as a drive, beside as many reads of a
 * block as the open made. Times are of the processor.
 * usage: commits FILES */
#define _POSIX_C_SOURCE 200809L
#include "udfburn.h"

#include <stdbool.h>
#include <stdio.h>
#include <stdlib.h>
#include <string.h>
#include <time.h>

/* So many files fill the tree: with their directories and the root they are 4,096. */
enum { MOST_FILES = 4084, NAMES = 400, FILE_BYTES = 4096, COMMITS = 50, COPIES = 9 };

/* Commits are timed when there are so many files. */
static const long starts[] = {10, 100, 1000, 2000, 4000};

typedef uint8_t block[UDFBURN_BLOCK];

/* The blocks of a volume from address 0 on, and how many of them the library has read. */
struct medium {
    block *blocks;
    uint32_t count, room, reads;
};

/* memcpy, which is called where it is written: a compiler leaves no call by this pointer out. */
static void *(*volatile copy)(void *, const void *, size_t) = memcpy;

static void end(const char *what, const char *why) {
    fprintf(stderr, "commits: %s: %s\n", what, why);
    exit(1);
}

static void require(const char *what, int32_t status) {
    if (status != UDFBURN_OK) end(what, udfburn_error_name(status));
}

/* The processor time of this program, in nanoseconds. */
static long long used(void) {
    struct timespec time;
    if (clock_gettime(CLOCK_PROCESS_CPUTIME_ID, &time)) end("clock_gettime", "it failed");
    return time.tv_sec * 1000000000LL + time.tv_nsec;
}

/* ---- The volume --------------------------------------------------------------------------------------------------- */

static void make_room(struct medium *medium) {
    if (medium->count < medium->room) return;
    medium->room = medium->room ? 2 * medium->room : 1024;
    medium->blocks = realloc(medium->blocks, medium->room * sizeof(block));
    if (!medium->blocks) end("realloc", "there is no memory");
}

static void take_blocks(udfburn *handle, struct medium *medium) {
    uint32_t address;
    int32_t status;
    for (;;) {
        make_room(medium);
        status = udfburn_next_block(handle, &address, medium->blocks[medium->count]);
        if (status == UDFBURN_NONE) return;
        require("next_block", status);
        if (address != medium->count) end("next_block", "an address is left out");
        require("took", udfburn_took(handle));
        medium->count++;
    }
}

static void make_directory(udfburn *handle, uint64_t number, long file) {
    struct udfburn_request request = {7, number, 0, 0, 0};
    char path[64];
    snprintf(path, sizeof path, "/d%04ld", file / NAMES);
    require(path, udfburn_mkdir(handle, &request, path));
}

/* The time that it takes to create a file. */
static long long create_file(udfburn *handle, uint64_t number, long file) {
    static uint8_t bytes[FILE_BYTES];
    struct udfburn_request request = {7, number, 0, 0, 0};
    char path[64];
    memset(bytes, 'Z', sizeof bytes);
    snprintf(path, sizeof path, "/d%04ld/f%04ld", file / NAMES, file);
    long long begun = used();
    int32_t status = udfburn_create(handle, &request, path, bytes, sizeof bytes);
    long long taken = used() - begun;
    require(path, status);
    return taken;
}

/* That the volume has these files, in as few directories as there can be, and these blocks. */
static void require_tree(udfburn *handle, const struct medium *medium, long files) {
    struct udfburn_status status;
    long directories = (files + NAMES - 1) / NAMES;
    require("status", udfburn_status(handle, &status));
    if (status.files != files) end("status", "it has another count of files");
    if (status.directories != directories + 1) end("status", "it has another count of directories");
    if (status.commits != files + directories) end("status", "it has another count of commits");
    if (status.next != medium->count) end("status", "it has another count of blocks");
}

/* ---- What is timed ------------------------------------------------------------------------------------------------ */

/* The time of a copy of blocks: the least of some, of which the first asks the system for memory. */
static long long copy_time(const block *blocks, uint32_t count) {
    size_t length = count * sizeof(block);
    uint8_t *into = malloc(length);
    long long least = -1;
    if (!into) end("malloc", "there is no memory");
    for (int i = 0; i < COPIES; i++) {
        long long begun = used();
        copy(into, blocks, length);
        long long taken = used() - begun;
        if (least < 0 || taken < least) least = taken;
    }
    free(into);
    return least;
}

/* The time of so many reads of a block. */
static long long read_time(const struct medium *medium, uint32_t reads) {
    block into;
    long long begun = used();
    for (uint32_t i = 0; i < reads; i++) copy(into, medium->blocks[i % medium->count], sizeof into);
    return used() - begun;
}

/* Ends a line with the times of one of so many, in microseconds, and how often the plain one is in the other. */
static void tell(long long taken, long long plain, int count) {
    printf(": %.1f us, %.2f of %.1f us\n", taken / 1e3 / count, (double)taken / (plain > 0 ? plain : 1), plain / 1e3 / count);
}

static bool is_start(long files) {
    for (size_t i = 0; i < sizeof starts / sizeof *starts; i++)
        if (starts[i] == files) return true;
    return false;
}

static void fill(udfburn *handle, struct medium *medium, long files) {
    uint64_t number = 0;
    uint32_t first = 0;
    long long taken = 0;
    for (long file = 0; file < files; file++) {
        if (file % NAMES == 0) {
            make_directory(handle, ++number, file);
            take_blocks(handle, medium);
        }
        if (is_start(file)) {
            first = medium->count;
            taken = 0;
        }
        taken += create_file(handle, ++number, file);
        take_blocks(handle, medium);
        if (is_start(file + 1 - COMMITS)) {
            uint32_t written = medium->count - first;
            printf("after %ld files: %d commits, %u blocks, a commit", file + 1 - COMMITS, COMMITS, written);
            tell(taken, copy_time(medium->blocks + first, written), COMMITS);
        }
    }
}

/* ---- The blocks as a drive ---------------------------------------------------------------------------------------- */

static int32_t capacity_of(void *context, uint32_t *blocks) {
    (void)context;
    *blocks = UDFBURN_GREATEST_CAPACITY;
    return 0;
}

static int32_t next_of(void *context, uint32_t *address) {
    const struct medium *medium = context;
    *address = medium->count;
    return 0;
}

static int32_t read_blocks(void *context, uint32_t address, uint32_t count, void *into) {
    struct medium *medium = context;
    if (address > medium->count || count > medium->count - address) return 1;
    memcpy(into, medium->blocks[address], count * sizeof(block));
    medium->reads += count;
    return 0;
}

static int32_t write_none(void *context, uint32_t address, uint32_t count, const void *blocks) {
    (void)context, (void)address, (void)count, (void)blocks;
    return 1;
}

static void open_blocks(struct medium *medium, long files) {
    struct udfburn_drive drive = {medium, capacity_of, next_of, read_blocks, write_none};
    udfburn *handle;
    long long begun = used();
    int32_t status = udfburn_open_drive(&drive, &handle);
    long long taken = used() - begun;
    uint32_t reads = medium->reads;
    require("open_drive", status);
    require_tree(handle, medium, files);
    udfburn_close(handle);
    printf("open of %ld files, %u blocks read", files, reads);
    tell(taken, read_time(medium, reads), 1);
}

int main(int argc, char **argv) {
    struct medium medium = {NULL, 0, 0, 0};
    udfburn *handle;
    char *rest = NULL;
    long files = argc == 2 ? strtol(argv[1], &rest, 10) : 0;
    if (files < 1 || files > MOST_FILES || *rest) {
        fprintf(stderr, "usage: commits FILES, from 1 to %d\n", MOST_FILES);
        return 2;
    }
    require("open_memory", udfburn_open_memory("DISC", 0, UDFBURN_GREATEST_CAPACITY, &handle));
    take_blocks(handle, &medium);
    fill(handle, &medium, files);
    require_tree(handle, &medium, files);
    udfburn_close(handle);
    open_blocks(&medium, files);
    free(medium.blocks);
    return 0;
}
