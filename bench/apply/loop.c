/* Writes what a program wrote to an image, by the calls of a plan: the program's own, as a log has them, or the fewest.

   usage: loop PLAN BLOCKS IMAGE < FRAMES

   PLAN has 16 bytes a call, two numbers of 64 bits in this machine's order: where a write begins in the file, and how many bytes
   it has; a sync has none, and -1 sets the file to that length. BLOCKS is the image that came out, and what is written behind it
   and cut off. Both are in memory before the loop begins; how long that took, and
   to give the memory back, is printed in nanoseconds, of the clock and of the processor, so that it can be left out. */
#define _GNU_SOURCE
#include <fcntl.h>
#include <inttypes.h>
#include <stdint.h>
#include <stdio.h>
#include <stdlib.h>
#include <string.h>
#include <sys/file.h>
#include <sys/mman.h>
#include <sys/stat.h>
#include <time.h>
#include <unistd.h>

struct call {
    int64_t offset, length;
};

struct bytes {
    char *start;
    size_t length;
};

static void end(const char *what) {
    perror(what);
    exit(1);
}

static int64_t now(clockid_t clock) {
    struct timespec time;
    clock_gettime(clock, &time);
    return (int64_t)time.tv_sec * 1000000000 + time.tv_nsec;
}

static void read_whole(int descriptor, struct bytes into) {
    for (size_t done = 0; done < into.length;) {
        ssize_t count = read(descriptor, into.start + done, into.length - done);
        if (count <= 0) end("read");
        done += (size_t)count;
    }
}

static struct bytes load(const char *path) {
    int descriptor = open(path, O_RDONLY | O_CLOEXEC);
    struct stat found;
    if (descriptor < 0 || fstat(descriptor, &found)) end(path);
    struct bytes loaded = { NULL, (size_t)found.st_size };
    loaded.start = mmap(NULL, loaded.length, PROT_READ | PROT_WRITE, MAP_PRIVATE | MAP_ANONYMOUS, -1, 0);
    if (loaded.start == MAP_FAILED) end("mmap");
    read_whole(descriptor, loaded);
    close(descriptor);
    return loaded;
}

static void give_back(struct bytes loaded) {
    if (munmap(loaded.start, loaded.length)) end("munmap");
}

/* As `udfburn apply` opens it; the sync of the opening is one of the plan. */
static int open_image(const char *path) {
    struct stat found;
    if (stat(path, &found) || !S_ISREG(found.st_mode)) end(path);
    int descriptor = open(path, O_RDWR | O_CLOEXEC);
    if (descriptor < 0 || flock(descriptor, LOCK_EX | LOCK_NB)) end(path);
    return descriptor;
}

static void read_frames(void) {
    static char piece[65536];
    ssize_t count;
    while ((count = read(0, piece, sizeof piece)) > 0) {
    }
    if (count < 0) end("frames");
}

static void carry_out(int image, struct bytes plan, struct bytes blocks) {
    for (size_t at = 0; at + sizeof(struct call) <= plan.length; at += sizeof(struct call)) {
        struct call call;
        memcpy(&call, plan.start + at, sizeof call);
        if (call.length < 0) {
            if (ftruncate(image, call.offset)) end("ftruncate");
        } else if (call.length == 0) {
            if (fsync(image)) end("fsync");
        } else if (pwrite(image, blocks.start + call.offset, (size_t)call.length, call.offset) != call.length) {
            end("pwrite");
        }
    }
}

int main(int count, char **words) {
    if (count != 4) return 2;
    int64_t clock = now(CLOCK_MONOTONIC), processor = now(CLOCK_PROCESS_CPUTIME_ID);
    struct bytes plan = load(words[1]), blocks = load(words[2]);
    clock = now(CLOCK_MONOTONIC) - clock;
    processor = now(CLOCK_PROCESS_CPUTIME_ID) - processor;

    int image = open_image(words[3]);
    read_frames();
    carry_out(image, plan, blocks);
    close(image);

    int64_t clock_behind = now(CLOCK_MONOTONIC), processor_behind = now(CLOCK_PROCESS_CPUTIME_ID);
    give_back(plan);
    give_back(blocks);
    clock += now(CLOCK_MONOTONIC) - clock_behind;
    processor += now(CLOCK_PROCESS_CPUTIME_ID) - processor_behind;
    printf("%" PRId64 " %" PRId64 "\n", clock, processor);
    return 0;
}
