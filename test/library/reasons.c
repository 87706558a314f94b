/* Why calls fail: a status for each cause that a caller treats by itself, and what udfburn_reason tells of it.
 * usage: reasons FOLDER SMALL     SMALL is a folder on a file system with room for some images alone, or "" where none can be had */
#ifndef _GNU_SOURCE
#define _GNU_SOURCE
#endif

enum { CAPACITY = 600 };

#include "memory_drive.h"

#include <errno.h>
#include <signal.h>
#include <sys/file.h>
#include <sys/resource.h>
#include <sys/wait.h>

/* What is told after the last call on the handle, or without one. */
static int is_told(udfburn *handle, int32_t status, int32_t error, const char *call, const char *path) {
    struct udfburn_reason reason;
    memset(&reason, 0xEE, sizeof reason);
    reason.size = sizeof reason;
    STATUS(UDFBURN_OK, udfburn_reason(handle, &reason));
    if (reason.status == status && reason.error == error && !strcmp(reason.call, call) && !strcmp(reason.path, path)) return 1;
    printf("told: %s, %s, %s, \"%s\"\n", udfburn_error_name(reason.status), strerror(reason.error), reason.call, reason.path);
    return 0;
}

static int32_t open_of(const char *path) {
    udfburn *handle = NULL;
    int32_t status = udfburn_open(path, &handle);
    udfburn_close(handle);
    return status;
}

static void arguments(void) {
    struct udfburn_reason reason;
    struct { struct udfburn_reason reason; uint8_t more[100]; } longer;
    memset(&reason, 0, sizeof reason);
    STATUS(UDFBURN_ARGUMENT, udfburn_reason(NULL, NULL));
    STATUS(UDFBURN_ARGUMENT, udfburn_reason(NULL, &reason));
    reason.size = sizeof reason - 1;
    STATUS(UDFBURN_ARGUMENT, udfburn_reason(NULL, &reason));
    reason.size = SIZE_MAX;
    STATUS(UDFBURN_ARGUMENT, udfburn_reason(NULL, &reason));
    reason.size = sizeof reason;
    reason.error = 99;
    STATUS(UDFBURN_NONE, udfburn_reason(NULL, &reason));
    EXPECT(reason.error == 99);
    /* A structure of a later version: what this one does not know is 0. */
    STATUS(UDFBURN_NO_IMAGE, open_of("missing.img"));
    memset(&longer, 0xEE, sizeof longer);
    longer.reason.size = sizeof longer;
    STATUS(UDFBURN_OK, udfburn_reason(NULL, &longer.reason));
    EXPECT(longer.reason.size == sizeof longer && longer.reason.status == UDFBURN_NO_IMAGE);
    for (size_t i = 0; i < sizeof longer.more; i++) EXPECT(longer.more[i] == 0);
}

static void of_paths(void) {
    char path[400];
    make("reasons.img");
    EXPECT(!mkdir("folder", 0755) && !symlink("reasons.img", "link"));
    STATUS(UDFBURN_NO_IMAGE, open_of("missing.img"));
    EXPECT(is_told(NULL, UDFBURN_NO_IMAGE, ENOENT, "stat", "missing.img"));
    STATUS(UDFBURN_NO_IMAGE, open_of("folder/missing.img"));
    /* A folder that is missing is no missing image, as of a disk that is not mounted. */
    STATUS(UDFBURN_DEVICE, open_of("none/missing.img"));
    EXPECT(is_told(NULL, UDFBURN_DEVICE, ENOENT, "open", "none/missing.img"));
    STATUS(UDFBURN_DEVICE, udfburn_format("none/missing.img", "DISC", MOMENT, 600));
    STATUS(UDFBURN_DEVICE, open_of("link"));
    EXPECT(is_told(NULL, UDFBURN_DEVICE, ELOOP, "stat", "link"));
    STATUS(UDFBURN_DEVICE, open_of("folder"));
    EXPECT(is_told(NULL, UDFBURN_DEVICE, EISDIR, "stat", "folder"));
    STATUS(UDFBURN_DEVICE, open_of("folder/"));
    EXPECT(is_told(NULL, UDFBURN_DEVICE, ENOENT, "stat", "folder/"));
    STATUS(UDFBURN_VOLUME, udfburn_format("reasons.img", "DISC", MOMENT + 1, 600));
    EXPECT(is_told(NULL, UDFBURN_VOLUME, 0, "", "reasons.img"));
    /* Of a long path the end. */
    memset(path, '/', sizeof path);
    strcpy(path + 300, "missing.img");
    STATUS(UDFBURN_NO_IMAGE, open_of(path));
    EXPECT(is_told(NULL, UDFBURN_NO_IMAGE, ENOENT, "stat", path + strlen(path) - 255));
}

static void of_others(void) {
    udfburn *handle = opened("reasons.img");
    STATUS(UDFBURN_BUSY, open_of("reasons.img"));
    EXPECT(is_told(NULL, UDFBURN_BUSY, EBUSY, "open", "reasons.img"));
    STATUS(UDFBURN_BUSY, udfburn_format("reasons.img", "DISC", MOMENT, 600));
    udfburn_close(handle);
    int other = image_at("reasons.img");
    EXPECT(!flock(other, LOCK_EX | LOCK_NB));
    STATUS(UDFBURN_BUSY, open_of("reasons.img"));
    EXPECT(is_told(NULL, UDFBURN_BUSY, EWOULDBLOCK, "flock", "reasons.img"));
    STATUS(UDFBURN_BUSY, udfburn_format("reasons.img", "DISC", MOMENT, 600));
    close(other);
    STATUS(UDFBURN_OK, open_of("reasons.img"));
}

/* A lease of another process is waited for by nobody. */
static void of_a_lease(void) {
    char byte;
    int ends[2];
    if (pipe(ends)) abort();
    pid_t child = fork();
    if (child == 0) {
        signal(SIGIO, SIG_IGN);
        int fd = open("reasons.img", O_RDWR);
        if (fcntl(fd, F_SETLEASE, F_WRLCK) || write(ends[1], "x", 1) != 1) _exit(1);
        for (;;) pause();
    }
    close(ends[1]);
    EXPECT(read(ends[0], &byte, 1) == 1);
    STATUS(UDFBURN_BUSY, open_of("reasons.img"));
    EXPECT(is_told(NULL, UDFBURN_BUSY, EWOULDBLOCK, "open", "reasons.img"));
    EXPECT(!kill(child, SIGKILL) && waitpid(child, NULL, 0) == child);
    close(ends[0]);
}

/* An image that may be read alone, as somebody without the right to write it. */
static void of_rights(void) {
    EXPECT(!chmod("reasons.img", 0444) && !chmod(".", 0755));
    pid_t child = fork();
    if (child == 0) {
        if (geteuid() == 0 && seteuid(65534)) _exit(1);
        STATUS(UDFBURN_READ_ONLY, open_of("reasons.img"));
        EXPECT(is_told(NULL, UDFBURN_READ_ONLY, EACCES, "open", "reasons.img"));
        if (geteuid() == 65534) {
            STATUS(UDFBURN_READ_ONLY, udfburn_format("theirs.img", "DISC", MOMENT, 600));
            EXPECT(is_told(NULL, UDFBURN_READ_ONLY, EACCES, "open", "theirs.img"));
        }
        fflush(stdout);
        _exit(failed);
    }
    int status;
    EXPECT(child > 0 && waitpid(child, &status, 0) == child && status == 0);
    EXPECT(!chmod("reasons.img", 0644));
}

static int32_t create(udfburn *handle, struct udfburn_request *request, size_t length) {
    static uint8_t data[UDFBURN_FILE_LIMIT];
    return udfburn_create(handle, request, "/long", data, length);
}

/* The most that a process may write to a file: it is told, where the signal is ignored, and the request runs once afterwards. */
static void of_the_limit_of_a_process(void) {
    struct udfburn_request request = {7, 0, MOMENT, 0, 0};
    struct udfburn_reason reason;
    struct rlimit before, least;
    signal(SIGXFSZ, SIG_IGN);
    EXPECT(!getrlimit(RLIMIT_FSIZE, &before));
    least = before;
    least.rlim_cur = 265 * UDFBURN_BLOCK;
    udfburn *handle = opened("reasons.img");
    EXPECT(!setrlimit(RLIMIT_FSIZE, &least));
    STATUS(UDFBURN_NO_SPACE, create(handle, &request, 100000));
    EXPECT(!setrlimit(RLIMIT_FSIZE, &before));
    EXPECT(is_told(handle, UDFBURN_NO_SPACE, EFBIG, "pwrite", "reasons.img"));
    STATUS(UDFBURN_OK, create(handle, &request, 100000));
    EXPECT(!request.repeated);
    /* A success changes nothing of what was told, and what one handle was told is nothing to the others. */
    EXPECT(is_told(handle, UDFBURN_NO_SPACE, EFBIG, "pwrite", "reasons.img"));
    udfburn_close(handle);
    handle = opened("reasons.img");
    reason.size = sizeof reason;
    STATUS(UDFBURN_NONE, udfburn_reason(handle, &reason));
    request.number = 0;
    STATUS(UDFBURN_EXISTS, create(handle, &request, 1));
    EXPECT(is_told(handle, UDFBURN_EXISTS, 0, "", "reasons.img"));
    udfburn_close(handle);
}

/* A disk without room: what was acknowledged before is there, and the next file is once there is room. */
static void of_a_full_disk(const char *small) {
    struct udfburn_request request = {7, 0, MOMENT, 0, 0};
    static uint8_t block[65536];
    struct udfburn_node node;
    char image[300], filler[300];
    if (!*small) return;
    snprintf(image, sizeof image, "%s/full.img", small);
    snprintf(filler, sizeof filler, "%s/filler", small);
    STATUS(UDFBURN_OK, udfburn_format(image, "DISC", MOMENT, 3000));
    udfburn *handle = opened(image);
    STATUS(UDFBURN_OK, udfburn_create(handle, &request, "/a", "hello", 5));
    int fd = open(filler, O_WRONLY | O_CREAT | O_CLOEXEC, 0600);
    while (write(fd, block, sizeof block) > 0) continue;
    EXPECT(errno == ENOSPC && !close(fd));
    request.number = 0;
    STATUS(UDFBURN_NO_SPACE, create(handle, &request, 100000));
    EXPECT(is_told(handle, UDFBURN_NO_SPACE, ENOSPC, "pwrite", image));
    STATUS(UDFBURN_OK, udfburn_stat(handle, "/a", &node));
    EXPECT(!unlink(filler));
    STATUS(UDFBURN_OK, create(handle, &request, 100000));
    EXPECT(!request.repeated && request.commit == 2);
    udfburn_close(handle);
}

static void of_a_lost_file(void) {
    struct udfburn_node node;
    make("lost.img");
    udfburn *handle = opened("lost.img");
    EXPECT(!unlink("lost.img"));
    for (int i = 0; i < 2; i++) {
        STATUS(UDFBURN_DEVICE, udfburn_stat(handle, "/", &node));
        EXPECT(is_told(handle, UDFBURN_DEVICE, ENOENT, "fstat", "lost.img"));
    }
    udfburn_close(handle);
}

/* Its descriptor is closed by mistake, and its name is there: each call says so. */
static void of_a_lost_descriptor(void) {
    struct udfburn_node node;
    make("lost.img");
    udfburn *handle = opened("lost.img");
    EXPECT(!close(descriptor_of("lost.img")));
    for (int i = 0; i < 2; i++) {
        STATUS(UDFBURN_DEVICE, udfburn_stat(handle, "/", &node));
        EXPECT(is_told(handle, UDFBURN_DEVICE, EBADF, "fstat", "lost.img"));
    }
    udfburn_close(handle);
}

/* ---- Drives ---- */

static struct {
    struct medium medium;
    int32_t reads, writes;      /* what these functions return */
} disc;

static int32_t capacity_of(void *context, uint32_t *blocks) {
    *blocks = CAPACITY;
    return context ? 0 : 44;
}

static int32_t read_blocks(void *context, uint32_t address, uint32_t count, void *blocks) {
    int32_t status = medium_read(context, address, count, blocks);
    return disc.reads ? disc.reads : status;
}

static int32_t write_blocks(void *context, uint32_t address, uint32_t count, const void *blocks) {
    return disc.writes ? disc.writes : medium_write(context, address, count, blocks);
}

static void of_drives(void) {
    struct udfburn_request request = {7, 0, MOMENT, 0, 0};
    struct udfburn_drive drive = {&disc.medium, capacity_of, medium_next, read_blocks, write_blocks}, broken = drive;
    udfburn *handle = NULL, *second = NULL;
    broken.context = NULL;
    STATUS(UDFBURN_DEVICE, udfburn_open_drive(&broken, &handle));
    EXPECT(is_told(NULL, UDFBURN_DEVICE, 44, "drive.capacity", ""));
    /* A number of a drive is the caller's, whatever it is as errno. */
    disc.writes = ENOSPC;
    STATUS(UDFBURN_DEVICE, udfburn_format_drive(&drive, "DISC", MOMENT));
    EXPECT(is_told(NULL, UDFBURN_DEVICE, ENOSPC, "drive.write", ""));
    disc.writes = 0;
    STATUS(UDFBURN_OK, udfburn_format_drive(&drive, "DISC", MOMENT));
    disc.reads = -3;
    STATUS(UDFBURN_DEVICE, udfburn_open_drive(&drive, &handle));
    EXPECT(is_told(NULL, UDFBURN_DEVICE, -3, "drive.read", ""));
    disc.reads = 0;
    STATUS(UDFBURN_OK, udfburn_open_drive(&drive, &handle));
    STATUS(UDFBURN_BUSY, udfburn_open_drive(&drive, &second));
    EXPECT(is_told(NULL, UDFBURN_BUSY, EBUSY, "open", ""));
    disc.writes = 7;
    STATUS(UDFBURN_DEVICE, udfburn_create(handle, &request, "/a", "a", 1));
    EXPECT(is_told(handle, UDFBURN_DEVICE, 7, "drive.write", ""));
    udfburn_close(handle);
}

int main(int argc, char **argv) {
    if (argc != 3 || chdir(argv[1])) return EXIT_FAILURE;
    int before = descriptors();
    arguments();
    of_paths();
    of_others();
    of_a_lease();
    of_rights();
    of_the_limit_of_a_process();
    of_a_full_disk(argv[2]);
    of_a_lost_file();
    of_a_lost_descriptor();
    of_drives();
    EXPECT(descriptors() == before);
    return finish("reasons");
}
