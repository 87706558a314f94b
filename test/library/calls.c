/* The calls on volumes and frames: what they do, and that each wrong argument gives a status.
 * usage: calls FOLDER VERSION */
#ifndef _GNU_SOURCE
#define _GNU_SOURCE
#endif
#include "support.h"

#include <signal.h>
#include <sys/file.h>
#include <sys/resource.h>
#include <sys/wait.h>

static void names_of_statuses(const char *version) {
    EXPECT(!strcmp(udfburn_version(), version));
    EXPECT(!strcmp(udfburn_error_name(UDFBURN_OK), "UDFBURN_OK"));
    EXPECT(!strcmp(udfburn_error_name(UDFBURN_ARGUMENT), "UDFBURN_ARGUMENT"));
    EXPECT(!strcmp(udfburn_error_name(UDFBURN_EXISTS), "UDFBURN_EXISTS"));
    EXPECT(!strcmp(udfburn_error_name(-1), "UDFBURN_UNKNOWN"));
    EXPECT(!strcmp(udfburn_error_name(INT32_MAX), "UDFBURN_UNKNOWN"));
}

/* Paths at which nothing can be made or opened as an image. */
static void odd_paths(void) {
    static const char *const paths[] = {"", "none/a.img", "folder", "folder/", "pipe", "link", "dangling", "calls.img/", "/dev/null"};
    udfburn *handle;
    make("calls.img");
    EXPECT(!mkdir("folder", 0755) && !mkfifo("pipe", 0644) && !symlink("calls.img", "link") && !symlink("nowhere", "dangling"));
    for (size_t i = 0; i < sizeof paths / sizeof *paths; i++) {
        handle = (udfburn *)&handle;
        STATUS(UDFBURN_DEVICE, udfburn_format(paths[i], "DISC", MOMENT, 600));
        STATUS(UDFBURN_DEVICE, udfburn_open(paths[i], &handle));
        EXPECT(handle == NULL);
    }
    EXPECT(access("nowhere", F_OK) == -1);
    STATUS(UDFBURN_NO_IMAGE, udfburn_open("missing.img", &handle));
    EXPECT(access("missing.img", F_OK) == -1);
}

/* Paths of the host are bytes: they need not be UTF-8, and one that the system finds too long is a status. */
static void paths_of_the_host(void) {
    static const char *const odd[] = {"\xFF\xFE.img", "./a b\n.img", "folder/../odd.img"};
    char *path = (char *)malloc(70000);
    udfburn *handle = NULL;
    for (size_t i = 0; i < sizeof odd / sizeof *odd; i++) {
        STATUS(UDFBURN_OK, udfburn_format(odd[i], "DISC", MOMENT, 600));
        udfburn_close(opened(odd[i]));
        EXPECT(!unlink(odd[i]));
    }
    for (size_t length = 256; length < 70000; length *= 4) {
        memset(path, 'n', length);
        path[length] = '\0';
        for (int deep = 0; deep < 2; deep++) {
            STATUS(UDFBURN_DEVICE, udfburn_format(path, "DISC", MOMENT, 600));
            STATUS(UDFBURN_DEVICE, udfburn_open(path, &handle));
            for (size_t i = 1; i < length; i += 2) path[i] = '/';
        }
    }
    EXPECT(!handle);
    free(path);
}

static void formats(void) {
    size_t count;
    STATUS(UDFBURN_ARGUMENT, udfburn_format(NULL, "DISC", MOMENT, 600));
    STATUS(UDFBURN_ARGUMENT, udfburn_format("new.img", NULL, MOMENT, 600));
    STATUS(UDFBURN_VOLUME, udfburn_format("new.img", "DISC", MOMENT, UDFBURN_LEAST_CAPACITY - 1));
    STATUS(UDFBURN_VOLUME, udfburn_format("new.img", "DISC", MOMENT, UDFBURN_GREATEST_CAPACITY + 1));
    STATUS(UDFBURN_VOLUME, udfburn_format("new.img", "DISC", UDFBURN_MOMENT_LIMIT, 600));
    EXPECT(access("new.img", F_OK) == -1);
    STATUS(UDFBURN_TEXT, udfburn_format("new.img", "", MOMENT, 600));
    STATUS(UDFBURN_TEXT, udfburn_format("new.img", "\xFF", MOMENT, 600));
    STATUS(UDFBURN_TEXT, udfburn_format("new.img", "a label of more than thirty bytes", MOMENT, 600));
    STATUS(UDFBURN_OK, udfburn_format("new.img", "DISC", UDFBURN_MOMENT_LIMIT - 1, UDFBURN_LEAST_CAPACITY));
    uint8_t *bytes = file_bytes("new.img", &count);
    EXPECT(count == 262 * UDFBURN_BLOCK);
    /* A format that was cut after a block or inside of one is finished; one with other words is not. */
    for (size_t behind = 0; behind < UDFBURN_BLOCK; behind += 1000) {
        put_file("cut.img", bytes, 100 * UDFBURN_BLOCK + behind);
        STATUS(UDFBURN_VOLUME, udfburn_format("cut.img", "OTHER", UDFBURN_MOMENT_LIMIT - 1, UDFBURN_LEAST_CAPACITY));
        STATUS(UDFBURN_OK, udfburn_format("cut.img", "DISC", UDFBURN_MOMENT_LIMIT - 1, UDFBURN_LEAST_CAPACITY));
        EXPECT(is_same_file("cut.img", "new.img"));
    }
    /* What is somebody else's stays. */
    put_file("text", "somebody's only copy", 20);
    STATUS(UDFBURN_VOLUME, udfburn_format("text", "DISC", MOMENT, 600));
    EXPECT(file_bytes != NULL && access("text", F_OK) == 0);
    free(bytes);
    bytes = file_bytes("text", &count);
    EXPECT(count == 20 && !memcmp(bytes, "somebody's only copy", 20));
    free(bytes);
    STATUS(UDFBURN_VOLUME, udfburn_format("new.img", "DISC", MOMENT, 600));
    EXPECT(is_same_file("cut.img", "new.img"));
    /* The words that made it are a success, until it has a commit. */
    STATUS(UDFBURN_OK, udfburn_format("new.img", "DISC", UDFBURN_MOMENT_LIMIT - 1, UDFBURN_LEAST_CAPACITY));
    EXPECT(is_same_file("cut.img", "new.img"));
    udfburn *handle = opened("new.img");
    STATUS(UDFBURN_OK, udfburn_answer(handle, create_a, sizeof create_a));
    udfburn_close(handle);
    STATUS(UDFBURN_VOLUME, udfburn_format("new.img", "DISC", UDFBURN_MOMENT_LIMIT - 1, UDFBURN_LEAST_CAPACITY));
    bytes = file_bytes("new.img", &count);
    EXPECT(count > 262 * UDFBURN_BLOCK);
    free(bytes);
}

/* Labels at their limits, in memory. */
static void labels(void) {
    static const char umlauts[] =
        "\xC3\xA4\xC3\xA4\xC3\xA4\xC3\xA4\xC3\xA4\xC3\xA4\xC3\xA4\xC3\xA4\xC3\xA4\xC3\xA4\xC3\xA4\xC3\xA4\xC3\xA4\xC3\xA4\xC3\xA4"
        "\xC3\xA4\xC3\xA4\xC3\xA4\xC3\xA4\xC3\xA4\xC3\xA4\xC3\xA4\xC3\xA4\xC3\xA4\xC3\xA4\xC3\xA4\xC3\xA4\xC3\xA4\xC3\xA4\xC3\xA4";
    static const char *const good[] = {
        "A", ".", "a/b", "123456789012345678901234567890", umlauts,
        "nnnnnnnnnnnnnnnnnnnnnnnnnnnnn\xC3\xA4", "\xE2\x82\xACnnnnnnnnnnnnnn"
    };
    static const char *const bad[] = {
        "", "1234567890123456789012345678901", "\xE2\x82\xACnnnnnnnnnnnnnnn", "\xEF\xBB\xBF", "\xEF\xBF\xBE", "\xF0\x9F\x98\x80", "\xC3"
    };
    struct udfburn_status status;
    udfburn *handle = NULL;
    for (size_t i = 0; i < sizeof good / sizeof *good; i++) {
        STATUS(UDFBURN_OK, udfburn_open_memory(good[i], MOMENT, 600, &handle));
        STATUS(UDFBURN_OK, udfburn_status(handle, &status));
        EXPECT(!strcmp(status.label, good[i]));
        udfburn_close(handle);
    }
    for (size_t i = 0; i < sizeof bad / sizeof *bad; i++) STATUS(UDFBURN_TEXT, udfburn_open_memory(bad[i], MOMENT, 600, &handle));
}

/* A file that is longer than the volume, or than any volume, is no volume; a part of a block does not count. */
static void files_that_are_too_long(void) {
    static const off_t lengths[] = {601 * UDFBURN_BLOCK, 600 * UDFBURN_BLOCK + 1, (off_t)5 << 30};
    udfburn *handle = NULL;
    for (size_t i = 0; i < sizeof lengths / sizeof *lengths; i++) {
        struct stat found;
        put_file("long.img", "somebody's only copy", 20);
        EXPECT(!truncate("long.img", lengths[i]));
        STATUS(UDFBURN_VOLUME, udfburn_format("long.img", "DISC", MOMENT, 600));
        STATUS(UDFBURN_VOLUME, udfburn_format_fd(image_at("long.img"), "DISC", MOMENT, 600));
        STATUS(UDFBURN_VOLUME, udfburn_open("long.img", &handle));
        EXPECT(!handle && !stat("long.img", &found) && found.st_size == lengths[i]);
    }
    EXPECT(!unlink("long.img"));
}

/* Descriptors that no image can be had by. Each is closed by the call. */
static int odd_descriptor(int which) {
    int ends[2] = {-1, -1};
    switch (which) {
    case 0: return open("calls.img", O_RDONLY | O_CLOEXEC);
    case 1: return open("calls.img", O_WRONLY | O_CLOEXEC);
    case 2: return open("calls.img", O_RDWR | O_APPEND | O_CLOEXEC);
    case 3: return open("calls.img", O_PATH | O_CLOEXEC);
    case 4: return open(".", O_RDONLY | O_CLOEXEC);
    case 5: return open("/dev/zero", O_RDWR | O_CLOEXEC);
    default:
        if (pipe(ends)) abort();
        close(ends[0]);
        return ends[1];
    }
}

static void by_descriptor(void) {
    udfburn *handle = NULL;
    make("calls.img");
    for (int which = 0; which < 7; which++) {
        int fd = odd_descriptor(which);
        handle = (udfburn *)&handle;
        STATUS(UDFBURN_DEVICE, udfburn_open_fd(fd, &handle));
        EXPECT(is_closed(fd) && !handle);
        fd = odd_descriptor(which);
        STATUS(UDFBURN_DEVICE, udfburn_format_fd(fd, "DISC", MOMENT, 600));
        EXPECT(is_closed(fd));
    }
    int closed = image_at("calls.img");
    close(closed);
    STATUS(UDFBURN_DEVICE, udfburn_open_fd(closed, &handle));
    STATUS(UDFBURN_DEVICE, udfburn_format_fd(closed, "DISC", MOMENT, 600));
    STATUS(UDFBURN_ARGUMENT, udfburn_open_fd(-1, &handle));
    STATUS(UDFBURN_ARGUMENT, udfburn_format_fd(-1, "DISC", MOMENT, 600));
    /* No descriptor has the number of a drive, also where no drive is open. */
    STATUS(UDFBURN_DEVICE, udfburn_open_fd(0x40000000, &handle));
    int fd = image_at("calls.img");
    STATUS(UDFBURN_ARGUMENT, udfburn_open_fd(fd, NULL));
    EXPECT(is_closed(fd));
    fd = image_at("calls.img");
    STATUS(UDFBURN_ARGUMENT, udfburn_format_fd(fd, NULL, MOMENT, 600));
    EXPECT(is_closed(fd));
    fd = open("by_fd.img", O_RDWR | O_CREAT | O_TRUNC, 0644);
    STATUS(UDFBURN_OK, udfburn_format_fd(fd, "DISC", MOMENT, 600));
    EXPECT(is_closed(fd) && is_same_file("by_fd.img", "calls.img"));
    fd = open("by_fd.img", O_RDWR);
    STATUS(UDFBURN_OK, udfburn_open_fd(fd, &handle));
    EXPECT(fcntl(fd, F_GETFD) == FD_CLOEXEC);
    udfburn_close(handle);
    EXPECT(is_closed(fd));
}

/* Duplicates of a descriptor have one lock, and yet one handle alone has the file. */
static void duplicates(void) {
    udfburn *handle = NULL, *second = NULL;
    make("calls.img");
    int fd = image_at("calls.img"), other = dup(fd);
    STATUS(UDFBURN_OK, udfburn_open_fd(fd, &handle));
    STATUS(UDFBURN_BUSY, udfburn_open_fd(other, &second));
    EXPECT(!second && is_closed(other) && !is_closed(fd));
    other = dup(fd);
    STATUS(UDFBURN_BUSY, udfburn_format_fd(other, "DISC", MOMENT, 600));
    EXPECT(is_closed(other));
    STATUS(UDFBURN_OK, udfburn_answer(handle, create_a, sizeof create_a));
    expect_answers(handle, created, sizeof created);
    other = dup(fd);
    udfburn_close(handle);
    EXPECT(is_closed(fd));
    STATUS(UDFBURN_OK, udfburn_open_fd(other, &handle));
    udfburn_close(handle);
}

/* Somebody closes the library's descriptor by mistake, and its number is that of another volume then: nothing is written there. */
static void a_number_of_another_file(void) {
    uint64_t number;
    make("one.img");
    make("two.img");
    make("three.img");
    for (int by_path = 0; by_path < 2; by_path++) {
        udfburn *handle = NULL;
        if (by_path) STATUS(UDFBURN_OK, udfburn_open("one.img", &handle));
        else STATUS(UDFBURN_OK, udfburn_open_fd(image_at("one.img"), &handle));
        int fd = descriptor_of("one.img"), other = image_at("two.img");
        EXPECT(fcntl(fd, F_GETFD) == FD_CLOEXEC && dup2(other, fd) == fd);
        STATUS(UDFBURN_DEVICE, udfburn_answer(handle, create_a, sizeof create_a));
        STATUS(UDFBURN_DEVICE, udfburn_last_number(handle, 7, &number));
        EXPECT(udfburn_answered(handle) == 0);
        udfburn_close(handle);
        close(other);
        EXPECT(is_same_file("two.img", "three.img") && is_same_file("one.img", "three.img"));
    }
}

/* Where the standard descriptors are closed, no image gets one of their numbers: what is printed would be written to it. */
static void closed_standard_descriptors(void) {
    int kept[3];
    make("calls.img");
    for (int fd = 0; fd < 3; fd++) kept[fd] = fcntl(fd, F_DUPFD_CLOEXEC, 10);
    for (int by_path = 0; by_path < 2; by_path++) {
        udfburn *handle = NULL;
        for (int fd = 0; fd < 3; fd++) close(fd);
        int32_t status = by_path ? udfburn_open("calls.img", &handle) : udfburn_open_fd(image_at("calls.img"), &handle);
        int fd = descriptor_of("calls.img"), is_kept = fcntl(fd, F_GETFD) == FD_CLOEXEC;
        udfburn_close(handle);
        for (int i = 0; i < 3; i++) dup2(kept[i], i);
        STATUS(UDFBURN_OK, status);
        EXPECT(fd > 2 && is_kept);
    }
    for (int fd = 0; fd < 3; fd++) close(kept[fd]);
}

/* A descriptor that cannot get a number above the standard ones is refused, and closed. */
static void no_number_above_the_standard_ones(void) {
    struct rlimit before, least;
    int kept[3];
    EXPECT(!getrlimit(RLIMIT_NOFILE, &before));
    least = before;
    least.rlim_cur = 3;
    for (int fd = 0; fd < 3; fd++) kept[fd] = fcntl(fd, F_DUPFD_CLOEXEC, 10);
    for (int call = 0; call < 3; call++) {
        udfburn *handle = NULL;
        int32_t status;
        for (int fd = 0; fd < 3; fd++) close(fd);
        int limited = setrlimit(RLIMIT_NOFILE, &least);
        if (call == 0) status = udfburn_open("calls.img", &handle);
        else if (call == 1) status = udfburn_open_fd(image_at("calls.img"), &handle);
        else status = udfburn_format_fd(image_at("calls.img"), "DISC", MOMENT, 600);
        int open = 0, restored = setrlimit(RLIMIT_NOFILE, &before);
        for (int fd = 0; fd < 3; fd++) open += fcntl(fd, F_GETFD) != -1;
        for (int i = 0; i < 3; i++) dup2(kept[i], i);
        STATUS(UDFBURN_DEVICE, status);
        EXPECT(!limited && !restored && !open && !handle);
    }
    for (int fd = 0; fd < 3; fd++) close(kept[fd]);
    udfburn_close(opened("calls.img"));
}

static void volumes_that_are_none(void) {
    static uint8_t blocks[300 * UDFBURN_BLOCK];
    udfburn *handle = NULL;
    STATUS(UDFBURN_ARGUMENT, udfburn_open(NULL, &handle));
    STATUS(UDFBURN_ARGUMENT, udfburn_open("calls.img", NULL));
    put_file("empty.img", "", 0);
    STATUS(UDFBURN_VOLUME, udfburn_open("empty.img", &handle));
    put_file("zeros.img", blocks, sizeof blocks);
    STATUS(UDFBURN_VOLUME, udfburn_open("zeros.img", &handle));
    put_file("short.img", blocks, 1000);
    STATUS(UDFBURN_VOLUME, udfburn_open("short.img", &handle));
    EXPECT(!handle);
}

static void one_writer(void) {
    udfburn *handle = opened("calls.img"), *second = handle;
    STATUS(UDFBURN_BUSY, udfburn_open("calls.img", &second));
    EXPECT(!second);
    STATUS(UDFBURN_BUSY, udfburn_open_fd(image_at("calls.img"), &second));
    STATUS(UDFBURN_BUSY, udfburn_format("calls.img", "DISC", MOMENT, 600));
    int other = image_at("calls.img");
    EXPECT(flock(other, LOCK_EX | LOCK_NB) == -1);
    udfburn_close(handle);
    EXPECT(flock(other, LOCK_EX | LOCK_NB) == 0);
    STATUS(UDFBURN_BUSY, udfburn_open("calls.img", &second));
    close(other);
    udfburn_close(opened("calls.img"));
    udfburn_close(NULL);
}

/* A child of fork() that waits, and before that closes its copy of the handle if it is told to. */
static pid_t child_with(udfburn *handle, int closes) {
    int ends[2];
    char byte = 0;
    if (pipe(ends)) abort();
    pid_t child = fork();
    if (child == 0) {
        if (closes) udfburn_close(handle);
        if (write(ends[1], &byte, 1) == 1) pause();
        _exit(EXIT_FAILURE);
    }
    EXPECT(child > 0 && read(ends[0], &byte, 1) == 1);
    close(ends[0]);
    close(ends[1]);
    return child;
}

static void end_child(pid_t child) {
    int status;
    EXPECT(!kill(child, SIGKILL) && waitpid(child, &status, 0) == child && WIFSIGNALED(status));
}

/* A child that closes its copy takes nothing from the parent, and one that does not keeps nothing from others after the parent. */
static void after_fork(void) {
    udfburn *handle;
    make("calls.img");
    handle = opened("calls.img");
    pid_t child = child_with(handle, 1);
    STATUS(UDFBURN_OK, udfburn_answer(handle, create_a, sizeof create_a));
    expect_answers(handle, created, sizeof created);
    int other = image_at("calls.img");
    EXPECT(flock(other, LOCK_EX | LOCK_NB) == -1);
    close(other);
    udfburn_close(handle);
    handle = opened("calls.img");
    end_child(child);
    child = child_with(handle, 0);
    udfburn_close(handle);
    udfburn_close(opened("calls.img"));
    end_child(child);
    udfburn_close(opened("calls.img"));
}

static void frames(void) {
    uint8_t byte, bytes[16];
    make("calls.img");
    udfburn *handle = opened("calls.img");
    STATUS(UDFBURN_ARGUMENT, udfburn_answer(NULL, create_a, sizeof create_a));
    STATUS(UDFBURN_ARGUMENT, udfburn_answer(handle, NULL, 1));
    STATUS(UDFBURN_ARGUMENT, udfburn_answer(handle, create_a, (size_t)PTRDIFF_MAX + 1));
    STATUS(UDFBURN_OK, udfburn_answer(handle, NULL, 0));
    EXPECT(udfburn_answered(NULL) == 0 && udfburn_take(NULL, bytes, 1) == 0);
    /* A frame that comes byte by byte, and its repeat in one piece with a query. */
    for (size_t i = 0; i < sizeof create_a; i++) {
        EXPECT(udfburn_answered(handle) == 0);
        STATUS(UDFBURN_OK, udfburn_answer(handle, create_a + i, 1));
    }
    EXPECT(udfburn_take(handle, NULL, 10) == 0 && udfburn_take(handle, bytes, 0) == 0);
    EXPECT(udfburn_take(handle, bytes, 4) == 4 && !memcmp(bytes, created, 4));
    EXPECT(udfburn_answered(handle) == sizeof created - 4);
    for (size_t i = 4; i < sizeof created; i++) EXPECT(udfburn_take(handle, &byte, 1) == 1 && byte == created[i]);
    EXPECT(udfburn_take(handle, &byte, 1) == 0);
    uint8_t both[sizeof create_a + sizeof get_a], told[sizeof created + sizeof got_a];
    memcpy(both, create_a, sizeof create_a);
    memcpy(both + sizeof create_a, get_a, sizeof get_a);
    memcpy(told, created, sizeof created);
    memcpy(told + sizeof created, got_a, sizeof got_a);
    STATUS(UDFBURN_OK, udfburn_answer(handle, both, sizeof both));
    /* Room without end is room enough. */
    uint8_t *room = (uint8_t *)malloc(sizeof told);
    EXPECT(udfburn_take(handle, room, SIZE_MAX) == sizeof told && !memcmp(room, told, sizeof told));
    free(room);
    udfburn_close(handle);
}

/* The calls of requests and the frames share one stream. */
static void frames_and_calls(void) {
    struct udfburn_node node;
    udfburn *handle = opened("calls.img");
    STATUS(UDFBURN_OK, udfburn_answer(handle, get_a, 4));
    STATUS(UDFBURN_ARGUMENT, udfburn_stat(handle, "/a", &node));
    STATUS(UDFBURN_OK, udfburn_answer(handle, get_a + 4, sizeof get_a - 4));
    STATUS(UDFBURN_ARGUMENT, udfburn_stat(handle, "/a", &node));
    expect_answers(handle, got_a, sizeof got_a);
    STATUS(UDFBURN_OK, udfburn_stat(handle, "/a", &node));
    EXPECT(node.size == 5 && node.moment == 0 && node.kind == UDFBURN_FILE);
    udfburn_close(handle);
}

static void a_frame_too_long(void) {
    uint64_t number = 0;
    udfburn *handle = opened("calls.img");
    STATUS(UDFBURN_TOO_LONG, udfburn_answer(handle, too_long, sizeof too_long));
    STATUS(UDFBURN_TOO_LONG, udfburn_answer(handle, get_a, sizeof get_a));
    expect_answers(handle, told_too_long, sizeof told_too_long);
    STATUS(UDFBURN_TOO_LONG, udfburn_last_number(handle, 7, &number));
    udfburn_close(handle);
    handle = opened("calls.img");
    STATUS(UDFBURN_OK, udfburn_last_number(handle, 7, &number));
    EXPECT(number == 1);
    STATUS(UDFBURN_OK, udfburn_answer(handle, get_a, sizeof get_a));
    expect_answers(handle, got_a, sizeof got_a);
    udfburn_close(handle);
}

static void two_volumes(void) {
    make("one.img");
    make("two.img");
    udfburn *one = opened("one.img"), *two = opened("two.img");
    STATUS(UDFBURN_OK, udfburn_answer(one, create_a, 20));
    STATUS(UDFBURN_OK, udfburn_answer(two, get_a, sizeof get_a));
    STATUS(UDFBURN_OK, udfburn_answer(one, create_a + 20, sizeof create_a - 20));
    expect_answers(two, not_found, sizeof not_found);
    expect_answers(one, created, sizeof created);
    udfburn_close(one);
    STATUS(UDFBURN_OK, udfburn_answer(two, create_a, sizeof create_a));
    expect_answers(two, created, sizeof created);
    udfburn_close(two);
    EXPECT(is_same_file("one.img", "two.img"));
}

static void a_lost_name(void) {
    uint64_t number;
    make("lost.img");
    udfburn *handle = opened("lost.img");
    EXPECT(!rename("lost.img", "moved.img"));
    STATUS(UDFBURN_OK, udfburn_answer(handle, create_a, sizeof create_a));
    EXPECT(!unlink("moved.img"));
    STATUS(UDFBURN_DEVICE, udfburn_answer(handle, get_a, sizeof get_a));
    /* Not even the answer that waited, since what it says is of no use any more. */
    EXPECT(udfburn_answered(handle) == 0);
    STATUS(UDFBURN_DEVICE, udfburn_last_number(handle, 7, &number));
    udfburn_close(handle);
}

static void last_numbers(void) {
    uint64_t number = 99;
    make("calls.img");
    udfburn *handle = opened("calls.img");
    STATUS(UDFBURN_OK, udfburn_last_number(handle, 7, &number));
    EXPECT(number == 0);
    STATUS(UDFBURN_OK, udfburn_answer(handle, create_a, sizeof create_a));
    expect_answers(handle, created, sizeof created);
    STATUS(UDFBURN_OK, udfburn_last_number(handle, 7, &number));
    EXPECT(number == 1);
    STATUS(UDFBURN_ARGUMENT, udfburn_last_number(NULL, 7, &number));
    STATUS(UDFBURN_ARGUMENT, udfburn_last_number(handle, 0, &number));
    STATUS(UDFBURN_ARGUMENT, udfburn_last_number(handle, 7, NULL));
    udfburn_close(handle);
}

static void wrong_requests(void) {
    struct udfburn_request request = {7, 0, MOMENT, 0, 0};
    struct udfburn_node node;
    struct udfburn_name *names;
    size_t count;
    uint8_t byte;
    udfburn *handle = opened("calls.img");
    STATUS(UDFBURN_ARGUMENT, udfburn_create(NULL, &request, "/b", "", 0));
    STATUS(UDFBURN_ARGUMENT, udfburn_create(handle, NULL, "/b", "", 0));
    STATUS(UDFBURN_ARGUMENT, udfburn_create(handle, &request, NULL, "", 0));
    STATUS(UDFBURN_ARGUMENT, udfburn_create(handle, &request, "/b", NULL, 1));
    STATUS(UDFBURN_ARGUMENT, udfburn_create(handle, &request, "/b", "", SIZE_MAX));
    STATUS(UDFBURN_ARGUMENT, udfburn_replace(NULL, &request, "/b", "", 0));
    STATUS(UDFBURN_ARGUMENT, udfburn_replace(handle, NULL, "/b", "", 0));
    STATUS(UDFBURN_ARGUMENT, udfburn_replace(handle, &request, NULL, "", 0));
    STATUS(UDFBURN_ARGUMENT, udfburn_replace(handle, &request, "/b", NULL, 1));
    STATUS(UDFBURN_ARGUMENT, udfburn_mkdir(NULL, &request, "/b"));
    STATUS(UDFBURN_ARGUMENT, udfburn_mkdir(handle, NULL, "/b"));
    STATUS(UDFBURN_ARGUMENT, udfburn_mkdir(handle, &request, NULL));
    STATUS(UDFBURN_ARGUMENT, udfburn_rename(NULL, &request, "/a", "/b"));
    STATUS(UDFBURN_ARGUMENT, udfburn_rename(handle, NULL, "/a", "/b"));
    STATUS(UDFBURN_ARGUMENT, udfburn_rename(handle, &request, NULL, "/b"));
    STATUS(UDFBURN_ARGUMENT, udfburn_rename(handle, &request, "/a", NULL));
    STATUS(UDFBURN_ARGUMENT, udfburn_remove(NULL, &request, "/a"));
    STATUS(UDFBURN_ARGUMENT, udfburn_remove(handle, NULL, "/a"));
    STATUS(UDFBURN_ARGUMENT, udfburn_remove(handle, &request, NULL));
    STATUS(UDFBURN_ARGUMENT, udfburn_stat(NULL, "/a", &node));
    STATUS(UDFBURN_ARGUMENT, udfburn_stat(handle, NULL, &node));
    STATUS(UDFBURN_ARGUMENT, udfburn_stat(handle, "/a", NULL));
    STATUS(UDFBURN_ARGUMENT, udfburn_get(NULL, "/a", &byte, 1, &count));
    STATUS(UDFBURN_ARGUMENT, udfburn_get(handle, NULL, &byte, 1, &count));
    STATUS(UDFBURN_ARGUMENT, udfburn_get(handle, "/a", NULL, 1, &count));
    STATUS(UDFBURN_ARGUMENT, udfburn_get(handle, "/a", &byte, 1, NULL));
    STATUS(UDFBURN_ROOM, udfburn_get(handle, "/a", &byte, 1, &count));
    EXPECT(count == 5);
    STATUS(UDFBURN_ARGUMENT, udfburn_list(NULL, "/", &names, &count));
    STATUS(UDFBURN_ARGUMENT, udfburn_list(handle, NULL, &names, &count));
    STATUS(UDFBURN_ARGUMENT, udfburn_list(handle, "/", NULL, &count));
    STATUS(UDFBURN_ARGUMENT, udfburn_list(handle, "/", &names, NULL));
    udfburn_free(NULL);
    udfburn_close(handle);
}

static void in_memory(void) {
    static uint8_t disc[600 * UDFBURN_BLOCK];
    uint32_t address = 0, count = 0;
    uint8_t block[UDFBURN_BLOCK];
    udfburn *handle = NULL;
    STATUS(UDFBURN_ARGUMENT, udfburn_open_memory(NULL, MOMENT, 600, &handle));
    STATUS(UDFBURN_ARGUMENT, udfburn_open_memory("DISC", MOMENT, 600, NULL));
    STATUS(UDFBURN_VOLUME, udfburn_open_memory("DISC", MOMENT, 511, &handle));
    STATUS(UDFBURN_VOLUME, udfburn_open_memory("DISC", MOMENT, UINT32_MAX, &handle));
    STATUS(UDFBURN_VOLUME, udfburn_open_memory("DISC", UINT64_MAX, 600, &handle));
    STATUS(UDFBURN_TEXT, udfburn_open_memory("", MOMENT, 600, &handle));
    EXPECT(!handle);
    STATUS(UDFBURN_OK, udfburn_open_memory("DISC", MOMENT, 600, &handle));
    for (int step = 0; step < 2; step++) {
        if (step) STATUS(UDFBURN_OK, udfburn_answer(handle, create_a, sizeof create_a));
        while (udfburn_next_block(handle, &address, block) == UDFBURN_OK) {
            EXPECT(address == count);
            memset(block, 0, sizeof block);
            STATUS(UDFBURN_OK, udfburn_next_block(handle, &address, disc + (size_t)count * UDFBURN_BLOCK));
            STATUS(UDFBURN_OK, udfburn_took(handle));
            count++;
        }
        STATUS(UDFBURN_NONE, udfburn_took(handle));
        EXPECT(step ? count > 262 : count == 262);
    }
    expect_answers(handle, created, sizeof created);
    STATUS(UDFBURN_ARGUMENT, udfburn_next_block(NULL, &address, block));
    STATUS(UDFBURN_ARGUMENT, udfburn_next_block(handle, NULL, block));
    STATUS(UDFBURN_ARGUMENT, udfburn_next_block(handle, &address, NULL));
    STATUS(UDFBURN_ARGUMENT, udfburn_took(NULL));
    udfburn_close(handle);
    /* The same on a file. */
    put_file("memory.img", disc, (size_t)count * UDFBURN_BLOCK);
    make("calls.img");
    handle = opened("calls.img");
    STATUS(UDFBURN_OK, udfburn_answer(handle, create_a, sizeof create_a));
    STATUS(UDFBURN_NONE, udfburn_next_block(handle, &address, block));
    STATUS(UDFBURN_NONE, udfburn_took(handle));
    udfburn_close(handle);
    EXPECT(is_same_file("memory.img", "calls.img"));
}

int main(int argc, char **argv) {
    if (argc != 3 || chdir(argv[1])) return EXIT_FAILURE;
    int before = descriptors();
    names_of_statuses(argv[2]);
    odd_paths();
    paths_of_the_host();
    formats();
    labels();
    files_that_are_too_long();
    by_descriptor();
    duplicates();
    a_number_of_another_file();
    closed_standard_descriptors();
    no_number_above_the_standard_ones();
    volumes_that_are_none();
    one_writer();
    after_fork();
    frames();
    frames_and_calls();
    a_frame_too_long();
    two_volumes();
    a_lost_name();
    last_numbers();
    wrong_requests();
    in_memory();
    EXPECT(descriptors() == before);
    return finish("calls");
}
