/* Handles that are used wrongly: by several threads at once, by children of fork(), and from a function of their own drive. Each call is
 * refused, and what was acknowledged is there.
 * usage: guards FOLDER RUNS [threads]     only the part of the threads, as for ThreadSanitizer */
#ifndef _GNU_SOURCE
#define _GNU_SOURCE
#endif

enum { THREADS = 4, FILES = 60, CAPACITY = 4000, LONGEST = 6000, MOST_RUNS = 1000 };

#include "memory_drive.h"

#include <errno.h>
#include <pthread.h>
#include <signal.h>
#include <sys/file.h>
#include <sys/syscall.h>
#include <sys/wait.h>

static int misused;

/* The bytes of a file, which its thread and its number say. */
static size_t content(int thread, int number, uint8_t *bytes) {
    size_t length = (size_t)(number * 97 + thread * 31) % LONGEST;
    memset(bytes, 'a' + (thread * FILES + number) % 26, length);
    return length;
}

static void path_of(int thread, int number, char *path) { sprintf(path, "/%d.%d", thread, number); }

/* Creates a file on a handle that others use too. */
static int32_t create(udfburn *handle, int thread, int number) {
    uint8_t bytes[LONGEST];
    char path[32];
    struct udfburn_request request = {(uint64_t)thread + 1, 0, MOMENT, 0, 0};
    size_t length = content(thread, number, bytes);
    path_of(thread, number, path);
    return udfburn_create(handle, &request, path, bytes, length);
}

static int has(udfburn *handle, int thread, int number) {
    uint8_t wanted[LONGEST], found[LONGEST];
    char path[32];
    size_t count, length = content(thread, number, wanted);
    path_of(thread, number, path);
    return udfburn_get(handle, path, found, sizeof found, &count) == UDFBURN_OK && count == length && !memcmp(found, wanted, length);
}

/* ---- Threads ---- */

struct work {
    pthread_t thread;
    udfburn *handle;
    int number;
    int stored[FILES];
    int refused;
    int others;                 /* statuses that nobody expects */
};

static void *work_on(void *given) {
    struct work *work = (struct work *)given;
    struct udfburn_node node;
    for (int i = 0; i < FILES; i++) {
        int32_t status = create(work->handle, work->number, i);
        work->stored[i] = status == UDFBURN_OK;
        work->refused += status == UDFBURN_MISUSE;
        work->others += status != UDFBURN_OK && status != UDFBURN_MISUSE;
        status = udfburn_stat(work->handle, "/", &node);
        work->others += status != UDFBURN_OK && status != UDFBURN_MISUSE;
        udfburn_answered(work->handle);
    }
    return NULL;
}

static void threads(void) {
    static struct work works[THREADS];
    struct udfburn_status status;
    uint32_t stored = 0;
    memset(works, 0, sizeof works);
    unlink("threads.img");
    STATUS(UDFBURN_OK, udfburn_format("threads.img", "DISC", MOMENT, CAPACITY));
    udfburn *handle = opened("threads.img");
    for (int i = 0; i < THREADS; i++) {
        works[i].handle = handle;
        works[i].number = i;
        if (pthread_create(&works[i].thread, NULL, work_on, &works[i])) abort();
    }
    for (int i = 0; i < THREADS; i++) {
        if (pthread_join(works[i].thread, NULL)) abort();
        EXPECT(works[i].others == 0);
        misused += works[i].refused;
    }
    udfburn_close(handle);
    handle = opened("threads.img");
    for (int i = 0; i < THREADS; i++) {
        for (int number = 0; number < FILES; number++) {
            stored += works[i].stored[number] != 0;
            EXPECT(!works[i].stored[number] || has(handle, i, number));
        }
    }
    STATUS(UDFBURN_OK, udfburn_status(handle, &status));
    EXPECT(stored > 0 && status.files == stored && status.commits == stored);
    udfburn_close(handle);
}

/* ---- Children ---- */

/* A child that goes on with its parent's handle: how many files it is told are stored. */
static int goes_on(udfburn *handle) {
    struct udfburn_reason reason;
    struct udfburn_status status;
    int stored = 0;
    for (int i = 0; i < FILES; i++) stored += create(handle, 1, i) != UDFBURN_MISUSE;
    stored += udfburn_status(handle, &status) != UDFBURN_MISUSE;
    stored += udfburn_begin(handle) != UDFBURN_MISUSE;
    stored += udfburn_settle(handle) != UDFBURN_MISUSE;
    reason.size = sizeof reason;
    stored += udfburn_reason(NULL, &reason) != UDFBURN_OK || reason.status != UDFBURN_MISUSE;
    return stored;
}

/* The system's own call, of which no function of the process that was registered hears. */
static pid_t fork_of_system(void) { return (pid_t)syscall(SYS_clone, SIGCHLD, NULL, NULL, NULL, NULL); }

static void children(pid_t (*divide)(void)) {
    int outcome;
    unlink("child.img");
    STATUS(UDFBURN_OK, udfburn_format("child.img", "DISC", MOMENT, CAPACITY));
    udfburn *handle = opened("child.img");
    STATUS(UDFBURN_OK, create(handle, 0, 0));
    pid_t child = divide();
    if (child == 0) {
        int stored = goes_on(handle);
        udfburn_close(handle);
        _exit(stored > 100 ? 100 : stored);
    }
    for (int i = 1; i < FILES; i++) STATUS(UDFBURN_OK, create(handle, 0, i));
    EXPECT(child > 0 && waitpid(child, &outcome, 0) == child && outcome == 0);
    udfburn_close(handle);
    handle = opened("child.img");
    for (int i = 0; i < FILES; i++) EXPECT(has(handle, 0, i));
    udfburn_close(handle);
}

static pid_t waiting_child(void) {
    pid_t child = fork();
    if (child == 0) {
        alarm(PATIENCE);
        for (;;) pause();
    }
    return child;
}

static void end_child(pid_t child) {
    int status;
    EXPECT(child > 0 && !kill(child, SIGKILL) && waitpid(child, &status, 0) == child);
}

static int is_locked(const char *path) {
    int fd = image_at(path), status = flock(fd, LOCK_EX | LOCK_NB);
    close(fd);
    return status != 0;
}

/* A child that lives does not keep the volume when its parent closes it, and one that closes its copy does not give it up. */
static void locks(void) {
    udfburn *handle = NULL;
    make("locks.img");
    for (int by_path = 0; by_path < 2; by_path++) {
        if (by_path) handle = opened("locks.img");
        else STATUS(UDFBURN_OK, udfburn_open_fd(image_at("locks.img"), &handle));
        pid_t child = waiting_child();
        EXPECT(is_locked("locks.img"));
        udfburn_close(handle);
        EXPECT(!is_locked("locks.img"));
        handle = opened("locks.img");
        udfburn_close(handle);
        end_child(child);
    }
    handle = opened("locks.img");
    pid_t child = fork();
    if (child == 0) {
        udfburn_close(handle);
        _exit(0);
    }
    int status;
    EXPECT(child > 0 && waitpid(child, &status, 0) == child && status == 0);
    EXPECT(is_locked("locks.img"));
    STATUS(UDFBURN_OK, udfburn_answer(handle, create_a, sizeof create_a));
    udfburn_close(handle);
    EXPECT(!is_locked("locks.img"));
}

/* A format, and an open that is refused, give the lock up too, also where somebody has a duplicate of the descriptor. */
static void locks_of_duplicates(void) {
    udfburn *handle = NULL;
    unlink("locks.img");
    int fd = open("locks.img", O_RDWR | O_CREAT | O_CLOEXEC, 0644), other = dup(fd);
    STATUS(UDFBURN_OK, udfburn_format_fd(fd, "DISC", MOMENT, 600));
    EXPECT(!is_locked("locks.img"));
    close(other);
    put_file("text", "somebody's only copy", 20);
    fd = image_at("text");
    other = dup(fd);
    STATUS(UDFBURN_VOLUME, udfburn_open_fd(fd, &handle));
    EXPECT(!is_locked("text"));
    close(other);
}

/* Where the number is that of another volume by mistake, that one stays locked. */
static void locks_of_others(void) {
    make("locks.img");
    make("others.img");
    udfburn *handle = opened("locks.img"), *other = opened("others.img");
    int fd = descriptor_of("locks.img");
    EXPECT(dup2(descriptor_of("others.img"), fd) == fd);
    udfburn_close(handle);
    EXPECT(is_locked("others.img"));
    STATUS(UDFBURN_OK, udfburn_answer(other, create_a, sizeof create_a));
    udfburn_close(other);
    EXPECT(!is_locked("others.img"));
}

/* ---- A drive whose functions call the library ---- */

static struct {
    struct medium medium;
    udfburn *handle;            /* on which each call is tried */
    int tried;
    int forks;                  /* a child closes the handle, and the parent waits for it */
} disc;

static int64_t give_nothing(void *context, uint64_t offset, void *into, size_t room) {
    (void)context, (void)offset, (void)into, (void)room;
    EXPECT(!"a reader is called");
    return 0;
}

static void try_all(udfburn *handle) {
    struct udfburn_request request = {9, 0, MOMENT, 0, 0};
    struct udfburn_commit commit = {0, 0, 0, 0, 0};
    struct udfburn_status status;
    struct udfburn_reason reason;
    struct udfburn_volume volume;
    struct udfburn_entry *entries;
    struct udfburn_name *names;
    struct udfburn_node node;
    uint8_t bytes[UDFBURN_BLOCK];
    uint32_t address;
    uint64_t number;
    size_t count;
    STATUS(UDFBURN_MISUSE, udfburn_create(handle, &request, "/again", "x", 1));
    EXPECT(request.commit == 0 && request.number == 0);
    STATUS(UDFBURN_MISUSE, udfburn_replace(handle, &request, "/again", "x", 1));
    STATUS(UDFBURN_MISUSE, udfburn_append(handle, &request, "/a", 0, "x", 1));
    STATUS(UDFBURN_MISUSE, udfburn_put(handle, &request, "/again", give_nothing, NULL));
    STATUS(UDFBURN_MISUSE, udfburn_mkdir(handle, &request, "/again"));
    STATUS(UDFBURN_MISUSE, udfburn_rename(handle, &request, "/a", "/again"));
    STATUS(UDFBURN_MISUSE, udfburn_remove(handle, &request, "/a"));
    STATUS(UDFBURN_MISUSE, udfburn_begin(handle));
    STATUS(UDFBURN_MISUSE, udfburn_settle(handle));
    STATUS(UDFBURN_MISUSE, udfburn_last_number(handle, 9, &number));
    STATUS(UDFBURN_MISUSE, udfburn_stat(handle, "/", &node));
    STATUS(UDFBURN_MISUSE, udfburn_get(handle, "/a", bytes, sizeof bytes, &count));
    count = 9;
    STATUS(UDFBURN_MISUSE, udfburn_read(handle, "/a", 0, bytes, sizeof bytes, &count));
    EXPECT(count == 0);
    STATUS(UDFBURN_MISUSE, udfburn_list(handle, "/", &names, &count));
    EXPECT(!names && count == 0);
    STATUS(UDFBURN_MISUSE, udfburn_entries(handle, "/", sizeof *entries, &entries, &count));
    EXPECT(!entries && count == 0);
    STATUS(UDFBURN_MISUSE, udfburn_expect(handle, 0));
    STATUS(UDFBURN_MISUSE, udfburn_room(handle, "/b", 1));
    volume.size = sizeof volume;
    STATUS(UDFBURN_MISUSE, udfburn_describe(handle, &volume));
    STATUS(UDFBURN_MISUSE, udfburn_status(handle, &status));
    STATUS(UDFBURN_MISUSE, udfburn_log(handle, &commit));
    STATUS(UDFBURN_MISUSE, udfburn_answer(handle, get_a, sizeof get_a));
    EXPECT(udfburn_answered(handle) == 0 && udfburn_take(handle, bytes, sizeof bytes) == 0);
    STATUS(UDFBURN_MISUSE, udfburn_next_block(handle, &address, bytes));
    STATUS(UDFBURN_MISUSE, udfburn_took(handle));
    reason.size = sizeof reason;
    STATUS(UDFBURN_MISUSE, udfburn_reason(handle, &reason));
    STATUS(UDFBURN_OK, udfburn_reason(NULL, &reason));
    EXPECT(reason.status == UDFBURN_MISUSE);
    /* It does nothing, and the call that it is made from goes on. */
    udfburn_close(handle);
}

static void child_closes(void) {
    int status;
    pid_t child = fork();
    if (child == 0) {
        alarm(PATIENCE);
        udfburn_close(disc.handle);
        _exit(0);
    }
    EXPECT(child > 0 && waitpid(child, &status, 0) == child && status == 0);
}

static int32_t write_blocks(void *context, uint32_t address, uint32_t count, const void *blocks) {
    medium_write(context, address, count, blocks);
    if (disc.handle) {
        disc.tried++;
        try_all(disc.handle);
        if (disc.forks) child_closes();
    }
    return 0;
}

/* On the volume of this file another handle is used from within: calls of other handles are not refused. */
static void from_within(void) {
    static const struct udfburn_drive drive = {&disc.medium, medium_capacity, medium_next, medium_read, write_blocks};
    udfburn *handle = NULL;
    STATUS(UDFBURN_OK, udfburn_format_drive(&drive, "DISC", MOMENT));
    STATUS(UDFBURN_OK, udfburn_open_drive(&drive, &handle));
    disc.handle = handle;
    for (int i = 0; i < 3; i++) {
        disc.forks = i == 2;
        STATUS(UDFBURN_OK, create(handle, 0, i));
    }
    EXPECT(disc.tried >= 6);
    for (int i = 0; i < 3; i++) EXPECT(has(handle, 0, i));
    disc.handle = NULL;
    udfburn_close(handle);
    STATUS(UDFBURN_OK, udfburn_open_drive(&drive, &handle));
    for (int i = 0; i < 3; i++) EXPECT(has(handle, 0, i));
    udfburn_close(handle);
}

/* ---- A drive whose function is divided by fork(), and returns in both processes ---- */

static struct {
    int is_due, writes;
    pid_t child;
} divided;

static int32_t write_and_fork(void *context, uint32_t address, uint32_t count, const void *blocks) {
    divided.writes++;
    medium_write(context, address, count, blocks);
    if (divided.is_due) {
        fflush(stdout);
        divided.is_due = 0;
        divided.writes = 0;
        divided.child = fork();
    }
    return 0;
}

/* The call goes on in the parent alone: the child writes nothing more, and is told that. */
static void divided_call(void) {
    const struct udfburn_drive drive = {&disc.medium, medium_capacity, medium_next, medium_read, write_and_fork};
    udfburn *handle = NULL;
    int status;
    disc.medium.next = 0;
    STATUS(UDFBURN_OK, udfburn_format_drive(&drive, "DISC", MOMENT));
    STATUS(UDFBURN_OK, udfburn_open_drive(&drive, &handle));
    divided.is_due = 1;
    divided.child = -1;
    int32_t outcome = create(handle, 0, 0);
    if (divided.child == 0) _exit(outcome == UDFBURN_MISUSE && divided.writes == 0 ? 0 : 1);
    STATUS(UDFBURN_OK, outcome);
    EXPECT(divided.child > 0 && waitpid(divided.child, &status, 0) == divided.child && status == 0 && divided.writes > 0);
    EXPECT(has(handle, 0, 0));
    udfburn_close(handle);
}

int main(int argc, char **argv) {
    if (argc < 3 || chdir(argv[1])) return EXIT_FAILURE;
    int runs = atoi(argv[2]), before = descriptors();
    /* Where one processor runs the threads in turn it may take more of them until two meet. */
    for (int run = 0; run < runs || (misused == 0 && run < MOST_RUNS); run++) threads();
    EXPECT(misused > 0);
    if (argc == 3) {
        for (int run = 0; run < runs; run++) children(run % 2 ? fork_of_system : fork);
        locks();
        locks_of_duplicates();
        locks_of_others();
        from_within();
        divided_call();
    }
    EXPECT(descriptors() == before);
    return finish("guards");
}
