/* Volumes in several threads at once, each thread with a file and a drive of its own; then one handle that they use in turn, and
 * children of fork() while a thread is in a call.
 * usage: threads FOLDER */
#ifndef _GNU_SOURCE
#define _GNU_SOURCE
#endif

enum { THREADS = 4, FILES = 50, CAPACITY = 2000, HANDLES = 300, FORKS = 300 };

#include "memory_drive.h"

#include <pthread.h>
#include <sys/wait.h>

struct work {
    pthread_t thread;
    int number;
    int32_t status;             /* of the first call that failed */
    struct medium medium;
};

/* Many drives on one medium, to which nothing is written any more. */
static int32_t capacity_there(void *context, uint32_t *blocks) { return medium_capacity(*(struct medium **)context, blocks); }

static int32_t next_there(void *context, uint32_t *address) { return medium_next(*(struct medium **)context, address); }

static int32_t read_there(void *context, uint32_t address, uint32_t count, void *blocks) {
    return medium_read(*(struct medium **)context, address, count, blocks);
}

static int32_t write_nothing(void *context, uint32_t address, uint32_t count, const void *blocks) {
    (void)context, (void)address, (void)count, (void)blocks;
    return 1;
}

static int32_t fill(udfburn *handle, int number) {
    int32_t status = UDFBURN_OK;
    for (int i = 0; i < FILES && status == UDFBURN_OK; i++) {
        struct udfburn_request request = {(uint64_t)number + 1, 0, MOMENT, 0, 0};
        char path[32], text[64];
        snprintf(path, sizeof path, "/%d", i);
        snprintf(text, sizeof text, "thread %d, file %d", number, i);
        status = udfburn_create(handle, &request, path, text, strlen(text));
    }
    return status;
}

/* Opens and fills a volume: of the file of a thread, or of its drive. */
static int32_t run(struct work *work, const char *path) {
    struct udfburn_drive drive = {&work->medium, medium_capacity, medium_next, medium_read, medium_write};
    udfburn *handle;
    int32_t status = path ? udfburn_format(path, "DISC", MOMENT, CAPACITY) : udfburn_format_drive(&drive, "DISC", MOMENT);
    if (status == UDFBURN_OK) status = path ? udfburn_open(path, &handle) : udfburn_open_drive(&drive, &handle);
    if (status != UDFBURN_OK) return status;
    status = fill(handle, work->number);
    udfburn_close(handle);
    return status;
}

static void *work_on(void *given) {
    struct work *work = (struct work *)given;
    char path[32];
    snprintf(path, sizeof path, "thread%d.img", work->number);
    work->status = run(work, NULL);
    if (work->status == UDFBURN_OK) work->status = run(work, path);
    return NULL;
}

static pthread_mutex_t turn = PTHREAD_MUTEX_INITIALIZER;
static udfburn *shared;

/* Creates files on the shared handle, each in a turn of its own, with a query in another one. */
static void *work_in_turn(void *given) {
    struct work *work = (struct work *)given;
    work->status = UDFBURN_OK;
    for (int i = 0; i < FILES && work->status == UDFBURN_OK; i++) {
        struct udfburn_request request = {(uint64_t)work->number + 1, 0, MOMENT, 0, 0};
        struct udfburn_node node = {0, 0, 0};
        char path[32];
        snprintf(path, sizeof path, "/%d.%d", work->number, i);
        pthread_mutex_lock(&turn);
        work->status = udfburn_create(shared, &request, path, path, strlen(path));
        pthread_mutex_unlock(&turn);
        pthread_mutex_lock(&turn);
        if (work->status == UDFBURN_OK) work->status = udfburn_stat(shared, path, &node);
        pthread_mutex_unlock(&turn);
        if (work->status == UDFBURN_OK && node.size != strlen(path)) work->status = UDFBURN_USED;
    }
    return NULL;
}

static void in_turn(struct work *works) {
    struct udfburn_status status;
    STATUS(UDFBURN_OK, udfburn_format("shared.img", "DISC", MOMENT, CAPACITY));
    shared = opened("shared.img");
    for (int i = 0; i < THREADS; i++)
        if (pthread_create(&works[i].thread, NULL, work_in_turn, &works[i])) abort();
    for (int i = 0; i < THREADS; i++) {
        if (pthread_join(works[i].thread, NULL)) abort();
        STATUS(UDFBURN_OK, works[i].status);
    }
    STATUS(UDFBURN_OK, udfburn_status(shared, &status));
    EXPECT(status.files == THREADS * FILES && status.commits == THREADS * FILES && status.clients == THREADS);
    udfburn_close(shared);
}

static int is_over;

/* Asks until it is over: the more drives are open, the longer each call looks for its own. */
static void *ask(void *given) {
    struct udfburn_node node;
    while (!__atomic_load_n(&is_over, __ATOMIC_ACQUIRE)) STATUS(UDFBURN_OK, udfburn_stat((udfburn *)given, "/", &node));
    return NULL;
}

/* A child closes a handle, which must not wait for a thread that it has not. */
static int child_ends(udfburn *handle) {
    int status;
    pid_t child = fork();
    if (child == 0) {
        alarm(PATIENCE);
        udfburn_close(handle);
        _exit(EXIT_SUCCESS);
    }
    return child > 0 && waitpid(child, &status, 0) == child && status == 0;
}

static void forks(struct medium *medium) {
    static struct medium *contexts[HANDLES];
    udfburn *handles[HANDLES];
    pthread_t thread;
    int ended = 0;
    for (int i = 0; i < HANDLES; i++) {
        struct udfburn_drive drive = {&contexts[i], capacity_there, next_there, read_there, write_nothing};
        contexts[i] = medium;
        STATUS(UDFBURN_OK, udfburn_open_drive(&drive, &handles[i]));
    }
    if (pthread_create(&thread, NULL, ask, handles[HANDLES - 1])) abort();
    while (ended < FORKS && child_ends(handles[0])) ended++;
    __atomic_store_n(&is_over, 1, __ATOMIC_RELEASE);
    pthread_join(thread, NULL);
    EXPECT(ended == FORKS);
    for (int i = 0; i < HANDLES; i++) udfburn_close(handles[i]);
}

int main(int argc, char **argv) {
    if (argc != 2 || chdir(argv[1])) return EXIT_FAILURE;
    struct work *works = (struct work *)calloc(THREADS, sizeof *works);
    for (int i = 0; i < THREADS; i++) {
        works[i].number = i;
        if (pthread_create(&works[i].thread, NULL, work_on, &works[i])) abort();
    }
    for (int i = 0; i < THREADS; i++) {
        char path[32];
        size_t count;
        if (pthread_join(works[i].thread, NULL)) abort();
        STATUS(UDFBURN_OK, works[i].status);
        snprintf(path, sizeof path, "thread%d.img", i);
        uint8_t *bytes = file_bytes(path, &count);
        EXPECT(count == (size_t)works[i].medium.next * UDFBURN_BLOCK && !memcmp(bytes, works[i].medium.blocks, count));
        free(bytes);
        /* No thread's bytes are on another's medium. */
        snprintf(path, sizeof path, "thread %d, file", (i + 1) % THREADS);
        EXPECT(!memmem(works[i].medium.blocks, count, path, strlen(path)));
        snprintf(path, sizeof path, "thread %d, file", i);
        EXPECT(memmem(works[i].medium.blocks, count, path, strlen(path)));
    }
    in_turn(works);
    forks(&works[0].medium);
    free(works);
    return finish("threads");
}
