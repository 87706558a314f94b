/* How much of its stack a thread needs for the calls that take most: a format, a commit of the longest file in the deepest
 * folder, a rename, and the queries. It prints the bytes of the deepest call.
 * usage: stack FOLDER MOST, where MOST is how many bytes are expected to be enough */
#ifndef _GNU_SOURCE
#define _GNU_SOURCE
#endif
#include "support.h"

#include <pthread.h>
#include <sys/mman.h>

enum { ROOM = 1 << 20, MARK = 0xA5 };

static uint8_t data[UDFBURN_FILE_LIMIT];

static void make_folders(udfburn *handle, char *path) {
    path[0] = '\0';
    for (int depth = 0; depth < 15; depth++) {
        struct udfburn_request request = {7, 0, MOMENT, 0, 0};
        strcat(path, "/d");
        STATUS(UDFBURN_OK, udfburn_mkdir(handle, &request, path));
    }
}

/* The folder of a path, which stays as it is. */
static const char *path_of_folder(const char *path) {
    static char folder[64];
    strcpy(folder, path);
    *strrchr(folder, '/') = '\0';
    return folder;
}

static int64_t give(void *context, uint64_t offset, void *into, size_t room) {
    (void)context;
    size_t count = offset < sizeof data + 5 ? sizeof data + 5 - (size_t)offset : 0;
    if (count > room) count = room;
    memset(into, 7, count);
    return (int64_t)count;
}

static void *work(void *unused) {
    struct udfburn_request request = {7, 0, MOMENT, 0, 0};
    struct udfburn_commit commit = {0, 0, 0, 0, 0};
    struct udfburn_volume volume = {sizeof volume, 0, 0, 0, 0, 0, 0, 0, 0, 0, {0}};
    struct udfburn_status status;
    struct udfburn_entry *entries;
    struct udfburn_name *names;
    char path[64], moved[64];
    uint64_t number;
    int32_t outcome;
    size_t count;
    udfburn *handle;
    STATUS(UDFBURN_OK, udfburn_format("stack.img", "DISC", MOMENT, 6000));
    STATUS(UDFBURN_OK, udfburn_open("stack.img", &handle));
    make_folders(handle, path);
    strcat(strcpy(moved, path), "/moved");
    strcat(path, "/file");
    STATUS(UDFBURN_OK, udfburn_begin(handle));
    STATUS(UDFBURN_OK, udfburn_create(handle, &request, path, data, sizeof data));
    request.number = 0;
    STATUS(UDFBURN_OK, udfburn_rename(handle, &request, path, moved));
    STATUS(UDFBURN_OK, udfburn_settle(handle));
    request.number = 0;
    STATUS(UDFBURN_OK, udfburn_replace(handle, &request, moved, data, 3000));
    STATUS(UDFBURN_OK, udfburn_get(handle, moved, data, sizeof data, &count));
    STATUS(UDFBURN_OK, udfburn_list(handle, "/d", &names, &count));
    udfburn_free(names);
    STATUS(UDFBURN_OK, udfburn_entries(handle, path_of_folder(path), sizeof *entries, &entries, &count));
    udfburn_free(entries);
    STATUS(UDFBURN_OK, udfburn_room(handle, path, 100000));
    STATUS(UDFBURN_OK, udfburn_room(handle, path, sizeof data + 5));
    STATUS(UDFBURN_OK, udfburn_put(handle, &request, path, give, NULL));
    STATUS(UDFBURN_OK, udfburn_describe(handle, &volume));
    STATUS(UDFBURN_OK, udfburn_expect(handle, 18));
    STATUS(UDFBURN_OK, udfburn_status(handle, &status));
    STATUS(UDFBURN_OK, udfburn_last_number(handle, 7, &number));
    while ((outcome = udfburn_log(handle, &commit)) == UDFBURN_OK) continue;
    STATUS(UDFBURN_NONE, outcome);
    udfburn_close(handle);
    STATUS(UDFBURN_OK, udfburn_open("stack.img", &handle));
    udfburn_close(handle);
    STATUS(UDFBURN_OK, udfburn_open_read("stack.img", 3, &handle));
    STATUS(UDFBURN_OK, udfburn_describe(handle, &volume));
    udfburn_close(handle);
    return unused;
}

static void *nothing(void *unused) { return unused; }

/* How many bytes of its stack a thread touched that ran this. */
static size_t touched(void *(*what)(void *)) {
    pthread_attr_t attributes;
    pthread_t thread;
    size_t free_bytes = 0;
    uint8_t *stack = (uint8_t *)mmap(NULL, ROOM, PROT_READ | PROT_WRITE, MAP_PRIVATE | MAP_ANONYMOUS, -1, 0);
    if (stack == MAP_FAILED) abort();
    memset(stack, MARK, ROOM);
    if (pthread_attr_init(&attributes) || pthread_attr_setstack(&attributes, stack, ROOM)
        || pthread_create(&thread, &attributes, what, NULL) || pthread_join(thread, NULL))
        abort();
    while (free_bytes < ROOM && stack[free_bytes] == MARK) free_bytes++;
    return ROOM - free_bytes;
}

int main(int argc, char **argv) {
    if (argc != 3 || chdir(argv[1])) return EXIT_FAILURE;
    unlink("stack.img");
    size_t bytes = touched(work) - touched(nothing);
    printf("stack: %zu bytes\n", bytes);
    EXPECT(bytes > 1000 && bytes <= (size_t)atol(argv[2]));
    return finish("stack");
}
