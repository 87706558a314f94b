/* Two ways to use the library that bench/library/measure.py times.
 * usage: frames answer IMAGE         answers the frames of the standard input, in pieces of 64 KiB, as `udfburn apply` does
 *        frames create IMAGE COUNT   creates COUNT files of 4 KiB by calls
 *        frames get IMAGE COUNT      opens the volume and gets a file COUNT times; prints the nanoseconds of the open and of the gets */
#define _POSIX_C_SOURCE 200809L
#include "udfburn.h"

#include <stdio.h>
#include <stdlib.h>
#include <string.h>
#include <time.h>
#include <unistd.h>

enum { PIECE = 65536, FILE_BYTES = 4096 };

static uint8_t bytes[PIECE];

static int fail(const char *what, int32_t status) {
    fprintf(stderr, "frames: %s: %s\n", what, udfburn_error_name(status));
    return 1;
}

static long long now(void) {
    struct timespec time;
    clock_gettime(CLOCK_MONOTONIC, &time);
    return time.tv_sec * 1000000000LL + time.tv_nsec;
}

static int answer_input(udfburn *handle) {
    ssize_t count;
    size_t length;
    while ((count = read(0, bytes, sizeof bytes)) > 0) {
        int32_t status = udfburn_answer(handle, bytes, (size_t)count);
        if (status != UDFBURN_OK) return fail("answer", status);
        while ((length = udfburn_take(handle, bytes, sizeof bytes)) > 0)
            if (write(1, bytes, length) != (ssize_t)length) return 1;
    }
    return count < 0;
}

static int create_files(udfburn *handle, long count) {
    memset(bytes, 'x', FILE_BYTES);
    for (long i = 0; i < count; i++) {
        struct udfburn_request request = {7, (uint64_t)i + 1, 0, 0, 0};
        char path[64];
        snprintf(path, sizeof path, i % 500 == 0 ? "/d%ld" : "/d%ld/%ld", i / 500, i);
        int32_t status = i % 500 == 0 ? udfburn_mkdir(handle, &request, path) : udfburn_create(handle, &request, path, bytes, FILE_BYTES);
        if (status != UDFBURN_OK) return fail(path, status);
    }
    return 0;
}

static int get_file(udfburn *handle, long count, long long opened) {
    size_t length;
    long long begun = now();
    for (long i = 0; i < count; i++) {
        int32_t status = udfburn_get(handle, "/d0/1", bytes, sizeof bytes, &length);
        if (status != UDFBURN_OK || length != FILE_BYTES) return fail("get", status);
    }
    printf("%lld %lld\n", opened, now() - begun);
    return 0;
}

int main(int argc, char **argv) {
    udfburn *handle;
    if (argc < 3) return 2;
    long count = argc > 3 ? atol(argv[3]) : 0;
    long long begun = now();
    int32_t status = udfburn_open(argv[2], &handle);
    if (status != UDFBURN_OK) return fail(argv[2], status);
    long long opened = now() - begun;
    int outcome = !strcmp(argv[1], "answer") ? answer_input(handle) : !strcmp(argv[1], "create") ? create_files(handle, count)
        : get_file(handle, count, opened);
    udfburn_close(handle);
    return outcome;
}
