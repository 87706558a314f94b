/* Requests that come together.
 * usage: grouped IMAGE COUNT CALLS   makes directories, so many in each of so many calls, and prints how many it made
 *        grouped IMAGE               prints how many commits a reader finds, and how many a writer */
#ifndef _GNU_SOURCE
#define _GNU_SOURCE
#endif
#include "support.h"

#include <inttypes.h>

enum { FRAME = 36, ANSWER = 10, MOST = 200 };

/* The frame of request `number` of client 7, which makes the directory /dNNN. */
static void make_frame(uint8_t *frame, unsigned number) {
    char name[8];
    memset(frame, 0, FRAME);
    frame[0] = FRAME - 4;
    frame[4] = 3;
    frame[5] = 7;
    frame[13] = (uint8_t)number;
    frame[14] = (uint8_t)(number >> 8);
    frame[29] = 1;
    frame[30] = 4;
    snprintf(name, sizeof name, "d%03u", number % 1000);
    memcpy(frame + 32, name, 4);
}

/* Sends the next requests by one call. Their answers wait when it returns: each is done, and has its own commit. */
static void send_together(udfburn *handle, unsigned first, unsigned count) {
    static uint8_t frames[MOST * FRAME], answers[MOST * ANSWER + 1];
    for (unsigned i = 0; i < count; i++) make_frame(frames + i * FRAME, first + i);
    STATUS(UDFBURN_OK, udfburn_answer(handle, frames, count * FRAME));
    EXPECT(udfburn_take(handle, answers, sizeof answers) == count * ANSWER);
    for (unsigned i = 0; i < count; i++) {
        const uint8_t *answer = answers + i * ANSWER;
        EXPECT(answer[0] == ANSWER - 4 && answer[4] == 0 && answer[5] == 0 && (answer[6] | answer[7] << 8) == (int)(first + i));
    }
}

static uint32_t commits_of(udfburn *handle) {
    struct udfburn_status status;
    memset(&status, 0, sizeof status);
    STATUS(UDFBURN_OK, udfburn_status(handle, &status));
    return status.commits;
}

int main(int argc, char **argv) {
    udfburn *handle = NULL;
    if (argc == 2) {
        STATUS(UDFBURN_OK, udfburn_open_read(argv[1], UDFBURN_NEWEST, &handle));
        uint32_t read = commits_of(handle);
        udfburn_close(handle);
        handle = opened(argv[1]);
        printf("%" PRIu32 " %" PRIu32 "\n", read, commits_of(handle));
        udfburn_close(handle);
        return failed ? EXIT_FAILURE : EXIT_SUCCESS;
    }
    unsigned count = argc == 4 ? (unsigned)atoi(argv[2]) : 0, calls = argc == 4 ? (unsigned)atoi(argv[3]) : 0;
    if (count == 0 || count > MOST) return EXIT_FAILURE;
    handle = opened(argv[1]);
    for (unsigned i = 0; i < calls; i++) {
        send_together(handle, 1 + i * count, count);
        /* At once: it may be killed in the next call. */
        if (!failed && write(1, ".", 1) != 1) return EXIT_FAILURE;
    }
    udfburn_close(handle);
    return failed ? EXIT_FAILURE : EXIT_SUCCESS;
}
