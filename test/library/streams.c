/* Answers a stream that comes in random pieces, and takes the answers in random pieces.
 * usage: streams IMAGE STREAM ANSWERS SEED */
#ifndef _GNU_SOURCE
#define _GNU_SOURCE
#endif
#include "chance.h"
#include "support.h"

/* A number from 1 to `most`, small ones as often as great ones. */
static size_t piece(size_t most) {
    size_t bound = (size_t)1 << chance(18);
    size_t found = 1 + (size_t)(state >> 20) % bound;
    return found < most ? found : most;
}

int main(int argc, char **argv) {
    static uint8_t answers[1 << 18];
    size_t count, at = 0;
    if (argc != 5) return EXIT_FAILURE;
    state = strtoull(argv[4], NULL, 10);
    uint8_t *stream = file_bytes(argv[2], &count);
    FILE *out = fopen(argv[3], "wb");
    udfburn *handle = opened(argv[1]);
    int32_t status = UDFBURN_OK;
    while (status == UDFBURN_OK && (at < count || udfburn_answered(handle) > 0)) {
        size_t part = at < count ? piece(count - at) : 0;
        status = udfburn_answer(handle, stream + at, part);
        at += part;
        if (state % 3 == 0 || at == count) {
            size_t taken = udfburn_take(handle, answers, piece(sizeof answers));
            EXPECT(fwrite(answers, 1, taken, out) == taken);
        }
    }
    EXPECT(status == UDFBURN_OK || status == UDFBURN_TOO_LONG);
    while ((count = udfburn_take(handle, answers, sizeof answers)) > 0) EXPECT(fwrite(answers, 1, count, out) == count);
    udfburn_close(handle);
    free(stream);
    EXPECT(!fclose(out));
    return finish("streams");
}
