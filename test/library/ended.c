/* A stream that ended for lack of memory is ended in the core too, and not in the handle alone, which refuses before it is asked.
 * The first allocation of sixteen million bytes is refused.
 * usage: ended FOLDER */
#ifndef _GNU_SOURCE
#define _GNU_SOURCE
#endif
#include "support.h"

#include "../../library/internal.h"

/* More than any other call asks memory for. */
static uint8_t piece[1 << 24];

int main(int argc, char **argv) {
    if (argc != 2 || chdir(argv[1])) return EXIT_FAILURE;
    make("ended.img");
    udfburn *handle = opened("ended.img");
    STATUS(UDFBURN_MEMORY, udfburn_answer(handle, piece, sizeof piece));
    STATUS(UDFBURN_MEMORY, udfburn_answer(handle, get_a, sizeof get_a));
    handle->ended = UDFBURN_OK;
    STATUS(UDFBURN_MEMORY, udfburn_answer(handle, get_a, sizeof get_a));
    EXPECT(udfburn_answered(handle) == 0);
    udfburn_close(handle);
    return finish("ended");
}
