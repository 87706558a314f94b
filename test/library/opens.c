/* Opens and closes a volume many times, with a query each time: neither memory nor descriptors grow.
 * usage: opens FOLDER COUNT */
#ifndef _GNU_SOURCE
#define _GNU_SOURCE
#endif
#include "support.h"

#include <malloc.h>

static size_t in_use(void) { return mallinfo2().uordblks; }

int main(int argc, char **argv) {
    if (argc != 3 || chdir(argv[1])) return EXIT_FAILURE;
    struct udfburn_request request = {7, 0, MOMENT, 0, 0};
    struct udfburn_name *names;
    size_t before = 0, count;
    make("opens.img");
    udfburn *handle = opened("opens.img");
    STATUS(UDFBURN_OK, udfburn_create(handle, &request, "/a", "hello", 5));
    udfburn_close(handle);
    int open_before = descriptors();
    for (long i = 0; i < atol(argv[2]); i++) {
        handle = opened("opens.img");
        STATUS(UDFBURN_OK, udfburn_list(handle, "/", &names, &count));
        EXPECT(count == 1 && !strcmp(names[0].name, "a"));
        udfburn_free(names);
        /* Half a frame and an answer that nobody takes go with the handle. */
        STATUS(UDFBURN_OK, udfburn_answer(handle, get_a, sizeof get_a));
        STATUS(UDFBURN_OK, udfburn_answer(handle, get_a, 3));
        STATUS(UDFBURN_BUSY, udfburn_open("opens.img", &(udfburn *){NULL}));
        udfburn_close(handle);
        if (i == 10) before = in_use();
    }
    EXPECT(in_use() == before && descriptors() == open_before);
    return finish("opens");
}
