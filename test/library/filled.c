/* Fills a volume with folders, files of several lengths and some clients, in some thirty commits.
 * usage: filled IMAGE */
#ifndef _GNU_SOURCE
#define _GNU_SOURCE
#endif
#include "support.h"

int main(int argc, char **argv) {
    static uint8_t data[30000];
    struct udfburn_request request = {1, 0, MOMENT, 0, 0};
    char path[64];
    if (argc != 2) return EXIT_FAILURE;
    udfburn *handle = opened(argv[1]);
    STATUS(UDFBURN_OK, udfburn_mkdir(handle, &request, "/d"));
    request.number = 0;
    STATUS(UDFBURN_OK, udfburn_mkdir(handle, &request, "/d/e"));
    for (int i = 0; i < 24; i++) {
        memset(data, 'a' + i, sizeof data);
        snprintf(path, sizeof path, i % 3 ? "/d/%s%d" : "/%s%d", i % 2 ? "\xE6\xBC\xA2" : "a", i);
        request.client = (uint64_t)(1 + i % 5);
        request.number = 0;
        STATUS(UDFBURN_OK, udfburn_create(handle, &request, path, data, (size_t)(i * i * 50)));
    }
    request.number = 0;
    STATUS(UDFBURN_OK, udfburn_rename(handle, &request, "/d/e", "/f"));
    request.number = 0;
    STATUS(UDFBURN_OK, udfburn_replace(handle, &request, "/a0", "new", 3));
    udfburn_close(handle);
    return failed ? EXIT_FAILURE : EXIT_SUCCESS;
}
