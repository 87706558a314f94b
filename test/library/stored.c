/* Stores a stream by udfburn_put, for tests under failing calls and kills. It prints the status of each try, the last one with
 * the number and the commit, and "there" where the file was there.
 * usage: stored IMAGE PATH SEED SIZE DIFFERS TRIES    from the offset DIFFERS on the bytes are those of another seed */
#ifndef _GNU_SOURCE
#define _GNU_SOURCE
#endif
#include "stream.h"

int main(int argc, char **argv) {
    udfburn *handle = NULL;
    struct udfburn_request request;
    int32_t status = UDFBURN_DEVICE;
    if (argc != 7) return 2;
    struct stream stream = stream_of((uint8_t)atoi(argv[3]), strtoull(argv[4], NULL, 10));
    stream.differs = strtoull(argv[5], NULL, 10);
    stream.other = 99;
    for (int tries = atoi(argv[6]); tries > 0 && status != UDFBURN_OK; tries--) {
        if (!handle) status = udfburn_open(argv[1], &handle);
        if (handle) status = put_stream(handle, argv[2], &stream, &request);
        printf("%s\n", udfburn_error_name(status));
    }
    if (status == UDFBURN_OK) {
        printf("%llu %u%s\n", (unsigned long long)request.number, request.commit, request.repeated ? " there" : "");
        EXPECT(has_stream(handle, argv[2], &stream));
    }
    udfburn_close(handle);
    return failed || status != UDFBURN_OK;
}
