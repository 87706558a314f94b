/* Prints the commits of a volume as `udfburn log` does, and the moment of each after them: udfburn_log.
 * usage: log IMAGE */
#include "udfburn.h"

#include <inttypes.h>
#include <stdio.h>

int main(int argc, char **argv) {
    udfburn *handle = NULL;
    struct udfburn_commit commit = {0, 0, 0, 0, 0};
    int32_t status = argc == 2 ? udfburn_open(argv[1], &handle) : UDFBURN_ARGUMENT;
    if (status == UDFBURN_OK) {
        while ((status = udfburn_log(handle, &commit)) == UDFBURN_OK)
            printf("%" PRIu32 " %" PRIu32 " %" PRIu32 " %" PRIu32 " %" PRIu64 "\n", commit.number, commit.address, commit.files,
                   commit.directories, commit.moment);
    }
    udfburn_close(handle);
    printf("%s\n", udfburn_error_name(status));
    return 0;
}
