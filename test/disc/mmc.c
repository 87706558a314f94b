/* The calls of udfburn.h on a disc in a recorder: wrong arguments, reasons, what one handle keeps from others, a child of fork().
 * usage: mmc DEVICE blank|check|open */
#ifndef _GNU_SOURCE
#define _GNU_SOURCE
#endif
#include "support.h"

#include <errno.h>
#include <sys/wait.h>

static struct udfburn_reason reason_of(udfburn *handle) {
    struct udfburn_reason reason;
    memset(&reason, 0, sizeof reason);
    reason.size = sizeof reason;
    STATUS(UDFBURN_OK, udfburn_reason(handle, &reason));
    return reason;
}

static void arguments(const char *device) {
    udfburn *handle = NULL;
    const char *broken = "";
    STATUS(UDFBURN_ARGUMENT, udfburn_open_mmc(NULL, 0, &handle));
    STATUS(UDFBURN_ARGUMENT, udfburn_open_mmc(device, 2, &handle));
    STATUS(UDFBURN_ARGUMENT, udfburn_open_mmc(device, 0, NULL));
    STATUS(UDFBURN_ARGUMENT, udfburn_format_mmc(NULL, "DISC", MOMENT));
    STATUS(UDFBURN_ARGUMENT, udfburn_format_mmc(device, NULL, MOMENT));
    STATUS(UDFBURN_ARGUMENT, udfburn_mmc_check(NULL, &broken));
    EXPECT(!broken && !handle);
    STATUS(UDFBURN_TEXT, udfburn_format_mmc(device, "", MOMENT));
    STATUS(UDFBURN_VOLUME, udfburn_format_mmc(device, "DISC", UDFBURN_MOMENT_LIMIT));
    STATUS(UDFBURN_VOLUME, udfburn_open_mmc(device, 0, &handle));
    EXPECT(!handle);
}

/* A blank disc becomes a volume, which one handle has at a time. */
static void volume(const char *device) {
    udfburn *handle = NULL, *other = NULL;
    struct udfburn_request request = {7, 0, MOMENT, 0, 0};
    struct udfburn_volume told;
    struct udfburn_reason reason;
    int status;
    STATUS(UDFBURN_OK, udfburn_format_mmc(device, "DISC", MOMENT));
    STATUS(UDFBURN_OK, udfburn_format_mmc(device, "DISC", MOMENT));
    STATUS(UDFBURN_VOLUME, udfburn_format_mmc(device, "OTHER", MOMENT));
    STATUS(UDFBURN_OK, udfburn_open_mmc(device, UDFBURN_VERIFY, &handle));
    STATUS(UDFBURN_BUSY, udfburn_open_mmc(device, 0, &other));
    reason = reason_of(NULL);
    EXPECT(reason.error == EBUSY && !strcmp(reason.call, "open") && !strcmp(reason.path, device));
    STATUS(UDFBURN_BUSY, udfburn_format_mmc(device, "DISC", MOMENT));
    STATUS(UDFBURN_OK, udfburn_create(handle, &request, "/a", "hello", 5));
    fflush(stdout);
    pid_t child = fork();
    if (child == 0) {
        request.number = 0;
        int is_refused = udfburn_create(handle, &request, "/b", "hello", 5) == UDFBURN_MISUSE;
        udfburn_close(handle);
        _exit(is_refused ? 0 : 1);
    }
    EXPECT(waitpid(child, &status, 0) == child && WIFEXITED(status) && WEXITSTATUS(status) == 0);
    request.number = 0;
    STATUS(UDFBURN_OK, udfburn_create(handle, &request, "/b", "hello", 5));
    told.size = sizeof told;
    STATUS(UDFBURN_OK, udfburn_describe(handle, &told));
    EXPECT(told.identity == MOMENT && told.commits == 2 && told.unused < 8 && !strcmp(told.label, "DISC"));
    printf("capacity %u next %u\n", told.capacity, told.next);
    udfburn_close(handle);
}

int main(int argc, char **argv) {
    udfburn *handle = NULL;
    if (argc != 3) return EXIT_FAILURE;
    if (!strcmp(argv[2], "blank")) {
        arguments(argv[1]);
        volume(argv[1]);
        return finish("mmc");
    }
    if (!strcmp(argv[2], "check")) {
        const char *broken = NULL;
        int32_t status = udfburn_mmc_check(argv[1], &broken);
        printf("%s %s\n", udfburn_error_name(status), broken ? broken : "");
        return 0;
    }
    /* Why a disc is refused. */
    int32_t status = udfburn_open_mmc(argv[1], 0, &handle);
    printf("%s", udfburn_error_name(status));
    if (status != UDFBURN_OK) {
        struct udfburn_reason reason = reason_of(NULL);
        printf(" %s %d", reason.call, reason.error);
    }
    putchar('\n');
    udfburn_close(handle);
    return 0;
}
