/* packet DEVICE LABEL FILE..: stores files on the disc in a recorder, each as soon as it comes, and prints `stored` when the source
 * is no longer needed. Run it again for more: it appends. After an eject and a load Linux mounts the disc.
 *
 * DEVICE is /dev/sr0 or /dev/sg0, with a CD-R, DVD-R, DVD+R or BD-R in it: a blank one, or one that has a volume already.
 *
 *     cc packet.c $(pkg-config --cflags --libs udfburn) -o packet
 */
#include <stdint.h>
#include <stdio.h>
#include <string.h>
#include <time.h>

#include <udfburn.h>

enum { TRIES = 3 };

static const uint64_t CLIENT = 1;   /* nobody else writes to this volume */

/* Of the format. Take another one for each disc, and keep it: it finishes a format that was interrupted. */
static const uint64_t MOMENT = UINT64_C(1764201600000000);

struct recorder {
    const char *device, *label;
    udfburn *disc;
};

/* Says why a call failed: what the drive answered to which command. */
static void complain(const char *what, int32_t status, udfburn *disc) {
    struct udfburn_reason reason = {0};
    reason.size = sizeof reason;
    fprintf(stderr, "packet: %s: %s", what, udfburn_error_name(status));
    if (udfburn_reason(disc, &reason) == UDFBURN_OK && reason.call[0]) fprintf(stderr, " (%s: %#x)", reason.call, (unsigned)reason.error);
    fputc('\n', stderr);
}

static int32_t open_disc(struct recorder *recorder) {
    int32_t status = udfburn_open_mmc(recorder->device, UDFBURN_VERIFY, &recorder->disc);
    /* A format writes nothing on a disc that holds something else, and finishes one that was interrupted. */
    for (int tries = 0; tries < TRIES && status == UDFBURN_VOLUME; tries++) {
        int32_t formatted = udfburn_format_mmc(recorder->device, recorder->label, MOMENT);
        if (formatted == UDFBURN_OK) status = udfburn_open_mmc(recorder->device, UDFBURN_VERIFY, &recorder->disc);
        /* A write that failed spoils blocks. The next format goes on after them, or says that this disc is of no use any more. */
        else if (formatted != UDFBURN_DEVICE) tries = TRIES;
    }
    return status;
}

/* Stores a file. A call that failed may have been committed all the same. So the same request is sent again, on a handle that is
 * opened after what the write left: it has its effect once. */
static int32_t store(struct recorder *recorder, const char *path, const void *data, size_t length) {
    struct udfburn_request request = {0};
    int32_t status = UDFBURN_DEVICE;
    request.client = CLIENT;
    request.moment = (uint64_t)time(NULL) * 1000000;
    for (int tries = 0; tries < TRIES && (status == UDFBURN_DEVICE || status == UDFBURN_MEMORY); tries++) {
        if (tries > 0) {
            complain(path, status, recorder->disc);
            udfburn_close(recorder->disc);
            recorder->disc = NULL;
        }
        status = recorder->disc ? UDFBURN_OK : open_disc(recorder);
        if (status == UDFBURN_OK) status = udfburn_create(recorder->disc, &request, path, data, length);
    }
    return status;
}

static int32_t store_file(struct recorder *recorder, const char *local) {
    static unsigned char content[UDFBURN_FILE_LIMIT + 1];
    char path[UDFBURN_BLOCK];
    FILE *file = fopen(local, "rb");
    if (!file) return UDFBURN_NOT_FOUND;
    size_t length = fread(content, 1, sizeof content, file);
    int failed = ferror(file);
    fclose(file);
    if (failed) return UDFBURN_NOT_FOUND;
    const char *slash = strrchr(local, '/');
    snprintf(path, sizeof path, "/%s", slash ? slash + 1 : local);
    return store(recorder, path, content, length);
}

int main(int argc, char **argv) {
    struct recorder recorder = {0};
    int failed = 0;
    if (argc < 4) {
        fprintf(stderr, "usage: packet DEVICE LABEL FILE..\n");
        return 2;
    }
    recorder.device = argv[1];
    recorder.label = argv[2];
    int32_t status = open_disc(&recorder);
    if (status != UDFBURN_OK) {
        complain(recorder.device, status, NULL);
        return 1;
    }
    for (char **file = argv + 3; *file; file++) {
        status = store_file(&recorder, *file);
        printf("%s %s\n", status == UDFBURN_OK ? "stored" : udfburn_error_name(status), *file);
        failed |= status != UDFBURN_OK || fflush(stdout) != 0;
    }
    udfburn_close(recorder.disc);
    return failed;
}
