/* recorder DRIVE BLOCKS LABEL FILE..: stores files on a volume on a drive that libburn writes.
 *
 * DRIVE is one of libburn's emulated drives, "stdio:/path/of/a/file": its length says how much is written. For a drive
 * of your own give udfburn the same four functions, and see in udfburn.h what they owe.
 *
 *     cc recorder.c $(pkg-config --cflags --libs udfburn libburn-1) -o recorder
 */
#include <stdint.h>
#include <stdio.h>
#include <stdlib.h>
#include <string.h>
#include <sys/types.h>
#include <time.h>

#include <libburn/libburn.h>
#include <udfburn.h>

static const uint64_t CLIENT = 1;   /* nobody else writes to this volume */

/* Of the format. Take another one for each disc, and keep it: it finishes a format that was interrupted. */
static const uint64_t MOMENT = UINT64_C(1764201600000000);

struct disc {
    struct burn_drive *drive;
    uint32_t blocks;            /* that the medium has room for */
};

/* ---- the drive, as the library calls it ---- */

static int32_t disc_capacity(void *context, uint32_t *blocks) {
    *blocks = ((struct disc *)context)->blocks;
    return 0;
}

/* Asks for the length of the medium, which libburn else knows from the time before a write. */
static int32_t disc_next(void *context, uint32_t *address) {
    struct disc *disc = context;
    int written = 0;
    if (burn_drive_re_assess(disc->drive, 0) != 1 || burn_get_read_capacity(disc->drive, &written, 0) != 1) {
        return 1;
    }
    *address = (uint32_t)written;
    return 0;
}

static int32_t disc_read(void *context, uint32_t address, uint32_t count, void *blocks) {
    struct disc *disc = context;
    off_t size = (off_t)count * UDFBURN_BLOCK, done = 0;
    int status = burn_read_data(disc->drive, (off_t)address * UDFBURN_BLOCK, blocks, size, &done, 0);
    return status != 1 || done != size;
}

/* Writes blocks after those that are written, and returns when they have left the drive's buffer. */
static int32_t disc_write(void *context, uint32_t address, uint32_t count, const void *blocks) {
    enum { FLUSH = 1 };
    struct disc *disc = context;
    uint32_t next;
    off_t at = (off_t)address * UDFBURN_BLOCK, size = (off_t)count * UDFBURN_BLOCK;
    if (disc_next(disc, &next) != 0 || next != address) {
        return 1;
    }
    int status = burn_random_access_write(disc->drive, at, (char *)blocks, size, FLUSH);
    return disc_next(disc, &next) != 0 || status != 1;
}

/* ---- what is stored ---- */

static int32_t store(udfburn *volume, const char *local) {
    static uint8_t content[UDFBURN_FILE_LIMIT + 1];
    char path[UDFBURN_BLOCK];
    struct udfburn_request request = {0};
    FILE *file = fopen(local, "rb");
    if (!file) {
        return UDFBURN_NOT_FOUND;
    }
    size_t length = fread(content, 1, sizeof content, file);
    int failed = ferror(file);
    fclose(file);
    if (failed) {
        return UDFBURN_DEVICE;
    }
    const char *slash = strrchr(local, '/');
    snprintf(path, sizeof path, "/%s", slash ? slash + 1 : local);
    request.client = CLIENT;
    request.moment = (uint64_t)time(NULL) * 1000000;
    return udfburn_create(volume, &request, path, content, length);
}

static int store_all(udfburn *volume, char **files) {
    int failed = 0;
    for (; *files; files++) {
        int32_t status = store(volume, *files);
        printf("%s %s\n", status == UDFBURN_OK ? "stored" : udfburn_error_name(status), *files);
        failed |= status != UDFBURN_OK;
    }
    return failed;
}

static int record(struct disc *disc, const char *label, char **files) {
    const struct udfburn_drive drive = {disc, disc_capacity, disc_next, disc_read, disc_write};
    udfburn *volume = NULL;
    int32_t status = udfburn_open_drive(&drive, &volume);
    /* A format writes nothing on a medium that holds something else, and finishes one that was interrupted. */
    if (status == UDFBURN_VOLUME && udfburn_format_drive(&drive, label, MOMENT) == UDFBURN_OK) {
        status = udfburn_open_drive(&drive, &volume);
    }
    if (status != UDFBURN_OK) {
        fprintf(stderr, "recorder: %s\n", udfburn_error_name(status));
        return 1;
    }
    int failed = store_all(volume, files);
    udfburn_close(volume);
    return failed;
}

int main(int argc, char **argv) {
    struct burn_drive_info *drives;
    if (argc < 5 || strncmp(argv[1], "stdio:", 6) != 0) {
        fprintf(stderr, "usage: recorder stdio:PATH BLOCKS LABEL FILE..\n");
        return 2;
    }
    if (!burn_initialize() || burn_drive_scan_and_grab(&drives, argv[1], 1) != 1) {
        fprintf(stderr, "recorder: %s cannot be had\n", argv[1]);
        return 1;
    }
    struct disc disc = {drives[0].drive, (uint32_t)strtoul(argv[2], NULL, 10)};
    int status = record(&disc, argv[3], argv + 4);
    burn_drive_release(drives[0].drive, 0);
    burn_drive_info_free(drives);
    burn_finish();
    return status;
}
