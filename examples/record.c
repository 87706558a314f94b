/* record IMAGE NAME: stores a stream of unknown length, the standard input, as the file /NAME, which grows by a mebibyte at a time.
 *
 * It prints how many bytes of the stream are on the volume, at its start and after each piece. These are durable: the
 * source may forget them. After a crash or a loss of power run it again, with the stream from that byte on. No byte is
 * lost, and none is stored twice:
 *
 *     at=$(record disc.img talk < /dev/null)
 *     tail -c +$((at + 1)) talk.raw | record disc.img talk
 *
 * The recording ends where its input ends: after a piece of less than a mebibyte nothing is appended any more. A program that
 * can give its stream again from the beginning has less to do with udfburn_put().
 *
 *     cc record.c $(pkg-config --cflags --libs udfburn) -o record
 */
#include <inttypes.h>
#include <stdio.h>
#include <string.h>
#include <time.h>

#include <udfburn.h>

enum { PIECE = UDFBURN_FILE_LIMIT, LONGEST_NAME = 254, PATH_ROOM = 300, TRIES = 3 };

/* Who writes. Take a number of your own: all recorders that may continue each other's streams share one. */
static const uint64_t CLIENT = UINT64_C(0x7265636f7264);

struct recorder {
    const char *image, *path;
    udfburn *disc;
    int is_there;
    uint64_t bytes;
};

/* Finds where the stream ends on the volume. */
static int32_t find_end(struct recorder *recorder) {
    struct udfburn_node node;
    int32_t status = udfburn_stat(recorder->disc, recorder->path, &node);
    if (status == UDFBURN_NOT_FOUND) return UDFBURN_OK;
    if (status == UDFBURN_OK && node.kind != UDFBURN_FILE) return UDFBURN_IS_DIRECTORY;
    recorder->is_there = status == UDFBURN_OK;
    recorder->bytes = recorder->is_there ? node.size : 0;
    return status;
}

/* Stores the next piece. A call that failed may have been committed all the same. So the same request is sent again: it has its
 * effect once. */
static int32_t store(struct recorder *recorder, const void *data, size_t length) {
    struct udfburn_request request = {0};
    int32_t status = UDFBURN_DEVICE;
    request.client = CLIENT;
    request.moment = (uint64_t)time(NULL) * 1000000;
    for (int tries = 0; tries < TRIES && (status == UDFBURN_DEVICE || status == UDFBURN_MEMORY); tries++) {
        if (tries > 0) {
            udfburn_close(recorder->disc);
            status = udfburn_open(recorder->image, &recorder->disc);
        }
        if (recorder->disc) {
            status = recorder->is_there ? udfburn_append(recorder->disc, &request, recorder->path, recorder->bytes, data, length)
                                        : udfburn_create(recorder->disc, &request, recorder->path, data, length);
        }
    }
    if (status == UDFBURN_OK) {
        recorder->is_there = 1;
        recorder->bytes += length;
    }
    return status;
}

static void acknowledge(const struct recorder *recorder) {
    printf("%" PRIu64 "\n", recorder->bytes);
    fflush(stdout);
}

static int32_t record(struct recorder *recorder) {
    static uint8_t piece[PIECE];
    size_t count;
    int32_t status = udfburn_open(recorder->image, &recorder->disc);
    if (status == UDFBURN_OK) {
        status = find_end(recorder);
    }
    if (status == UDFBURN_OK) {
        acknowledge(recorder);
    }
    while (status == UDFBURN_OK && (count = fread(piece, 1, sizeof piece, stdin)) > 0) {
        /* A short piece would end the recording, so it is stored where the stream ends, and not where it cannot be read. */
        if (ferror(stdin)) break;
        /* Appends that are refused are commits too, so they are not asked for. */
        if (recorder->bytes % PIECE || recorder->bytes >= UDFBURN_GREATEST_FILE) status = UDFBURN_EXISTS;
        else status = store(recorder, piece, count);
        if (status == UDFBURN_OK) acknowledge(recorder);
    }
    udfburn_close(recorder->disc);
    return status;
}

int main(int argc, char **argv) {
    char path[PATH_ROOM];
    /* No name may be cut to the room for it: the recording would be another file. */
    if (argc != 3 || strlen(argv[2]) > LONGEST_NAME) {
        fprintf(stderr, "usage: record IMAGE NAME < STREAM, with a NAME of at most %d bytes\n", LONGEST_NAME);
        return 2;
    }
    snprintf(path, sizeof path, "/%s", argv[2]);
    struct recorder recorder = {argv[1], path, NULL, 0, 0};
    int32_t status = record(&recorder);
    if (status == UDFBURN_EXISTS) {
        fprintf(stderr, "record: %s takes no more: record the rest under another name\n", path);
    } else if (status != UDFBURN_OK) {
        fprintf(stderr, "record: %s\n", udfburn_error_name(status));
    } else if (ferror(stdin)) {
        perror("record: the stream");
    } else if (ferror(stdout)) {
        fprintf(stderr, "record: the output cannot be written\n");
    }
    return status != UDFBURN_OK || ferror(stdin) || ferror(stdout);
}
