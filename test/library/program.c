/* A program on the library that does what `udfburn apply`, `udfburn format` and `udfburnd` do, so that their tests try the library.
 * With an image alone it is `apply`, as the test program `apply_groups` is. Every other command is that of the program that
 * LIBRARY_UDFBURN names.
 * usage: program apply IMAGE | format IMAGE LABEL MOMENT CAPACITY | IMAGE SOCKET | IMAGE */
#ifndef _GNU_SOURCE
#define _GNU_SOURCE
#endif
#include "udfburn.h"

#include <stdio.h>
#include <stdlib.h>
#include <string.h>
#include <sys/socket.h>
#include <sys/un.h>
#include <unistd.h>

enum { PIECE = 65536, PAYLOAD = 1114112 };

/* Where messages come from and where answers go. */
struct stream {
    int in, out;
    ssize_t (*get)(int fd, void *into, size_t room);
    ssize_t (*put)(int fd, const void *bytes, size_t count);
};

static ssize_t receive(int fd, void *into, size_t room) { return recv(fd, into, room, 0); }

static ssize_t send_some(int fd, const void *bytes, size_t count) { return send(fd, bytes, count, MSG_NOSIGNAL); }

static int refuse(int32_t status) {
    /* The library has more names for what is one of the programs'. */
    int is_device = status == UDFBURN_DEVICE || (status >= UDFBURN_BUSY && status <= UDFBURN_READ_ONLY);
    fprintf(stderr, "udfburn: %s\n", is_device ? "64 Device" : udfburn_error_name(status));
    return 1;
}

static int put_all(const struct stream *stream, const uint8_t *bytes, size_t count) {
    while (count > 0) {
        ssize_t done = stream->put(stream->out, bytes, count);
        if (done <= 0) return -1;
        bytes += done;
        count -= (size_t)done;
    }
    return 0;
}

/* Answers so many frames by one call: 0 where their answers went out and the stream goes on. */
static int answer(udfburn *handle, const struct stream *stream, const uint8_t *frames, size_t length, size_t count) {
    static const uint8_t fault[] = {2, 0, 0, 0, 36, 0};
    static uint8_t bytes[PIECE];
    size_t taken;
    int32_t status = udfburn_answer(handle, frames, length);
    /* What a lost file is to the protocol: answer 36. */
    for (; status == UDFBURN_DEVICE && count > 0; count--)
        if (put_all(stream, fault, sizeof fault)) return -1;
    if (status == UDFBURN_DEVICE) return 0;
    while ((taken = udfburn_take(handle, bytes, sizeof bytes)) > 0)
        if (put_all(stream, bytes, taken)) return -1;
    return status == UDFBURN_OK ? 0 : -1;
}

/* How many bytes the frames have that are whole, and how many they are. One that is too long is its first four bytes. */
static size_t whole_frames(const uint8_t *held, size_t held_count, size_t *frames) {
    size_t whole = 0;
    for (*frames = 0; held_count - whole >= 4; ++*frames) {
        const uint8_t *frame = held + whole;
        size_t length = 4 + (frame[0] | frame[1] << 8 | frame[2] << 16 | (size_t)frame[3] << 24);
        if (length > PAYLOAD + 4) length = 4;
        if (held_count - whole < length) break;
        whole += length;
    }
    return whole;
}

/* Takes the frames out of a stream, and answers those together that come together: one that is not whole ends with its stream. */
static void serve(udfburn *handle, const struct stream *stream) {
    static uint8_t held[PAYLOAD + 4 + PIECE];
    size_t count = 0, frames;
    ssize_t more;
    while ((more = stream->get(stream->in, held + count, PIECE)) > 0) {
        count += (size_t)more;
        size_t whole = whole_frames(held, count, &frames);
        if (frames > 0 && answer(handle, stream, held, whole, frames)) return;
        count -= whole;
        memmove(held, held + whole, count);
    }
}

static int apply(const char *image) {
    static const struct stream standard = {0, 1, read, write};
    udfburn *handle;
    int32_t status = udfburn_open(image, &handle);
    if (status != UDFBURN_OK) return refuse(status);
    serve(handle, &standard);
    udfburn_close(handle);
    return 0;
}

static int format(char **words) {
    int32_t status = udfburn_format(words[0], words[1], strtoull(words[2], NULL, 10), (uint32_t)strtoul(words[3], NULL, 10));
    if (status != UDFBURN_OK) return refuse(status);
    return write(1, "formatted\n", 10) == 10 ? 0 : 1;
}

static int daemon_on(const char *image, const char *path) {
    struct sockaddr_un address;
    udfburn *handle;
    int32_t status = udfburn_open(image, &handle);
    if (status != UDFBURN_OK) return refuse(status);
    memset(&address, 0, sizeof address);
    address.sun_family = AF_UNIX;
    strncpy(address.sun_path, path, sizeof address.sun_path - 1);
    int listening = socket(AF_UNIX, SOCK_STREAM | SOCK_CLOEXEC, 0);
    if (listening < 0 || bind(listening, (struct sockaddr *)&address, sizeof address) || listen(listening, 8)) return 1;
    for (;;) {
        int connection = accept4(listening, NULL, NULL, SOCK_CLOEXEC);
        if (connection < 0) return 1;
        struct stream stream = {connection, connection, receive, send_some};
        serve(handle, &stream);
        close(connection);
    }
}

int main(int argc, char **argv) {
    const char *name = strrchr(argv[0], '/');
    if (name && !strcmp(name, "/udfburnd") && argc == 3) return daemon_on(argv[1], argv[2]);
    if (argc == 2) return apply(argv[1]);
    if (argc == 3 && !strcmp(argv[1], "apply")) return apply(argv[2]);
    if (argc == 6 && !strcmp(argv[1], "format")) return format(argv + 2);
    const char *other = getenv("LIBRARY_UDFBURN");
    if (other) execv(other, argv);
    return 127;
}
