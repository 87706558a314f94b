/* Reads a file once, in pieces of a mebibyte.

   usage: read FILE */
#define _GNU_SOURCE
#include <fcntl.h>
#include <stdio.h>
#include <unistd.h>

static char piece[1 << 20];

int main(int count, char **words) {
    if (count != 2) return 2;
    int descriptor = open(words[1], O_RDONLY | O_CLOEXEC);
    ssize_t got = -1;
    while (descriptor >= 0 && (got = read(descriptor, piece, sizeof piece)) > 0) {
    }
    if (got < 0) {
        perror(words[1]);
        return 1;
    }
    return 0;
}
