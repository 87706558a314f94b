/* The longest path and label that the header names, and what is longer by one byte.
 * usage: longest FOLDER */
#ifndef _GNU_SOURCE
#define _GNU_SOURCE
#endif
#include "support.h"

/* A name of so many characters of two bytes, with a slash before it. */
static char *put_name(char *at, int characters) {
    *at++ = '/';
    for (int i = 0; i < characters; i++) memcpy(at, "\xC3\xA4", 2), at += 2;
    *at = '\0';
    return at;
}

int main(int argc, char **argv) {
    char path[UDFBURN_PATH_LIMIT + 3], label[UDFBURN_LABEL_LIMIT + 3], *end = path;
    udfburn *handle = NULL;
    if (argc != 2 || chdir(argv[1])) return EXIT_FAILURE;
    put_name(label, UDFBURN_LABEL_LIMIT / 2);
    memmove(label, label + 1, sizeof label - 1);
    EXPECT(strlen(label) == UDFBURN_LABEL_LIMIT);
    STATUS(UDFBURN_OK, udfburn_open_memory(label, MOMENT, 2000, &handle));
    for (int depth = 0; depth < UDFBURN_DEPTH; depth++) {
        struct udfburn_request request = {7, 0, MOMENT, 0, 0};
        end = put_name(end, UDFBURN_NAME_LIMIT / 2);
        if (depth == UDFBURN_DEPTH - 1) STATUS(UDFBURN_OK, udfburn_room(handle, path, 1));
        STATUS(UDFBURN_OK, depth < UDFBURN_DEPTH - 1 ? udfburn_mkdir(handle, &request, path) : udfburn_create(handle, &request, path, "x", 1));
    }
    EXPECT(strlen(path) == UDFBURN_PATH_LIMIT);
    udfburn_close(handle);
    strcat(label, "x");
    STATUS(UDFBURN_TEXT, udfburn_open_memory(label, MOMENT, 2000, &handle));
    EXPECT(!handle);
    return finish("longest");
}
