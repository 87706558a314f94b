/* author IMAGE LABEL FOLDER: makes a volume and stores a folder on it. Files have at most a mebibyte. If it was
 * interrupted, delete the image and run it again.
 *
 *     cc author.c $(pkg-config --cflags --libs udfburn) -o author
 */
#define _POSIX_C_SOURCE 200809L

#include <dirent.h>
#include <stdio.h>
#include <stdlib.h>
#include <string.h>
#include <sys/stat.h>
#include <time.h>

#include <udfburn.h>

enum { CAPACITY = 359844 };     /* blocks of a CD-R of 80 minutes */

static const uint64_t CLIENT = 1;   /* nobody else writes to this volume */

static uint8_t content[UDFBURN_FILE_LIMIT + 1];

static uint64_t moment_of(struct timespec time) {
    return time.tv_sec < 0 ? 0 : (uint64_t)time.tv_sec * 1000000 + (uint64_t)time.tv_nsec / 1000;
}

static int complain(const char *path, const char *message) {
    fprintf(stderr, "author: %s: %s\n", path, message);
    return 1;
}

static int store_file(udfburn *disc, struct udfburn_request *request, const char *local, const char *path) {
    FILE *file = fopen(local, "rb");
    if (!file) {
        return complain(local, "cannot be opened");
    }
    size_t length = fread(content, 1, sizeof content, file);
    int failed = ferror(file);
    fclose(file);
    if (failed || length > UDFBURN_FILE_LIMIT) {
        return complain(local, failed ? "cannot be read" : "has more than a mebibyte");
    }
    int32_t status = udfburn_create(disc, request, path, content, length);
    return status == UDFBURN_OK ? 0 : complain(path, udfburn_error_name(status));
}

static int store_folder(udfburn *disc, const char *local, const char *path);

static int store_entry(udfburn *disc, const char *local, const char *path) {
    struct stat found;
    struct udfburn_request request = {0};
    if (lstat(local, &found) != 0) {
        return complain(local, "cannot be read");
    }
    request.client = CLIENT;
    request.moment = moment_of(found.st_mtim);
    if (S_ISREG(found.st_mode)) {
        return store_file(disc, &request, local, path);
    }
    if (!S_ISDIR(found.st_mode)) {
        return complain(local, "is neither a file nor a folder");
    }
    int32_t status = udfburn_mkdir(disc, &request, path);
    return status == UDFBURN_OK ? store_folder(disc, local, path) : complain(path, udfburn_error_name(status));
}

static char *join(const char *folder, const char *name) {
    char *path = malloc(strlen(folder) + strlen(name) + 2);
    if (!path) {
        complain(name, "there is not enough memory");
        exit(1);
    }
    sprintf(path, "%s/%s", folder, name);
    return path;
}

/* Stores what a folder holds, in order of names. It goes on after an entry that cannot be stored. */
static int store_folder(udfburn *disc, const char *local, const char *path) {
    struct dirent **entries;
    int failed = 0, count = scandir(local, &entries, NULL, alphasort);
    if (count < 0) {
        return complain(local, "cannot be read");
    }
    for (int i = 0; i < count; i++) {
        const char *name = entries[i]->d_name;
        if (strcmp(name, ".") != 0 && strcmp(name, "..") != 0) {
            char *from = join(local, name), *to = join(path, name);
            failed |= store_entry(disc, from, to);
            free(from);
            free(to);
        }
        free(entries[i]);
    }
    free(entries);
    return failed;
}

int main(int argc, char **argv) {
    udfburn *disc = NULL;
    if (argc != 4) {
        fprintf(stderr, "usage: author IMAGE LABEL FOLDER\n");
        return 2;
    }
    struct timespec now;
    clock_gettime(CLOCK_REALTIME, &now);
    int32_t status = udfburn_format(argv[1], argv[2], moment_of(now), CAPACITY);
    if (status == UDFBURN_OK) {
        status = udfburn_open(argv[1], &disc);
    }
    if (status != UDFBURN_OK) {
        return complain(argv[1], udfburn_error_name(status));
    }
    int failed = store_folder(disc, argv[3], "");
    udfburn_close(disc);
    return failed;
}
