/* What a volume is, and how it came to be: udfburn_status and udfburn_log.
 * usage: told FOLDER */
#ifndef _GNU_SOURCE
#define _GNU_SOURCE
#endif
#include "support.h"

static void what_a_volume_is(void) {
    struct udfburn_status status;
    STATUS(UDFBURN_OK, udfburn_format("told.img", "D\xC3\xADsc", MOMENT, 700));
    udfburn *handle = opened("told.img");
    STATUS(UDFBURN_OK, udfburn_status(handle, &status));
    EXPECT(status.moment == MOMENT && status.capacity == 700 && status.next == 262 && status.commits == 0);
    EXPECT(status.files == 0 && status.directories == 1 && status.clients == 0 && !strcmp(status.label, "D\xC3\xADsc"));
    STATUS(UDFBURN_OK, udfburn_answer(handle, create_a, sizeof create_a));
    expect_answers(handle, created, sizeof created);
    STATUS(UDFBURN_OK, udfburn_status(handle, &status));
    EXPECT(status.commits == 1 && status.files == 1 && status.directories == 1 && status.clients == 1 && status.moment == 0);
    STATUS(UDFBURN_ARGUMENT, udfburn_status(NULL, &status));
    STATUS(UDFBURN_ARGUMENT, udfburn_status(handle, NULL));
    EXPECT(!unlink("told.img"));
    STATUS(UDFBURN_DEVICE, udfburn_status(handle, &status));
    udfburn_close(handle);
}

static int is_commit(const struct udfburn_commit *commit, uint32_t number, uint64_t moment, uint32_t files, uint32_t directories) {
    return commit->number == number && commit->moment == moment && commit->files == files && commit->directories == directories;
}

/* Two requests: a file at moment 0, then a directory at moment 5. */
static udfburn *with_two_commits(const char *path) {
    struct udfburn_request request = {7, 0, 5, 0, 0};
    make(path);
    udfburn *handle = opened(path);
    STATUS(UDFBURN_OK, udfburn_answer(handle, create_a, sizeof create_a));
    expect_answers(handle, created, sizeof created);
    STATUS(UDFBURN_OK, udfburn_mkdir(handle, &request, "/d"));
    return handle;
}

static void the_commits(void) {
    struct udfburn_commit commit = {99, 99, 0, 99, 99}, newest, last;
    struct udfburn_status status;
    udfburn *handle = with_two_commits("told.img");
    STATUS(UDFBURN_OK, udfburn_status(handle, &status));
    STATUS(UDFBURN_OK, udfburn_log(handle, &commit));
    EXPECT(is_commit(&commit, 2, 5, 1, 2) && commit.address + 1 == status.next);
    newest = commit;
    STATUS(UDFBURN_OK, udfburn_log(handle, &commit));
    EXPECT(is_commit(&commit, 1, 0, 1, 1) && commit.address > 261 && commit.address < newest.address);
    STATUS(UDFBURN_OK, udfburn_log(handle, &commit));
    EXPECT(is_commit(&commit, 0, MOMENT, 0, 1) && commit.address == 261);
    last = commit;
    STATUS(UDFBURN_NONE, udfburn_log(handle, &commit));
    EXPECT(!memcmp(&commit, &last, sizeof commit));
    /* It goes by the address alone, in any order. */
    memset(&commit, 0xEE, sizeof commit);
    commit.address = newest.address;
    STATUS(UDFBURN_OK, udfburn_log(handle, &commit));
    EXPECT(is_commit(&commit, 1, 0, 1, 1));
    udfburn_close(handle);
}

/* Requests come between two steps: what was told stays, and 0 gives the new one. */
static void a_commit_between(void) {
    struct udfburn_request request = {7, 0, 9, 0, 0};
    struct udfburn_commit commit = {0, 0, 0, 0, 0}, later = {0, 0, 0, 0, 0};
    udfburn *handle = with_two_commits("told.img");
    STATUS(UDFBURN_OK, udfburn_log(handle, &commit));
    STATUS(UDFBURN_OK, udfburn_mkdir(handle, &request, "/e"));
    STATUS(UDFBURN_OK, udfburn_log(handle, &later));
    EXPECT(is_commit(&later, 3, 9, 1, 3));
    STATUS(UDFBURN_OK, udfburn_log(handle, &commit));
    EXPECT(is_commit(&commit, 1, 0, 1, 1));
    /* A request that is refused is a commit too. */
    request.number = 0;
    STATUS(UDFBURN_EXISTS, udfburn_mkdir(handle, &request, "/e"));
    memset(&later, 0, sizeof later);
    STATUS(UDFBURN_OK, udfburn_log(handle, &later));
    EXPECT(is_commit(&later, 4, 9, 1, 3));
    udfburn_close(handle);
}

static void wrong_addresses(void) {
    struct udfburn_commit commit = {1, 2, 0, 4, 5}, before;
    struct udfburn_status status;
    udfburn *handle = with_two_commits("told.img");
    STATUS(UDFBURN_OK, udfburn_status(handle, &status));
    const uint32_t outside[] = {1, 256, status.next, status.next + 1, 600, UINT32_MAX};
    for (size_t i = 0; i < sizeof outside / sizeof *outside; i++) {
        commit.address = outside[i];
        before = commit;
        STATUS(UDFBURN_NONE, udfburn_log(handle, &commit));
        EXPECT(!memcmp(&commit, &before, sizeof commit));
    }
    /* Blocks of the volume that are no VAT ICB. */
    const uint32_t inside[] = {257, 260, 262, status.next - 2};
    for (size_t i = 0; i < sizeof inside / sizeof *inside; i++) {
        commit.address = inside[i];
        before = commit;
        STATUS(UDFBURN_VOLUME, udfburn_log(handle, &commit));
        EXPECT(!memcmp(&commit, &before, sizeof commit));
    }
    STATUS(UDFBURN_ARGUMENT, udfburn_log(NULL, &commit));
    STATUS(UDFBURN_ARGUMENT, udfburn_log(handle, NULL));
    EXPECT(!unlink("told.img"));
    STATUS(UDFBURN_DEVICE, udfburn_log(handle, &commit));
    EXPECT(!memcmp(&commit, &before, sizeof commit));
    udfburn_close(handle);
}

/* The table of the first commit is damaged on the disk while the volume is open: what comes before it is not told. */
static void a_damaged_commit(void) {
    struct udfburn_commit commit = {0, 0, 0, 0, 0}, first;
    uint8_t zeros[UDFBURN_BLOCK] = {0};
    udfburn *handle = with_two_commits("told.img");
    STATUS(UDFBURN_OK, udfburn_log(handle, &commit));
    first = commit;
    STATUS(UDFBURN_OK, udfburn_log(handle, &commit));
    int fd = image_at("told.img");
    EXPECT(pwrite(fd, zeros, sizeof zeros, (off_t)commit.address * UDFBURN_BLOCK) == UDFBURN_BLOCK && !close(fd));
    STATUS(UDFBURN_VOLUME, udfburn_log(handle, &commit));
    commit = first;
    STATUS(UDFBURN_VOLUME, udfburn_log(handle, &commit));
    EXPECT(!memcmp(&commit, &first, sizeof commit));
    udfburn_close(handle);
}

/* In memory, and in the middle of a frame. */
static void other_media(void) {
    struct udfburn_commit commit = {0, 0, 0, 0, 0};
    udfburn *handle = NULL;
    STATUS(UDFBURN_OK, udfburn_open_memory("DISC", MOMENT, 600, &handle));
    STATUS(UDFBURN_OK, udfburn_answer(handle, create_a, 20));
    STATUS(UDFBURN_OK, udfburn_log(handle, &commit));
    EXPECT(is_commit(&commit, 0, MOMENT, 0, 1) && commit.address == 261);
    STATUS(UDFBURN_OK, udfburn_answer(handle, create_a + 20, sizeof create_a - 20));
    commit.address = 0;
    STATUS(UDFBURN_OK, udfburn_log(handle, &commit));
    EXPECT(is_commit(&commit, 1, 0, 1, 1));
    expect_answers(handle, created, sizeof created);
    udfburn_close(handle);
}

int main(int argc, char **argv) {
    if (argc != 2 || chdir(argv[1])) return EXIT_FAILURE;
    what_a_volume_is();
    the_commits();
    a_commit_between();
    wrong_addresses();
    a_damaged_commit();
    other_media();
    return finish("told");
}
