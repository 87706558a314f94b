/* The requests and queries of the library on volumes in memory. What is expected is what docs/PROTOCOL.md and udfburn.h
 * say. The last line is 'requests: N passed, M failed'. */
#include <stdio.h>
#include <stdlib.h>
#include <string.h>

#include <udfburn.h>

enum { CAPACITY = 60000, SMALL_CAPACITY = 512 };

static const uint64_t MOMENT = 1700000000000000u;
static int passed, failed;
static uint8_t big[UDFBURN_FILE_LIMIT + 1], room[UDFBURN_FILE_LIMIT];

/* ---- what is expected ---- */

static void check(int holds, const char *what, int line) {
    if (holds) {
        passed++;
    } else {
        failed++;
        printf("requests: FAILED: line %d: %s\n", line, what);
    }
}

#define CHECK(condition) check(condition, #condition, __LINE__)

static void check_status(int32_t status, int32_t expected, const char *call, int line) {
    if (status == expected) {
        passed++;
    } else {
        failed++;
        printf("requests: FAILED: line %d: %s is %s, not %s\n", line, call, udfburn_error_name(status),
               udfburn_error_name(expected));
    }
}

#define GIVES(call, expected) check_status(call, expected, #call, __LINE__)

/* ---- volumes and requests ---- */

static udfburn *volume_of(uint32_t capacity) {
    udfburn *disc = NULL;
    if (udfburn_open_memory("TEST", MOMENT, capacity, &disc) != UDFBURN_OK) {
        printf("requests: FAILED: no volume in memory\nrequests: %d passed, %d failed\n", passed, failed + 1);
        exit(1);
    }
    return disc;
}

static struct udfburn_request numbered(uint64_t client, uint64_t number) {
    struct udfburn_request request = {client, number, MOMENT, 99, 99};
    return request;
}

static int32_t create(udfburn *disc, const char *path, const char *text) {
    struct udfburn_request request = numbered(7, 0);
    return udfburn_create(disc, &request, path, text, strlen(text));
}

static int32_t replace(udfburn *disc, const char *path, const char *text) {
    struct udfburn_request request = numbered(7, 0);
    return udfburn_replace(disc, &request, path, text, strlen(text));
}

static int32_t mkdir(udfburn *disc, const char *path) {
    struct udfburn_request request = numbered(7, 0);
    return udfburn_mkdir(disc, &request, path);
}

static int32_t move(udfburn *disc, const char *from, const char *to) {
    struct udfburn_request request = numbered(7, 0);
    return udfburn_rename(disc, &request, from, to);
}

static int32_t delete(udfburn *disc, const char *path) {
    struct udfburn_request request = numbered(7, 0);
    return udfburn_remove(disc, &request, path);
}

static int32_t look(udfburn *disc, const char *path) {
    struct udfburn_node node;
    return udfburn_stat(disc, path, &node);
}

static int holds(udfburn *disc, const char *path, const void *data, size_t length) {
    size_t found = 99;
    return udfburn_get(disc, path, room, sizeof room, &found) == UDFBURN_OK && found == length
        && memcmp(room, data, length) == 0;
}

/* ---- tests ---- */

static void test_files(void) {
    udfburn *disc = volume_of(CAPACITY);
    struct udfburn_node node;
    GIVES(create(disc, "/a", "hello"), UDFBURN_OK);
    CHECK(holds(disc, "/a", "hello", 5));
    GIVES(udfburn_stat(disc, "/a", &node), UDFBURN_OK);
    CHECK(node.kind == UDFBURN_FILE && node.size == 5 && node.moment == MOMENT);
    GIVES(replace(disc, "/a", "bye"), UDFBURN_OK);
    CHECK(holds(disc, "/a", "bye", 3));
    GIVES(create(disc, "/empty", ""), UDFBURN_OK);
    CHECK(holds(disc, "/empty", "", 0));
    for (size_t i = 0; i < sizeof big; i++) big[i] = (uint8_t)(i * 31 + (i >> 8));
    struct udfburn_request request = numbered(7, 0);
    GIVES(udfburn_create(disc, &request, "/big", big, UDFBURN_FILE_LIMIT), UDFBURN_OK);
    CHECK(holds(disc, "/big", big, UDFBURN_FILE_LIMIT));
    GIVES(delete(disc, "/a"), UDFBURN_OK);
    GIVES(look(disc, "/a"), UDFBURN_NOT_FOUND);
    udfburn_close(disc);
}

static void test_directories(void) {
    udfburn *disc = volume_of(CAPACITY);
    struct udfburn_node node;
    struct udfburn_name *names;
    size_t count = 99;
    GIVES(udfburn_list(disc, "/", &names, &count), UDFBURN_OK);
    CHECK(count == 0);
    udfburn_free(names);
    GIVES(create(disc, "/\xc3\xa4\xe2\x82\xac", "x"), UDFBURN_OK);
    GIVES(mkdir(disc, "/folder"), UDFBURN_OK);
    GIVES(create(disc, "/folder/b", "bb"), UDFBURN_OK);
    GIVES(move(disc, "/folder/b", "/c"), UDFBURN_OK);
    GIVES(udfburn_list(disc, "/", &names, &count), UDFBURN_OK);
    CHECK(count == 3);
    CHECK(strcmp(names[0].name, "\xc3\xa4\xe2\x82\xac") == 0 && names[0].kind == UDFBURN_FILE);
    CHECK(strcmp(names[1].name, "folder") == 0 && names[1].kind == UDFBURN_DIRECTORY);
    CHECK(strcmp(names[2].name, "c") == 0 && names[2].kind == UDFBURN_FILE);
    udfburn_free(names);
    GIVES(udfburn_stat(disc, "/folder", &node), UDFBURN_OK);
    CHECK(node.kind == UDFBURN_DIRECTORY && node.size == 0);
    GIVES(udfburn_stat(disc, "/", &node), UDFBURN_OK);
    CHECK(node.kind == UDFBURN_DIRECTORY && node.size == 3);
    GIVES(delete(disc, "/folder"), UDFBURN_OK);
    udfburn_close(disc);
}

static void test_results(void) {
    udfburn *disc = volume_of(CAPACITY);
    size_t length;
    struct udfburn_name *names;
    mkdir(disc, "/d");
    mkdir(disc, "/d/e");
    create(disc, "/f", "x");
    GIVES(create(disc, "/none/a", "x"), UDFBURN_NO_PARENT);
    GIVES(create(disc, "/f/a", "x"), UDFBURN_NO_PARENT);
    GIVES(replace(disc, "/none", "x"), UDFBURN_NOT_FOUND);
    GIVES(delete(disc, "/none"), UDFBURN_NOT_FOUND);
    GIVES(move(disc, "/none", "/n"), UDFBURN_NOT_FOUND);
    GIVES(create(disc, "/f", "x"), UDFBURN_EXISTS);
    GIVES(mkdir(disc, "/f"), UDFBURN_EXISTS);
    GIVES(move(disc, "/f", "/d"), UDFBURN_EXISTS);
    GIVES(replace(disc, "/d", "x"), UDFBURN_IS_DIRECTORY);
    GIVES(delete(disc, "/d"), UDFBURN_NOT_EMPTY);
    GIVES(move(disc, "/d", "/d/e/d"), UDFBURN_INTO_ITSELF);
    GIVES(delete(disc, "/"), UDFBURN_ROOT);
    GIVES(mkdir(disc, "/1/2/3/4/5/6/7/8/9/10/11/12/13/14/15/16/17"), UDFBURN_TOO_DEEP);
    GIVES(udfburn_get(disc, "/none", room, sizeof room, &length), UDFBURN_NOT_FOUND);
    GIVES(udfburn_get(disc, "/d", room, sizeof room, &length), UDFBURN_IS_DIRECTORY);
    CHECK(length == 0);
    GIVES(udfburn_list(disc, "/f", &names, &length), UDFBURN_NOT_DIRECTORY);
    CHECK(names == NULL && length == 0);
    GIVES(udfburn_list(disc, "/none", &names, &length), UDFBURN_NOT_FOUND);
    udfburn_close(disc);
}

/* Fills a directory, and then the tree: with the root it has 1 + 8 + 512 + 7 * 510 nodes, and 5 more are the most. */
static void test_full_tree(void) {
    char path[32];
    udfburn *disc = volume_of(UDFBURN_GREATEST_CAPACITY);
    unsigned nodes = 1, refused = 0;
    for (int i = 0; i < 8; i++) {
        snprintf(path, sizeof path, "/%d", i);
        nodes += mkdir(disc, path) == UDFBURN_OK;
        for (int j = 0; j < 510 + (i == 0 ? 2 : 0); j++) {
            snprintf(path, sizeof path, "/%d/%d", i, j);
            if (create(disc, path, "") == UDFBURN_OK) nodes++;
            else refused++;
        }
    }
    CHECK(nodes == 4091 && refused == 0);
    GIVES(create(disc, "/0/512", ""), UDFBURN_DIRECTORY_FULL);
    for (int i = 0; i < 5; i++) {
        snprintf(path, sizeof path, "/f%d", i);
        GIVES(create(disc, path, ""), UDFBURN_OK);
    }
    GIVES(create(disc, "/more", ""), UDFBURN_TREE_FULL);
    udfburn_close(disc);
}

static void test_full_medium(void) {
    udfburn *disc = volume_of(SMALL_CAPACITY);
    struct udfburn_request request = numbered(7, 0);
    GIVES(udfburn_create(disc, &request, "/big", big, UDFBURN_FILE_LIMIT), UDFBURN_FULL);
    CHECK(request.number == 1 && request.commit == 0 && request.repeated == 0);
    GIVES(udfburn_create(disc, &request, "/small", big, 10), UDFBURN_OK);
    CHECK(request.number == 1 && request.commit == 1 && request.repeated == 0);
    udfburn_close(disc);
}

static void test_numbers(void) {
    udfburn *disc = volume_of(CAPACITY);
    uint64_t number = 99;
    struct udfburn_request request = numbered(7, 0);
    GIVES(udfburn_last_number(disc, 7, &number), UDFBURN_OK);
    CHECK(number == 0);
    GIVES(udfburn_create(disc, &request, "/1", "x", 1), UDFBURN_OK);
    CHECK(request.number == 1 && request.commit == 1 && request.repeated == 0);
    GIVES(udfburn_create(disc, &request, "/1", "x", 1), UDFBURN_OK);
    CHECK(request.number == 1 && request.commit == 1 && request.repeated == 1);
    request = numbered(7, 3);
    GIVES(udfburn_mkdir(disc, &request, "/gap"), UDFBURN_GAP);
    CHECK(request.commit == 0 && request.repeated == 0);
    request = numbered(7, 2);
    GIVES(udfburn_mkdir(disc, &request, "/1"), UDFBURN_EXISTS);
    CHECK(request.commit == 2);
    GIVES(udfburn_mkdir(disc, &request, "/1"), UDFBURN_EXISTS);
    CHECK(request.commit == 2 && request.repeated == 1);
    for (uint64_t i = 3; i < 6; i++) {
        request = numbered(7, i);
        GIVES(udfburn_mkdir(disc, &request, "/1"), UDFBURN_EXISTS);
    }
    request = numbered(7, 1);
    GIVES(udfburn_create(disc, &request, "/1", "x", 1), UDFBURN_STALE);
    CHECK(request.commit == 0);
    GIVES(udfburn_last_number(disc, 7, &number), UDFBURN_OK);
    CHECK(number == 5);
    request = numbered(8, 0);
    GIVES(udfburn_remove(disc, &request, "/1"), UDFBURN_OK);
    CHECK(request.number == 1 && request.commit == 6);
    udfburn_close(disc);
}

/* A number that a second request uses by mistake is never taken for this request. */
static void test_used_numbers(void) {
    udfburn *disc = volume_of(CAPACITY);
    struct udfburn_request request = numbered(7, 0);
    GIVES(udfburn_create(disc, &request, "/a", "x", 1), UDFBURN_OK);
    GIVES(udfburn_create(disc, &request, "/b", "x", 1), UDFBURN_USED);
    CHECK(request.repeated == 1);
    GIVES(udfburn_create(disc, &request, "/a", "y", 1), UDFBURN_USED);
    GIVES(udfburn_replace(disc, &request, "/a", "xx", 2), UDFBURN_USED);
    GIVES(udfburn_mkdir(disc, &request, "/a"), UDFBURN_USED);
    GIVES(udfburn_mkdir(disc, &request, "/b"), UDFBURN_USED);
    GIVES(udfburn_remove(disc, &request, "/a"), UDFBURN_USED);
    GIVES(udfburn_rename(disc, &request, "/a", "/b"), UDFBURN_USED);
    GIVES(udfburn_rename(disc, &request, "/c", "/b"), UDFBURN_USED);
    GIVES(create(disc, "/c", "x"), UDFBURN_OK);
    GIVES(udfburn_rename(disc, &request, "/a", "/c"), UDFBURN_USED);
    request.moment++;
    GIVES(udfburn_create(disc, &request, "/a", "x", 1), UDFBURN_USED);
    CHECK(holds(disc, "/a", "x", 1));
    /* The number of a request that was refused gives that refusal again, whatever is asked for. */
    request = numbered(7, 0);
    GIVES(udfburn_create(disc, &request, "/a", "x", 1), UDFBURN_EXISTS);
    GIVES(udfburn_create(disc, &request, "/new", "x", 1), UDFBURN_EXISTS);
    CHECK(request.repeated == 1);
    GIVES(look(disc, "/new"), UDFBURN_NOT_FOUND);
    udfburn_close(disc);
}

static void test_repeats(void) {
    udfburn *disc = volume_of(CAPACITY);
    struct udfburn_request request = numbered(7, 1);
    GIVES(udfburn_mkdir(disc, &request, "/d"), UDFBURN_OK);
    GIVES(udfburn_mkdir(disc, &request, "/d"), UDFBURN_OK);
    request.number = 2;
    GIVES(udfburn_create(disc, &request, "/d/a", big, 5000), UDFBURN_OK);
    GIVES(udfburn_create(disc, &request, "/d/a", big, 5000), UDFBURN_OK);
    request.number = 3;
    GIVES(udfburn_replace(disc, &request, "/d/a", NULL, 0), UDFBURN_OK);
    GIVES(udfburn_replace(disc, &request, "/d/a", NULL, 0), UDFBURN_OK);
    request.number = 4;
    GIVES(udfburn_rename(disc, &request, "/d/a", "/a"), UDFBURN_OK);
    GIVES(udfburn_rename(disc, &request, "/d/a", "/a"), UDFBURN_OK);
    request.number = 5;
    GIVES(udfburn_remove(disc, &request, "/d"), UDFBURN_OK);
    GIVES(udfburn_remove(disc, &request, "/d"), UDFBURN_OK);
    CHECK(request.commit == 5 && request.repeated == 1);
    udfburn_close(disc);
}

static void test_clients(void) {
    udfburn *disc = volume_of(CAPACITY);
    uint64_t number = 99;
    struct udfburn_request request;
    for (uint64_t client = 1; client <= 64; client++) {
        request = numbered(client, 0);
        GIVES(udfburn_remove(disc, &request, "/none"), UDFBURN_NOT_FOUND);
    }
    request = numbered(65, 0);
    GIVES(udfburn_mkdir(disc, &request, "/d"), UDFBURN_CLIENTS_FULL);
    CHECK(request.commit == 0);
    GIVES(udfburn_last_number(disc, 65, &number), UDFBURN_OK);
    CHECK(number == 0);
    udfburn_close(disc);
}

static void test_paths(void) {
    static const char *const bad[] = {
        "", "a", "a/b", "//", "/a/", "/a//b", "/.", "/a/..", "/\xff", "/\xc3", "/\xf0\x9f\x98\x80", "/\xef\xbb\xbf", "/\xef\xbf\xbe"
    };
    udfburn *disc = volume_of(CAPACITY);
    char *name = calloc(1, 70000);
    for (size_t i = 0; i < sizeof bad / sizeof *bad; i++) {
        GIVES(mkdir(disc, bad[i]), UDFBURN_TEXT);
        GIVES(look(disc, bad[i]), UDFBURN_TEXT);
        GIVES(move(disc, "/a", bad[i]), UDFBURN_TEXT);
    }
    name[0] = '/';
    memset(name + 1, 'n', 254);
    GIVES(create(disc, name, "longest"), UDFBURN_OK);
    CHECK(holds(disc, name, "longest", 7));
    name[255] = 'n';
    GIVES(create(disc, name, ""), UDFBURN_TEXT);
    /* Two bytes a character where one is above U+00FF: 127 of them. */
    memcpy(name + 1, "\xe2\x82\xac", 3);
    name[130] = '\0';
    GIVES(create(disc, name, "longest"), UDFBURN_OK);
    name[130] = 'n';
    name[131] = '\0';
    GIVES(create(disc, name, ""), UDFBURN_TEXT);
    /* A frame says 16 bits of a name's length: 2 of this one. */
    memset(name + 1, 'n', 65538);
    GIVES(create(disc, name, ""), UDFBURN_TEXT);
    for (size_t i = 0; i < 256; i++) memcpy(name + 2 * i, "/n", 2);
    name[512] = '\0';
    GIVES(look(disc, name), UDFBURN_TEXT);
    name[510] = '\0';
    GIVES(look(disc, name), UDFBURN_NOT_FOUND);
    free(name);
    udfburn_close(disc);
}

/* Names whose lengths a frame can say, and which together are more than a frame takes. */
static void test_longest_path(void) {
    enum { NAME = 65536, NAMES = 20 };
    udfburn *disc = volume_of(CAPACITY);
    char *path = calloc(NAMES * NAME + 1, 1);
    memset(path, 'n', NAMES * NAME);
    for (size_t i = 0; i < NAMES; i++) path[i * NAME] = '/';
    GIVES(look(disc, path), UDFBURN_TEXT);
    GIVES(create(disc, "/after", ""), UDFBURN_OK);
    free(path);
    udfburn_close(disc);
}

static void test_arguments(void) {
    udfburn *disc = volume_of(CAPACITY);
    struct udfburn_request request = numbered(7, 0), zero = numbered(0, 0), late = numbered(7, 0);
    struct udfburn_name *names = (struct udfburn_name *)room;
    size_t count = 99;
    late.moment = UDFBURN_MOMENT_LIMIT;
    GIVES(udfburn_mkdir(NULL, &request, "/a"), UDFBURN_ARGUMENT);
    GIVES(udfburn_mkdir(disc, NULL, "/a"), UDFBURN_ARGUMENT);
    GIVES(udfburn_mkdir(disc, &request, NULL), UDFBURN_ARGUMENT);
    GIVES(udfburn_mkdir(disc, &zero, "/a"), UDFBURN_ARGUMENT);
    GIVES(udfburn_mkdir(disc, &late, "/a"), UDFBURN_ARGUMENT);
    CHECK(zero.number == 0 && late.number == 0);
    CHECK(request.number == 0 && request.commit == 0 && request.repeated == 0);
    GIVES(udfburn_remove(disc, &request, NULL), UDFBURN_ARGUMENT);
    request.commit = request.repeated = 99;
    GIVES(udfburn_rename(disc, &request, "/a", NULL), UDFBURN_ARGUMENT);
    CHECK(request.commit == 0 && request.repeated == 0);
    GIVES(udfburn_rename(disc, &request, NULL, "/a"), UDFBURN_ARGUMENT);
    GIVES(udfburn_create(disc, &request, "/a", NULL, 1), UDFBURN_ARGUMENT);
    GIVES(udfburn_create(disc, &request, "/a", big, sizeof big), UDFBURN_ARGUMENT);
    GIVES(udfburn_replace(disc, &request, "/a", big, SIZE_MAX), UDFBURN_ARGUMENT);
    GIVES(udfburn_stat(disc, "/", NULL), UDFBURN_ARGUMENT);
    GIVES(udfburn_stat(NULL, "/", NULL), UDFBURN_ARGUMENT);
    GIVES(udfburn_get(disc, "/a", NULL, 1, &count), UDFBURN_ARGUMENT);
    GIVES(udfburn_get(disc, "/a", room, 1, NULL), UDFBURN_ARGUMENT);
    GIVES(udfburn_list(disc, "/", NULL, &count), UDFBURN_ARGUMENT);
    CHECK(count == 0);
    GIVES(udfburn_list(disc, "/", &names, NULL), UDFBURN_ARGUMENT);
    CHECK(names == NULL);
    names = (struct udfburn_name *)room;
    count = 99;
    GIVES(udfburn_list(disc, NULL, &names, &count), UDFBURN_ARGUMENT);
    CHECK(names == NULL && count == 0);
    udfburn_free(NULL);
    GIVES(look(disc, "/a"), UDFBURN_NOT_FOUND);
    udfburn_close(disc);
}

static void test_room(void) {
    udfburn *disc = volume_of(CAPACITY);
    uint8_t into[4] = {9, 9, 9, 9};
    size_t length = 99;
    create(disc, "/a", "abc");
    GIVES(udfburn_get(disc, "/a", NULL, 0, &length), UDFBURN_ROOM);
    CHECK(length == 3);
    GIVES(udfburn_get(disc, "/a", into, 2, &length), UDFBURN_ROOM);
    CHECK(length == 3 && into[0] == 9);
    GIVES(udfburn_get(disc, "/a", into, 3, &length), UDFBURN_OK);
    CHECK(length == 3 && memcmp(into, "abc\x09", 4) == 0);
    udfburn_close(disc);
}

/* The frame and the answer are those of the example in docs/PROTOCOL.md. */
static void test_frames_between(void) {
    static const uint8_t frame[] = {
        38, 0, 0, 0, 1, 7, 0, 0, 0, 0, 0, 0, 0, 1, 0, 0, 0, 0, 0, 0, 0, 0, 0, 0, 0, 0, 0, 0, 0, 1, 1, 0, 'a',
        5, 0, 0, 0, 'h', 'e', 'l', 'l', 'o'
    };
    static const uint8_t wanted[] = {6, 0, 0, 0, 0, 0, 1, 0, 0, 0};
    uint8_t answer[sizeof wanted];
    udfburn *disc = volume_of(CAPACITY);
    for (size_t cut = 1; cut < sizeof frame; cut += 3) {
        udfburn_close(disc);
        disc = volume_of(CAPACITY);
        GIVES(udfburn_answer(disc, frame, cut), UDFBURN_OK);
        GIVES(create(disc, "/b", "x"), UDFBURN_ARGUMENT);
        GIVES(look(disc, "/"), UDFBURN_ARGUMENT);
        GIVES(udfburn_answer(disc, frame + cut, sizeof frame - cut), UDFBURN_OK);
        GIVES(create(disc, "/b", "x"), UDFBURN_ARGUMENT);
        CHECK(udfburn_take(disc, answer, sizeof answer) == sizeof wanted && memcmp(answer, wanted, sizeof wanted) == 0);
        GIVES(create(disc, "/b", "x"), UDFBURN_OK);
    }
    CHECK(holds(disc, "/a", "hello", 5));
    udfburn_close(disc);
}

/* A frame that is too long ends the stream, and each later call says so. */
static void test_an_ended_stream(void) {
    static const uint8_t too_long[] = {0, 0, 0, 0x80};
    udfburn *disc = volume_of(CAPACITY);
    struct udfburn_request request = numbered(7, 0);
    struct udfburn_name *names;
    size_t length;
    GIVES(udfburn_answer(disc, too_long, sizeof too_long), UDFBURN_TOO_LONG);
    GIVES(udfburn_create(disc, &request, "/a", "x", 1), UDFBURN_TOO_LONG);
    CHECK(request.number == 0 && request.commit == 0);
    GIVES(look(disc, "/"), UDFBURN_TOO_LONG);
    GIVES(udfburn_get(disc, "/a", room, sizeof room, &length), UDFBURN_TOO_LONG);
    GIVES(udfburn_list(disc, "/", &names, &length), UDFBURN_TOO_LONG);
    CHECK(names == NULL);
    udfburn_close(disc);
}

static void test_names_of_statuses(void) {
    unsigned known = 0;
    for (int32_t status = -1000; status < 1000; status++) {
        known += strcmp(udfburn_error_name(status), "UDFBURN_UNKNOWN") != 0;
    }
    CHECK(known == 32);
#define NAMED(status) CHECK(strcmp(udfburn_error_name(status), #status) == 0)
    NAMED(UDFBURN_OK); NAMED(UDFBURN_MEMORY); NAMED(UDFBURN_DEVICE); NAMED(UDFBURN_TOO_LONG); NAMED(UDFBURN_TEXT);
    NAMED(UDFBURN_VOLUME); NAMED(UDFBURN_ARGUMENT); NAMED(UDFBURN_NONE); NAMED(UDFBURN_MISUSE);
    NAMED(UDFBURN_BUSY); NAMED(UDFBURN_NO_IMAGE); NAMED(UDFBURN_NO_SPACE); NAMED(UDFBURN_READ_ONLY); NAMED(UDFBURN_OLDER);
    NAMED(UDFBURN_NO_PARENT);
    NAMED(UDFBURN_NOT_FOUND); NAMED(UDFBURN_EXISTS); NAMED(UDFBURN_IS_DIRECTORY); NAMED(UDFBURN_NOT_EMPTY);
    NAMED(UDFBURN_INTO_ITSELF); NAMED(UDFBURN_ROOT); NAMED(UDFBURN_TOO_DEEP); NAMED(UDFBURN_DIRECTORY_FULL);
    NAMED(UDFBURN_TREE_FULL); NAMED(UDFBURN_NOT_DIRECTORY); NAMED(UDFBURN_STALE); NAMED(UDFBURN_GAP);
    NAMED(UDFBURN_CLIENTS_FULL); NAMED(UDFBURN_FULL); NAMED(UDFBURN_USED); NAMED(UDFBURN_ROOM);
}

int main(void) {
    test_files();
    test_directories();
    test_results();
    test_full_tree();
    test_full_medium();
    test_numbers();
    test_used_numbers();
    test_repeats();
    test_clients();
    test_paths();
    test_longest_path();
    test_arguments();
    test_room();
    test_frames_between();
    test_an_ended_stream();
    test_names_of_statuses();
    printf("requests: %d passed, %d failed\n", passed, failed);
    return failed > 0;
}
