/* Images that somebody changed, and arguments at random: each call returns a status, and none crashes, hangs or writes where it may not.
 * usage: mutated IMAGE SECONDS SEED     works on copies beside IMAGE, LEAST of them however slow it is; it says how many of each it tried */
#ifndef _GNU_SOURCE
#define _GNU_SOURCE
#endif
#include "chance.h"
#include "support.h"

#include <time.h>

enum { LEAST = 100 };

static uint8_t *image;
static size_t length;
static long images, calls, opened_ones;

/* A status that the header has. */
static int32_t known(int32_t status) {
    calls++;
    EXPECT(strcmp(udfburn_error_name(status), "UDFBURN_UNKNOWN") && status != UDFBURN_SIGNED);
    return status;
}

/* Bytes, blocks and the length are changed; numbers near the ends of their ranges are the likeliest. */
static size_t mutate(uint8_t *bytes) {
    static const uint8_t odd[] = {0, 1, 0x7F, 0x80, 0xFE, 0xFF};
    size_t count = length;
    for (uint32_t i = 0; i < 1 + chance(6); i++) {
        size_t block = chance(2) ? 200 + chance((uint32_t)(length / UDFBURN_BLOCK) - 200) : chance((uint32_t)(length / UDFBURN_BLOCK));
        uint8_t *at = bytes + block * UDFBURN_BLOCK;
        switch (chance(5)) {
        case 0: at[chance(UDFBURN_BLOCK)] ^= (uint8_t)(1 << chance(8)); break;
        case 1: at[chance(300)] = odd[chance(sizeof odd)]; break;
        case 2: memset(at + chance(200), odd[chance(sizeof odd)], 1 + chance(8)); break;
        case 3: memcpy(at, bytes + (size_t)chance((uint32_t)(length / UDFBURN_BLOCK)) * UDFBURN_BLOCK, UDFBURN_BLOCK); break;
        default: count = count > 300 * UDFBURN_BLOCK ? count - chance(8 * UDFBURN_BLOCK) : count; break;
        }
    }
    return count;
}

static void a_path(char *path) {
    static const char *const names[] = {"a", "d", "e", "\xC3\xA4", "\xE6\xBC\xA2", "\xFF", ".", "..", "", "long long long name", "\xEF\xBB\xBF"};
    uint32_t depth = chance(30) ? chance(4) : chance(300);
    path[0] = '\0';
    for (uint32_t i = 0; i < depth; i++) strcat(strcat(path, chance(40) ? "/" : ""), names[chance(30) ? chance(5) : chance(11)]);
    if (depth == 0 && chance(3)) strcpy(path, "/");
}

static uint64_t a_number(void) {
    static const uint64_t odd[] = {0, 1, 2, UINT32_MAX, (uint64_t)UINT32_MAX + 1, UDFBURN_MOMENT_LIMIT - 1, UDFBURN_MOMENT_LIMIT, UINT64_MAX};
    return chance(2) ? chance(10) : odd[chance(8)];
}

/* One call on a handle, with arguments of all kinds. */
static void call(udfburn *handle) {
    static uint8_t data[70000];
    struct udfburn_request request = {a_number(), a_number(), a_number(), 9, 9};
    struct udfburn_commit commit = {0, 0, (uint32_t)a_number(), 0, 0};
    struct udfburn_volume volume;
    struct udfburn_reason reason;
    struct udfburn_status status;
    struct udfburn_entry *entries;
    struct udfburn_name *names;
    struct udfburn_node node;
    char path[8000], to[8000];
    uint64_t number;
    size_t count;
    a_path(path);
    a_path(to);
    if (chance(2)) request.number = 0;
    if (chance(4)) request.client = 1 + chance(70);
    if (chance(4)) request.moment = MOMENT;
    const char *given = chance(50) ? path : NULL;
    struct udfburn_request *asked = chance(50) ? &request : NULL;
    size_t bytes = chance(sizeof data);
    switch (chance(23)) {
    case 0: known(udfburn_create(handle, asked, given, data, bytes)); break;
    case 1: known(udfburn_create(handle, asked, given, chance(20) ? data : NULL, chance(20) ? bytes : 0)); break;
    case 2: known(udfburn_replace(handle, asked, given, data, bytes)); break;
    case 3: known(udfburn_mkdir(handle, asked, given)); break;
    case 4: known(udfburn_rename(handle, asked, given, chance(50) ? to : NULL)); break;
    case 5: known(udfburn_remove(handle, asked, given)); break;
    case 6: known(udfburn_last_number(handle, a_number(), chance(20) ? &number : NULL)); break;
    case 7: known(udfburn_stat(handle, given, chance(20) ? &node : NULL)); break;
    case 8: known(udfburn_get(handle, given, data, bytes, chance(20) ? &count : NULL)); break;
    case 9:
        known(udfburn_list(handle, given, &names, &count));
        udfburn_free(names);
        break;
    case 10:
        known(udfburn_entries(handle, given, chance(4) ? sizeof *entries : (size_t)a_number(), &entries, &count));
        udfburn_free(entries);
        break;
    case 11: known(udfburn_status(handle, chance(20) ? &status : NULL)); break;
    case 12:
        for (int i = 0; i < 20 && known(udfburn_log(handle, &commit)) == UDFBURN_OK; i++) continue;
        break;
    case 13:
        volume.size = chance(4) ? sizeof volume : sizeof volume - 1;
        known(udfburn_describe(handle, chance(20) ? &volume : NULL));
        break;
    case 14: known(udfburn_room(handle, given, chance(4) ? bytes : a_number())); break;
    case 15:
        reason.size = sizeof reason;
        known(udfburn_reason(chance(4) ? handle : NULL, &reason));
        break;
    case 16: if (!chance(50)) known(udfburn_expect(handle, (uint32_t)a_number())); break;
    case 17: known(udfburn_append(handle, asked, given, chance(4) ? 0 : a_number(), chance(20) ? data : NULL, bytes)); break;
    case 18: known(udfburn_read(handle, given, chance(4) ? chance(5000) : a_number(), data, bytes, chance(20) ? &count : NULL)); break;
    case 19: known(udfburn_answer(handle, image + chance((uint32_t)length - 3000), chance(40) ? 0 : chance(3000))); break;
    case 20: known(udfburn_begin(handle)); break;
    case 21: known(udfburn_settle(handle)); break;
    default:
        known(udfburn_answer(handle, get_a, sizeof get_a));
        while (udfburn_take(handle, data, sizeof data) > 0) continue;
        break;
    }
}

/* Tries a copy that was changed: what can be opened gets some calls. */
static void one(const char *path) {
    uint8_t *bytes = (uint8_t *)malloc(length);
    udfburn *handle = NULL;
    memcpy(bytes, image, length);
    put_file(path, bytes, mutate(bytes));
    free(bytes);
    images++;
    /* It may be that the newest state is whole. */
    if (chance(3)) known(udfburn_open(path, &handle));
    else known(udfburn_open_read(path, chance(2) ? UDFBURN_NEWEST : chance(40), &handle));
    if (!handle) {
        known(udfburn_format(path, "DISC", MOMENT, (uint32_t)a_number()));
        return;
    }
    opened_ones++;
    for (uint32_t i = 0; i < 60; i++) call(handle);
    udfburn_close(handle);
}

int main(int argc, char **argv) {
    char path[4096];
    if (argc != 4) return EXIT_FAILURE;
    image = file_bytes(argv[1], &length);
    state = strtoull(argv[3], NULL, 10) * 7919 + 13;
    snprintf(path, sizeof path, "%s.changed", argv[1]);
    for (time_t end = time(NULL) + atol(argv[2]); images < LEAST || time(NULL) < end;) one(path);
    unlink(path);
    free(image);
    printf("%ld %ld %ld\n", images, opened_ones, calls);
    return finish("mutated");
}
