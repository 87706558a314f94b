/* Stores files of 4 KiB under their paths, so many of them durable before the next: in a volume by libudfburn, in a table of SQLite, or in
 * LMDB.
 * usage: beside udfburn|sqlite|lmdb PATH COUNT GROUP  stores them; prints the nanoseconds, from the open store on to the last file
 *        beside udfburn|sqlite|lmdb PATH COUNT read   compares the bytes of each
 * SQLite has its log before the data (WAL) and synchronous = FULL, LMDB its defaults: each commit is on the disk when it returns. A group
 * of files is one transaction of theirs; a group of one is none of the library's. */
#define _POSIX_C_SOURCE 200809L
#include "udfburn.h"

#include <lmdb.h>
#include <sqlite3.h>
#include <stdio.h>
#include <stdlib.h>
#include <string.h>
#include <time.h>

enum { FILE_BYTES = 4096, FOLDER_FILES = 250 };

#define NEED(holds) \
    do { \
        if (!(holds)) { \
            fprintf(stderr, "beside: line %d: %s\n", __LINE__, #holds); \
            exit(1); \
        } \
    } while (0)

static long long now(void) {
    struct timespec time;
    clock_gettime(CLOCK_MONOTONIC, &time);
    return time.tv_sec * 1000000000LL + time.tv_nsec;
}

/* The bytes of a file: no two blocks are alike, so none is stored shorter. */
static void fill(uint8_t *bytes, long index) {
    uint64_t state = (uint64_t)index * 0x9E3779B97F4A7C15u + 1;
    for (size_t at = 0; at < FILE_BYTES; at += sizeof state) {
        state ^= state << 13, state ^= state >> 7, state ^= state << 17;
        memcpy(bytes + at, &state, sizeof state);
    }
}

static void path_of(char *path, size_t room, long index) { snprintf(path, room, "/d%ld/%ld", index / FOLDER_FILES, index); }

/* What does one file: stores its bytes, or gets them into `found`. What is stored between the other two is durable after them. */
struct store {
    void (*put)(const char *path, const uint8_t *bytes, long index);
    void (*get)(const char *path, uint8_t *found);
    void (*begin)(void);
    void (*end)(void);
};

static udfburn *volume;

static void put_in_volume(const char *path, const uint8_t *bytes, long index) {
    static uint64_t number;
    if (index % FOLDER_FILES == 0) {
        char folder[64];
        snprintf(folder, sizeof folder, "/d%ld", index / FOLDER_FILES);
        struct udfburn_request request = {7, ++number, 0, 0, 0};
        NEED(udfburn_mkdir(volume, &request, folder) == UDFBURN_OK);
    }
    struct udfburn_request request = {7, ++number, 0, 0, 0};
    NEED(udfburn_create(volume, &request, path, bytes, FILE_BYTES) == UDFBURN_OK);
}

static void get_from_volume(const char *path, uint8_t *found) {
    size_t length;
    NEED(udfburn_get(volume, path, found, FILE_BYTES, &length) == UDFBURN_OK && length == FILE_BYTES);
}

static void begin_in_volume(void) { NEED(udfburn_begin(volume) == UDFBURN_OK); }

static void end_in_volume(void) { NEED(udfburn_settle(volume) == UDFBURN_OK); }

static sqlite3 *base;
static sqlite3_stmt *statement;

static void put_in_table(const char *path, const uint8_t *bytes, long index) {
    (void)index;
    NEED(sqlite3_bind_text(statement, 1, path, -1, SQLITE_STATIC) == SQLITE_OK);
    NEED(sqlite3_bind_blob(statement, 2, bytes, FILE_BYTES, SQLITE_STATIC) == SQLITE_OK);
    NEED(sqlite3_step(statement) == SQLITE_DONE);
    NEED(sqlite3_reset(statement) == SQLITE_OK);
}

static void get_from_table(const char *path, uint8_t *found) {
    NEED(sqlite3_bind_text(statement, 1, path, -1, SQLITE_STATIC) == SQLITE_OK);
    NEED(sqlite3_step(statement) == SQLITE_ROW && sqlite3_column_bytes(statement, 0) == FILE_BYTES);
    memcpy(found, sqlite3_column_blob(statement, 0), FILE_BYTES);
    NEED(sqlite3_reset(statement) == SQLITE_OK);
}

static void begin_in_table(void) { NEED(sqlite3_exec(base, "BEGIN", NULL, NULL, NULL) == SQLITE_OK); }

static void end_in_table(void) { NEED(sqlite3_exec(base, "COMMIT", NULL, NULL, NULL) == SQLITE_OK); }

static MDB_env *environment;
static MDB_dbi tree;
static MDB_txn *transaction;

static void begin_in_lmdb(void) { NEED(!mdb_txn_begin(environment, NULL, 0, &transaction)); }

static void end_in_lmdb(void) { NEED(!mdb_txn_commit(transaction)); }

static void put_in_lmdb(const char *path, const uint8_t *bytes, long index) {
    (void)index;
    MDB_val key = {strlen(path), (void *)path}, value = {FILE_BYTES, (void *)bytes};
    NEED(!mdb_put(transaction, tree, &key, &value, MDB_NOOVERWRITE));
}

static void get_from_lmdb(const char *path, uint8_t *found) {
    MDB_val key = {strlen(path), (void *)path}, value;
    NEED(!mdb_txn_begin(environment, NULL, MDB_RDONLY, &transaction));
    NEED(!mdb_get(transaction, tree, &key, &value) && value.mv_size == FILE_BYTES);
    memcpy(found, value.mv_data, FILE_BYTES);
    mdb_txn_abort(transaction);
}

static struct store open_volume(const char *path, int reads) {
    if (!reads) NEED(udfburn_format(path, "BESIDE", 0, 100000) == UDFBURN_OK);
    NEED(udfburn_open(path, &volume) == UDFBURN_OK);
    return (struct store){put_in_volume, get_from_volume, begin_in_volume, end_in_volume};
}

static struct store open_table(const char *path, int reads) {
    NEED(sqlite3_open(path, &base) == SQLITE_OK);
    NEED(sqlite3_exec(base, "PRAGMA journal_mode = WAL; PRAGMA synchronous = FULL", NULL, NULL, NULL) == SQLITE_OK);
    if (!reads) NEED(sqlite3_exec(base, "CREATE TABLE file (path TEXT PRIMARY KEY, bytes BLOB NOT NULL)", NULL, NULL, NULL) == SQLITE_OK);
    const char *words = reads ? "SELECT bytes FROM file WHERE path = ?" : "INSERT INTO file VALUES (?, ?)";
    NEED(sqlite3_prepare_v2(base, words, -1, &statement, NULL) == SQLITE_OK);
    return (struct store){put_in_table, get_from_table, begin_in_table, end_in_table};
}

static struct store open_lmdb(const char *path) {
    NEED(!mdb_env_create(&environment) && !mdb_env_set_mapsize(environment, (size_t)1 << 30));
    NEED(!mdb_env_open(environment, path, MDB_NOSUBDIR, 0600));
    NEED(!mdb_txn_begin(environment, NULL, 0, &transaction));
    NEED(!mdb_dbi_open(transaction, NULL, 0, &tree));
    NEED(!mdb_txn_commit(transaction));
    return (struct store){put_in_lmdb, get_from_lmdb, begin_in_lmdb, end_in_lmdb};
}

/* Stores the files from `first` up to `end`, durable when it returns. */
static void put_group(const struct store *store, long first, long end, int is_alone) {
    uint8_t bytes[FILE_BYTES];
    char path[64];
    if (!is_alone) store->begin();
    for (long index = first; index < end; index++) {
        path_of(path, sizeof path, index);
        fill(bytes, index);
        store->put(path, bytes, index);
    }
    if (!is_alone) store->end();
}

static void compare(const struct store *store, long index) {
    uint8_t bytes[FILE_BYTES], found[FILE_BYTES];
    char path[64];
    path_of(path, sizeof path, index);
    fill(bytes, index);
    store->get(path, found);
    NEED(!memcmp(bytes, found, FILE_BYTES));
}

int main(int argc, char **argv) {
    NEED(argc == 5);
    int reads = !strcmp(argv[4], "read");
    long count = atol(argv[3]), group = reads ? 1 : atol(argv[4]);
    NEED(group > 0);
    struct store store = !strcmp(argv[1], "udfburn") ? open_volume(argv[2], reads) : !strcmp(argv[1], "sqlite") ? open_table(argv[2], reads)
        : open_lmdb(argv[2]);
    long long begun = now();
    /* A statement of SQLite is a transaction by itself, and so is a request of the library. */
    int is_alone = group == 1 && strcmp(argv[1], "lmdb");
    for (long index = 0; index < count; index += group) {
        if (reads) compare(&store, index);
        else put_group(&store, index, index + group < count ? index + group : count, is_alone);
    }
    printf("%lld\n", now() - begun);
    /* As a process that is killed ends: nothing is done for the files any more. */
    fflush(stdout);
    _Exit(0);
}
