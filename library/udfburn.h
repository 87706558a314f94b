/* udfburn.h: write files to a UDF 2.01 volume on write-once media, in your own process.
 *
 * SPDX-License-Identifier: MIT OR Apache-2.0
 *
 * A volume is one growing file tree. Its blocks are written once, in order of address. You open it and send requests. When
 * a request returns UDFBURN_OK, it is on the medium: you may delete the source. (In a group it is when udfburn_settle() returns
 * UDFBURN_OK.) After a crash or a loss of power the volume holds the state after the last committed request, and no acknowledged
 * request is lost. That a file keeps what was synced, and a drive what it acknowledged, is for the system and the drive to keep.
 * The library is for Linux on x86-64.
 *
 *     udfburn *disc;
 *     struct udfburn_request request = { .client = 7, .moment = 1700000000000000 };
 *     if (udfburn_format("disc.img", "DISC", request.moment, 3000) == UDFBURN_OK
 *         && udfburn_open("disc.img", &disc) == UDFBURN_OK) {
 *         int32_t status = udfburn_create(disc, &request, "/hello", "hello\n", 6);
 *         udfburn_close(disc);
 *     }
 *
 * THREADS. A handle (`udfburn *`) serves one call at a time. Different threads may use it one after the other, if they
 * order their calls, for example with a lock. A call while another one is on the handle, also from a function of its drive,
 * returns UDFBURN_MISUSE and does nothing. So does every call on a handle of the parent in a child after fork(), but for
 * udfburn_close(): it frees the child's copy, and takes nothing from the parent. A child that opens the same file later closes
 * its copy first. If the parent ends without a close, its children keep the lock of the file until they close their copies or
 * end. A program that a child starts does not.
 *   Different handles are independent. The library starts no thread, keeps no signal handler and prints nothing. Do not call
 * it from a signal handler, and do not cancel a thread that is in a call.
 *
 * MEMORY. It uses malloc, realloc and free. When an allocation fails, the call returns UDFBURN_MEMORY. Results that you
 * must free are freed with udfburn_free(). Structures that begin with `size` may grow: set it to the sizeof of yours.
 *
 * STACK. A call needs 64 KiB of stack. Give a thread that calls the library at least 128 KiB, and what your drive's
 * functions need.
 *
 * TEXT. All texts end with a zero byte. Paths of the host's file system are passed on as they are. Paths on the volume and
 * labels are UTF-8. A path on the volume begins with a slash, has no empty name, and no slash at its end; "/" alone is the
 * root. A name is not "." or "..", and has at most 254 characters, or 127 if one of them is above U+00FF. A label has 1 to
 * 30, or 1 to 15. U+FEFF, U+FFFE and characters above U+FFFF are not valid.
 *
 * MOMENTS are microseconds since 1970-01-01 UTC, below UDFBURN_MOMENT_LIMIT.
 *
 * WHAT YOU MUST CHECK. Check the status of every call: an output is set only as its call says. Pass only handles that an
 * open call returned and that are not closed, and pointers to as many bytes as you say. A NULL where a pointer is needed
 * returns UDFBURN_ARGUMENT. No other process may write the medium while it is open.
 *
 * ABI. A program that runs with one libudfburn.so.0 runs with every later libudfburn.so.0: functions, structures and
 * numbers below stay as they are. New functions and new statuses may be added, so treat a status that you do not know as
 * a failure after which nothing is known.
 */
#ifndef UDFBURN_H
#define UDFBURN_H

#include <stddef.h>
#include <stdint.h>

#ifdef __cplusplus
extern "C" {
#endif

/* The version of this header: 10,000 times the first number, 100 times the second, and the third. */
#define UDFBURN_VERSION_NUMBER 300

/* The limits of a volume. */
#define UDFBURN_BLOCK 2048                            /* bytes of a block */
#define UDFBURN_LEAST_CAPACITY 512                    /* blocks of a volume */
#define UDFBURN_GREATEST_CAPACITY 450000              /* blocks of a volume */
#define UDFBURN_FILE_LIMIT 1048576                    /* bytes that one request gives a file */
#define UDFBURN_GREATEST_FILE 921698304               /* bytes of a file, with all that was appended to it */
#define UDFBURN_NODES 4096                            /* files and directories of a volume, the root included */
#define UDFBURN_NAMES 512                             /* names of a directory */
#define UDFBURN_DEPTH 16                              /* names of a path */
#define UDFBURN_NAME_LIMIT 508                        /* bytes of a name, as UTF-8 */
#define UDFBURN_PATH_LIMIT 8144                       /* bytes of a path on the volume, as UTF-8 */
#define UDFBURN_LABEL_LIMIT 60                        /* bytes of a label, as UTF-8 */
#define UDFBURN_REPLIES 4                             /* replies that are kept for each client */
#define UDFBURN_CLIENTS 64                            /* clients that a volume takes, for ever */
#define UDFBURN_CLIENTS_LINUX 38                      /* clients with which Linux mounts it: with more it never does again */
#define UDFBURN_MOMENT_LIMIT 4102444800000000u        /* the first moment that a volume cannot record */

/* How the name of a file in the root begins that is not whole yet: see udfburn_put(). */
#define UDFBURN_UNFINISHED ".udfburn-unfinished-"

/* ---- Statuses ------------------------------------------------------------------------------------------------------ */

/* All are int32_t, which the calls return: the first one is no status, and makes generators of bindings see a signed type. */
enum udfburn_code {
    UDFBURN_SIGNED = -1,
    UDFBURN_OK = 0,

    /* The call could not do its work. After UDFBURN_MEMORY, UDFBURN_DEVICE, UDFBURN_NO_SPACE and UDFBURN_READ_ONLY a request
     * may be committed or not: send it again with the same number, and it runs once. */
    UDFBURN_MEMORY = 1,         /* not enough memory */
    UDFBURN_DEVICE = 2,         /* the file or the drive cannot be opened, or failed: udfburn_reason() says why */
    UDFBURN_TOO_LONG = 3,       /* a frame is longer than a frame may be: nothing after it is read. To udfburn_get: the
                                 * file has more than UDFBURN_FILE_LIMIT bytes; to udfburn_put: the stream has more
                                 * than UDFBURN_GREATEST_FILE */
    UDFBURN_TEXT = 4,           /* a label or a path is not valid */
    UDFBURN_VOLUME = 5,         /* no volume, a damaged one, or one that cannot be made with this moment or capacity */
    UDFBURN_ARGUMENT = 6,       /* NULL, or another argument that the call does not accept */
    UDFBURN_NONE = 7,           /* there is none: no block waits, or no commit comes before */
    UDFBURN_MISUSE = 8,         /* another call is on the handle, or it is a handle of the parent, or the call does not fit the
                                 * group that is open, or that none is: nothing was done */
    UDFBURN_BUSY = 9,           /* another handle or another process has the file or the drive */
    UDFBURN_NO_IMAGE = 10,      /* there is no file of this name in its folder */
    UDFBURN_NO_SPACE = 11,      /* the disk, its quota or RLIMIT_FSIZE has no room for the file; else as UDFBURN_DEVICE */
    UDFBURN_READ_ONLY = 12,     /* the file may not be written, or its file system; else as UDFBURN_DEVICE. Or the handle
                                 * only reads: nothing was done */
    UDFBURN_OLDER = 13,         /* the volume has fewer commits than udfburn_expect() was told */
    UDFBURN_READER = 14,        /* the reader of udfburn_put() failed */

    /* The request is committed, but the tree stays as it was. A repeat gets the same status. Queries return
     * UDFBURN_NOT_FOUND, UDFBURN_IS_DIRECTORY and UDFBURN_NOT_DIRECTORY too, and commit nothing. */
    UDFBURN_NO_PARENT = 33,     /* the parent is not a directory of the tree */
    UDFBURN_NOT_FOUND = 34,     /* the path does not exist */
    UDFBURN_EXISTS = 35,        /* the path exists. Of an append: the file does not end at this offset, or takes no more */
    UDFBURN_IS_DIRECTORY = 36,  /* it is a directory, and a file is needed */
    UDFBURN_NOT_EMPTY = 37,     /* a directory that is not empty is not removed */
    UDFBURN_INTO_ITSELF = 38,   /* a directory is not moved below itself */
    UDFBURN_ROOT = 39,          /* the root is not created, replaced, appended to, moved or removed */
    UDFBURN_TOO_DEEP = 40,      /* a path would have more than 16 names */
    UDFBURN_DIRECTORY_FULL = 41, /* the parent has 512 names */
    UDFBURN_TREE_FULL = 42,     /* the tree has 4,096 files and directories. Of an append: the file has UDFBURN_GREATEST_FILE bytes */
    UDFBURN_NOT_DIRECTORY = 43, /* it is a file, and a directory is needed (queries only) */

    /* The call committed nothing, and changed nothing. */
    UDFBURN_STALE = 48,         /* the number was committed before, and its reply is not kept any more */
    UDFBURN_GAP = 49,           /* the number is above the client's next one */
    UDFBURN_CLIENTS_FULL = 50,  /* the volume has 64 clients and takes no further one */
    UDFBURN_FULL = 51,          /* the medium has no room for it; a smaller request may still fit */
    UDFBURN_USED = 52,          /* the number was committed before, and the tree does not show what this request asks for:
                                 * it is another request's number, or somebody changed the path since. Keep the source */
    UDFBURN_ROOM = 53           /* the result is longer than the room for it */
};

/* The name of a status, such as "UDFBURN_EXISTS", and "UDFBURN_UNKNOWN" for any other number. Never NULL, never freed. */
const char *udfburn_error_name(int32_t status);

/* The version of the library, such as "1.2.0". Never NULL, never freed. */
const char *udfburn_version(void);

/* A volume that is open. */
typedef struct udfburn udfburn;

/* Why a call failed. */
struct udfburn_reason {
    size_t size;                /* set it to sizeof(struct udfburn_reason) */
    int32_t status;             /* what the call returned */
    int32_t error;              /* errno of what failed below it, or the number that a function of yours returned; or 0 */
    char call[32];              /* that failed, such as "fsync", "drive.write" or "reader"; "" if nothing below it failed */
    char path[256];             /* of the file that was opened or made by its path: its last 255 bytes; else "" */
};

/* Why the last call on a handle failed that did. With NULL: the last one in this thread that failed without a handle, such as
 * an open, or with UDFBURN_MISUSE. A later success changes nothing here. UDFBURN_NONE: none failed. UDFBURN_ARGUMENT,
 * UDFBURN_MISUSE. */
int32_t udfburn_reason(udfburn *handle, struct udfburn_reason *reason);

/* ---- Volumes ------------------------------------------------------------------------------------------------------- */

/* Make a volume in the file at `path`, which is created if it is missing. An empty file will do, and so will one in which a
 * format with the same label, moment and capacity was interrupted: that format is finished. A volume that these three
 * made, with no commit yet, stays as it is: that is success too. Every other file stays as it is, and the status is
 * UDFBURN_VOLUME. After UDFBURN_OK the volume and its name are on the disk.
 *   Give each volume a moment of its own: readers show it as the volume's UUID. Keep it until the call returns UDFBURN_OK,
 * so that you can finish a format that was interrupted. A loss of power may leave one that cannot be finished: the status
 * is UDFBURN_VOLUME. Until that UDFBURN_OK nothing of yours is in the file, so you may delete it and format again.
 *   The path's last part may not be a symbolic link, and its folder must be readable.
 * UDFBURN_TEXT: the label is not valid. UDFBURN_VOLUME: also a moment or a capacity that is out of range. UDFBURN_BUSY,
 * UDFBURN_NO_SPACE, UDFBURN_READ_ONLY, UDFBURN_DEVICE, UDFBURN_MEMORY, UDFBURN_ARGUMENT. A file that was created for the
 * call may be left empty on failure. */
int32_t udfburn_format(const char *path, const char *label, uint64_t moment, uint32_t capacity);

/* The same on an open descriptor, which must be of a regular file, open for reading and writing, without O_APPEND. The
 * descriptor belongs to the library from the call on, which closes it, whatever the status is: do not close it, and do
 * not use it. If the file is new, sync its folder yourself. */
int32_t udfburn_format_fd(int32_t fd, const char *label, uint64_t moment, uint32_t capacity);

/* Open the volume in the file at `path`, and set `*out`. The file is locked (flock) until udfburn_close(): a second open
 * of it returns UDFBURN_BUSY, in this process or in another. The file is synced before anything is read, and its name
 * too. Blocks of messages that came together and were cut off before any was answered are cut off the file. If it loses its
 * last name while it is open, calls on the handle return UDFBURN_DEVICE.
 *   The path's last part may not be a symbolic link, and its folder must be readable. The file must be writable.
 * UDFBURN_NO_IMAGE: its folder is there, and no file of this name in it. A folder that is missing is UDFBURN_DEVICE, as where a
 * disk is not mounted: so keep the file in a folder of the disk, and format after UDFBURN_NO_IMAGE alone. UDFBURN_VOLUME: the
 * file holds no volume, or a damaged one, or a format was interrupted. UDFBURN_BUSY, UDFBURN_READ_ONLY, UDFBURN_DEVICE,
 * UDFBURN_MEMORY, UDFBURN_ARGUMENT. `*out` is NULL on failure. */
int32_t udfburn_open(const char *path, udfburn **out);

/* The same on an open descriptor, as in udfburn_format_fd(). That the file keeps its name is for you to see to.
 *   A duplicate of the descriptor (by dup, fork or a socket) has the same lock, which udfburn_close() gives up. In this process
 * a second open by one returns UDFBURN_BUSY all the same. Let no other process open the file by one while this handle is
 * open. */
int32_t udfburn_open_fd(int32_t fd, udfburn **out);

/* Open the volume in the file at `path` as it was after a commit, to read it: its number, or UDFBURN_NEWEST. Nothing is written
 * and nothing is locked, so another process may write to it meanwhile: the handle shows what it was at the call. Requests on
 * it return UDFBURN_READ_ONLY. The newest commit that is there may not be acknowledged yet.
 *   UDFBURN_NONE: it has no such commit. Other statuses as udfburn_open(), but for UDFBURN_BUSY. */
#define UDFBURN_NEWEST 0xFFFFFFFFu
int32_t udfburn_open_read(const char *path, uint32_t commit, udfburn **out);

/* Say that commits up to this number were acknowledged: the one that your last request returned. UDFBURN_OLDER: the volume has
 * fewer, as an older copy, or one that was cut short or damaged at its end. Every request, and every query by a path, returns
 * it on this handle from then on. Keep the file, and look for the right one. UDFBURN_DEVICE, UDFBURN_MEMORY, UDFBURN_VOLUME. */
int32_t udfburn_expect(udfburn *handle, uint32_t commit);

/* A new volume in memory. You write its blocks to the medium yourself: see udfburn_next_block(). All its blocks stay in
 * memory until udfburn_close(). To go on later with a volume that is on a medium, open it as a drive of your own.
 *   Statuses as udfburn_format(). */
int32_t udfburn_open_memory(const char *label, uint64_t moment, uint32_t capacity, udfburn **out);

/* Close a volume, give its lock up and free the handle. Nothing is written: all that was acknowledged is on the medium
 * already. A group that is open is taken back: nothing of it is there. NULL is allowed. While another call is on the handle,
 * nothing is done: close it again afterwards. */
void udfburn_close(udfburn *handle);

/* ---- Requests ------------------------------------------------------------------------------------------------------
 *
 * A request has a client and a number. A client is a number above 0 that you choose once for what writes, and keep; a
 * volume knows 64 of them. A client's requests have the numbers 1, 2, 3, .., and the volume commits each number once. So a
 * repeat is safe: the same request under the same number runs once, and gets the reply that was kept. The last four
 * replies are kept.
 *
 * Use one of two ways:
 *   - Set the number to 0. The call takes the client's next number and writes it into the structure before it does
 *     anything. After UDFBURN_DEVICE, call again with the same structure. After UDFBURN_MEMORY, or if it fails again, close
 *     the handle, open the volume again, and do the same. For another request set the number to 0 again.
 *   - Number requests yourself, and store each number and moment with its request before you send it. After a crash send
 *     the last one again, with the same number and moment. udfburn_last_number() says which numbers are committed, but not
 *     whether they were refused: before you delete a source, send its request again, or look at the tree.
 *
 * The calls return UDFBURN_OK when the change is committed and durable (of a volume in memory: when its blocks can be
 * taken; in a group: see there), 33 to 42 when the request is committed and refused, and the other statuses as said above.
 * UDFBURN_ARGUMENT: also client 0, a moment past the limit, or more than UDFBURN_FILE_LIMIT bytes. */
struct udfburn_request {
    uint64_t client;            /* above 0 */
    uint64_t number;            /* above 0; or 0: the client's next number, which the call writes here */
    uint64_t moment;            /* the time that the volume shows for the change; it may be before that of another */
    uint32_t commit;            /* out: the commit of the request, from 1 on; 0: it is not known to be committed */
    uint32_t repeated;          /* out: 1 if it was committed before this call, else 0 */
};

/* Create a file of `length` bytes. `data` may be NULL if `length` is 0. */
int32_t udfburn_create(udfburn *handle, struct udfburn_request *request, const char *path, const void *data,
                       size_t length);

/* Replace the bytes of a file. The old ones stay on the medium, in the tree of the commit before. */
int32_t udfburn_replace(udfburn *handle, struct udfburn_request *request, const char *path, const void *data,
                        size_t length);

/* Append bytes to a file that has `offset` bytes: at least one, at most UDFBURN_FILE_LIMIT. So a file grows by pieces, of which
 * all but the last have UDFBURN_FILE_LIMIT bytes: `offset` is a multiple of it. Begin with a create of the first piece, or of
 * an empty file. Each append is a commit of its own: readers see the file grow. To show it when it is whole, append under
 * another name and rename it.
 *   UDFBURN_EXISTS: the file has more or fewer bytes, or its last piece is shorter. A piece that is sent again under a new number
 * gets it too, and is there once. UDFBURN_TREE_FULL: `offset` is UDFBURN_GREATEST_FILE or more. UDFBURN_ARGUMENT: also no bytes.
 * A repeat of an old number is UDFBURN_OK where the file has these bytes at `offset`, also if more were appended since. */
int32_t udfburn_append(udfburn *handle, struct udfburn_request *request, const char *path, uint64_t offset,
                       const void *data, size_t length);

/* A function that gives a stream. It copies at least one byte and at most `room`, those from `offset` on, to `into`, and returns how
 * many. 0 ends the stream, and a number below 0 says that it failed. In each call of udfburn_put() the offsets come in order, from 0
 * on: pread() fits, and read() for a stream that need not be given again. It may do what a drive's functions may: see there. */
typedef int64_t (*udfburn_reader)(void *context, uint64_t offset, void *into, size_t room);

/* Create a file of up to UDFBURN_GREATEST_FILE bytes from a stream. It gets its path when it is whole. From UDFBURN_FILE_LIMIT bytes
 * on it grows in the root before that, under a name of UDFBURN_UNFINISHED and the client. So it takes several requests, which have
 * the client's next numbers: `number` is not read.
 *   After a failure or a crash call it again, with the stream from its beginning. What is on the volume is read and compared with
 * the stream. A file at `path` that has all of its bytes is UDFBURN_OK, with `repeated` 1. An unfinished file keeps the pieces with
 * which the stream begins, and gets the others. A client has one: a stream that begins otherwise takes its place. No other file is
 * changed.
 *   At UDFBURN_OK `number` is that of the last request, or 0 if none was needed, and `commit` is one with which the file is there.
 * UDFBURN_EXISTS: `path` is a directory, or a file of other bytes. UDFBURN_READER: the reader failed, or returned more than `room`;
 * udfburn_reason() has its number, or EOVERFLOW. UDFBURN_TOO_LONG. UDFBURN_FULL: udfburn_room() tells before. After these two the
 * unfinished file is removed; after others it stays. UDFBURN_ARGUMENT: also a volume in memory, or a path that begins as that of
 * an unfinished file. UDFBURN_MISUSE: also in a child that the reader made. Others as udfburn_create(). */
int32_t udfburn_put(udfburn *handle, struct udfburn_request *request, const char *path, udfburn_reader reader,
                    void *context);

/* Make a directory. */
int32_t udfburn_mkdir(udfburn *handle, struct udfburn_request *request, const char *path);

/* Rename or move a file or a directory, to a path that does not exist. */
int32_t udfburn_rename(udfburn *handle, struct udfburn_request *request, const char *from, const char *to);

/* Remove a file or an empty directory. */
int32_t udfburn_remove(udfburn *handle, struct udfburn_request *request, const char *path);

/* The number of the client's last committed request, done or refused. `*number` is 0 if the volume knows none of it. */
int32_t udfburn_last_number(udfburn *handle, uint64_t client, uint64_t *number);

/* ---- Groups --------------------------------------------------------------------------------------------------------
 *
 * A request on a file takes two syncs of the disk. Those between udfburn_begin() and udfburn_settle() take two together:
 *
 *     int32_t status = udfburn_begin(disc);
 *     for (i = 0; i < count && status == UDFBURN_OK; i++) status = udfburn_create(disc, &requests[i], paths[i], ..);
 *     int32_t settled = udfburn_settle(disc);
 *
 * Each is a commit of its own, and its call returns its status at once, by the tree that those before it left. Queries see that
 * tree too. But nothing of a group is promised until udfburn_settle() has returned UDFBURN_OK: keep the sources until then. After
 * a crash, a loss of power or udfburn_close() the group is there as a whole, or nothing of it is.
 *   A long group is several: the call after the 64th commit settles these first. What is settled stays, whatever becomes of the rest.
 *   If the disk cannot have the group, or there is no memory for it, it is taken back. The call that finds that out returns
 * UDFBURN_DEVICE, UDFBURN_NO_SPACE, UDFBURN_READ_ONLY or UDFBURN_MEMORY. So does every call on the handle after it, up to
 * udfburn_settle(), which ends the group; only udfburn_reason() and udfburn_close() do their work. Then the handle is as after an
 * open. For each client udfburn_last_number() gives the last request that is there, as after a crash, and the calls up to it have
 * returned what became of them. Send those after it again, in order, with their numbers and moments: each runs once.
 *   On a drive of yours, in a recorder and in memory writes are in order anyway: each request is as without a group, and
 * udfburn_settle() returns UDFBURN_OK. */

/* Begin a group. UDFBURN_MISUSE: one is open. UDFBURN_READ_ONLY: the handle only reads. UDFBURN_ARGUMENT: NULL, or a frame is
 * incomplete, or answers wait. UDFBURN_DEVICE, UDFBURN_MEMORY. */
int32_t udfburn_begin(udfburn *handle);

/* End the group that is open. UDFBURN_OK: the disk has all of it. Otherwise all that was not settled before is taken back.
 * UDFBURN_MISUSE: none is open. UDFBURN_DEVICE, UDFBURN_NO_SPACE, UDFBURN_READ_ONLY, UDFBURN_MEMORY, UDFBURN_ARGUMENT. */
int32_t udfburn_settle(udfburn *handle);

/* ---- Queries ------------------------------------------------------------------------------------------------------- */

enum { UDFBURN_FILE = 0, UDFBURN_DIRECTORY = 1 };

/* What a path names. */
struct udfburn_node {
    uint64_t moment;            /* of its last change */
    uint64_t size;              /* bytes of a file, or names of a directory */
    int32_t kind;               /* UDFBURN_FILE or UDFBURN_DIRECTORY */
};
int32_t udfburn_stat(udfburn *handle, const char *path, struct udfburn_node *node);

/* Copy the bytes of a file to `into`, and set `*length` to their number. UDFBURN_ROOM: they are more than `room`. `*length`
 * says how many then, and nothing is copied. UDFBURN_TOO_LONG: they are more than UDFBURN_FILE_LIMIT; use udfburn_read(). A room
 * of UDFBURN_FILE_LIMIT bytes is enough for every other file. `into` may be NULL if `room` is 0. */
int32_t udfburn_get(udfburn *handle, const char *path, void *into, size_t room, size_t *length);

/* Copy the bytes of a file from `offset` on to `into`, at most `room` of them, and set `*length` to their number. It is less than
 * `room` only where the file ends, and 0 at its end or after it. `into` may be NULL if `room` is 0. On failure `*length` is 0,
 * and what `into` has is not known. */
int32_t udfburn_read(udfburn *handle, const char *path, uint64_t offset, void *into, size_t room, size_t *length);

/* One name of a directory. */
struct udfburn_name {
    const char *name;           /* UTF-8, ends with a zero byte */
    int32_t kind;               /* UDFBURN_FILE or UDFBURN_DIRECTORY */
};

/* The names of a directory, a new one after the others. `*names` is one block, strings included: free it with one
 * udfburn_free(). On failure `*names` is NULL and `*count` is 0. */
int32_t udfburn_list(udfburn *handle, const char *path, struct udfburn_name **names, size_t *count);

/* One name of a directory, and what it names. */
struct udfburn_entry {
    const char *name;           /* UTF-8, ends with a zero byte */
    uint64_t size;              /* bytes of a file, or names of a directory */
    uint64_t moment;            /* of its last change */
    int32_t kind;               /* UDFBURN_FILE or UDFBURN_DIRECTORY */
    int32_t reserved;           /* 0 */
};

/* As udfburn_list(), with what udfburn_stat() gives of each name. The structure may grow: `stride` is the sizeof of yours, and
 * so far each lies from the one before. Free `*entries` with one udfburn_free(). */
int32_t udfburn_entries(udfburn *handle, const char *path, size_t stride, struct udfburn_entry **entries, size_t *count);

/* Free a result. NULL is allowed. */
void udfburn_free(void *memory);

/* A volume at a glance. C++ needs the word `struct` too, since a function has the same name. */
struct udfburn_status {
    uint64_t moment;            /* of the newest commit, or of the format */
    uint32_t capacity;          /* in blocks */
    uint32_t next;              /* the block that is written next: so many are used */
    uint32_t commits;
    uint32_t files;
    uint32_t directories;       /* the root included */
    uint32_t clients;
    char label[64];             /* UTF-8, ends with a zero byte */
};
int32_t udfburn_status(udfburn *handle, struct udfburn_status *status);

/* The same with what later versions add. Set `size` to the sizeof of yours. */
struct udfburn_volume {
    size_t size;
    uint64_t identity;          /* the moment of the format, by which volumes differ; UINT64_MAX where it cannot be read any more */
    uint64_t moment;            /* of the newest commit, or of the format */
    uint32_t capacity;          /* in blocks */
    uint32_t next;              /* the block that is written next, at most the capacity */
    uint32_t unused;            /* blocks between the newest commit and `next`: of a commit that was interrupted or damaged */
    uint32_t commits;
    uint32_t files;
    uint32_t directories;       /* the root included */
    uint32_t clients;
    char label[64];             /* UTF-8, ends with a zero byte */
};
int32_t udfburn_describe(udfburn *handle, struct udfburn_volume *volume);

/* Whether a file of `size` bytes can be created at `path` now, or replaced where it is there. UDFBURN_OK: there is room, also
 * for a new client. UDFBURN_FULL: there may be none. Other statuses are those that the request would return, such as
 * UDFBURN_NO_PARENT and UDFBURN_DIRECTORY_FULL. Above UDFBURN_FILE_LIMIT it is whether udfburn_put() can store it; bytes of
 * another volume may need more room. UDFBURN_ARGUMENT: more than UDFBURN_GREATEST_FILE bytes. Nothing is written. */
int32_t udfburn_room(udfburn *handle, const char *path, uint64_t size);

/* A commit of a volume. */
struct udfburn_commit {
    uint64_t moment;            /* the moment of its request, or of the format */
    uint32_t number;            /* from 1 on; 0 is the format */
    uint32_t address;           /* of its last block, the VAT ICB: the blocks up to it are the volume as it was then */
    uint32_t files;             /* how many the tree had after it */
    uint32_t directories;       /* the root included */
};

/* The commits, the newest first, one a call. Begin with a structure of zeros. Each call replaces the commit in it by the one
 * before, down to the format:
 *
 *     struct udfburn_commit commit = { 0 };
 *     while (udfburn_log(disc, &commit) == UDFBURN_OK) ..
 *
 * The call goes by `address` alone: at 0 it gives the newest commit. Nothing is kept between calls, so requests may come
 * between them, and so may the end of the loop.
 *   UDFBURN_NONE: there is none before it, or the address is outside of what the volume has written; the structure stays as it
 * was. UDFBURN_VOLUME: the block at this address ends no commit, or the commit before is damaged. UDFBURN_DEVICE,
 * UDFBURN_MEMORY, UDFBURN_ARGUMENT; the structure stays too. */
int32_t udfburn_log(udfburn *handle, struct udfburn_commit *commit);

/* ---- Frames --------------------------------------------------------------------------------------------------------
 *
 * The calls above are made of these: messages and answers as on the pipe of `udfburn apply` (docs/PROTOCOL.md). Use them
 * to serve a connection. The calls above return UDFBURN_ARGUMENT while a frame is incomplete or answers wait, except
 * udfburn_status() and udfburn_log(). */

/* Take `count` bytes of the stream of messages, cut anywhere, and answer every message that is complete. Each answer is
 * made after its commit is on the medium. The answers wait in the handle until udfburn_take().
 *   On a file messages that one call brings are written together: two syncs for up to 64 commits or 64 KiB of answers. Each is
 * a commit all the same. If a call of the system fails, they are written one by one.
 *   UDFBURN_MEMORY and UDFBURN_TOO_LONG end the stream: the answers that wait may be taken, some message may have been
 * run without an answer, and every later call returns the same status, except udfburn_status() and udfburn_log(). Close
 * the handle and open the volume again, and repeat each request that has no answer, with its number.
 *   UDFBURN_DEVICE: the file lost its name. No answer waits, and every later call returns the same. Other failures of the
 * file or the drive are answers.
 *   UDFBURN_ARGUMENT: NULL. The stream goes on. UDFBURN_MISUSE: nothing was taken; also in a group of udfburn_begin(). */
int32_t udfburn_answer(udfburn *handle, const void *bytes, size_t count);

/* How many bytes of answers wait; 0 for a misuse too. */
size_t udfburn_answered(const udfburn *handle);

/* Move the first bytes of the answers to `into`, at most `room`, and return how many. */
size_t udfburn_take(udfburn *handle, void *into, size_t room);

/* ---- A volume in memory --------------------------------------------------------------------------------------------
 *
 * Take its blocks in order, and write them to the medium in this order. The first 262 are those of the format. Then send
 * one request at a time, and take all its blocks, until none waits, before the next request. The last of them makes the
 * commit valid: write it after the others are durable. The request is acknowledged when the last one is durable too, and
 * not before. You may write each block when you get it, and sync it before the next one. Or collect those of a request,
 * write all but the last one, sync, write the last one, and sync again. If a block cannot be written, close the handle: the
 * medium holds the commits that are complete there.
 *   After UDFBURN_MEMORY the request is not acknowledged, though blocks of it may wait. Write all that wait, in order, or none
 * of them, and close the handle: either way the medium holds a sound volume. Open it as a drive of your own, and send the
 * request again with its number: it runs once. */

/* Copy the next block to `block`, which has room for UDFBURN_BLOCK bytes, and its address. It returns the same block until
 * udfburn_took(). UDFBURN_NONE: no block waits, or the volume is not in memory. */
int32_t udfburn_next_block(udfburn *handle, uint32_t *address, void *block);

/* The block that udfburn_next_block() returned is written, or collected: go on to the one after it. UDFBURN_NONE: no block
 * waits, or the volume is not in memory. */
int32_t udfburn_took(udfburn *handle);

/* ---- A drive of your own -------------------------------------------------------------------------------------------
 *
 * For a medium that is not a file. These functions are in libudfburn.so and in libudfburn_drive.a, which has everything of
 * libudfburn.a too: link one of the two archives, not both.
 *
 * The library calls your functions from within the call on the handle, in the same thread, one at a time. Each returns 0
 * for success and any other number for failure. They must return: no longjmp, no C++ exception, no end of the thread. A call
 * on the handle that they serve is UDFBURN_MISUSE; other handles they may use.
 *
 * A drive is a row of blocks of UDFBURN_BLOCK bytes, addressed from 0. This is what it owes:
 *
 *   capacity  How many blocks the medium has room for, always the same.
 *   next      One more than the greatest address that was written, or 0. The library writes there next.
 *   read      Copy `count` blocks from `address` on. All are below `next`. A read gives what the medium holds, which is
 *             what was written last there, also after a restart. It does not give what only a cache holds.
 *   write     Write `count` blocks from `address` on, which is `next`. They fit the capacity; there may be more than
 *             a packet of yours takes, so cut them as you need, in order. When it returns 0, all of them are durable: no
 *             crash and no loss of power takes them away, and `next` is `address + count`.
 *             When it fails, or power is lost before it returns, any choice of its blocks may be on the medium. Each of
 *             them is then whole, or reads as 2,048 zero bytes; none before `address` has changed; and `next` is anything
 *             from `address` to `address + count`. A block that became unreadable in such a write must read as zeros.
 *
 * The library writes the last block of a commit in a write of its own, after all blocks before it were durable. It never
 * writes an address twice.
 *
 * A MEDIUM THAT IS WRITTEN IN PACKETS may take all blocks of a commit at once. For it there are two exceptions:
 *   - A write may hold its blocks back in memory up to the last block of the commit: a write of one block for which
 *     udfburn_is_vat_icb() is 1. When that one returns 0, it is durable and so are all before it. If power is lost, no block is
 *     on the medium without those before it. Until then `next` counts what is held, and `read` gives it. If the write fails,
 *     what is held is forgotten: `next` is that of the medium.
 *   - After that last block `next` may be more than `address + 1`. What lies between reads as zeros, or as copies of that
 *     block by udfburn_copy_vat_icb(). With at least three copies, up to the end of the packet, Linux finds the end of a disc.
 * The library then opens the volume again before it acknowledges the commit, and goes on at `next`. With UDFBURN_VERIFY such a
 * drive reads its packet back by itself, since `read` gives what it holds.
 *
 * After a write that failed, send the request again. If blocks of its commit are on the medium by then, every request and
 * query returns UDFBURN_DEVICE: close the handle and open the drive again. It goes on after those blocks, and the request
 * with its number still runs once. */
struct udfburn_drive {
    void *context;              /* passed to each function */
    int32_t (*capacity)(void *context, uint32_t *blocks);
    int32_t (*next)(void *context, uint32_t *address);
    int32_t (*read)(void *context, uint32_t address, uint32_t count, void *blocks);
    int32_t (*write)(void *context, uint32_t address, uint32_t count, const void *blocks);
};

/* Make a volume on a drive. Its capacity is that of the drive, but at most UDFBURN_GREATEST_CAPACITY. The drive must be
 * blank, or hold the beginning of a format with the same label and moment. Statuses as udfburn_format(). */
int32_t udfburn_format_drive(const struct udfburn_drive *drive, const char *label, uint64_t moment);

/* Open the volume on a drive. The structure is copied; what `context` points to must stay until udfburn_close(). A drive
 * with the same context and functions can be open once: the second open returns UDFBURN_BUSY. Statuses as
 * udfburn_open(). */
int32_t udfburn_open_drive(const struct udfburn_drive *drive, udfburn **out);

/* The same with flags. UDFBURN_VERIFY: what was written is read back and compared before the next write, and before the
 * request is acknowledged. If it differs, the write failed: the request returns UDFBURN_DEVICE, as described above. It costs
 * a read of every block. Use it where `read` gives what the medium has. UDFBURN_ARGUMENT: also an unknown flag. */
#define UDFBURN_VERIFY 1u
int32_t udfburn_open_drive_with(const struct udfburn_drive *drive, uint32_t flags, udfburn **out);

/* Try a blank drive of at least UDFBURN_LEAST_CAPACITY blocks: write some blocks, with a VAT ICB after them, and compare what
 * `next` and `read` give. The drive is not blank afterwards. It cannot try durability, or what a failed write leaves.
 * UDFBURN_DEVICE: the drive breaks a rule or failed. `*broken` is then a sentence that says which, never freed; else it is
 * NULL. `broken` may be NULL. */
int32_t udfburn_drive_check(const struct udfburn_drive *drive, const char **broken);

/* Whether a block of UDFBURN_BLOCK bytes is a VAT ICB at this address, with which a commit ends: 1 or 0. */
int32_t udfburn_is_vat_icb(const void *block, uint32_t address);

/* Copy a VAT ICB to `copy`, which may be the same block, as the VAT ICB of the same table that lies at another address. */
void udfburn_copy_vat_icb(const void *block, uint32_t address, void *copy);

/* ---- A disc in a recorder ------------------------------------------------------------------------------------------
 *
 * A CD-R, DVD-R, DVD+R or BD-R in a recorder: `device` is Linux's /dev/srN or /dev/sgN. Each commit is a packet, filled up with
 * copies of its VAT ICB to the medium's unit of 1, 16 or 32 blocks, at least three. So Linux mounts the disc at any time, without
 * options, once it was ejected and loaded again. A request is acknowledged when the drive's SYNCHRONIZE CACHE has succeeded and
 * the drive goes on after the packet; with UDFBURN_VERIFY also read it back from the medium. The disc stays open: nothing closes
 * its session. Tried on emulated recorders only.
 *   The drive is opened for this process alone and its tray is locked: UDFBURN_BUSY if another process has it, or Linux has the
 * disc mounted. A child of fork() may only close the handle.
 *   After a write that failed, close the handle and open the device again: it goes on after what the write spoiled. Where a
 * format failed like that, format again. If that returns UDFBURN_VOLUME and udfburn_reason() has the call "anchor" or "header",
 * a block that no volume can be without is spoiled: take another disc.
 *   In udfburn_reason() `call` is the command that failed, such as "WRITE(10)", and `error` its sense data: the key * 65536, the
 * additional code * 256 and its qualifier (0x30C00: write error); else it is errno. ENOMEDIUM: no disc. EMEDIUMTYPE: a disc of
 * another kind. UDFBURN_READ_ONLY: the disc is closed. UDFBURN_VOLUME: also a disc of several tracks. */
int32_t udfburn_format_mmc(const char *device, const char *label, uint64_t moment);
int32_t udfburn_open_mmc(const char *device, uint32_t flags, udfburn **out);

/* As udfburn_drive_check(), on a blank disc in a recorder, which no volume can be made on afterwards. */
int32_t udfburn_mmc_check(const char *device, const char **broken);

#ifdef __cplusplus
}
#endif
#endif
