/* What the C files of the library share, and the core that crates/capi exports. Nothing of it is seen from outside. */
#ifndef UDFBURN_INTERNAL_H
#define UDFBURN_INTERNAL_H

#include "udfburn.h"

#include <sys/types.h>

/* ---- Calls ----
 *
 * Each call of udfburn.h begins and ends with these. A handle is in one call at a time, in the process that opened it. */

/* Why a call failed: what udfburn_reason() gives. */
struct udfburn_why {
    int32_t status;
    int32_t error;              /* errno, or what a function of a drive returned */
    const char *call;           /* that failed, or NULL */
    char path[256];             /* of the host; its end if it is longer */
};

/* A call that this thread is in. The one that it was made from, by a function of a drive, is `outer`. */
struct udfburn_call {
    udfburn *handle;            /* NULL: it has none */
    const char *path;           /* of the host, or NULL */
    const char *failed;         /* the first call of the system that failed, or NULL */
    int32_t error;              /* its errno */
    int32_t status;             /* what UDFBURN_DEVICE is for that reason */
    int32_t locked;             /* the descriptor whose lock is given up before it is closed, or -1 */
    struct udfburn_call *outer;
};

/* Begins a call. UDFBURN_ARGUMENT without a handle, UDFBURN_MISUSE where another call is on it, or its process is the parent of
 * this one, and why the open group is lost where it is: the call must not be ended then. */
int32_t udfburn_enter(struct udfburn_call *call, udfburn *handle);

/* The same for a call that may be made where the group is lost. */
int32_t udfburn_enter_lost(struct udfburn_call *call, udfburn *handle);

/* The same for a call that has no handle: it succeeds. */
void udfburn_enter_without(struct udfburn_call *call, const char *path);

/* Ends a call, and keeps why it failed. Returns what its caller is told: UDFBURN_DEVICE is made more exact. */
int32_t udfburn_leave(struct udfburn_call *call, int32_t status);

/* Notes that a call of the system failed, or a function of a drive, for the call that this thread is in. The first one counts. */
void udfburn_note(const char *failed, int32_t error);

/* The same, where UDFBURN_DEVICE is to be this status. */
void udfburn_note_as(int32_t status, const char *failed, int32_t error);

/* Why a group was lost where the core says UDFBURN_DEVICE: by the call of the system that failed. Where none did, memory was short for
 * what the core keeps of a group. */
int32_t udfburn_why_lost(void);

/* The descriptor that is locked: what udfburn_call.locked says. */
void udfburn_note_lock(int fd);
int udfburn_gives_up(int fd);

/* A handle belongs to the process that opens it. */
void udfburn_own(udfburn *handle);
int udfburn_is_own(const udfburn *handle);

/* The path of the file that a handle has, for what is told of it. */
void udfburn_keep_path(udfburn *handle, const char *path);

/* Structures that may grow: whether the size that a caller sets is one, and what was told as much of it as the caller knows. What this
 * library does not know is 0. */
int udfburn_has_room(size_t size, size_t least);
void udfburn_tell(void *into, size_t size, const void *told, size_t length);

/* A file that this process works on. */
struct udfburn_file {
    int32_t fd;                 /* -1: none */
    int32_t must_have_name;     /* since it was opened by its path */
    dev_t device;
    ino_t number;               /* on its device */
    struct udfburn_file *next;
};

/* A volume that is open. */
struct udfburn {
    int is_busy;                /* in a call; by atomic exchange */
    unsigned forks;             /* how often this process was forked when it was opened */
    pid_t process;
    int32_t in_memory;
    int32_t is_read_only;
    int32_t number;             /* of the file or the drive, or -1 */
    int32_t is_identified;
    uint64_t identity;          /* the moment of the format, once it is known */
    struct udfburn_why why;     /* why the last call failed that did; its path is that of the file */
    void *core;
    struct udfburn_file file;
    int32_t ended;              /* what udfburn_answer() returns from now on, or UDFBURN_OK */
    int32_t lost;               /* the file is not there any more, or the drive gives another volume: no answer is given; the errno, or 0 */
    int32_t in_group;           /* udfburn_begin() was called, and udfburn_settle() not yet */
    int32_t group_lost;         /* why the group was taken back, or UDFBURN_OK */
    unsigned length_bytes;      /* of the frame that has begun: how many bytes of its length came */
    uint32_t length;            /* these bytes, and then how many bytes of its payload are missing */
    uint8_t *kept;              /* answers of a core that was replaced, or NULL */
    size_t kept_count, kept_taken;
    void *port;                 /* of a caller's drive, else NULL */
    void (*release)(void *port);
};

/* A handle in which no volume is open yet, or NULL. */
udfburn *udfburn_new_handle(void);

/* Opens what is under a descriptor, or under the number of a drive, in a new handle: it is given, or closed with the number. */
int32_t udfburn_open_number(udfburn *handle, int32_t number, udfburn **out);

/* Whether the stream stands between two frames, and no answer waits. */
int udfburn_between_frames(const udfburn *handle);

/* The calls of these names, from within another one. */
int32_t udfburn_answer_in(udfburn *handle, const void *bytes, size_t count);
size_t udfburn_answered_in(const udfburn *handle);
size_t udfburn_take_in(udfburn *handle, void *into, size_t room);
void udfburn_close_in(udfburn *handle);
int32_t udfburn_look_at(udfburn *handle, const char *path, struct udfburn_node *node);
int32_t udfburn_list_in(udfburn *handle, const char *path, struct udfburn_name **names, size_t *count);
int32_t udfburn_read_in(udfburn *handle, const char *path, uint64_t offset, void *into, size_t room, size_t *length);
int32_t udfburn_room_in(udfburn *handle, const char *path, uint64_t size);
int32_t udfburn_create_in(udfburn *handle, struct udfburn_request *request, const char *path, const void *data, size_t length);
int32_t udfburn_append_in(udfburn *handle, struct udfburn_request *request, const char *path, uint64_t offset, const void *data,
                          size_t length);
int32_t udfburn_rename_in(udfburn *handle, struct udfburn_request *request, const char *from, const char *to);
int32_t udfburn_remove_in(udfburn *handle, struct udfburn_request *request, const char *path);

/* Whether a file has these bytes at an offset: UDFBURN_OK, UDFBURN_USED, or why it is not known. */
int32_t udfburn_has_bytes(udfburn *handle, const char *path, uint64_t offset, const void *data, size_t length);

/* Has the identity of a handle known. */
int32_t udfburn_identify(udfburn *handle);

/* Takes the open group back before the handle is closed. */
void udfburn_drop_group(udfburn *handle);

/* UDFBURN_DEVICE, from then on, where the file lost its name, or the descriptor is not of this file any more. */
int32_t udfburn_check_file(udfburn *handle);

/* The lock of the lists of files and of drives. No function of a caller's is called while it is held. */
void udfburn_lock(void);
void udfburn_unlock(void);

/* ---- Files ---- */

/* A name, and the folder that it is in. So the folder that is synced is the one that has the name. */
struct udfburn_place {
    int folder;
    const char *name;
};

/* Opens the folder of a path, which the caller closes. */
int32_t udfburn_find_place(const char *path, struct udfburn_place *place);

int32_t udfburn_sync_folder(const struct udfburn_place *place);

/* A descriptor of the regular file, or -1. */
int udfburn_open_regular(const struct udfburn_place *place);

/* The same, to read it alone. */
int udfburn_open_to_read(const struct udfburn_place *place);

/* The same, of a file that is made if the name is free. */
int udfburn_open_or_make(const struct udfburn_place *place);

/* Moves a file that has the number of a standard descriptor to a higher number, since what a program prints would be written to it.
 * The old number is closed. Returns the file's number, or -1 if it could not be moved. */
int32_t udfburn_move_up(int32_t fd);

/* One more descriptor of an open file, which has no number of a standard one; or -1. */
int udfburn_duplicate(int fd);

/* Takes a file up that has at most so many whole blocks. UDFBURN_VOLUME: it has more. UDFBURN_DEVICE: no image can be had by
 * this descriptor, or this process works on the file already, which is noted. A lock does not show that, since duplicates of a descriptor
 * have one together. The structure stays where it is until udfburn_leave_file(). */
int32_t udfburn_enter_file(struct udfburn_file *file, int32_t fd, uint32_t capacity);

/* Before the descriptor is closed, or at once after it: another file that gets its number on the device is refused until then. */
void udfburn_leave_file(struct udfburn_file *file);

/* Whether its descriptor is of this file, with a name if it must have one. Who closes a descriptor of the library's by
 * mistake may get its number for another file. */
int udfburn_has_file(const struct udfburn_file *file);

/* The same, whatever its names are. */
int udfburn_is_file(const struct udfburn_file *file);

/* ---- Drives ---- */

/* A drive that is open. */
struct udfburn_port {
    struct udfburn_drive drive;
    pid_t process;              /* that writes to it */
    uint32_t capacity;
    int32_t number;             /* by which the core calls it */
    int32_t verifies;           /* what is written is read back */
    uint32_t end;               /* where the core goes on, while the drive goes on further; else 0 */
    int32_t answers;            /* the core answers messages: what it reads then belongs to commits */
    struct udfburn_port *next;
};

/* Enters a drive under a number that is free, and asks for its capacity. UDFBURN_DEVICE: it is there already, which is noted, or
 * fails. */
int32_t udfburn_make_port(const struct udfburn_drive *drive, struct udfburn_port **made);
void udfburn_release_port(void *port);

/* Opens the volume on a drive, which is written in order, or on a file, which is written in groups, in a core: as the core says. */
int32_t udfburn_open_core(void *core, int32_t number);

/* Reads blocks of a file or a drive by its number. Not 0 if it fails. */
int32_t udfburn_read_exact(int32_t number, uint32_t address, uint32_t count, void *blocks);

/* The address after the last block of a drive, as its core knows it: not 0 if it fails, or is beyond the capacity. */
int udfburn_next_of(const struct udfburn_port *port, uint32_t *address);

/* The calls of these names, from within another one, on a drive that is whole. */
int32_t udfburn_format_drive_in(const struct udfburn_drive *drive, const char *label, uint64_t moment);
int32_t udfburn_open_drive_in(const struct udfburn_drive *drive, uint32_t flags, udfburn **out);
int32_t udfburn_check_drive_in(const struct udfburn_drive *drive, const char **broken);

/* Makes a block of any bytes a VAT ICB at this address by its tag. It is that of no table. */
void udfburn_make_vat_icb(uint8_t *block, uint32_t address);

/* Opens the volume again where its drive went on further than the last block of a commit. Its answers wait as before. */
int32_t udfburn_follow_drive(udfburn *handle);

/* ---- The core. A handle is what udfburn_core_new wrote, and the slices are never NULL. ---- */

struct udfburn_core_status {
    uint64_t moment;
    uint32_t capacity, next, commits, files, directories, clients, label_length;
    uint8_t label[64];
};

struct udfburn_core_commit {
    uint64_t moment;
    uint32_t number, address, files, directories;
};

int32_t udfburn_core_format_fd(int32_t fd, const uint8_t *label, size_t label_length, uint64_t moment, uint32_t capacity);
int32_t udfburn_core_new(void **out);
int32_t udfburn_core_open_fd(void *handle, int32_t fd);
int32_t udfburn_core_open_drive(void *handle, int32_t number);
int32_t udfburn_core_open_memory(void *handle, const uint8_t *label, size_t label_length, uint64_t moment, uint32_t capacity);
int32_t udfburn_core_answer(void *handle, const uint8_t *bytes, size_t count);
void udfburn_core_begin(void *handle);
int32_t udfburn_core_settle(void *handle);
void udfburn_core_take_back(void *handle);
size_t udfburn_core_answered(void *handle);
size_t udfburn_core_take(void *handle, uint8_t *into, size_t room);
int32_t udfburn_core_next_block(void *handle, uint32_t *address, uint8_t *block);
int32_t udfburn_core_took(void *handle);
int32_t udfburn_core_last_number(void *handle, uint64_t client, uint64_t *number);
int32_t udfburn_core_status(void *handle, struct udfburn_core_status *status);
int32_t udfburn_core_log(void *handle, uint32_t after, struct udfburn_core_commit *commit);
void udfburn_core_end(void *handle);

#endif
