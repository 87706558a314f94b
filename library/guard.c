/* What each call of udfburn.h does first and last: no two calls are on one handle, none is on a handle of a parent, and why a call
 * failed is kept. SPDX-License-Identifier: MIT OR Apache-2.0 */
#define _POSIX_C_SOURCE 200809L

#include "internal.h"

#include <errno.h>
#include <pthread.h>
#include <string.h>
#include <unistd.h>

/* A variable of each thread. By this model it needs no function of the loader. */
#define OF_THREAD static __thread __attribute__((tls_model("initial-exec")))

/* More than a structure of udfburn.h will ever have. */
enum { MOST_OF_A_STRUCTURE = 4096 };

OF_THREAD struct udfburn_call *current;
/* Of the last call without a handle that failed, and of calls that were refused for misuse. */
OF_THREAD struct udfburn_why last;

/* ---- The lock, and forks ---- */

static pthread_mutex_t lock = PTHREAD_MUTEX_INITIALIZER;
static unsigned forks;

void udfburn_lock(void) { pthread_mutex_lock(&lock); }

void udfburn_unlock(void) { pthread_mutex_unlock(&lock); }

static void in_child(void) {
    forks++;
    udfburn_unlock();
}

/* A fork waits for the lock. Otherwise a child that closes a handle could wait for a thread that exists only in its parent. This is
 * registered before a program can register a lock of its own, so that a fork takes both locks in the order of a call. */
__attribute__((constructor)) static void watch_forks(void) { pthread_atfork(udfburn_lock, udfburn_unlock, in_child); }

void udfburn_own(udfburn *handle) {
    handle->forks = forks;
    handle->process = getpid();
}

/* By the process too, since not every way to fork calls what was registered. */
int udfburn_is_own(const udfburn *handle) { return handle->forks == forks && handle->process == getpid(); }

/* ---- Calls ---- */

static void put_path(struct udfburn_why *why, const char *path) {
    size_t length = path ? strlen(path) : 0, room = sizeof why->path - 1;
    memset(why->path, 0, sizeof why->path);
    if (length > 0) memcpy(why->path, length > room ? path + (length - room) : path, length > room ? room : length);
}

void udfburn_keep_path(udfburn *handle, const char *path) { put_path(&handle->why, path); }

static void begin_call(struct udfburn_call *call, udfburn *handle, const char *path) {
    call->handle = handle;
    call->path = path;
    call->failed = NULL;
    call->error = 0;
    call->status = UDFBURN_DEVICE;
    call->locked = handle ? handle->file.fd : -1;
    call->outer = current;
    current = call;
    /* Each call returns the same from then on. */
    if (handle && handle->lost) udfburn_note_as(UDFBURN_DEVICE, handle->port ? "drive.next" : "fstat", handle->lost);
}

void udfburn_enter_without(struct udfburn_call *call, const char *path) { begin_call(call, NULL, path); }

static int32_t refused(int32_t status) {
    last.status = status;
    last.error = 0;
    last.call = NULL;
    put_path(&last, NULL);
    return status;
}

int32_t udfburn_enter_lost(struct udfburn_call *call, udfburn *handle) {
    if (!handle) return refused(UDFBURN_ARGUMENT);
    if (!udfburn_is_own(handle) || __atomic_exchange_n(&handle->is_busy, 1, __ATOMIC_ACQUIRE)) return refused(UDFBURN_MISUSE);
    begin_call(call, handle, NULL);
    return UDFBURN_OK;
}

static void end_call(const struct udfburn_call *call) {
    current = call->outer;
    if (call->handle) __atomic_store_n(&call->handle->is_busy, 0, __ATOMIC_RELEASE);
}

int32_t udfburn_enter(struct udfburn_call *call, udfburn *handle) {
    int32_t status = udfburn_enter_lost(call, handle);
    if (status == UDFBURN_OK && handle->group_lost != UDFBURN_OK) {
        /* What is told of why stays that of the call that lost the group. */
        status = handle->group_lost;
        end_call(call);
    }
    return status;
}

int32_t udfburn_leave(struct udfburn_call *call, int32_t status) {
    udfburn *handle = call->handle;
    if (status == UDFBURN_DEVICE) status = handle && handle->in_memory ? UDFBURN_MEMORY : call->status;
    if (status == UDFBURN_MISUSE) refused(status);
    if (status != UDFBURN_OK && status != UDFBURN_NONE) {
        struct udfburn_why *why = handle ? &handle->why : &last;
        why->status = status;
        why->error = call->error;
        why->call = call->failed;
        if (!handle) put_path(why, call->path);
    }
    end_call(call);
    return status;
}

/* ---- What failed ---- */

void udfburn_note_as(int32_t status, const char *failed, int32_t error) {
    if (!current || current->failed) return;
    current->failed = failed;
    current->error = error;
    current->status = status;
}

void udfburn_note(const char *failed, int32_t error) {
    int is_of_system = strncmp(failed, "drive", 5) != 0;
    int is_full = error == ENOSPC || error == EDQUOT || error == EFBIG, is_forbidden = error == EROFS || error == EACCES || error == EPERM;
    udfburn_note_as(!is_of_system ? UDFBURN_DEVICE : is_full ? UDFBURN_NO_SPACE : is_forbidden ? UDFBURN_READ_ONLY : UDFBURN_DEVICE, failed, error);
}

int32_t udfburn_why_lost(void) { return current && current->failed ? current->status : UDFBURN_MEMORY; }

void udfburn_note_lock(int fd) {
    if (current) current->locked = fd;
}

int udfburn_gives_up(int fd) { return current && current->locked == fd; }

/* ---- What is told of it ---- */

int udfburn_has_room(size_t size, size_t least) { return size >= least && size <= MOST_OF_A_STRUCTURE; }

void udfburn_tell(void *into, size_t size, const void *told, size_t length) {
    memcpy(into, told, size < length ? size : length);
    if (size > length) memset((char *)into + length, 0, size - length);
}

int32_t udfburn_reason(udfburn *handle, struct udfburn_reason *reason) {
    struct udfburn_reason told;
    struct udfburn_call call;
    if (!reason || !udfburn_has_room(reason->size, sizeof told)) return UDFBURN_ARGUMENT;
    if (handle && udfburn_enter_lost(&call, handle) != UDFBURN_OK) return UDFBURN_MISUSE;
    const struct udfburn_why *why = handle ? &handle->why : &last;
    memset(&told, 0, sizeof told);
    told.size = reason->size;
    told.status = why->status;
    told.error = why->error;
    if (why->call) strncpy(told.call, why->call, sizeof told.call - 1);
    memcpy(told.path, why->path, sizeof told.path);
    if (handle) udfburn_leave(&call, UDFBURN_OK);
    if (told.status == UDFBURN_OK) return UDFBURN_NONE;
    udfburn_tell(reason, reason->size, &told, sizeof told);
    return UDFBURN_OK;
}
