/* A library for LD_PRELOAD that logs the system calls of a program on one image file, on folders, sockets and its standard
   streams, and makes chosen ones of them fail, wait or be the last.

   FAULT_IMAGE   the path of the image, spelled as the program is given it
   FAULT_LOG     the log, to which each process appends its records (struct record and `data` bytes each)
   FAULT_RULES   rules, separated by ';': CALL:WHICH:ACTION

   CALL     a name below. But for `folderopen` and `foldersync` (any folder), `send`, `recv`, `accept` (any socket), `stdout` and
            `stdin` (descriptors 1 and 0), calls count only where they are on the image. `ioctl` is a call by which a descriptor, any,
            begins or ceases to wait (FIONBIO); it is not logged.
   WHICH    N (the N-th such call of this process, from 1), N+ (from the N-th on), N-M, * (each)
   ACTION   E5      fails with errno 5, and nothing is done
            A5      is done, and fails with errno 5
            S100    does at most 100 bytes, and says so
            P100E5  does at most 100 bytes, and then fails with errno 5
            P100K   does at most 100 bytes, and then the process is killed
            K, k    the process is killed before the call, after it
            H       the process stops itself (SIGSTOP) before the call
            D50     waits 50 ms before the call
            L       lies: says that it was done, and neither does it nor logs it

   A record is written after its call: its result is what was done, its error what the program gets, or 0. What goes out
   (`send`, `stdout`) is logged before its call, as all the bytes that were to go: from there on they may be seen. A call that a
   rule kills before has no record. */
#define _GNU_SOURCE
#include <dlfcn.h>
#include <errno.h>
#include <fcntl.h>
#include <signal.h>
#include <stdarg.h>
#include <stdint.h>
#include <stdlib.h>
#include <string.h>
#include <sys/file.h>
#include <sys/ioctl.h>
#include <sys/socket.h>
#include <sys/stat.h>
#include <sys/syscall.h>
#include <sys/types.h>
#include <sys/uio.h>
#include <time.h>
#include <unistd.h>

/* In the order of `KINDS` in log.py. */
enum kind { OPEN, STAT, PREAD, PWRITE, FSYNC, FADVISE, FTRUNCATE, FSTAT, FLOCK, CLOSE, FOLDEROPEN, FOLDERSYNC, SEND, RECV, ACCEPT,
            STDOUT, STDIN, IOCTL, KINDS };

static const char *const names[KINDS] = { "open", "stat", "pread", "pwrite", "fsync", "fadvise", "ftruncate", "fstat", "flock",
                                          "close", "folderopen", "foldersync", "send", "recv", "accept", "stdout", "stdin", "ioctl" };

struct record {
    uint32_t magic, process, kind;
    int32_t descriptor;
    int64_t offset, length, result;
    int32_t error;
    uint32_t data;
};

#define MAGIC 0x544C5546u
#define DESCRIPTORS 4096

static long counts[KINDS];
static char is_image[DESCRIPTORS], is_folder[DESCRIPTORS];
static const char *image, *rules;
static int log_descriptor = -1;

/* The log gets a high descriptor, so that the program's own are those that it would have without. */
__attribute__((constructor)) static void start(void) {
    image = getenv("FAULT_IMAGE");
    rules = getenv("FAULT_RULES");
    const char *path = getenv("FAULT_LOG");
    if (!path) return;
    int low = (int)syscall(SYS_openat, AT_FDCWD, path, O_WRONLY | O_CREAT | O_APPEND | O_CLOEXEC, 0644);
    if (low < 0) return;
    log_descriptor = (int)syscall(SYS_fcntl, low, F_DUPFD_CLOEXEC, 900);
    if (log_descriptor < 0) log_descriptor = low;
    else syscall(SYS_close, low);
}

static int of_image(int descriptor) { return descriptor >= 0 && descriptor < DESCRIPTORS && is_image[descriptor]; }
static int of_folder(int descriptor) { return descriptor >= 0 && descriptor < DESCRIPTORS && is_folder[descriptor]; }

/* The error that the program gets: that of the action, or that of the call. */
static int told(const char *action, int64_t result) {
    if (*action == 'A') return atoi(action + 1);
    if (*action == 'P') {
        const char *rest = action + 1 + strspn(action + 1, "0123456789");
        return *rest == 'E' ? atoi(rest + 1) : 0;
    }
    return result < 0 ? errno : 0;
}

static void note(enum kind kind, const char *action, int descriptor, int64_t offset, int64_t length, int64_t result,
                 const void *data, int64_t bytes) {
    int error = errno;
    if (log_descriptor >= 0 && *action != 'L') {
        uint32_t count = data && bytes > 0 ? (uint32_t)bytes : 0;
        struct record record = { MAGIC, (uint32_t)syscall(SYS_getpid), (uint32_t)kind, descriptor, offset, length, result,
                                 told(action, result), count };
        struct iovec parts[2] = { { &record, sizeof record }, { (void *)(uintptr_t)data, count } };
        syscall(SYS_writev, log_descriptor, parts, count ? 2 : 1);
    }
    errno = error;
}

/* The action of the first rule for this call, or an empty text. Each call is counted once. */
static const char *action(enum kind kind) {
    long number = ++counts[kind];
    size_t length = strlen(names[kind]);
    for (const char *rule = rules; rule && *rule; rule = strchr(rule, ';') ? strchr(rule, ';') + 1 : NULL) {
        if (strncmp(rule, names[kind], length) || rule[length] != ':') continue;
        const char *which = rule + length + 1;
        if (which[0] == '*' && which[1] == ':') return which + 2;
        char *end;
        long first = strtol(which, &end, 10), last = first;
        if (*end == '+') last = number, end++;
        else if (*end == '-') last = strtol(end + 1, &end, 10);
        if (*end == ':' && first <= number && number <= last) return end + 1;
    }
    return "";
}

static void end_here(void) {
    for (;;) syscall(SYS_kill, syscall(SYS_getpid), SIGKILL);
}

/* What an action does before its call. It answers whether the call is left out, where `result` is what it is to say. */
static int before(const char *action, size_t *length, ssize_t *result) {
    switch (*action) {
    case 'K':
        end_here();
        break;
    case 'H':
        syscall(SYS_kill, syscall(SYS_getpid), SIGSTOP);
        break;
    case 'D': {
        long wait = atol(action + 1);
        struct timespec time = { wait / 1000, wait % 1000 * 1000000 };
        nanosleep(&time, NULL);
        break;
    }
    case 'E':
        errno = atoi(action + 1);
        *result = -1;
        return 1;
    case 'L':
        *result = length ? (ssize_t)*length : 0;
        return 1;
    case 'S':
    case 'P':
        if (length && (size_t)atol(action + 1) < *length) *length = (size_t)atol(action + 1);
        break;
    default:
        break;
    }
    return 0;
}

/* What an action does after its call, which is in the log by then: the result that the program sees. */
static ssize_t behind(const char *action, ssize_t result) {
    if (*action == 'k') end_here();
    if (*action == 'P' && strchr(action, 'K') == action + 1 + strspn(action + 1, "0123456789")) end_here();
    if (*action == 'A' || *action == 'P') {
        errno = told(action, result);
        return -1;
    }
    return result;
}

static int is_left_out(const char *action) { return *action == 'E'; }

/* Opening and closing. */

static int open_any(int folder, const char *path, int flags, mode_t mode) {
    const char *what = "";
    ssize_t result;
    int named = image && !strcmp(image, path);
    if (named && before(what = action(OPEN), NULL, &result)) {
        note(OPEN, what, -1, flags, 0, result, path, (int64_t)strlen(path));
        return (int)result;
    }
    int descriptor = (int)syscall(SYS_openat, folder, path, flags, mode);
    if (named) note(OPEN, what, descriptor, flags, 0, descriptor, path, (int64_t)strlen(path));
    if (descriptor >= 0 && descriptor < DESCRIPTORS) {
        struct stat found;
        is_image[descriptor] = (char)named;
        int error = errno;
        is_folder[descriptor] = !syscall(SYS_newfstatat, descriptor, "", &found, AT_EMPTY_PATH) && S_ISDIR(found.st_mode);
        errno = error;
        if (is_folder[descriptor]) {
            what = action(FOLDEROPEN);
            note(FOLDEROPEN, what, descriptor, flags, 0, descriptor, path, (int64_t)strlen(path));
            if (before(what, NULL, &result)) {
                syscall(SYS_close, descriptor);
                is_folder[descriptor] = 0;
                errno = atoi(what + 1);
                return -1;
            }
            if (*what == 'k') end_here();
        }
    }
    return named ? (int)behind(what, descriptor) : descriptor;
}
#define MODE \
    mode_t mode = 0; \
    if (flags & (O_CREAT | __O_TMPFILE)) { va_list rest; va_start(rest, flags); mode = va_arg(rest, mode_t); va_end(rest); }
int open(const char *path, int flags, ...) { MODE return open_any(AT_FDCWD, path, flags, mode); }
int open64(const char *path, int flags, ...) { MODE return open_any(AT_FDCWD, path, flags, mode); }
int openat(int folder, const char *path, int flags, ...) { MODE return open_any(folder, path, flags, mode); }
int openat64(int folder, const char *path, int flags, ...) { MODE return open_any(folder, path, flags, mode); }

int close(int descriptor) {
    if (descriptor >= 0 && descriptor == log_descriptor) return 0;
    if (of_image(descriptor)) note(CLOSE, "", descriptor, 0, 0, 0, NULL, 0);
    if (descriptor >= 0 && descriptor < DESCRIPTORS) is_image[descriptor] = is_folder[descriptor] = 0;
    return (int)syscall(SYS_close, descriptor);
}

/* The bytes of the image. */

static ssize_t read_image(int descriptor, void *bytes, size_t length, off_t offset) {
    if (!of_image(descriptor)) return syscall(SYS_pread64, descriptor, bytes, length, offset);
    const char *what = action(PREAD);
    size_t asked = length;
    ssize_t result;
    int left_out = before(what, &length, &result);
    if (!left_out) result = syscall(SYS_pread64, descriptor, bytes, length, offset);
    note(PREAD, what, descriptor, offset, (int64_t)asked, result, NULL, 0);
    return left_out ? result : behind(what, result);
}
ssize_t pread(int descriptor, void *bytes, size_t length, off_t offset) { return read_image(descriptor, bytes, length, offset); }
ssize_t pread64(int descriptor, void *bytes, size_t length, off_t offset) { return read_image(descriptor, bytes, length, offset); }

static ssize_t write_image(int descriptor, const void *bytes, size_t length, off_t offset) {
    if (!of_image(descriptor)) return syscall(SYS_pwrite64, descriptor, bytes, length, offset);
    const char *what = action(PWRITE);
    size_t asked = length;
    ssize_t result;
    int left_out = before(what, &length, &result);
    if (!left_out) result = length ? syscall(SYS_pwrite64, descriptor, bytes, length, offset) : 0;
    note(PWRITE, what, descriptor, offset, (int64_t)asked, result, bytes, result);
    return left_out ? result : behind(what, result);
}
ssize_t pwrite(int descriptor, const void *bytes, size_t length, off_t offset) { return write_image(descriptor, bytes, length, offset); }
ssize_t pwrite64(int descriptor, const void *bytes, size_t length, off_t offset) { return write_image(descriptor, bytes, length, offset); }

static int sync_any(int descriptor, long call) {
    if (!of_image(descriptor) && !of_folder(descriptor)) return (int)syscall(call, descriptor);
    enum kind kind = of_image(descriptor) ? FSYNC : FOLDERSYNC;
    const char *what = action(kind);
    ssize_t result;
    int left_out = before(what, NULL, &result);
    if (!left_out) {
        result = syscall(call, descriptor);
    }
    note(kind, what, descriptor, 0, 0, result, NULL, 0);
    return (int)(left_out ? result : behind(what, result));
}
int fsync(int descriptor) { return sync_any(descriptor, SYS_fsync); }
int fdatasync(int descriptor) { return sync_any(descriptor, SYS_fdatasync); }

/* It says its error itself, and leaves errno alone. */
static int advise_image(int descriptor, off_t offset, off_t length, int advice) {
    int error = errno;
    int is_ours = of_image(descriptor);
    const char *what = is_ours ? action(FADVISE) : "";
    ssize_t result;
    int left_out = before(what, NULL, &result);
    if (!left_out) result = syscall(SYS_fadvise64, descriptor, offset, length, advice);
    if (is_ours) note(FADVISE, what, descriptor, offset, length, result ? result : advice, NULL, 0);
    if (!left_out) result = behind(what, result);
    int said = result ? errno : 0;
    errno = error;
    return said;
}
int posix_fadvise(int descriptor, off_t offset, off_t length, int advice) { return advise_image(descriptor, offset, length, advice); }
int posix_fadvise64(int descriptor, off64_t offset, off64_t length, int advice) { return advise_image(descriptor, offset, length, advice); }

static int cut_image(int descriptor, off_t length) {
    if (!of_image(descriptor)) return (int)syscall(SYS_ftruncate, descriptor, length);
    const char *what = action(FTRUNCATE);
    ssize_t result;
    int left_out = before(what, NULL, &result);
    if (!left_out) result = syscall(SYS_ftruncate, descriptor, length);
    note(FTRUNCATE, what, descriptor, length, 0, result, NULL, 0);
    return (int)(left_out ? result : behind(what, result));
}
int ftruncate(int descriptor, off_t length) { return cut_image(descriptor, length); }
int ftruncate64(int descriptor, off_t length) { return cut_image(descriptor, length); }

int flock(int descriptor, int operation) {
    if (!of_image(descriptor)) return (int)syscall(SYS_flock, descriptor, operation);
    const char *what = action(FLOCK);
    ssize_t result;
    int left_out = before(what, NULL, &result);
    if (!left_out) result = syscall(SYS_flock, descriptor, operation);
    note(FLOCK, what, descriptor, operation, 0, result, NULL, 0);
    return (int)(left_out ? result : behind(what, result));
}

/* What is asked of the image by its path (`stat`) and by a descriptor (`fstat`). */

/* Under another name here, since a path may be NULL, which the header rules out. */
int status_of(int folder, const char *path, int flags, unsigned mask, struct statx *found) __asm__("statx");
int status_of(int folder, const char *path, int flags, unsigned mask, struct statx *found) {
    int by_descriptor = of_image(folder) && (!path || !*path);
    int by_path = path && image && !strcmp(path, image);
    if (!by_descriptor && !by_path) return (int)syscall(SYS_statx, folder, path, flags, mask, found);
    enum kind kind = by_descriptor ? FSTAT : STAT;
    const char *what = action(kind);
    ssize_t result;
    int left_out = before(what, NULL, &result);
    if (!left_out) result = syscall(SYS_statx, folder, path, flags, mask, found);
    note(kind, what, folder, 0, 0, result, NULL, 0);
    return (int)(left_out ? result : behind(what, result));
}
static int stat_any(const char *call, enum kind kind, int is_ours, int descriptor, const char *path, void *found) {
    const char *what = is_ours ? action(kind) : "";
    ssize_t result;
    int left_out = before(what, NULL, &result);
    if (!left_out) {
        void *real = dlsym(RTLD_NEXT, call);
        if (path) result = ((int (*)(const char *, void *))(uintptr_t)real)(path, found);
        else result = ((int (*)(int, void *))(uintptr_t)real)(descriptor, found);
    }
    if (is_ours) note(kind, what, descriptor, 0, 0, result, NULL, 0);
    return (int)(left_out ? result : behind(what, result));
}
int fstat(int descriptor, struct stat *found) { return stat_any("fstat", FSTAT, of_image(descriptor), descriptor, NULL, found); }
int fstat64(int descriptor, struct stat64 *found) { return stat_any("fstat64", FSTAT, of_image(descriptor), descriptor, NULL, found); }
int stat(const char *path, struct stat *found) { return stat_any("stat", STAT, image && !strcmp(path, image), -1, path, found); }
int stat64(const char *path, struct stat64 *found) { return stat_any("stat64", STAT, image && !strcmp(path, image), -1, path, found); }

/* Sockets and standard streams. */

static ssize_t put_out(enum kind kind, int descriptor, const void *bytes, size_t length, int flags) {
    const char *what = action(kind);
    ssize_t result = -1;
    note(kind, what, descriptor, 0, (int64_t)length, is_left_out(what) ? -1 : 0, bytes, is_left_out(what) ? 0 : (int64_t)length);
    if (before(what, &length, &result)) return result;
    if (kind == SEND) result = syscall(SYS_sendto, descriptor, bytes, length, flags, NULL, 0);
    else result = syscall(SYS_write, descriptor, bytes, length);
    return behind(what, result);
}
ssize_t send(int descriptor, const void *bytes, size_t length, int flags) { return put_out(SEND, descriptor, bytes, length, flags); }
ssize_t write(int descriptor, const void *bytes, size_t length) {
    if (descriptor == 1) return put_out(STDOUT, descriptor, bytes, length, 0);
    return syscall(SYS_write, descriptor, bytes, length);
}

static ssize_t take_in(enum kind kind, int descriptor, void *bytes, size_t length, int flags) {
    const char *what = action(kind);
    ssize_t result;
    int left_out = before(what, &length, &result);
    if (!left_out && kind == RECV) result = syscall(SYS_recvfrom, descriptor, bytes, length, flags, NULL, NULL);
    else if (!left_out) result = syscall(SYS_read, descriptor, bytes, length);
    note(kind, what, descriptor, 0, (int64_t)length, result, NULL, 0);
    return left_out ? result : behind(what, result);
}
ssize_t recv(int descriptor, void *bytes, size_t length, int flags) { return take_in(RECV, descriptor, bytes, length, flags); }
ssize_t read(int descriptor, void *bytes, size_t length) {
    if (descriptor == 0) return take_in(STDIN, descriptor, bytes, length, 0);
    return syscall(SYS_read, descriptor, bytes, length);
}

int accept4(int descriptor, struct sockaddr *address, socklen_t *length, int flags) {
    const char *what = action(ACCEPT);
    ssize_t result;
    int left_out = before(what, NULL, &result);
    if (!left_out) result = syscall(SYS_accept4, descriptor, address, length, flags);
    note(ACCEPT, what, descriptor, 0, 0, result, NULL, 0);
    return (int)(left_out ? result : behind(what, result));
}

/* Other requests than FIONBIO, of which each has an argument of its own, are neither counted nor changed. */
int ioctl(int descriptor, unsigned long request, ...) {
    va_list rest;
    va_start(rest, request);
    void *given = va_arg(rest, void *);
    va_end(rest);
    const char *what = request == FIONBIO ? action(IOCTL) : "";
    ssize_t result;
    int left_out = before(what, NULL, &result);
    if (!left_out) result = syscall(SYS_ioctl, descriptor, request, given);
    return (int)(left_out ? result : behind(what, result));
}
