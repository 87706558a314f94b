/* Is loaded before a program (LD_PRELOAD), and has the device SG_DEVICE answered by the socket SG_SOCKET: test/disc/sg.py is at the other end.
 * So the library's SG_IO reaches an emulated recorder without a kernel. One descriptor of the device is open at a time. */
#define _GNU_SOURCE

#include <dlfcn.h>
#include <errno.h>
#include <fcntl.h>
#include <scsi/sg.h>
#include <stdarg.h>
#include <stdint.h>
#include <stdlib.h>
#include <string.h>
#include <sys/ioctl.h>
#include <sys/socket.h>
#include <sys/stat.h>
#include <sys/un.h>
#include <unistd.h>

enum { NO_CONNECTION = 1, HEAD = 26, TAIL = 10 };

static int device = -1;

static int exactly(int (*move)(int, void *, size_t), void *bytes, size_t count) {
    for (size_t done = 0; done < count;) {
        int part = move(device, (char *)bytes + done, count - done);
        if (part <= 0) return -1;
        done += (size_t)part;
    }
    return 0;
}

static int move_in(int fd, void *bytes, size_t count) { return (int)recv(fd, bytes, count, 0); }

static int move_out(int fd, void *bytes, size_t count) { return (int)send(fd, bytes, count, MSG_NOSIGNAL); }

static void put_number(uint8_t *at, uint32_t value) {
    for (int i = 0; i < 4; i++) at[i] = (uint8_t)(value >> 8 * i);
}

static uint32_t number_at(const uint8_t *at) { return at[0] | at[1] << 8 | at[2] << 16 | (uint32_t)at[3] << 24; }

/* To the recorder: the command's length, 16 bytes of it, its direction, the room for data and the data that goes (4 bytes each), the data.
 * From it: the status, the length of the sense data, those of the data and of what was left over (4 bytes each), the data, the sense data. */
static int exchange(sg_io_hdr_t *io) {
    uint8_t head[HEAD] = {io->cmd_len}, tail[TAIL], dropped[256];
    uint32_t goes = io->dxfer_direction == SG_DXFER_TO_DEV ? io->dxfer_len : 0;
    memcpy(head + 1, io->cmdp, io->cmd_len < 16 ? io->cmd_len : 16);
    head[17] = goes > 0;
    put_number(head + 18, io->dxfer_len);
    put_number(head + 22, goes);
    if (exactly(move_out, head, sizeof head) || exactly(move_out, io->dxferp, goes) || exactly(move_in, tail, sizeof tail)) return -1;
    uint32_t comes = number_at(tail + 2);
    if (comes > io->dxfer_len || exactly(move_in, io->dxferp, comes) || exactly(move_in, dropped, tail[1])) return -1;
    io->status = tail[0];
    io->sb_len_wr = tail[1] < io->mx_sb_len ? tail[1] : io->mx_sb_len;
    memcpy(io->sbp, dropped, io->sb_len_wr);
    io->driver_status = tail[1] ? 8 : 0;
    io->resid = (int)number_at(tail + 6);
    return 0;
}

static int begin(void) {
    uint8_t is_taken;
    struct sockaddr_un address = {AF_UNIX, ""};
    const char *path = getenv("SG_SOCKET");
    if (!path || strlen(path) >= sizeof address.sun_path) abort();
    strcpy(address.sun_path, path);
    int fd = socket(AF_UNIX, SOCK_STREAM | SOCK_CLOEXEC, 0);
    if (fd < 0 || connect(fd, (struct sockaddr *)&address, sizeof address) || recv(fd, &is_taken, 1, 0) != 1 || is_taken) {
        close(fd);
        errno = EBUSY;
        return -1;
    }
    return device = fd;
}

static int is_device(const char *path) {
    const char *wanted = getenv("SG_DEVICE");
    return wanted && !strcmp(wanted, path);
}

int open(const char *path, int flags, ...) {
    va_list more;
    if (is_device(path)) {
        if (!(flags & O_EXCL) || (flags & O_ACCMODE) != O_RDWR) abort();
        return begin();
    }
    va_start(more, flags);
    mode_t mode = flags & (O_CREAT | O_TMPFILE) ? va_arg(more, mode_t) : 0;
    va_end(more);
    int (*next)(const char *, int, ...) = (int (*)(const char *, int, ...))dlsym(RTLD_NEXT, "open");
    return next(path, flags, mode);
}

int close(int fd) {
    if (fd == device) device = -1;
    int (*next)(int) = (int (*)(int))dlsym(RTLD_NEXT, "close");
    return next(fd);
}

int fstat(int fd, struct stat *found) {
    int (*next)(int, struct stat *) = (int (*)(int, struct stat *))dlsym(RTLD_NEXT, "fstat");
    int status = next(fd, found);
    if (status == 0 && fd >= 0 && fd == device) found->st_mode = S_IFBLK | 0600;
    return status;
}

int ioctl(int fd, unsigned long request, ...) {
    va_list more;
    va_start(more, request);
    void *argument = va_arg(more, void *);
    va_end(more);
    if (fd >= 0 && fd == device && request == SG_IO) {
        sg_io_hdr_t *io = argument;
        io->status = 0;
        io->host_status = io->driver_status = 0;
        io->sb_len_wr = 0;
        io->resid = 0;
        if (exchange(io)) io->host_status = NO_CONNECTION;
        return 0;
    }
    int (*next)(int, unsigned long, ...) = (int (*)(int, unsigned long, ...))dlsym(RTLD_NEXT, "ioctl");
    return next(fd, request, argument);
}
