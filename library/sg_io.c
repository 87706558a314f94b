/* Commands of a drive, by SG_IO of Linux (scsi/sg.h). SPDX-License-Identifier: MIT OR Apache-2.0 */
#define _GNU_SOURCE

#include "mmc.h"

#include <errno.h>
#include <pthread.h>
#include <scsi/sg.h>
#include <signal.h>
#include <string.h>
#include <sys/ioctl.h>
#include <time.h>

/* A write waits for the calibration of the laser, and a synchronisation for all that is in the buffer. */
enum { LONGEST_MILLISECONDS = 300000, PAUSE_MILLISECONDS = 50, PAUSES = LONGEST_MILLISECONDS / PAUSE_MILLISECONDS };

enum { GOOD = 0, CHECK_CONDITION = 2, BUSY = 8, TASK_SET_FULL = 0x28, DRIVER_HAS_SENSE = 8, RECOVERED = 1 };

/* The response codes of sense data (SPC-4 4.5). A deferred error is that of an earlier command, and this one was not done. */
enum { CURRENT_FIXED = 0x70, DEFERRED_FIXED = 0x71, CURRENT_DESCRIPTOR = 0x72, DEFERRED_DESCRIPTOR = 0x73 };

static int32_t sense_of(const uint8_t *sense, unsigned count) {
    int response = sense[0] & 0x7F;
    int is_fixed = response == CURRENT_FIXED || response == DEFERRED_FIXED;
    int is_descriptor = response == CURRENT_DESCRIPTOR || response == DEFERRED_DESCRIPTOR;
    if (count < (is_fixed ? 14u : 4u) || (!is_fixed && !is_descriptor)) return EIO;
    int key = sense[is_fixed ? 2 : 1] & 15, code = is_fixed ? sense[12] << 8 | sense[13] : sense[2] << 8 | sense[3];
    int is_deferred = response == DEFERRED_FIXED || response == DEFERRED_DESCRIPTOR;
    if (key == RECOVERED && !is_deferred) return 0;
    return key == 0 ? EIO : UDFBURN_SENSE(key, code);
}

/* Does a command once. Signals wait, since after one the command may be done or not. */
static int32_t do_once(int fd, struct udfburn_command *command) {
    uint8_t sense[64] = {0};
    sigset_t all, before;
    sg_io_hdr_t io;
    memset(&io, 0, sizeof io);
    io.interface_id = 'S';
    io.cmdp = command->block;
    io.cmd_len = command->length;
    io.dxfer_direction = command->direction == UDFBURN_NOTHING ? SG_DXFER_NONE
        : command->direction == UDFBURN_TO_DRIVE ? SG_DXFER_TO_DEV : SG_DXFER_FROM_DEV;
    io.dxferp = command->data;
    io.dxfer_len = command->count;
    io.sbp = sense;
    io.mx_sb_len = sizeof sense;
    io.timeout = LONGEST_MILLISECONDS;
    sigfillset(&all);
    pthread_sigmask(SIG_BLOCK, &all, &before);
    int status = ioctl(fd, SG_IO, &io), error = errno;
    pthread_sigmask(SIG_SETMASK, &before, NULL);
    if (status < 0) return error == 0 ? EIO : error;
    if (io.host_status != 0 || (io.driver_status & ~DRIVER_HAS_SENSE) != 0) return EIO;
    if (io.status == BUSY || io.status == TASK_SET_FULL) return EBUSY;
    if (io.status != GOOD && io.status != CHECK_CONDITION) return EIO;
    int32_t outcome = io.status == CHECK_CONDITION ? sense_of(sense, io.sb_len_wr) : 0;
    uint32_t rest = io.resid > 0 ? (uint32_t)io.resid : 0;
    if (outcome == 0 && (rest > command->count || command->count - rest < command->least)) return EIO;
    return outcome;
}

/* Whether a drive did nothing, as it is not ready yet: it becomes ready, or is at something that takes long. */
static int is_at_work(int32_t outcome) {
    int code = udfburn_code_of(outcome);
    return outcome == EBUSY || (udfburn_key_of(outcome) == UDFBURN_NOT_READY && (code == 0x0401 || code == 0x0407 || code == 0x0408));
}

int32_t udfburn_do(int fd, struct udfburn_command *command) {
    const struct timespec pause = {0, PAUSE_MILLISECONDS * 1000000L};
    int32_t outcome = do_once(fd, command);
    for (int i = 0; i < PAUSES && is_at_work(outcome); i++) {
        nanosleep(&pause, NULL);
        outcome = do_once(fd, command);
    }
    return outcome;
}

int32_t udfburn_note_command(const struct udfburn_command *command, int32_t outcome) {
    if (outcome != 0) udfburn_note_as(UDFBURN_DEVICE, command->name, outcome);
    return outcome;
}
