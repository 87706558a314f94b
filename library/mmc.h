/* What library/sg_io.c, library/mmc.c and library/open_mmc.c share. */
#ifndef UDFBURN_MMC_H
#define UDFBURN_MMC_H

#include "internal.h"

/* ---- Commands (library/sg_io.c) ---- */

enum udfburn_direction { UDFBURN_NOTHING, UDFBURN_FROM_DRIVE, UDFBURN_TO_DRIVE };

/* A command of SPC-4 or MMC-6, under its name there. */
struct udfburn_command {
    const char *name;
    uint8_t block[12];          /* the command descriptor block */
    uint8_t length;             /* of the block */
    uint8_t direction;
    void *data;                 /* that goes or comes, or NULL */
    uint32_t count;             /* bytes of it */
    uint32_t least;             /* so many must go or come */
};

/* Sense data as a number: the key, the additional code and its qualifier. No errno is so great. */
#define UDFBURN_SENSE(key, code) ((int32_t)((key) << 16 | (code)))
static inline int udfburn_key_of(int32_t outcome) { return outcome >> 16; }
static inline int udfburn_code_of(int32_t outcome) { return outcome & 0xFFFF; }

enum { UDFBURN_NOT_READY = 2, UDFBURN_MEDIUM_ERROR = 3, UDFBURN_ILLEGAL = 5, UDFBURN_ATTENTION = 6, UDFBURN_BLANK_CHECK = 8 };

/* Has a drive do a command, and waits while it says that it is at another one. Returns 0 if it did it, the sense data, or errno. */
int32_t udfburn_do(int fd, struct udfburn_command *command);

/* Notes that a command failed, and returns why. */
int32_t udfburn_note_command(const struct udfburn_command *command, int32_t outcome);

/* ---- A disc in a drive (library/mmc.c) ---- */

/* Blocks that are read at once, and how many such groups are kept. */
enum { UDFBURN_GROUP = 32, UDFBURN_GROUPS = 256 };

struct udfburn_group {
    uint32_t first;
    uint32_t count;             /* blocks of it that were written when it was read; 0: none is kept */
    uint64_t used;              /* the greatest was used last */
    uint8_t *blocks;
};

struct udfburn_mmc {
    int fd;
    const struct udfburn_port *port;    /* of the handle that is open, or NULL */
    pid_t process;              /* that opened it */
    uint32_t profile;           /* of the medium */
    uint32_t unit;              /* blocks that are written at once */
    int is_blank;               /* when it was opened */
    uint32_t capacity;
    uint32_t next;              /* where the drive writes next */
    uint8_t *held;              /* blocks that come there, of a commit whose last one is not here yet */
    uint32_t count, room;
    int32_t lost;               /* why the drive is of no use any more, or 0 */
    int verifies;               /* what was written is read back */
    uint64_t clock;             /* of uses of groups */
    struct udfburn_group groups[UDFBURN_GROUPS];
    uint8_t empty[UDFBURN_GREATEST_CAPACITY / 8 + 1];           /* a bit for each block that is known to have no data */
};

/* Looks at the disc in a drive, which is ready to be written then. Returns a status, with its reason noted. */
int32_t udfburn_begin_mmc(struct udfburn_mmc *mmc);

/* Gives the disc free again, and frees what is kept of it. The descriptor stays open. */
void udfburn_end_mmc(struct udfburn_mmc *mmc);

/* Whether a block cannot be read. */
int udfburn_is_unreadable(struct udfburn_mmc *mmc, uint32_t address);

/* The functions of struct udfburn_drive. */
int32_t udfburn_mmc_capacity(void *context, uint32_t *blocks);
int32_t udfburn_mmc_next(void *context, uint32_t *address);
int32_t udfburn_mmc_read(void *context, uint32_t address, uint32_t count, void *blocks);
int32_t udfburn_mmc_write(void *context, uint32_t address, uint32_t count, const void *blocks);

#endif
