/* A medium in memory as a drive of the caller's own, for the tests in C. A test names its CAPACITY before it includes this, and where its
 * drive does more, its functions call these. They compile as C99 and as C++, and may be called in any thread. */
#ifndef MEMORY_DRIVE_H
#define MEMORY_DRIVE_H

#include "support.h"

/* All zeros: blank. */
struct medium {
    uint8_t blocks[(size_t)CAPACITY * UDFBURN_BLOCK];
    uint32_t next;              /* how many blocks are written */
    uint32_t capacity;          /* 0: CAPACITY */
};

static inline uint8_t *block_of(struct medium *medium, uint32_t address) { return medium->blocks + (size_t)address * UDFBURN_BLOCK; }

static inline int32_t medium_capacity(void *context, uint32_t *blocks) {
    const struct medium *medium = (const struct medium *)context;
    *blocks = medium->capacity > 0 ? medium->capacity : (uint32_t)CAPACITY;
    return 0;
}

static inline int32_t medium_next(void *context, uint32_t *address) {
    *address = ((const struct medium *)context)->next;
    return 0;
}

static inline int32_t medium_read(void *context, uint32_t address, uint32_t count, void *blocks) {
    struct medium *medium = (struct medium *)context;
    EXPECT(address < medium->next && count > 0 && count <= medium->next - address);
    memcpy(blocks, block_of(medium, address), (size_t)count * UDFBURN_BLOCK);
    return 0;
}

/* A write of which the first `kept` blocks are there afterwards. */
static inline void write_first(struct medium *medium, uint32_t address, uint32_t count, const void *blocks, uint32_t kept) {
    uint32_t capacity;
    medium_capacity(medium, &capacity);
    EXPECT(address == medium->next && count > 0 && count <= capacity - address);
    memcpy(block_of(medium, address), blocks, (size_t)kept * UDFBURN_BLOCK);
    medium->next = address + kept;
}

static inline int32_t medium_write(void *context, uint32_t address, uint32_t count, const void *blocks) {
    write_first((struct medium *)context, address, count, blocks, count);
    return 0;
}

#endif
