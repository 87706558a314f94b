/* Numbers by chance for the tests in C, the same ones after the same `state`. They compile as C99 and as C++. */
#ifndef CHANCE_H
#define CHANCE_H

#include <stdint.h>

static uint64_t state;

/* A number below `bound`. */
static inline uint32_t chance(uint32_t bound) {
    state = state * UINT64_C(6364136223846793005) + UINT64_C(1442695040888963407);
    return (uint32_t)(state >> 33) % bound;
}

#endif
