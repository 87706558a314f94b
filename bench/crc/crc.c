// The check of ECMA-167 tags by a table of 256 entries, one byte a step. Its word says how often a mebibyte is checked.
#include <stdint.h>
#include <stdio.h>
#include <stdlib.h>
#include <time.h>

static uint16_t table[256];

static uint16_t crc(const uint8_t *bytes, size_t length) {
    uint16_t crc = 0;
    for (size_t i = 0; i < length; i++)
        crc = (uint16_t)((crc << 8) ^ table[(crc >> 8) ^ bytes[i]]);
    return crc;
}

int main(int argc, char **argv) {
    uint32_t count = argc > 1 ? (uint32_t)strtoul(argv[1], NULL, 10) : 400;
    for (unsigned i = 0; i < 256; i++) {
        uint16_t r = (uint16_t)(i << 8);
        for (int bit = 0; bit < 8; bit++)
            r = (uint16_t)(r & 0x8000 ? (r << 1) ^ 0x1021 : r << 1);
        table[i] = r;
    }
    size_t length = 1048576;
    uint8_t *bytes = malloc(length);
    uint32_t state = 1;
    for (size_t i = 0; i < length; i++) {
        state = state * 1103515245u + 12345u;
        bytes[i] = (uint8_t)(state >> 24);
    }
    struct { size_t length; uint32_t rounds; } parts[] = {{1048576, count}, {24, count * 43690}};
    for (int part = 0; part < 2; part++) {
        struct timespec start, end;
        uint32_t total = 0;
        clock_gettime(CLOCK_PROCESS_CPUTIME_ID, &start);
        for (uint32_t round = 0; round < parts[part].rounds; round++) {
            uint16_t value = crc(bytes, parts[part].length);
            total = total * 31 + value + round;
            bytes[0] = (uint8_t)value;
        }
        clock_gettime(CLOCK_PROCESS_CPUTIME_ID, &end);
        printf("%zu bytes x%u: %u: %ld us\n", parts[part].length, parts[part].rounds, total,
               (end.tv_sec - start.tv_sec) * 1000000L + (end.tv_nsec - start.tv_nsec) / 1000);
    }
}
