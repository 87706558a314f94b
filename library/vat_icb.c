/* The VAT ICB, the block with which a commit ends: known by its bytes, and copied for another address (UDF 2.01 2.2.10, ECMA-167 3/7.2 and
 * 4/14.9). SPDX-License-Identifier: MIT OR Apache-2.0 */
#include "internal.h"

#include <string.h>

enum { TAG = 16, CHECKSUM = 4, FILE_ENTRY = 261, FILE_TYPE = 27, VAT_FILE = 248, PARTITION = 257 };

static uint32_t number_at(const uint8_t *at, int bytes) {
    uint32_t value = 0;
    while (bytes > 0) value = value << 8 | at[--bytes];
    return value;
}

static void put_number(uint8_t *at, uint32_t value, int bytes) {
    for (int i = 0; i < bytes; i++) at[i] = (uint8_t)(value >> 8 * i);
}

/* By the polynomial x^16 + x^12 + x^5 + 1 (ECMA-167 1/7.2.1, 3/7.2.6). */
static uint32_t crc_of(const uint8_t *bytes, size_t count) {
    uint32_t crc = 0;
    while (count-- > 0) {
        crc ^= (uint32_t)*bytes++ << 8;
        for (int bit = 0; bit < 8; bit++) crc = (crc & 0x8000 ? crc << 1 ^ 0x1021 : crc << 1) & 0xFFFF;
    }
    return crc;
}

static uint8_t checksum_of(const uint8_t *tag) {
    unsigned sum = 0;
    for (int i = 0; i < TAG; i++) sum += i == CHECKSUM ? 0u : tag[i];
    return (uint8_t)sum;
}

/* Gives the tag another location: the block's number in the partition. */
static void locate(uint8_t *block, uint32_t address) {
    put_number(block + 12, address - PARTITION, 4);
    block[CHECKSUM] = checksum_of(block);
}

int32_t udfburn_is_vat_icb(const void *block, uint32_t address) {
    const uint8_t *at = block;
    if (!block || address < PARTITION || number_at(at, 2) != FILE_ENTRY || at[FILE_TYPE] != VAT_FILE) return 0;
    uint32_t length = number_at(at + 10, 2);
    return at[CHECKSUM] == checksum_of(at) && number_at(at + 12, 4) == address - PARTITION && length <= UDFBURN_BLOCK - TAG
        && number_at(at + 8, 2) == crc_of(at + TAG, length);
}

void udfburn_copy_vat_icb(const void *block, uint32_t address, void *copy) {
    if (!block || !copy) return;
    memmove(copy, block, UDFBURN_BLOCK);
    locate(copy, address);
}

void udfburn_make_vat_icb(uint8_t *block, uint32_t address) {
    memset(block, 0, TAG);
    put_number(block, FILE_ENTRY, 2);
    put_number(block + 2, 3, 2);
    put_number(block + 6, 1, 2);
    block[FILE_TYPE] = VAT_FILE;
    put_number(block + 8, crc_of(block + TAG, UDFBURN_BLOCK - TAG), 2);
    put_number(block + 10, UDFBURN_BLOCK - TAG, 2);
    locate(block, address);
}
