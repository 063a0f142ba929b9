#include "cksum.h"

#define POLYNOMIAL 0x04c11db7u

static uint32_t table[256];

static void make_table(void) {
    for (uint32_t i = 0; i < 256; i++) {
        uint32_t sum = i << 24;
        for (int bit = 0; bit < 8; bit++)
            sum = sum << 1 ^ (sum >> 31 ? POLYNOMIAL : 0);
        table[i] = sum;
    }
}

uint32_t cksum(uint32_t sum, const uint8_t *bytes, uint32_t count) {
    if (table[1] == 0)
        make_table();
    for (const uint8_t *end = bytes + count; bytes < end; bytes++)
        sum = sum << 8 ^ table[sum >> 24 ^ *bytes];
    return sum;
}

uint32_t cksum_end(uint32_t sum, uint64_t length) {
    for (; length > 0; length >>= 8)
        sum = cksum(sum, &(uint8_t){(uint8_t)length}, 1);
    return ~sum;
}
