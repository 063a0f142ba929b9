/* The SHA-256 (FIPS 180-4) of "abc", at 0x80001000. Answers its first eight bytes, the first one highest. */
#include "lib/sha256.h"

static const unsigned char text[] = {'a', 'b', 'c'};

/* The message's only block: the text, a one bit, zeros, and the length in bits. */
static unsigned char block[64];

__attribute__((section(".answer"))) unsigned char digest[32];

unsigned long main(void) {
    u32 state[8] = {
        0x6a09e667, 0xbb67ae85, 0x3c6ef372, 0xa54ff53a, 0x510e527f, 0x9b05688c, 0x1f83d9ab, 0x5be0cd19,
    };
    for (unsigned i = 0; i < sizeof text; i++)
        block[i] = text[i];
    block[sizeof text] = 0x80;
    block[63] = 8 * sizeof text;
    compress(state, block);
    for (int i = 0; i < 32; i++)
        digest[i] = (unsigned char)(state[i / 4] >> (24 - 8 * (i % 4)));
    return (unsigned long)state[0] << 32 | state[1];
}
