/* The sum that `cksum` prints (POSIX): a CRC of a file's bytes and its length. */
#ifndef CKSUM_H
#define CKSUM_H

#include <stdint.h>

/* Goes on with a sum, which begins with 0, over more bytes; and ends it, over so many bytes in all. */
uint32_t cksum(uint32_t sum, const uint8_t *bytes, uint32_t count);
uint32_t cksum_end(uint32_t sum, uint64_t length);

#endif
