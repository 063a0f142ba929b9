/* The CRC-32 of IEEE 802.3 of the nine digits "123456789". */
static const char text[] = "123456789";

unsigned long main(void) {
    unsigned crc = ~0u;
    for (const char *c = text; *c; c++) {
        crc ^= (unsigned char)*c;
        for (int bit = 0; bit < 8; bit++)
            crc = crc & 1 ? crc >> 1 ^ 0xedb88320u : crc >> 1;
    }
    return ~crc;
}
