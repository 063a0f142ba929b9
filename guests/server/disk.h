/* The disk: whole sectors, one request at a time. */
#ifndef DISK_H
#define DISK_H

#include <stdint.h>

#define SECTOR 512

/* Sets the device up. Answers whether it has so many sectors. */
int disk_start(uint64_t sectors);

/* Reads or writes so many sectors from one on. Each is on the disk, or in memory, when the call returns. */
void disk_read(uint64_t sector, void *to, uint32_t count);
void disk_write(uint64_t sector, const void *from, uint32_t count);

#endif
