/* A disk in memory or in a file, and what was written to it, sector by sector. */
#ifndef TEST_DISK_H
#define TEST_DISK_H

#include <stdint.h>

#include "../../guests/server/disk.h"
#include "../../guests/sql/vfs.h"

/* So many writes are kept. */
#define MOST_WRITES 20000

struct medium {
    uint8_t sectors[DISK_SECTORS][SECTOR];
    /* Each write: its sector, what it wrote, and what the test had been told before. */
    uint64_t told, writes;
    struct write {
        uint64_t sector, told;
        uint8_t bytes[SECTOR];
    } written[MOST_WRITES];
};

extern struct medium *medium;

/* So many milliseconds the guest's clock is ahead of this machine's. */
extern uint64_t clock_ahead;

/* Makes it, in a file that may be there already, or, where that is NULL, in memory that is shared with the processes that come of this
   one. */
void medium_make(const char *file);

#endif
