#include "disk.h"

#include <fcntl.h>
#include <stdio.h>
#include <stdlib.h>
#include <string.h>
#include <sys/mman.h>
#include <time.h>
#include <unistd.h>

#include "../../guests/server/disk.h"
#include "../../guests/sql/clock.h"
#include "../../guests/sql/vfs.h"

struct medium *medium;

void medium_make(const char *file) {
    int descriptor = file == NULL ? -1 : open(file, O_RDWR | O_CREAT, 0600);
    if (descriptor >= 0 && ftruncate(descriptor, sizeof *medium) != 0)
        exit(2);
    medium = mmap(NULL, sizeof *medium, PROT_READ | PROT_WRITE, MAP_SHARED | (file == NULL ? MAP_ANONYMOUS : 0), descriptor, 0);
    if (medium == MAP_FAILED)
        exit(2);
}

int disk_start(uint64_t sectors) { return sectors <= DISK_SECTORS; }

void disk_read(uint64_t sector, void *to, uint32_t count) {
    if (sector + count > DISK_SECTORS)
        abort();
    memcpy(to, medium->sectors[sector], (size_t)count * SECTOR);
}

void disk_write(uint64_t sector, const void *from, uint32_t count) {
    if (sector + count > DISK_SECTORS)
        abort();
    memcpy(medium->sectors[sector], from, (size_t)count * SECTOR);
    for (uint32_t i = 0; i < count && medium->writes < MOST_WRITES; i++) {
        struct write *write = &medium->written[medium->writes++];
        write->sector = sector + i;
        write->told = medium->told;
        memcpy(write->bytes, (const uint8_t *)from + (size_t)i * SECTOR, SECTOR);
    }
}

uint64_t clock_ahead;

uint64_t clock_steps(void) {
    struct timespec now;
    clock_gettime(CLOCK_MONOTONIC, &now);
    return (uint64_t)now.tv_sec * 1000000000 + (uint64_t)now.tv_nsec + clock_ahead * 1000000;
}

uint64_t clock_now(void) { return clock_steps() / 1000000; }
