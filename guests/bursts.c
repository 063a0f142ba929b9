/* Lets its disk write 63 MiB of its memory within one step, over and over, each time other bytes: by four requests that read the disk but
   for 512 sectors, from one sector on and next time from another, and one notify. It has 16384 pages and 32768 sectors, and counts for
   4,000,000 steps before each notify. It ends where a request fails. */
#include "virtio.h"

#define SECTOR 512
#define SECTORS 32768
#define COUNT 32256
#define STARTS (SECTORS - COUNT + 1)
#define AREAS 4
#define ROUNDS 2000000
#ifndef REQUESTS /* of one notify; area by area, and from the first one again */
#define REQUESTS AREAS
#endif

#define IN 0
#define OUT 1
#define DISK 2

/* The four areas begin a mebibyte behind the start of memory, and end with it. */
#define AREA(i) (0x80100000UL + (u64)(i) * COUNT * SECTOR)
#define WRITTEN_BYTES 64

struct request {
    u32 type;
    u32 reserved;
    u64 sector;
};

static struct queue queue;
static struct request request __attribute__((aligned(8)));
static u8 status;

static void describe(u16 i, u64 address, u32 length, u16 flags) {
    queue.descriptors[i].address = address;
    queue.descriptors[i].length = length;
    queue.descriptors[i].flags = flags;
    queue.descriptors[i].next = (u16)(i + 1);
}

/* The chain of a request for an area; all have one head and one status. */
static void describe_request(u16 area, u32 sectors, u16 data_flags) {
    u16 head = 3 * area;
    describe(head, (u64)&request, sizeof request, NEXT);
    describe(head + 1, AREA(area), sectors * SECTOR, data_flags);
    describe(head + 2, (u64)&status, 1, WRITE);
}

/* Asks for so many requests, area by area, at once. Answers whether the last was done. */
static int do_requests(u32 type, u64 sector, u32 count) {
    request.type = type;
    request.sector = sector;
    status = 0xff;
    for (u32 i = 0; i < count; i++)
        make_available(&queue, (u16)(3 * (i % AREAS)));
    notify(BLOCK, 0);
    while (has_used(&queue))
        take_used(&queue);
    return ((volatile u8 *)&status)[0] == 0;
}

/* Fills the disk: each 64 bytes differ from the others. */
static int fill(void) {
    for (u64 i = 0; i < SECTORS * SECTOR / WRITTEN_BYTES; i++)
        *(volatile u64 *)(AREA(0) + i * WRITTEN_BYTES) = i;
    describe_request(0, SECTORS, NEXT);
    return do_requests(OUT, 0, 1);
}

static void wait(void) {
    for (u32 i = ROUNDS; i > 0; i--)
        __asm__ volatile("");
}

void main(void) {
    if (!negotiate(BLOCK, DISK, 0) || !set_up(BLOCK, 0, &queue))
        return;
    start_device(BLOCK);
    if (!fill())
        return;
    for (u16 area = 0; area < AREAS; area++)
        describe_request(area, COUNT, NEXT | WRITE);
    u64 sector = 0;
    do {
        wait();
        sector = sector + 1 < STARTS ? sector + 1 : 0;
    } while (do_requests(IN, sector, REQUESTS));
}
