/* Writes 64 MiB to the disk, and then reads as much: by the virtio block device (virtio 1.1, section 5.2), in requests of 8 KiB, one after
   the other and from the front again at the end of the disk. Answers the number of requests that failed. */
#include "virtio.h"

#define SECTOR 512
#define COUNT 16
#define REQUESTS 8192
#define IN 0
#define OUT 1
#define DISK 2

struct request {
    u32 type;
    u32 reserved;
    u64 sector;
};

static struct queue queue;
static struct request request __attribute__((aligned(8)));
static u8 data[COUNT * SECTOR];
static u8 status;

static void describe(u16 i, u64 address, u32 length, u16 flags) {
    queue.descriptors[i].address = address;
    queue.descriptors[i].length = length;
    queue.descriptors[i].flags = flags;
    queue.descriptors[i].next = (u16)(i + 1);
}

/* Answers how many requests failed. */
static u64 do_requests(u32 type, u64 capacity) {
    u64 failures = 0, sector = 0;
    request.type = type;
    describe(0, (u64)&request, sizeof request, NEXT);
    describe(1, (u64)data, sizeof data, type == IN ? NEXT | WRITE : NEXT);
    describe(2, (u64)&status, 1, WRITE);
    for (int i = 0; i < REQUESTS; i++) {
        request.sector = sector;
        status = 0xff;
        make_available(&queue, 0);
        notify(BLOCK, 0);
        while (!has_used(&queue))
            ;
        take_used(&queue);
        if (status != 0)
            failures++;
        sector = sector + 2 * COUNT > capacity ? 0 : sector + COUNT;
    }
    return failures;
}

u64 main(void) {
    if (!negotiate(BLOCK, DISK, 0) || !set_up(BLOCK, 0, &queue))
        return 1;
    u64 capacity = *(volatile u64 *)(BLOCK + CONFIG);
    for (u32 i = 0; i < sizeof data; i++)
        data[i] = (u8)(i % 251);
    start_device(BLOCK);
    return do_requests(OUT, capacity) + do_requests(IN, capacity);
}
