/* A driver of the virtio block device (virtio 1.1, section 5.2). A request has a descriptor for its head, one for the sectors and
   one for its status, and is waited for by reading the used ring. */
#include "disk.h"

#include "arch/cc.h"
#include "../lib/virtio.h"

#define BLOCK_DEVICE 2

/* Types of requests, and the one feature that is asked for. */
#define IN 0
#define OUT 1
#define FLUSH 4
#define FLUSH_FEATURE (1u << 9)

struct request {
    u32 type;
    u32 reserved;
    u64 sector;
};

static struct queue queue;
static struct request request __attribute__((aligned(8)));
static volatile u8 status;

static void describe(u16 i, u64 address, u32 length, u16 flags) {
    struct descriptor *descriptor = &queue.descriptors[i];
    descriptor->address = address;
    descriptor->length = length;
    descriptor->flags = flags;
    descriptor->next = (u16)(i + 1);
}

/* Makes one request and waits until it is done. One that fails stops the guest: there is no answer to a broken disk here. */
static void do_request(u32 type, u64 sector, u64 data, u32 length) {
    request.type = type;
    request.sector = sector;
    status = 0xff;
    describe(0, (u64)&request, sizeof request, NEXT);
    u16 last = 1;
    if (length > 0)
        describe(last++, data, length, type == IN ? NEXT | WRITE : NEXT);
    describe(last, (u64)&status, 1, WRITE);
    make_available(&queue, 0);
    notify(BLOCK, 0);
    while (!has_used(&queue))
        ;
    take_used(&queue);
    store(BLOCK, INTERRUPT_ACK, load(BLOCK, INTERRUPT_STATUS));
    if (status != 0)
        stop();
}

int disk_start(uint64_t sectors) {
    if (!negotiate(BLOCK, BLOCK_DEVICE, FLUSH_FEATURE) || !set_up(BLOCK, 0, &queue))
        return 0;
    start_device(BLOCK);
    return *(volatile u64 *)(BLOCK + CONFIG) >= sectors;
}

void disk_read(uint64_t sector, void *to, uint32_t count) { do_request(IN, sector, (u64)to, count * SECTOR); }

void disk_write(uint64_t sector, const void *from, uint32_t count) {
    do_request(OUT, sector, (u64)from, count * SECTOR);
    do_request(FLUSH, 0, 0, 0);
}
