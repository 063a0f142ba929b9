/* Counts on its disk: each frame of type 88b6 makes it read the first sector, add one to the number in its first 4 bytes (the highest
   first), write the sector, and answer with that number. Nothing of the count stays in memory. It polls its queues. A frame is answered in
   the buffer that it came in, as in account.c; a count that the disk couldn't keep is not answered. */
#include "virtio.h"

#define RECEIVE 0
#define TRANSMIT 1
#define NETWORK_CARD 1
#define DISK 2

/* The header before each frame has 12 bytes (5.1.6), the frame's addresses 12, its type 2. */
#define HEADER 12
#define ADDRESS 6
#define TYPE 12
#define COUNT 14
#define REQUEST (HEADER + COUNT)
#define ANSWER (HEADER + COUNT + 4)
#define BUFFER 1536

/* Types of disk requests. */
#define IN 0
#define OUT 1
#define SECTOR 512

struct request {
    u32 type;
    u32 reserved;
    u64 sector;
};

static struct queue queues[2];
static struct queue disk;
static u8 buffers[QUEUE_SIZE][BUFFER] __attribute__((aligned(16)));
static struct request request __attribute__((aligned(8)));
static u8 sector[SECTOR];
static volatile u8 status;

static void describe(struct queue *queue, u16 i, u64 address, u32 length, u16 flags) {
    struct descriptor *descriptor = &queue->descriptors[i];
    descriptor->address = address;
    descriptor->length = length;
    descriptor->flags = flags;
    descriptor->next = (u16)(i + 1);
}

/* Gives buffer `i` to the card, for a frame that arrives or as one that is sent. */
static void give(u32 queue, u16 i, u32 length, u16 flags) {
    describe(&queues[queue], i, (u64)buffers[i], length, flags);
    make_available(&queues[queue], i);
}

/* Reads or writes the first sector. Answers whether that was done. */
static int move_sector(u32 type) {
    request.type = type;
    status = 0xff;
    describe(&disk, 0, (u64)&request, sizeof request, NEXT);
    describe(&disk, 1, (u64)sector, SECTOR, type == IN ? NEXT | WRITE : NEXT);
    describe(&disk, 2, (u64)&status, 1, WRITE);
    make_available(&disk, 0);
    notify(BLOCK, 0);
    while (!has_used(&disk))
        ;
    take_used(&disk);
    return status == 0;
}

static u32 read_number(const u8 *from) { return (u32)from[0] << 24 | (u32)from[1] << 16 | (u32)from[2] << 8 | from[3]; }

static void write_number(u8 *to, u32 number) {
    for (int i = 0; i < 4; i++)
        to[i] = (u8)(number >> (24 - 8 * i));
}

/* Counts one more, and answers whether the disk has it. */
static int count(void) {
    if (!move_sector(IN))
        return 0;
    write_number(sector, read_number(sector) + 1);
    return move_sector(OUT);
}

/* Makes a request, with its header, into its answer. */
static void answer(u8 *buffer) {
    static const u8 mine[ADDRESS] = {2, 0, 0, 0, 0, 1};
    u8 *frame = buffer + HEADER;
    for (int i = 0; i < HEADER; i++)
        buffer[i] = 0;
    for (int i = 0; i < ADDRESS; i++) {
        frame[i] = frame[ADDRESS + i];
        frame[ADDRESS + i] = mine[i];
    }
    write_number(frame + COUNT, read_number(sector));
}

static void serve(struct used_entry entry) {
    u16 i = (u16)entry.id;
    const u8 *type = buffers[i] + HEADER + TYPE;
    if (entry.length == REQUEST && type[0] == 0x88 && type[1] == 0xb6 && count()) {
        answer(buffers[i]);
        give(TRANSMIT, i, ANSWER, 0);
        notify(NETWORK, TRANSMIT);
    } else {
        give(RECEIVE, i, BUFFER, WRITE);
    }
}

static int start(void) {
    if (!negotiate(BLOCK, DISK, 0) || !set_up(BLOCK, 0, &disk) || !negotiate(NETWORK, NETWORK_CARD, 0)
        || !set_up(NETWORK, RECEIVE, &queues[RECEIVE]) || !set_up(NETWORK, TRANSMIT, &queues[TRANSMIT]))
        return 0;
    for (u16 i = 0; i < QUEUE_SIZE; i++)
        give(RECEIVE, i, BUFFER, WRITE);
    start_device(BLOCK);
    start_device(NETWORK);
    return 1;
}

u64 main(void) {
    if (!start()) {
        store(NETWORK, STATUS, FAILED);
        return 1;
    }
    for (;;) {
        while (has_used(&queues[TRANSMIT]))
            give(RECEIVE, (u16)take_used(&queues[TRANSMIT]).id, BUFFER, WRITE);
        while (has_used(&queues[RECEIVE]))
            serve(take_used(&queues[RECEIVE]));
    }
}
