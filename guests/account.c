/* Keeps an account: a frame of type 88b5 holds an amount of 4 bytes, the highest first, which is added to the balance, and is answered by
   a frame with the balance. It polls its queues. A frame is answered in the buffer that it came in, as in ping.c. */
#include "virtio.h"

#define RECEIVE 0
#define TRANSMIT 1
#define NETWORK_CARD 1

/* The header before each frame has 12 bytes (5.1.6), the frame's addresses 12, its type 2. */
#define HEADER 12
#define ADDRESS 6
#define TYPE 12
#define AMOUNT 14
#define REQUEST (HEADER + AMOUNT + 4)
#define BUFFER 1536

static struct queue queues[2];
static u8 buffers[QUEUE_SIZE][BUFFER] __attribute__((aligned(16)));
static u32 balance;

/* Gives buffer `i` to the device, for a frame that arrives or as one that is sent. */
static void give(u32 queue, u16 i, u32 length, u16 flags) {
    struct descriptor *descriptor = &queues[queue].descriptors[i];
    descriptor->address = (u64)buffers[i];
    descriptor->length = length;
    descriptor->flags = flags;
    make_available(&queues[queue], i);
}

static void copy(u8 *to, const u8 *from, u64 count) {
    for (u64 i = 0; i < count; i++)
        to[i] = from[i];
}

/* Makes a request, with its header, into its answer. */
static void answer(u8 *buffer) {
    u8 *frame = buffer + HEADER;
    u8 *amount = frame + AMOUNT;
    for (int i = 0; i < HEADER; i++)
        buffer[i] = 0;
    copy(frame, frame + ADDRESS, ADDRESS);
    copy(frame + ADDRESS, (const u8[ADDRESS]){2, 0, 0, 0, 0, 1}, ADDRESS);
    balance += (u32)amount[0] << 24 | (u32)amount[1] << 16 | (u32)amount[2] << 8 | amount[3];
    for (int i = 0; i < 4; i++)
        amount[i] = (u8)(balance >> (24 - 8 * i));
}

static void serve(struct used_entry entry) {
    u16 i = (u16)entry.id;
    const u8 *type = buffers[i] + HEADER + TYPE;
    if (entry.length == REQUEST && type[0] == 0x88 && type[1] == 0xb5) {
        answer(buffers[i]);
        give(TRANSMIT, i, REQUEST, 0);
        notify(NETWORK, TRANSMIT);
    } else {
        give(RECEIVE, i, BUFFER, WRITE);
    }
}

u64 main(void) {
    if (!negotiate(NETWORK, NETWORK_CARD, 0) || !set_up(NETWORK, RECEIVE, &queues[RECEIVE])
        || !set_up(NETWORK, TRANSMIT, &queues[TRANSMIT])) {
        store(NETWORK, STATUS, FAILED);
        return 1;
    }
    for (u16 i = 0; i < QUEUE_SIZE; i++)
        give(RECEIVE, i, BUFFER, WRITE);
    start_device(NETWORK);
    for (;;) {
        while (has_used(&queues[TRANSMIT]))
            give(RECEIVE, (u16)take_used(&queues[TRANSMIT]).id, BUFFER, WRITE);
        while (has_used(&queues[RECEIVE]))
            serve(take_used(&queues[RECEIVE]));
    }
}
