/* Numbers the frames that it gets, over all clients, and sends each back where it came from, in the buffer that it came in. A frame of type
   88b5 and of 38 bytes or more has a question of eight bytes after its head; the number follows there, from 1, and then a chain over all
   numbered frames so far: after each, the chain before it, xored with the client in its top byte and the question, times 0x100000001b3.
   Other frames are dropped. bench/threads/count.words has its words: guests/make --pages 36 --words bench/threads/count.c. */
#include "virtio.h"

#define RECEIVE 0
#define TRANSMIT 1
#define NETWORK_CARD 1
#define HEADER 12
#define BUFFER 1536
#define SHORTEST 38
#define FACTOR 0x100000001b3UL

/* What is done at each look at the queues: nothing, where busy.c doesn't say more. */
#ifndef LOOK
#define LOOK()
#endif

static struct queue queues[2];
static u8 buffers[QUEUE_SIZE][BUFFER] __attribute__((aligned(16)));
static u64 number, chain;

static u64 read_wide(const u8 *from) {
    u64 value = 0;
    for (int at = 7; at >= 0; at--)
        value = value << 8 | from[at];
    return value;
}

static void write_wide(u8 *to, u64 value) {
    for (int at = 0; at < 8; at++, value >>= 8)
        to[at] = (u8)value;
}

static void give(u32 queue, u16 i, u32 length, u16 flags) {
    queues[queue].descriptors[i] = (struct descriptor){(u64)buffers[i], length, flags, 0};
    make_available(&queues[queue], i);
}

/* Numbers the frame in a buffer, and turns it round. Answers whether it is one to be answered. */
static int answer(u8 *frame, u32 length) {
    if (length < SHORTEST || frame[12] != 0x88 || frame[13] != 0xb5)
        return 0;
    number++;
    chain = (chain ^ (u64)frame[11] << 56 ^ read_wide(frame + 14)) * FACTOR;
    write_wide(frame + 22, number);
    write_wide(frame + 30, chain);
    for (int at = 0; at < 6; at++) {
        frame[at] = frame[6 + at];
        frame[6 + at] = 0;
    }
    frame[6] = 2;
    frame[11] = 1;
    return 1;
}

static void serve(struct used_entry used) {
    u16 i = (u16)used.id;
    if (!answer(buffers[i] + HEADER, used.length - HEADER)) {
        give(RECEIVE, i, BUFFER, WRITE);
        return;
    }
    for (int at = 0; at < HEADER; at++)
        buffers[i][at] = 0;
    give(TRANSMIT, i, used.length, 0);
    notify(NETWORK, TRANSMIT);
}

u64 main(void) {
    if (!negotiate(NETWORK, NETWORK_CARD, 0) || !set_up(NETWORK, RECEIVE, &queues[RECEIVE])
        || !set_up(NETWORK, TRANSMIT, &queues[TRANSMIT]))
        return 1;
    for (u16 i = 0; i < QUEUE_SIZE; i++)
        give(RECEIVE, i, BUFFER, WRITE);
    start_device(NETWORK);
    for (;;) {
        LOOK();
        while (has_used(&queues[TRANSMIT]))
            give(RECEIVE, (u16)take_used(&queues[TRANSMIT]).id, BUFFER, WRITE);
        while (has_used(&queues[RECEIVE]))
            serve(take_used(&queues[RECEIVE]));
    }
}
