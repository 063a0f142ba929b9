/* Calls code that frames bring. A frame of type 88b8 has two bytes of nothing, a number of eight bytes, the highest byte first, and then
   code, or none. The guest calls the code where the card has put it, with the number, and answers what it gives. A frame without code is
   shorter than what the one before it left behind the number, so its number goes to the code that came last. It polls its queues. */
#include "virtio.h"

#define RECEIVE 0
#define TRANSMIT 1
#define NETWORK_CARD 1

/* The header before each frame has 12 bytes (5.1.6), the frame's addresses 12, its type 2. Code stands at a multiple of 4. */
#define HEADER 12
#define ADDRESS 6
#define TYPE 12
#define NUMBER 16
#define CODE (HEADER + NUMBER + 8)
#define ANSWER (HEADER + NUMBER + 8)
#define BUFFER 128

static struct queue queues[2];
static u8 request[BUFFER] __attribute__((aligned(16)));
static u8 answer[ANSWER] __attribute__((aligned(16)));

/* Gives a buffer to the card, for a frame that arrives or as one that is sent. */
static void give(u32 queue, u8 *buffer, u32 length, u16 flags) {
    struct descriptor *descriptor = &queues[queue].descriptors[0];
    descriptor->address = (u64)buffer;
    descriptor->length = length;
    descriptor->flags = flags;
    make_available(&queues[queue], 0);
}

static u64 number(const u8 *bytes) {
    u64 value = 0;
    for (int i = 0; i < 8; i++)
        value = value << 8 | bytes[i];
    return value;
}

/* There is no FENCE.I here, and none is needed: what stands in memory is what runs. */
static u64 call(u64 value) {
    u64 (*code)(u64) = (u64(*)(u64))(request + CODE);
    __asm__ volatile("" ::: "memory");
    return code(value);
}

static void send(u64 value) {
    static const u8 mine[ADDRESS] = {2, 0, 0, 0, 0, 1};
    u8 *to = answer + HEADER;
    const u8 *from = request + HEADER;
    for (int i = 0; i < ADDRESS; i++) {
        to[i] = from[ADDRESS + i];
        to[ADDRESS + i] = mine[i];
    }
    to[TYPE] = from[TYPE];
    to[TYPE + 1] = from[TYPE + 1];
    for (int i = 0; i < 8; i++)
        to[NUMBER + i] = (u8)(value >> (56 - 8 * i));
    give(TRANSMIT, answer, ANSWER, 0);
    notify(NETWORK, TRANSMIT);
}

static void serve(u32 length) {
    const u8 *frame = request + HEADER;
    if (length >= CODE && frame[TYPE] == 0x88 && frame[TYPE + 1] == 0xb8)
        send(call(number(frame + NUMBER)));
    else
        give(RECEIVE, request, BUFFER, WRITE);
}

static int start(void) {
    if (!negotiate(NETWORK, NETWORK_CARD, 0) || !set_up(NETWORK, RECEIVE, &queues[RECEIVE])
        || !set_up(NETWORK, TRANSMIT, &queues[TRANSMIT]))
        return 0;
    give(RECEIVE, request, BUFFER, WRITE);
    start_device(NETWORK);
    return 1;
}

void main(void) {
    if (!start())
        store(NETWORK, STATUS, FAILED);
    for (;;) {
        if (has_used(&queues[TRANSMIT])) {
            take_used(&queues[TRANSMIT]);
            give(RECEIVE, request, BUFFER, WRITE);
        }
        if (has_used(&queues[RECEIVE]))
            serve(take_used(&queues[RECEIVE]).length);
    }
}
