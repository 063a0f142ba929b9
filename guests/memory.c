/* Writes the first and the last word of each of 16384 pages, and answers with their hash: its own pages are among them. Then it waits for a
   frame of type 88b7, reads all these words, and answers with their hash, the highest byte first. It polls its queues, and answers in the
   buffer that the frame came in.

   It is linked as for two pages: the program in the first, its queues and the stack in the second. Of the words that it writes, the first of
   all was the start's first instruction, the second page's first stands in no variable's place, and the second page's last is where `main`
   keeps what it would need to return, which it never does. */
#include "virtio.h"

#define RECEIVE 0
#define TRANSMIT 1
#define NETWORK_CARD 1

/* The header before each frame has 12 bytes (5.1.6), the frame's addresses 12, its type 2. */
#define HEADER 12
#define ADDRESS 6
#define TYPE 12
#define HASH 14
#define REQUEST (HEADER + HASH)
#define ANSWER (HEADER + HASH + 8)
#define BUFFER 64

#define MEMORY 0x80000000UL
#define PAGES 16384
#define PAGE_BYTES 4096
#define WORDS (2 * PAGES)

u32 first_of_the_second_page __attribute__((section(".answer"), used));
static struct queue queues[2];
static u8 buffer[BUFFER] __attribute__((aligned(16)));

/* The words that are written, two to a page. */
static volatile u32 *word(u32 i) { return (volatile u32 *)(MEMORY + (u64)(i / 2) * PAGE_BYTES + (i % 2) * (PAGE_BYTES - 4)); }

static u32 pattern(u32 i) { return (i + 1) * 0x9e3779b1; }

static void write_all(void) {
    for (u32 i = 0; i < WORDS; i++)
        *word(i) = pattern(i);
}

static u64 hash_of_all(void) {
    u64 hash = 0xcbf29ce484222325;
    for (u32 i = 0; i < WORDS; i++)
        hash = (hash ^ *word(i)) * 0x100000001b3;
    return hash;
}

/* Gives the buffer to the card, for a frame that arrives or as one that is sent. */
static void give(u32 queue, u32 length, u16 flags) {
    struct descriptor *descriptor = &queues[queue].descriptors[0];
    descriptor->address = (u64)buffer;
    descriptor->length = length;
    descriptor->flags = flags;
    make_available(&queues[queue], 0);
}

/* Makes a request, with its header, into its answer. */
static void answer(u64 hash) {
    static const u8 mine[ADDRESS] = {2, 0, 0, 0, 0, 1};
    u8 *frame = buffer + HEADER;
    for (int i = 0; i < HEADER; i++)
        buffer[i] = 0;
    for (int i = 0; i < ADDRESS; i++) {
        frame[i] = frame[ADDRESS + i];
        frame[ADDRESS + i] = mine[i];
    }
    for (int i = 0; i < 8; i++)
        frame[HASH + i] = (u8)(hash >> (56 - 8 * i));
}

static void serve(struct used_entry entry) {
    const u8 *type = buffer + HEADER + TYPE;
    if (entry.length == REQUEST && type[0] == 0x88 && type[1] == 0xb7) {
        answer(hash_of_all());
        give(TRANSMIT, ANSWER, 0);
        notify(NETWORK, TRANSMIT);
    } else {
        give(RECEIVE, BUFFER, WRITE);
    }
}

static int start(void) {
    if (!negotiate(NETWORK, NETWORK_CARD, 0) || !set_up(NETWORK, RECEIVE, &queues[RECEIVE])
        || !set_up(NETWORK, TRANSMIT, &queues[TRANSMIT]))
        return 0;
    give(RECEIVE, BUFFER, WRITE);
    start_device(NETWORK);
    return 1;
}

void main(void) {
    if (start())
        write_all();
    else
        store(NETWORK, STATUS, FAILED);
    for (;;) {
        if (has_used(&queues[TRANSMIT])) {
            take_used(&queues[TRANSMIT]);
            give(RECEIVE, BUFFER, WRITE);
        }
        if (has_used(&queues[RECEIVE]))
            serve(take_used(&queues[RECEIVE]));
    }
}
