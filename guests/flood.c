/* Sends 64 frames of 1514 bytes at each notify, without end: to clients 1, 2 and 3 in turn (virtio 1.1, section 5.1). */
#include "virtio.h"

#define TRANSMIT 1
#define MAC_FEATURE (1u << 5)
#define NETWORK_CARD 1
#define HEADER 12
#define LONGEST 1514
#define CLIENTS 3

static struct queue queue;
static u8 packet[HEADER + LONGEST];

u64 main(void) {
    static const u8 front[14] = {2, 0, 0, 0, 1, 0, 2, 0, 0, 0, 0, 1, 0x88, 0xb5};
    if (!negotiate(NETWORK, NETWORK_CARD, MAC_FEATURE) || !set_up(NETWORK, TRANSMIT, &queue))
        return 1;
    u8 *frame = packet + HEADER;
    for (int i = 0; i < LONGEST; i++)
        frame[i] = i < 14 ? front[i] : (u8)i;
    for (u16 i = 0; i < QUEUE_SIZE; i++) {
        queue.descriptors[i].address = (u64)packet;
        queue.descriptors[i].length = sizeof packet;
        queue.available.ring[i] = i;
    }
    start_device(NETWORK);
    for (;;) {
        for (u8 client = 1; client <= CLIENTS; client++) {
            frame[5] = client;
            queue.available.index += QUEUE_SIZE;
            notify(NETWORK, TRANSMIT);
            store(NETWORK, INTERRUPT_ACK, 1);
        }
    }
}
