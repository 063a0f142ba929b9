/* A driver of the virtio network device (virtio 1.1, section 5.1) for lwIP. It asks the used rings for what is done, and takes no
   interrupt. A frame that is sent goes from where the stack has it: each part of it is a descriptor. */
#include "network.h"

#include "lwip/etharp.h"
#include "lwip/pbuf.h"
#include "netif/ethernet.h"

#include "../lib/virtio.h"

#include <string.h>

#define NETWORK_DEVICE 1
#define RECEIVE 0
#define TRANSMIT 1
#define MAC_FEATURE (1u << 5)

/* Before each frame stands a header (5.1.6), which is zero where a frame is sent: nothing of the work is left to the device. */
#define HEADER 12
#define BUFFER 1536
#define MTU 1500

static struct queue receive, transmit;
static u8 buffers[QUEUE_SIZE][BUFFER] __attribute__((aligned(16)));
static const u8 header[HEADER];

/* Frames that came wait here for the stack, in a ring: of each its length, in two bytes, and then the frame. The card has 64 buffers, and
   loses what finds none; eight clients that ask for much have several hundred acknowledgements on their way. */
#define ROOM (128u * 1024)
static u8 waiting[ROOM];
static u32 came, taken; /* bytes, since the start: ROOM divides 2^32, by which they wrap */

static void describe(struct queue *queue, u16 i, const void *at, u32 length, u16 flags) {
    struct descriptor *descriptor = &queue->descriptors[i];
    descriptor->address = (u64)at;
    descriptor->length = length;
    descriptor->flags = flags;
    descriptor->next = (u16)(i + 1);
}

static void give_to_receive(u16 i) {
    describe(&receive, i, buffers[i], BUFFER, WRITE);
    make_available(&receive, i);
}

/* Sends a frame. The device has read it when the used ring says so, and it is the caller's again. */
static err_t send(struct netif *netif, struct pbuf *frame) {
    LWIP_UNUSED_ARG(netif);
    if (pbuf_clen(frame) >= QUEUE_SIZE)
        return ERR_BUF;
    u16 last = 0;
    describe(&transmit, last, header, HEADER, NEXT);
    for (struct pbuf *part = frame; part != NULL; part = part->next)
        describe(&transmit, ++last, part->payload, part->len, NEXT);
    transmit.descriptors[last].flags = 0;
    make_available(&transmit, 0);
    notify(NETWORK, TRANSMIT);
    while (!has_used(&transmit))
        ;
    take_used(&transmit);
    return ERR_OK;
}

static void put(const void *from, u32 count) {
    u32 at = came % ROOM, first = LWIP_MIN(count, ROOM - at);
    memcpy(waiting + at, from, first);
    memcpy(waiting, (const u8 *)from + first, count - first);
    came += count;
}

static void take(void *to, u32 count) {
    u32 at = taken % ROOM, first = LWIP_MIN(count, ROOM - at);
    memcpy(to, waiting + at, first);
    memcpy((u8 *)to + first, waiting, count - first);
    taken += count;
}

/* Moves frames out of the card's buffers into the ring, as long as it has room for any. */
static void collect(void) {
    while (has_used(&receive) && ROOM - (came - taken) >= sizeof(u16) + BUFFER) {
        struct used_entry entry = take_used(&receive);
        u16 i = (u16)entry.id, length = (u16)(entry.length - HEADER);
        put(&length, sizeof length);
        put(buffers[i] + HEADER, length);
        give_to_receive(i);
    }
}

/* A frame fits into one buffer of the stack. Where the stack has none it is lost, as on a line. */
void network_poll(struct netif *netif) {
    u16 length;
    collect();
    if (came == taken)
        return;
    take(&length, sizeof length);
    struct pbuf *frame = pbuf_alloc(PBUF_RAW, length, PBUF_POOL);
    if (frame == NULL) {
        taken += length;
        return;
    }
    take(frame->payload, length);
    if (netif->input(frame, netif) != ERR_OK)
        pbuf_free(frame);
}

err_t network_start(struct netif *netif) {
    if (!negotiate(NETWORK, NETWORK_DEVICE, MAC_FEATURE) || !set_up(NETWORK, RECEIVE, &receive)
        || !set_up(NETWORK, TRANSMIT, &transmit))
        return ERR_IF;
    for (u16 i = 0; i < QUEUE_SIZE; i++)
        give_to_receive(i);
    start_device(NETWORK);
    netif->name[0] = 'v';
    netif->name[1] = 'n';
    netif->mtu = MTU;
    netif->hwaddr_len = ETH_HWADDR_LEN;
    for (int i = 0; i < ETH_HWADDR_LEN; i++)
        netif->hwaddr[i] = ((volatile u8 *)(NETWORK + CONFIG))[i];
    netif->flags = NETIF_FLAG_BROADCAST | NETIF_FLAG_ETHARP | NETIF_FLAG_ETHERNET | NETIF_FLAG_LINK_UP;
    netif->output = etharp_output;
    netif->linkoutput = send;
    return ERR_OK;
}
