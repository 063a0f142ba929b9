/* Answers ARP and pings at 10.0.0.1, driven by interrupts: ARP requests for it and ICMP echo requests to it (RFC 826, 791, 792), over the
   virtio network device (virtio 1.1, section 5.1), whose interrupt drives all of it. A frame is answered in the buffer that it came in:
   the buffer goes from the receive queue to the transmit queue, and back once it is sent. */
#include "virtio.h"

#define RECEIVE 0
#define TRANSMIT 1
#define MAC_FEATURE (1u << 5)
#define NETWORK_CARD 1

/* The header before each frame has 12 bytes (5.1.6); the last two count the buffers of a received frame. */
#define HEADER 12
#define BUFFER 1536

void enable_interrupts(void);
void wait_for_interrupt(void);

static struct queue queues[2];
static u8 buffers[QUEUE_SIZE][BUFFER] __attribute__((aligned(16)));
static u8 mac[6];
static const u8 address[4] = {10, 0, 0, 1};

static void copy(u8 *to, const u8 *from, u64 count) {
    for (u64 i = 0; i < count; i++)
        to[i] = from[i];
}

static int is_same(const u8 *a, const u8 *b, u64 count) {
    for (u64 i = 0; i < count; i++)
        if (a[i] != b[i])
            return 0;
    return 1;
}

static u32 big_endian_16(const u8 *at) { return (u32)at[0] << 8 | at[1]; }

static void put_big_endian_16(u8 *at, u32 value) {
    at[0] = (u8)(value >> 8);
    at[1] = (u8)value;
}

/* The checksum of RFC 1071: 0 over a part that holds its own checksum and is whole. */
static u32 checksum(const u8 *bytes, u32 count) {
    u32 sum = 0;
    for (u32 i = 0; i + 1 < count; i += 2)
        sum += big_endian_16(bytes + i);
    if (count & 1)
        sum += (u32)bytes[count - 1] << 8;
    while (sum >> 16)
        sum = (sum & 0xffff) + (sum >> 16);
    return ~sum & 0xffff;
}

/* Gives buffer `i` to the device to receive into. */
static void give_to_receive(u16 i) {
    struct descriptor *descriptor = &queues[RECEIVE].descriptors[i];
    descriptor->address = (u64)buffers[i];
    descriptor->length = BUFFER;
    descriptor->flags = WRITE;
    make_available(&queues[RECEIVE], i);
}

/* Sends the frame of so many bytes that stands in buffer `i`. */
static void send(u16 i, u32 length) {
    for (int at = 0; at < HEADER; at++)
        buffers[i][at] = 0;
    struct descriptor *descriptor = &queues[TRANSMIT].descriptors[i];
    descriptor->address = (u64)buffers[i];
    descriptor->length = HEADER + length;
    descriptor->flags = 0;
    make_available(&queues[TRANSMIT], i);
}

/* Makes an ARP request for this host into its reply. Answers whether it is one. */
static int answer_arp(u8 *frame, u32 length) {
    static const u8 request[8] = {0, 1, 8, 0, 6, 4, 0, 1};
    u8 *arp = frame + 14;
    if (length < 42 || !is_same(arp, request, 8) || !is_same(arp + 24, address, 4))
        return 0;
    arp[7] = 2;
    copy(arp + 18, arp + 8, 10);
    copy(arp + 8, mac, 6);
    copy(arp + 14, address, 4);
    return 1;
}

/* Makes an echo request to this host into its reply. Answers whether it is one. */
static int answer_echo(u8 *frame, u32 length) {
    u8 *ip = frame + 14;
    u8 *icmp = ip + 20;
    if (length < 42 || ip[0] != 0x45 || ip[9] != 1 || !is_same(ip + 16, address, 4))
        return 0;
    u32 total = big_endian_16(ip + 2);
    int is_part = (big_endian_16(ip + 6) & 0x3fff) != 0;
    if (total < 28 || 14 + total > length || is_part || checksum(ip, 20) != 0)
        return 0;
    if (icmp[0] != 8 || icmp[1] != 0 || checksum(icmp, total - 20) != 0)
        return 0;
    icmp[0] = 0;
    put_big_endian_16(icmp + 2, 0);
    put_big_endian_16(icmp + 2, checksum(icmp, total - 20));
    copy(ip + 16, ip + 12, 4);
    copy(ip + 12, address, 4);
    ip[8] = 64;
    put_big_endian_16(ip + 10, 0);
    put_big_endian_16(ip + 10, checksum(ip, 20));
    return 1;
}

/* Makes a frame into its answer, in place. Answers whether there is one. */
static int answer(u8 *frame, u32 length) {
    static const u8 everyone[6] = {0xff, 0xff, 0xff, 0xff, 0xff, 0xff};
    if (length < 14 || !(is_same(frame, mac, 6) || is_same(frame, everyone, 6)))
        return 0;
    u32 type = big_endian_16(frame + 12);
    int is_answered = type == 0x0806 ? answer_arp(frame, length) : type == 0x0800 ? answer_echo(frame, length) : 0;
    if (is_answered) {
        copy(frame, frame + 6, 6);
        copy(frame + 6, mac, 6);
    }
    return is_answered;
}

/* Called with interrupts off, for each interrupt of the machine. */
void on_interrupt(void) {
    store(NETWORK, INTERRUPT_ACK, load(NETWORK, INTERRUPT_STATUS));
    int sends = 0;
    while (has_used(&queues[TRANSMIT]))
        give_to_receive((u16)take_used(&queues[TRANSMIT]).id);
    while (has_used(&queues[RECEIVE])) {
        struct used_entry entry = take_used(&queues[RECEIVE]);
        u16 i = (u16)entry.id;
        u32 length = entry.length > HEADER ? entry.length - HEADER : 0;
        if (answer(buffers[i] + HEADER, length)) {
            send(i, length);
            sends = 1;
        } else {
            give_to_receive(i);
        }
    }
    notify(NETWORK, RECEIVE);
    if (sends)
        notify(NETWORK, TRANSMIT);
}

u64 main(void) {
    if (!negotiate(NETWORK, NETWORK_CARD, MAC_FEATURE) || !set_up(NETWORK, RECEIVE, &queues[RECEIVE])
        || !set_up(NETWORK, TRANSMIT, &queues[TRANSMIT])) {
        store(NETWORK, STATUS, FAILED);
        return 1;
    }
    for (int i = 0; i < 6; i++)
        mac[i] = ((volatile u8 *)(NETWORK + CONFIG))[i];
    for (u16 i = 0; i < QUEUE_SIZE; i++)
        give_to_receive(i);
    start_device(NETWORK);
    notify(NETWORK, RECEIVE);
    enable_interrupts();
    for (;;)
        wait_for_interrupt();
}
