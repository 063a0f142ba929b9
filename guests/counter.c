/* Counts on its disk, and is asked over UDP: each datagram to port 7 of 10.0.0.1 adds one to the number in the first 8 bytes of the disk,
   and is answered with that number as text. It answers ARP requests for its address too. It polls its queues, and answers a frame in the
   buffer that it came in. docs/GUESTS.md builds it step by step. */
#include "virtio.h"

#define RECEIVE 0
#define TRANSMIT 1
#define NETWORK_CARD 1
#define DISK 2
#define BUFFER 1536
#define SECTOR 512
#define COUNTED_PORT 7
#define UDP 17
#define DIGITS 20

static const u8 my_mac[6] = {2, 0, 0, 0, 0, 1};
static const u8 my_ip[4] = {10, 0, 0, 1};

static struct queue queues[2], disk;
static u8 buffers[QUEUE_SIZE][BUFFER] __attribute__((aligned(16)));

/* Copies that the compiler makes no call of. */
static void copy(u8 *to, const u8 *from, u32 count) {
    while (count--)
        *to++ = *from++;
}

static int equal(const u8 *a, const u8 *b, u32 count) {
    while (count--)
        if (*a++ != *b++)
            return 0;
    return 1;
}

static u32 read16(const u8 *from) { return (u32)from[0] << 8 | from[1]; }

static void write16(u8 *to, u32 value) {
    to[0] = (u8)(value >> 8);
    to[1] = (u8)value;
}

/* Queues. */

static void describe(struct queue *queue, u16 i, u64 address, u32 length, u16 flags) {
    queue->descriptors[i] = (struct descriptor){address, length, flags, (u16)(i + 1)};
}

/* Gives buffer `i` to the card, for a frame that arrives or as one that is sent. */
static void give(u32 queue, u16 i, u32 length, u16 flags) {
    describe(&queues[queue], i, (u64)buffers[i], length, flags);
    make_available(&queues[queue], i);
}

/* Reads (0) or writes (1) the first sector. Answers whether that was done. */
static int move_sector(u32 type, u8 *sector) {
    static struct { u32 type, reserved; u64 sector; } request;
    static volatile u8 status;
    request.type = type;
    status = 0xff;
    describe(&disk, 0, (u64)&request, sizeof request, NEXT);
    describe(&disk, 1, (u64)sector, SECTOR, type == 0 ? NEXT | WRITE : NEXT);
    describe(&disk, 2, (u64)&status, 1, WRITE);
    make_available(&disk, 0);
    notify(BLOCK, 0);
    while (!has_used(&disk))
        ;
    take_used(&disk);
    return status == 0;
}

/* The next number, which is on the disk before this returns; 0 if the disk failed. */
static u64 count(void) {
    static u64 sector[SECTOR / 8];
    if (!move_sector(0, (u8 *)sector))
        return 0;
    sector[0]++;
    return move_sector(1, (u8 *)sector) ? sector[0] : 0;
}

/* Answers. Each makes a frame into its answer, in place, and answers its length, or 0 if there is none. */

/* Sends a frame back: the client's address first, then the guest's. */
static void turn(u8 *frame) {
    copy(frame, frame + 6, 6);
    copy(frame + 6, my_mac, 6);
}

static u32 answer_arp(u8 *frame, u32 length) {
    if (length < 42 || read16(frame + 20) != 1 || !equal(frame + 38, my_ip, 4))
        return 0;
    turn(frame);
    write16(frame + 20, 2);
    copy(frame + 32, frame + 22, 10);
    copy(frame + 22, my_mac, 6);
    copy(frame + 28, my_ip, 4);
    return 42;
}

/* The checksum of an IPv4 header of 20 bytes (RFC 791). */
static u32 checksum(const u8 *header) {
    u32 total = 0;
    for (u32 i = 0; i < 20; i += 2)
        total += read16(header + i);
    total = (total & 0xffff) + (total >> 16);
    return ~(total + (total >> 16)) & 0xffff;
}

/* Writes a number as text; answers how many bytes that has. */
static u32 write_number(u8 *to, u64 number) {
    u8 digits[DIGITS];
    u32 count = 0;
    do
        digits[count++] = (u8)('0' + number % 10);
    while (number /= 10);
    for (u32 i = 0; i < count; i++)
        to[i] = digits[count - 1 - i];
    return count;
}

static u32 answer_udp(u8 *frame, u32 length) {
    u8 *ip = frame + 14, *udp = ip + 20;
    if (length < 42 || ip[0] != 0x45 || ip[9] != UDP || !equal(ip + 16, my_ip, 4) || read16(udp + 2) != COUNTED_PORT)
        return 0;
    u64 number = count();
    if (number == 0)
        return 0;
    u32 bytes = 8 + write_number(udp + 8, number);
    turn(frame);
    copy(udp + 2, udp, 2);
    write16(udp, COUNTED_PORT);
    write16(udp + 4, bytes);
    write16(udp + 6, 0); /* no checksum (RFC 768) */
    copy(ip + 16, ip + 12, 4);
    copy(ip + 12, my_ip, 4);
    write16(ip + 2, 20 + bytes);
    write16(ip + 10, 0);
    write16(ip + 10, checksum(ip));
    return 34 + bytes;
}

static u32 answer(u8 *frame, u32 length) {
    switch (length < 14 ? 0 : read16(frame + 12)) {
    case 0x0806:
        return answer_arp(frame, length);
    case 0x0800:
        return answer_udp(frame, length);
    default:
        return 0;
    }
}

/* A frame came into a buffer, after a header of 12 bytes (virtio 1.1, 5.1.6): sends its answer, or gives the buffer back. */
static void serve(struct used_entry used) {
    u16 i = (u16)used.id;
    u32 length = answer(buffers[i] + 12, used.length - 12);
    if (length == 0) {
        give(RECEIVE, i, BUFFER, WRITE);
        return;
    }
    for (u32 at = 0; at < 12; at++)
        buffers[i][at] = 0;
    give(TRANSMIT, i, 12 + length, 0);
    notify(NETWORK, TRANSMIT);
}

static int start(void) {
    if (!negotiate(BLOCK, DISK, 0) || !set_up(BLOCK, 0, &disk) || !negotiate(NETWORK, NETWORK_CARD, 0)
        || !set_up(NETWORK, RECEIVE, &queues[RECEIVE]) || !set_up(NETWORK, TRANSMIT, &queues[TRANSMIT]))
        return 0;
    for (u16 i = 0; i < QUEUE_SIZE; i++)
        give(RECEIVE, i, BUFFER, WRITE);
    start_device(BLOCK);
    start_device(NETWORK);
    return 1;
}

u64 main(void) {
    if (!start())
        return 1;
    for (;;) {
        while (has_used(&queues[TRANSMIT]))
            give(RECEIVE, (u16)take_used(&queues[TRANSMIT]).id, BUFFER, WRITE);
        while (has_used(&queues[RECEIVE]))
            serve(take_used(&queues[RECEIVE]));
    }
}
