/* A guest's side of the network, over virtio.h: Ethernet, ARP, IPv4, ICMP echo and UDP (RFC 894, 826, 791, 792, 768). The guest is at
   10.0.0.1. It answers ARP requests and pings by itself; datagrams are the guest's:

       struct datagram asked;
       if (!net_start())
           return 1;
       for (;;)
           if (net_receive(&asked) && asked.port == 7)
               net_reply(&asked, asked.data, asked.length);

   There is one card, and one datagram at a time: what was received is valid until the next call of net_receive. Packets in fragments,
   with options, or to another address are passed over. */
#ifndef NET_H
#define NET_H

#include "virtio.h"

#define NET_ETHERNET 14     /* bytes of a frame's header */
#define NET_IP 20           /* of a packet's */
#define NET_UDP 8           /* of a datagram's */
#define NET_MOST 1472       /* bytes of data that a datagram has at most: a frame has 1514 */
#define NET_BUFFER 1536
#define NET_VIRTIO 12       /* bytes before each frame (virtio 1.1, 5.1.6) */
#define NET_CAME 32         /* frames that the card has buffers for, until the guest looks at them */
#define NET_LEAVE 16        /* frames that are on their way, at most */

/* A datagram that came: whose it is, to which port, and what it holds. */
struct datagram {
    u8 mac[6], ip[4];
    u32 from_port, port;
    const u8 *data;
    u32 length;
};

static const u8 net_mac[6] = {2, 0, 0, 0, 0, 1};
static const u8 net_ip[4] = {10, 0, 0, 1};

/* Queue 0 receives, queue 1 sends. Buffers of the first are the card's until a frame is in one; the second has buffers of its own. */
static struct queue net_queues[2];
static u8 net_received[NET_CAME][NET_BUFFER] __attribute__((aligned(16)));
static u8 net_sent[NET_LEAVE][NET_BUFFER] __attribute__((aligned(16)));
static u16 net_next, net_last = NET_CAME;

#define NET_CALL static __attribute__((unused))

NET_CALL void net_copy(u8 *to, const u8 *from, u32 count) {
    while (count--)
        *to++ = *from++;
}

NET_CALL int net_is_same(const u8 *one, const u8 *other, u32 count) {
    while (count--)
        if (*one++ != *other++)
            return 0;
    return 1;
}

NET_CALL u32 net_read16(const u8 *from) { return (u32)from[0] << 8 | from[1]; }

NET_CALL void net_write16(u8 *to, u32 value) {
    to[0] = (u8)(value >> 8);
    to[1] = (u8)value;
}

/* The Internet checksum (RFC 1071) of these bytes, with what was summed before. Over bytes that hold their own it is 0. */
NET_CALL u32 net_checksum(const u8 *from, u32 count, u32 before) {
    for (; count > 1; from += 2, count -= 2)
        before += net_read16(from);
    if (count)
        before += (u32)from[0] << 8;
    while (before >> 16)
        before = (before & 0xffff) + (before >> 16);
    return ~before & 0xffff;
}

NET_CALL void net_give(u32 queue, u16 i, u8 *buffer, u32 length, u16 flags) {
    net_queues[queue].descriptors[i] = (struct descriptor){(u64)buffer, length, flags, 0};
    make_available(&net_queues[queue], i);
}

/* Sets up the network card. Answers whether there is one. */
NET_CALL int net_start(void) {
    if (!negotiate(NETWORK, 1, 0) || !set_up(NETWORK, 0, &net_queues[0]) || !set_up(NETWORK, 1, &net_queues[1]))
        return 0;
    for (u16 i = 0; i < NET_CAME; i++)
        net_give(0, i, net_received[i], NET_BUFFER, WRITE);
    start_device(NETWORK);
    return 1;
}

/* A place for a frame to be sent, or 0 while NET_LEAVE are on their way. */
NET_CALL u8 *net_frame(void) {
    while (has_used(&net_queues[1]))
        take_used(&net_queues[1]);
    if ((u16)(net_next - net_queues[1].seen) >= NET_LEAVE)
        return 0;
    return net_sent[net_next % NET_LEAVE] + NET_VIRTIO;
}

/* Sends the frame of so many bytes that stands in the place which net_frame gave, to a client's address. */
NET_CALL void net_send(const u8 *mac, u32 kind, u32 length) {
    u16 i = net_next++ % NET_LEAVE;
    u8 *frame = net_sent[i] + NET_VIRTIO;
    for (u32 at = 0; at < NET_VIRTIO; at++)
        net_sent[i][at] = 0;
    net_copy(frame, mac, 6);
    net_copy(frame + 6, net_mac, 6);
    net_write16(frame + 12, kind);
    net_give(1, i, net_sent[i], NET_VIRTIO + length, 0);
    notify(NETWORK, 1);
}

/* Writes the header of a packet that has so many bytes after it. */
NET_CALL void net_write_ip(u8 *ip, const u8 *to, u32 protocol, u32 length) {
    static const u8 front[12] = {0x45, 0, 0, 0, 0, 0, 0x40, 0, 64, 0, 0, 0};
    net_copy(ip, front, 12);
    net_write16(ip + 2, NET_IP + length);
    ip[9] = (u8)protocol;
    net_copy(ip + 12, net_ip, 4);
    net_copy(ip + 16, to, 4);
    net_write16(ip + 10, net_checksum(ip, NET_IP, 0));
}

/* The sum of what stands before a datagram in its checksum: both addresses, the protocol and the length (RFC 768). */
NET_CALL u32 net_pseudo_sum(const u8 *ip, u32 length) {
    u32 sum = 17 + length;
    for (u32 at = 12; at < 20; at += 2)
        sum += net_read16(ip + at);
    return sum;
}

/* Sends a datagram to who sent this one, from the port that it was sent to. Answers whether it could: not where it has more than NET_MOST
   bytes, or where too many frames are on their way. */
NET_CALL int net_reply(const struct datagram *to, const void *data, u32 length) {
    u8 *frame = length <= NET_MOST ? net_frame() : 0;
    if (!frame)
        return 0;
    u8 *ip = frame + NET_ETHERNET, *udp = ip + NET_IP;
    net_write16(udp, to->port);
    net_write16(udp + 2, to->from_port);
    net_write16(udp + 4, NET_UDP + length);
    net_write16(udp + 6, 0);
    net_copy(udp + NET_UDP, data, length);
    net_write_ip(ip, to->ip, 17, NET_UDP + length);
    u32 sum = net_checksum(udp, NET_UDP + length, net_pseudo_sum(ip, NET_UDP + length));
    net_write16(udp + 6, sum ? sum : 0xffff);
    net_send(to->mac, 0x0800, NET_ETHERNET + NET_IP + NET_UDP + length);
    return 1;
}

NET_CALL void net_answer_arp(const u8 *came, u32 length) {
    const u8 *arp = came + NET_ETHERNET;
    u8 *frame;
    if (length < 42 || net_read16(arp + 6) != 1 || !net_is_same(arp + 24, net_ip, 4) || !(frame = net_frame()))
        return;
    u8 *answer = frame + NET_ETHERNET;
    net_copy(answer, arp, 6);
    net_write16(answer + 6, 2);
    net_copy(answer + 8, net_mac, 6);
    net_copy(answer + 14, net_ip, 4);
    net_copy(answer + 18, arp + 8, 10);
    net_send(came + 6, 0x0806, 42);
}

/* Answers a ping whose message has so many bytes. */
NET_CALL void net_answer_ping(const u8 *came, u32 length) {
    const u8 *ip = came + NET_ETHERNET;
    u8 *frame;
    if (length < 8 || ip[NET_IP] != 8 || net_checksum(ip + NET_IP, length, 0) || !(frame = net_frame()))
        return;
    u8 *icmp = frame + NET_ETHERNET + NET_IP;
    net_copy(icmp, ip + NET_IP, length);
    icmp[0] = 0;
    net_write16(icmp + 2, 0);
    net_write16(icmp + 2, net_checksum(icmp, length, 0));
    net_write_ip(frame + NET_ETHERNET, ip + 12, 1, length);
    net_send(came + 6, 0x0800, NET_ETHERNET + NET_IP + length);
}

/* Whether a packet is one for this guest, whole; `length` is then how many bytes it has after its header. */
NET_CALL int net_is_packet(const u8 *came, u32 *length) {
    const u8 *ip = came + NET_ETHERNET;
    u32 total = net_read16(ip + 2);
    if (*length < NET_ETHERNET + NET_IP || ip[0] != 0x45 || (net_read16(ip + 6) & 0x3fff) || !net_is_same(ip + 16, net_ip, 4)
        || total < NET_IP || NET_ETHERNET + total > *length || net_checksum(ip, NET_IP, 0))
        return 0;
    *length = total - NET_IP;
    return 1;
}

/* Whether a packet's so many bytes are a whole datagram; then it is told. */
NET_CALL int net_is_datagram(const u8 *came, u32 length, struct datagram *told) {
    const u8 *ip = came + NET_ETHERNET, *udp = ip + NET_IP;
    u32 total = net_read16(udp + 4);
    if (length < NET_UDP || total < NET_UDP || total > length
        || (net_read16(udp + 6) && net_checksum(udp, total, net_pseudo_sum(ip, total))))
        return 0;
    net_copy(told->mac, came + 6, 6);
    net_copy(told->ip, ip + 12, 4);
    told->from_port = net_read16(udp);
    told->port = net_read16(udp + 2);
    told->data = udp + NET_UDP;
    told->length = total - NET_UDP;
    return 1;
}

/* Looks at the next frame that came, if there is one. Answers whether it was a datagram. */
NET_CALL int net_receive(struct datagram *told) {
    if (net_last < NET_CAME)
        net_give(0, net_last, net_received[net_last], NET_BUFFER, WRITE);
    net_last = NET_CAME;
    if (!has_used(&net_queues[0]))
        return 0;
    struct used_entry used = take_used(&net_queues[0]);
    const u8 *came = net_received[used.id] + NET_VIRTIO;
    u32 length = used.length - NET_VIRTIO, kind = net_read16(came + 12);
    net_last = (u16)used.id;
    if (kind == 0x0806)
        net_answer_arp(came, length);
    if (kind != 0x0800 || !net_is_packet(came, &length))
        return 0;
    if (came[NET_ETHERNET + 9] == 1)
        net_answer_ping(came, length);
    return came[NET_ETHERNET + 9] == 17 && net_is_datagram(came, length, told);
}

#endif
