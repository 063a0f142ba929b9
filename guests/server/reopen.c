/* A client may open a connection anew from the port of one that it had before. Where the server has closed that one it keeps it for two
   minutes, in which lwIP answers every opening by the old connection's acknowledgement. Here such an opening, under a number beyond all of
   the old connection's, ends that one instead, as RFC 1122 (4.2.2.13) allows. */
#include "reopen.h"

#include "lwip/ip4.h"
#include "lwip/pbuf.h"
#include "lwip/priv/tcp_priv.h"
#include "lwip/prot/ip4.h"
#include "lwip/prot/tcp.h"

#define KINDS (TCP_SYN | TCP_ACK | TCP_FIN | TCP_RST)

/* The TCP head of a packet that opens a connection, or NULL. */
static const struct tcp_hdr *opening(const struct pbuf *packet) {
    const struct ip_hdr *ip = packet->payload;
    if (packet->len < IP_HLEN || IPH_PROTO(ip) != IP_PROTO_TCP || packet->len < IPH_HL_BYTES(ip) + TCP_HLEN)
        return NULL;
    const struct tcp_hdr *tcp = (const struct tcp_hdr *)((const u8_t *)ip + IPH_HL_BYTES(ip));
    return (TCPH_FLAGS(tcp) & KINDS) == TCP_SYN ? tcp : NULL;
}

int reopen(struct pbuf *packet, struct netif *netif) {
    LWIP_UNUSED_ARG(netif);
    const struct ip_hdr *ip = packet->payload;
    const struct tcp_hdr *tcp = opening(packet);
    struct tcp_pcb *old = tcp == NULL ? NULL : tcp_tw_pcbs;
    while (old != NULL
           && !(old->remote_port == lwip_ntohs(tcp->src) && old->local_port == lwip_ntohs(tcp->dest)
                && ip4_addr_get_u32(ip_2_ip4(&old->remote_ip)) == ip->src.addr
                && ip4_addr_get_u32(ip_2_ip4(&old->local_ip)) == ip->dest.addr))
        old = old->next;
    if (old != NULL && TCP_SEQ_GT(lwip_ntohl(tcp->seqno), old->rcv_nxt))
        tcp_abort(old);
    return 0;
}
