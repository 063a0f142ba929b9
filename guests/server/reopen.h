/* What lwIP calls before it takes in a packet (LWIP_HOOK_IP4_INPUT). */
#ifndef REOPEN_H
#define REOPEN_H

struct netif;
struct pbuf;

/* Ends the closed connection in whose place the packet opens a new one. Answers 0: lwIP goes on with the packet. */
int reopen(struct pbuf *packet, struct netif *netif);

#endif
