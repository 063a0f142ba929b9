/* The network card, as a network interface of lwIP. */
#ifndef NETWORK_H
#define NETWORK_H

#include "lwip/netif.h"

/* For netif_add. */
err_t network_start(struct netif *netif);

/* Hands the next frame that came, if there is one, to the stack. */
void network_poll(struct netif *netif);

#endif
