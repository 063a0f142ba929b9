/* A TCP service at 10.0.0.1: lwIP's stack over the driver beside this file, and service_start of another file. One loop takes in a frame
   that came and does what is due, as that of server.c. */
#include "service.h"

#include "network.h"

#include "lwip/init.h"
#include "lwip/ip4_addr.h"
#include "lwip/netif.h"
#include "lwip/sys.h"
#include "lwip/timeouts.h"
#include "netif/ethernet.h"

/* The register that counts the machine's steps. So many of them are a millisecond to this service (build.sh). */
#define MTIME 0x0200bff8UL
#ifndef STEPS_A_MILLISECOND
#define STEPS_A_MILLISECOND 1000
#endif

/* What lwIP calls where it finds a fault of its own. */
void stop(void) {
    for (;;)
        ;
}

u32_t sys_now(void) { return (u32_t)(*(volatile uint64_t *)MTIME / STEPS_A_MILLISECOND); }

int main(void) {
    static struct netif netif;
    ip4_addr_t address, mask, gateway;
    IP4_ADDR(&address, 10, 0, 0, 1);
    IP4_ADDR(&mask, 255, 255, 255, 0);
    ip4_addr_set_zero(&gateway);
    lwip_init();
    if (netif_add(&netif, &address, &mask, &gateway, NULL, network_start, ethernet_input) == NULL)
        stop();
    netif_set_default(&netif);
    netif_set_up(&netif);
    service_start();
    for (;;) {
        network_poll(&netif);
        sys_check_timeouts();
    }
}
