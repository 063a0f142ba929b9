/* A guest at 10.0.0.1: lwIP's TCP/IP stack over the drivers beside this file, and what guest.h names: lwIP's own web server (apps/http), or
   the database of ../sql. One loop takes in a frame that came and does what is due: where many clients ask for much the next frame is there
   before the last one is dealt with, and what is due, such as the repetition of a frame that was lost, can't wait until none is. */
#include <guest.h>

#include "network.h"

#include "lwip/init.h"
#include "lwip/ip4_addr.h"
#include "lwip/netif.h"
#include "lwip/sys.h"
#include "lwip/timeouts.h"
#include "netif/ethernet.h"

/* The register that counts the machine's steps. So many of them are a millisecond to this server (build.sh). */
#define MTIME 0x0200bff8UL
#ifndef STEPS_A_MILLISECOND
#define STEPS_A_MILLISECOND 1000
#endif

void stop(void) {
    for (;;)
        ;
}

u32_t sys_now(void) { return (u32_t)(*(volatile uint64_t *)MTIME / STEPS_A_MILLISECOND); }

int main(void) {
    static struct netif netif;
    ip4_addr_t address, mask, gateway;
    IP4_ADDR(&address, 10, 0, 0, 1);
    IP4_ADDR(&mask, 255, 255, 255, 0);
    ip4_addr_set_zero(&gateway);
    if (!guest_start())
        stop();
    lwip_init();
    if (netif_add(&netif, &address, &mask, &gateway, NULL, network_start, ethernet_input) == NULL)
        stop();
    netif_set_default(&netif);
    netif_set_up(&netif);
    guest_listen();
    for (;;) {
        network_poll(&netif);
        guest_poll();
        sys_check_timeouts();
    }
}
