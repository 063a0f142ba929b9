#include "counter.h"

#include <string.h>

#include "lwip/pbuf.h"
#include "lwip/udp.h"
#include "sqlite3.h"

#define COUNTED_PORT 7

static int64_t counted; /* answers that were sent */

static err_t send(struct udp_pcb *port, int64_t number, const ip_addr_t *client, u16_t client_port) {
    char digits[24];
    sqlite3_snprintf(sizeof digits, digits, "%lld", number);
    struct pbuf *said = pbuf_alloc(PBUF_TRANSPORT, (u16_t)strlen(digits), PBUF_RAM);
    if (said == NULL)
        return ERR_MEM;
    pbuf_take(said, digits, said->tot_len);
    err_t error = udp_sendto(port, said, client, client_port);
    pbuf_free(said);
    return error;
}

/* A question for whose answer the stack has no room is lost, as on a line. */
static void answer(void *arg, struct udp_pcb *port, struct pbuf *asked, const ip_addr_t *client, u16_t client_port) {
    (void)arg;
    if (send(port, counted + 1, client, client_port) == ERR_OK)
        counted++;
    pbuf_free(asked);
}

void counter_start(void) {
    struct udp_pcb *port = udp_new();
    if (port == NULL || udp_bind(port, IP_ADDR_ANY, COUNTED_PORT) != ERR_OK)
        stop();
    udp_recv(port, answer, NULL);
}
