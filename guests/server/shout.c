/* Says in capitals what it is told over TCP, on port 7: a service to begin with. docs/GUESTS.md goes through it. */
#include "service.h"

#include "lwip/tcp.h"

static void shout(u8_t *text, u16_t length) {
    for (; length--; text++)
        if (*text >= 'a' && *text <= 'z')
            *text -= 'a' - 'A';
}

/* Bytes came, or none: the client sends no more. What is answered ERR_MEM comes again later, and until then the client is told of no more
   room than there is. */
static err_t came(void *argument, struct tcp_pcb *connection, struct pbuf *bytes, err_t error) {
    (void)argument, (void)error;
    if (bytes == NULL)
        return tcp_close(connection);
    if (tcp_sndbuf(connection) < bytes->tot_len)
        return ERR_MEM;
    for (struct pbuf *part = bytes; part != NULL; part = part->next) {
        shout(part->payload, part->len);
        if (tcp_write(connection, part->payload, part->len, TCP_WRITE_FLAG_COPY) != ERR_OK) {
            pbuf_free(bytes);
            tcp_abort(connection);
            return ERR_ABRT;
        }
    }
    tcp_recved(connection, bytes->tot_len);
    pbuf_free(bytes);
    return tcp_output(connection);
}

static err_t opened(void *argument, struct tcp_pcb *connection, err_t error) {
    (void)argument;
    if (error == ERR_OK && connection != NULL)
        tcp_recv(connection, came);
    return error;
}

void service_start(void) {
    struct tcp_pcb *listener = tcp_new();
    if (listener != NULL && tcp_bind(listener, IP_ADDR_ANY, 7) == ERR_OK && (listener = tcp_listen(listener)) != NULL)
        tcp_accept(listener, opened);
}
