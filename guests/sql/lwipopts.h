/* The options of lwIP that are not its defaults: those of the web server, more connections, a line for those beyond them, and questions to
   clients that say nothing. */
#ifndef SQL_LWIPOPTS_H
#define SQL_LWIPOPTS_H

/* Places for connections. Each of the two ports lets so many more wait for one; what comes beyond them is passed over, and its system asks
   again. */
#define PLACES 64
#define BACKLOG 120
#define TCP_LISTEN_BACKLOG 1

#define CONNECTIONS PLACES

#include "../server/lwipopts.h"

/* Connections that wait, and such as are closed already; of each that waits lwIP keeps the first frame that it sent. */
#undef MEMP_NUM_TCP_PCB
#define MEMP_NUM_TCP_PCB (PLACES + 2 * BACKLOG + 32)
#undef PBUF_POOL_SIZE
#define PBUF_POOL_SIZE (128 + 2 * BACKLOG)

#define LWIP_TCP_KEEPALIVE 1

#ifdef COUNTER
#undef LWIP_UDP
#define LWIP_UDP 1
#endif

#endif
