/* In the place of lwIP's own header of this name: that one, but for a number that no option sets. lwIP lets go of a connection that is half
   open for 20 s, in which failures and a full card can take all that would open it: a client that repeats what it sent after six seconds,
   and then after every twelve, is refused then. Here it is a minute, as for one on which nothing goes on (lwipopts.h). */
#include_next "lwip/priv/tcp_priv.h"

#undef TCP_SYN_RCVD_TIMEOUT
#define TCP_SYN_RCVD_TIMEOUT 60000 /* milliseconds */
