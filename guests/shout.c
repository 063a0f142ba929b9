/* Says in capitals what it is told over UDP: each datagram to port 7 of 10.0.0.1 comes back with its small letters as large ones. All that
   a service has beside these lines is lib/net.h. */
#include "net.h"

int main(void) {
    static u8 answer[NET_MOST];
    struct datagram asked;
    if (!net_start())
        return 1;
    for (;;) {
        if (!net_receive(&asked) || asked.port != 7)
            continue;
        for (u32 at = 0; at < asked.length; at++)
            answer[at] = asked.data[at] - (asked.data[at] >= 'a' && asked.data[at] <= 'z' ? 'a' - 'A' : 0);
        net_reply(&asked, answer, asked.length);
    }
}
