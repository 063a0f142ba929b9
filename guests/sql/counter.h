/* A counter beside the database, where the guest is built with one (build.sh, COUNTER): for tests of what clients without a connection
   see. */
#ifndef COUNTER_H
#define COUNTER_H

/* From here on each datagram to port 7 is answered with a number, which is one more than the one before. */
void counter_start(void);

#endif
