/* count.c, which counts its looks at the queues, so that it is never twice in the same state: else the machine passes over the laps of a guest
   that waits, and an epoch takes no time. bench/threads/busy.words has its words: guests/make --pages 36 --words bench/threads/busy.c. */
static volatile unsigned long looks;
#define LOOK() looks++
#include "count.c"
