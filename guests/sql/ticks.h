/* The timer, which ends a turn wherever SQLite is: in a sort, a parse or a compile, in which nothing of ours is called. */
#ifndef TICKS_H
#define TICKS_H

#include <stdint.h>

/* At boot. */
void ticks_start(void);

/* Work may be interrupted from now on, or no more: only while it stands on its stack. */
void ticks_on(void);
void ticks_off(void);

/* When the next tick is, in milliseconds of the clock. */
void ticks_at(uint64_t milliseconds);

#endif
