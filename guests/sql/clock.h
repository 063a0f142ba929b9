/* The machine's time. It is the count of its steps, which goes on where a backup does. */
#ifndef CLOCK_H
#define CLOCK_H

#include <stdint.h>

uint64_t clock_steps(void);

/* Milliseconds since boot. */
uint64_t clock_now(void);

#endif
