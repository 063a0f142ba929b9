/* This machine's timer interrupts nobody. */
#include "../../guests/sql/ticks.h"

void ticks_start(void) {}

void ticks_on(void) {}

void ticks_off(void) {}

void ticks_at(uint64_t milliseconds) { (void)milliseconds; }
