#include "ticks.h"

#include "clock.h"
#include "turns.h"

/* The register at whose time the timer interrupts. */
#define MTIMECMP 0x02004000UL

/* Where the work can't be left it is interrupted again after so many steps. */
#define AGAIN 5000

/* SQLite's own instructions: the linker puts them between these (build.sh). Behind the last stand the libraries', which have no memory of
   their own. */
extern const char sqlite_begin[], sqlite_end[], libraries_begin[];

static void tick_at_step(uint64_t step) { *(volatile uint64_t *)MTIMECMP = step; }

void ticks_at(uint64_t milliseconds) { tick_at_step(milliseconds * STEPS_A_MILLISECOND); }

static int is_of_sqlite(uint64_t place) { return place >= (uint64_t)sqlite_begin && place < (uint64_t)sqlite_end; }

/* Called by the handler (handler.s), with interrupts off: where the work was interrupted, and where it was called from as far as that is
   known. Only SQLite can be left, and what it calls of the libraries: what is ours has memory that others use. */
void on_tick(uint64_t place, uint64_t caller) {
    int is_free = is_of_sqlite(place) || (place >= (uint64_t)libraries_begin && is_of_sqlite(caller));
    if (!is_free || !turn_tick())
        tick_at_step(clock_steps() + AGAIN);
}
