#include "guest.h"

#include <stddef.h>

#include "clock.h"
#include "database.h"
#include "log.h"
#include "sqlite3.h"
#include "ticks.h"
#include "turns.h"
#include "vfs.h"

/* The register that counts the machine's steps. */
#define MTIME 0x0200bff8UL

/* SQLite's memory, in bytes. Pages of the database that its connections have read are apart from all else, and all of them have the same:
   where there are no more the page goes that was used longest ago, whosever it was. */
#ifndef HEAP
#define HEAP (12u << 20)
#endif
#ifndef CACHE
#define CACHE (6u << 20)
#endif
#define PAGE 4096

uint64_t clock_steps(void) { return *(volatile uint64_t *)MTIME; }

uint64_t clock_now(void) { return clock_steps() / STEPS_A_MILLISECOND; }

/* SQLite asks for memory above all where it compiles, which has no operations: it looks after so many times whether the turn is over. */
#define ASKED 16

static sqlite3_mem_methods memory;

static void *get(int count) {
    static uint32_t asked;
    if (++asked % ASKED == 0)
        turn_look();
    return memory.xMalloc(count);
}

static int config_memory(void) {
    static uint8_t heap[HEAP] __attribute__((aligned(16)));
    int said = sqlite3_config(SQLITE_CONFIG_HEAP, heap, (int)sizeof heap, 32);
    if (said == SQLITE_OK)
        said = sqlite3_config(SQLITE_CONFIG_GETMALLOC, &memory);
    sqlite3_mem_methods looking = memory;
    looking.xMalloc = get;
    return said == SQLITE_OK ? sqlite3_config(SQLITE_CONFIG_MALLOC, &looking) : said;
}

/* What all connections share SQLite changes between the two calls of a mutex. Only one thread runs here: so it is enough that nobody's turn
   ends between them. */

static int nothing(void) { return SQLITE_OK; }

static sqlite3_mutex *any_mutex(int kind) {
    static uint64_t one;
    (void)kind;
    return (sqlite3_mutex *)&one;
}

static void no_mutex(sqlite3_mutex *mutex) { (void)mutex; }

static void enter(sqlite3_mutex *mutex) {
    (void)mutex;
    turn_hold();
}

static int try_to_enter(sqlite3_mutex *mutex) {
    enter(mutex);
    return SQLITE_OK;
}

static void leave(sqlite3_mutex *mutex) {
    (void)mutex;
    turn_release();
}

static int config_mutexes(void) {
    static const sqlite3_mutex_methods methods = {
        .xMutexInit = nothing,
        .xMutexEnd = nothing,
        .xMutexAlloc = any_mutex,
        .xMutexFree = no_mutex,
        .xMutexEnter = enter,
        .xMutexTry = try_to_enter,
        .xMutexLeave = leave,
    };
    return sqlite3_config(SQLITE_CONFIG_MUTEX, &methods);
}

/* SQLite asks for these where it has no file system of its own. */
int sqlite3_os_init(void) { return vfs_register(); }

int sqlite3_os_end(void) { return SQLITE_OK; }

static int share_pages(void) {
    static uint8_t cache[CACHE] __attribute__((aligned(16)));
    int head;
    if (sqlite3_config(SQLITE_CONFIG_PCACHE_HDRSZ, &head) != SQLITE_OK)
        return SQLITE_ERROR;
    int slot = (PAGE + head + 7) & ~7;
    return sqlite3_config(SQLITE_CONFIG_PAGECACHE, cache, slot, (int)sizeof cache / slot);
}

int guest_start(void) {
    static uint8_t thread[64] __attribute__((aligned(16))); /* what picolibc has once a thread: errno */
    __asm__ volatile("mv tp, %0" ::"r"(thread));
    if (config_mutexes() != SQLITE_OK || config_memory() != SQLITE_OK || share_pages() != SQLITE_OK || log_start() != SQLITE_OK || !vfs_start()
        || sqlite3_initialize() != SQLITE_OK)
        return 0;
    database_start();
    ticks_start();
    return 1;
}
