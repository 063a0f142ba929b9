#include "locks.h"

#include <stddef.h>

static int readers;         /* connections with any lock */
static struct lock *writer; /* who has LOCK_RESERVED or more */
static uint32_t lowered;

static int is_shut(void) { return writer != NULL && writer->level >= LOCK_PENDING; }

int lock_raise(struct lock *lock, int level) {
    if (lock->level >= level)
        return 1;
    if (level == LOCK_SHARED) {
        if (is_shut())
            return 0;
        readers++;
        lock->level = LOCK_SHARED;
        return 1;
    }
    if (writer != NULL && writer != lock)
        return 0;
    writer = lock;
    if (level == LOCK_EXCLUSIVE && readers > 1)
        level = LOCK_PENDING;
    int is_raised = level != LOCK_PENDING;
    lock->level = level;
    return is_raised;
}

void lock_lower(struct lock *lock, int level) {
    if (lock->level <= level)
        return;
    if (writer == lock)
        writer = NULL;
    if (level == LOCK_NONE)
        readers--;
    lock->level = level;
    lowered++;
}

int lock_is_reserved(void) { return writer != NULL; }

static int log_readers[LOG_LOCKS], log_writers[LOG_LOCKS];

int log_lock(struct log_locks *locks, int first, int count, int to_write) {
    for (int i = first; i < first + count; i++) {
        int others_read = log_readers[i] - (locks->read >> i & 1), others_write = log_writers[i] - (locks->written >> i & 1);
        if (others_write > 0 || (to_write && others_read > 0))
            return 0;
    }
    for (int i = first; i < first + count; i++) {
        uint32_t *mask = to_write ? &locks->written : &locks->read;
        *(to_write ? &log_writers[i] : &log_readers[i]) += !(*mask >> i & 1);
        *mask |= 1u << i;
    }
    return 1;
}

/* The log's locks that are never for reading: of who writes it, who empties it and who makes its index. */
#define LOG_WRITERS 7u

static int are_readers_awaited;

void log_await_readers(void) { are_readers_awaited = 1; }

static int is_news(uint32_t written, uint32_t read) {
    if ((written & LOG_WRITERS) != 0)
        return 1;
    int is_awaited = read != 0 && are_readers_awaited;
    if (is_awaited)
        are_readers_awaited = 0;
    return is_awaited;
}

void log_unlock(struct log_locks *locks, int first, int count) {
    uint32_t those = ((1u << count) - 1) << first;
    lowered += is_news(locks->written & those, locks->read & those);
    for (int i = first; i < first + count; i++) {
        log_readers[i] -= locks->read >> i & 1;
        log_writers[i] -= locks->written >> i & 1;
        locks->read &= ~(1u << i);
        locks->written &= ~(1u << i);
    }
}

uint32_t lock_lowered(void) { return lowered; }

void lock_forget_lowered(uint32_t count) { lowered = count; }
