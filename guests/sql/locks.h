/* Locks of a database among the connections of one program (https://sqlite.org/lockingv3.html): any number of readers, and at most one
   connection that means to write, waits for the readers to end, or writes. */
#ifndef LOCKS_H
#define LOCKS_H

#include <stdint.h>

/* SQLite's numbers of them. */
enum { LOCK_NONE, LOCK_SHARED, LOCK_RESERVED, LOCK_PENDING, LOCK_EXCLUSIVE };

/* What one connection has. */
struct lock {
    int level;
};

/* Raises a lock. Answers whether it could; a writer that waits for readers has LOCK_PENDING then. */
int lock_raise(struct lock *lock, int level);

/* Lowers a lock, to LOCK_SHARED or LOCK_NONE. */
void lock_lower(struct lock *lock, int level);

/* Whether somebody means to write. */
int lock_is_reserved(void);

/* The locks of a write-ahead log (https://sqlite.org/walformat.html#wal_locks): each has any number of readers or one writer. A connection
   has a bit for each that it has. */
#define LOG_LOCKS 8

struct log_locks {
    uint32_t read, written;
};

/* Takes so many locks from one on, all or none. Answers whether it could. */
int log_lock(struct log_locks *locks, int first, int count, int to_write);
void log_unlock(struct log_locks *locks, int first, int count);

/* How often a lock of either kind was given back that somebody may wait for, who tries again when this has changed: the next that stops to
   read the log is among these only where he is awaited. */
uint32_t lock_lowered(void);
void log_await_readers(void);

/* What was given back since it was so often had been taken since too: nobody has waited for it. */
void lock_forget_lowered(uint32_t count);

#endif
