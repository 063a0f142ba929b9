/* The database's pages as one reading transaction sees them, past SQLite: those that the log has stand there, the others in the database's
   file (https://sqlite.org/walformat.html). */
#ifndef PAGES_H
#define PAGES_H

#include <stdint.h>

#include "sqlite3.h"

#define MOST_PAGE_BYTES 65536

struct pages {
    sqlite3 *database;
    uint32_t size, count; /* the bytes of a page, and how many there are */
    uint16_t *frames;     /* by pages, where in the log it stands, counted from 1; 0: in the file. NULL: all do */
};

/* Begins a transaction in which pages can be read, on a connection that has none. Answers as SQLite does; where it isn't SQLITE_OK there is
   no transaction. */
int pages_begin(struct pages *pages, sqlite3 *database);

/* Reads a page, the first of which is 1. The file that they make has no log, and says so. Answers whether it could. */
int pages_read(const struct pages *pages, uint32_t number, uint8_t *to);

/* Ends it. */
void pages_end(struct pages *pages);

#endif
