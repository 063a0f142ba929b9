#include "log.h"

#include <string.h>

#include "clock.h"
#include "sqlite3.h"

#define MOST_LINES 4096 /* bytes */
#define MOST_LINE 512

static char lines[MOST_LINES];

/* Whether a code is of the database. The others are of what its clients ask. */
static int is_kept(int code) {
    switch (code & 0xff) {
    case SQLITE_NOTICE:
    case SQLITE_IOERR:
    case SQLITE_CORRUPT:
    case SQLITE_NOTADB:
    case SQLITE_CANTOPEN:
    case SQLITE_FULL:
    case SQLITE_NOMEM: return 1;
    default: return 0;
    }
}

/* Nothing of SQLite's may be called here but what writes text. */
static void take_line(void *data, int code, const char *why) {
    (void)data;
    if (!is_kept(code))
        return;
    char line[MOST_LINE];
    uint64_t now = clock_now();
    sqlite3_snprintf(sizeof line - 1, line, "%lld.%03d s: %s", (int64_t)(now / 1000), (int)(now % 1000), why);
    strcat(line, "\n");
    size_t there = strlen(lines), count = strlen(line), gone = 0;
    while (there - gone + count >= sizeof lines)
        gone += strcspn(lines + gone, "\n") + 1;
    memmove(lines, lines + gone, there - gone);
    memcpy(lines + there - gone, line, count + 1);
}

int log_start(void) { return sqlite3_config(SQLITE_CONFIG_LOG, take_line, NULL); }

const char *log_lines(void) { return lines; }
