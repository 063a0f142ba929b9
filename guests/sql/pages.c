#include "pages.h"

#include <stdlib.h>
#include <string.h>

#include "vfs.h"

/* The head of the log's index, and the locks of those who read in the log. One more is of those for whom all stands in the file. */
struct index_head {
    uint32_t version, unused, changes;
    uint8_t is_there, is_big_endian;
    uint16_t size;
    uint32_t frames, pages, sums[2], salts[2], own_sums[2];
};
#define READS_LOG 0xf0u

#define LOG_HEAD 32
#define FRAME_HEAD 24

/* Where a file says by which version of the format it is written and read: 2 where it has a log. */
#define WRITTEN_BY 18
#define NO_LOG 1

static struct index_head index_head(void) {
    struct index_head head;
    memset(&head, 0, sizeof head);
    if (vfs_index() != NULL)
        memcpy(&head, vfs_index(), sizeof head);
    return head;
}

static int keep_number(void *to, int count, char **values, char **names) {
    (void)names;
    if (count > 0 && values[0] != NULL)
        *(uint32_t *)to = (uint32_t)strtoul(values[0], NULL, 10);
    return 0;
}

static int ask(struct pages *pages) {
    int said = sqlite3_exec(pages->database, "PRAGMA page_size", keep_number, &pages->size, NULL);
    return said == SQLITE_OK ? sqlite3_exec(pages->database, "PRAGMA page_count", keep_number, &pages->count, NULL) : said;
}

/* Finds the last frame of each page among those that the transaction sees. */
static int find_frames(struct pages *pages, uint32_t count) {
    uint64_t bytes = (uint64_t)pages->count * sizeof *pages->frames;
    pages->frames = sqlite3_malloc64(bytes);
    if (pages->frames == NULL)
        return SQLITE_NOMEM;
    memset(pages->frames, 0, bytes);
    for (uint32_t i = 0; i < count; i++) {
        uint8_t number[4];
        if (!vfs_read(LOG_FILE, LOG_HEAD + (uint64_t)i * (FRAME_HEAD + pages->size), number, sizeof number))
            return SQLITE_IOERR;
        uint32_t page = (uint32_t)number[0] << 24 | (uint32_t)number[1] << 16 | (uint32_t)number[2] << 8 | number[3];
        if (page >= 1 && page <= pages->count)
            pages->frames[page - 1] = (uint16_t)(i + 1);
    }
    return SQLITE_OK;
}

/* Begins to read, and answers what the index said of the log at that time: others may have written before SQLite had read it. */
static int begin(sqlite3 *database, struct index_head *head) {
    for (;;) {
        *head = index_head();
        int said = sqlite3_exec(database, "BEGIN; SELECT count(*) FROM sqlite_schema", NULL, NULL, NULL);
        struct index_head now = index_head();
        if (said == SQLITE_OK && memcmp(head, &now, sizeof now) == 0)
            return SQLITE_OK;
        if (!sqlite3_get_autocommit(database))
            sqlite3_exec(database, "ROLLBACK", NULL, NULL, NULL);
        if (said != SQLITE_OK)
            return said;
    }
}

int pages_begin(struct pages *pages, sqlite3 *database) {
    struct index_head head;
    *pages = (struct pages){.database = database};
    int said = begin(database, &head);
    if (said != SQLITE_OK)
        return said;
    said = ask(pages);
    if (said == SQLITE_OK && (vfs_read_locks(database) & READS_LOG))
        said = find_frames(pages, head.frames);
    if (said != SQLITE_OK)
        pages_end(pages);
    return said;
}

int pages_read(const struct pages *pages, uint32_t number, uint8_t *to) {
    uint32_t frame = pages->frames == NULL ? 0 : pages->frames[number - 1];
    uint64_t at = frame > 0 ? LOG_HEAD + (uint64_t)(frame - 1) * (FRAME_HEAD + pages->size) + FRAME_HEAD
                            : (uint64_t)(number - 1) * pages->size;
    if (!vfs_read(frame > 0 ? LOG_FILE : DATABASE_FILE, at, to, pages->size))
        return 0;
    if (number == 1)
        to[WRITTEN_BY] = to[WRITTEN_BY + 1] = NO_LOG;
    return 1;
}

void pages_end(struct pages *pages) {
    sqlite3_free(pages->frames);
    pages->frames = NULL;
    if (!sqlite3_get_autocommit(pages->database))
        sqlite3_exec(pages->database, "ROLLBACK", NULL, NULL, NULL);
}
