#include "database.h"

#include <stdlib.h>
#include <string.h>

#include "vfs.h"

/* After a commit by which the log has so many pages they are brought into the database. */
#define MANY 250

/* One that has so little room left is tight: what writes then waits until it begins anew, where it would fail otherwise. */
#define LITTLE 64

/* The bytes of a page, of which a frame of the log has 24 more, and the frames that the log has. */
static uint32_t page = 4096, frames;

static uint32_t most_frames(void) { return (uint32_t)(vfs_room(LOG_FILE) / (page + 24)); }

/* There is one database, and whoever attached its file or its journal's would wait for himself, or write into the journal. SQLite itself
   attaches files without a name, for VACUUM. */
static int is_in_memory(const char *file) { return file != NULL && (file[0] == '\0' || strcmp(file, ":memory:") == 0); }

/* What a client may not: attach files, make the database larger than its area, keep it for itself for good, or have SQLite's LIKE back,
   which nothing can stop. */
static int is_allowed(void *data, int action, const char *name, const char *value, const char *database, const char *trigger) {
    (void)data, (void)database, (void)trigger;
    if (action == SQLITE_ATTACH && !is_in_memory(name))
        return SQLITE_DENY;
    if (action != SQLITE_PRAGMA || value == NULL)
        return SQLITE_OK;
    int is_refused = sqlite3_stricmp(name, "max_page_count") == 0 || sqlite3_stricmp(name, "case_sensitive_like") == 0
                     || (sqlite3_stricmp(name, "locking_mode") == 0 && sqlite3_stricmp(value, "exclusive") == 0);
    return is_refused ? SQLITE_DENY : SQLITE_OK;
}

static int has_committed(void *data, sqlite3 *database, const char *name, int count) {
    (void)data;
    frames = (uint32_t)count;
    if (frames >= MANY || log_is_tight())
        sqlite3_wal_checkpoint_v2(database, name, SQLITE_CHECKPOINT_PASSIVE, NULL, NULL);
    return SQLITE_OK;
}

int database_open(sqlite3 **database) {
    int said = sqlite3_open(DATABASE, database);
    if (said != SQLITE_OK)
        return said;
    sqlite3_db_config(*database, SQLITE_DBCONFIG_NO_CKPT_ON_CLOSE, 1, NULL);
    sqlite3_wal_hook(*database, has_committed, NULL);
#ifdef FIRST_TOLD
    /* What a library that wasn't built for this file system has to know. */
    sqlite3_exec(*database, FIRST_TOLD, NULL, NULL, NULL);
#endif
    return sqlite3_extended_result_codes(*database, 1);
}

static int keep_page(void *data, int count, char **values, char **names) {
    (void)data, (void)names;
    if (count > 0 && values[0] != NULL)
        page = (uint32_t)atoi(values[0]);
    return 0;
}

int database_tell(sqlite3 *database) {
    char sql[48];
    int said = sqlite3_exec(database, "PRAGMA page_size", keep_page, NULL, NULL);
    sqlite3_snprintf(sizeof sql, sql, "PRAGMA max_page_count = %u", (unsigned)(vfs_room(DATABASE_FILE) / page));
    if (said == SQLITE_OK)
        said = sqlite3_exec(database, sql, NULL, NULL, NULL);
    return said == SQLITE_OK ? sqlite3_set_authorizer(database, is_allowed, NULL) : said;
}

void database_start(void) {
    sqlite3 *database;
    const char *sql = vfs_length(DATABASE_FILE) == 0 ? "PRAGMA journal_mode = WAL" : "SELECT count(*) FROM sqlite_schema";
    if (database_open(&database) == SQLITE_OK)
        sqlite3_exec(database, sql, NULL, NULL, NULL);
    sqlite3_close(database);
}

int log_is_there(void) { return vfs_length(LOG_FILE) > 0; }

int log_is_tight(void) { return frames + LITTLE > most_frames(); }

int log_empty(sqlite3 *database) {
    int said = sqlite3_wal_checkpoint_v2(database, NULL, SQLITE_CHECKPOINT_RESTART, NULL, NULL);
    if (said == SQLITE_OK)
        frames = 0;
    return said;
}
