/* A disk that loses its power after each sector that is written, while a database is changed: after a boot over what is left there the
   database must be whole, with all that was acknowledged.

     power MODE [sequential]    MODE is SQLite's journal mode. 'sequential' is a control: the file system says then that SQLite needn't
                                sync its journal, so that the journal's length comes to the disk after what it is to undo

   The changes are made once, on a disk that keeps each write. Then a disk gets one write after another, and after each a process that
   starts with nothing boots over it. It prints how many places there were, at how many the database was corrupt, and at how many it wasn't
   right. */
#include <stdio.h>
#include <stdlib.h>
#include <string.h>
#include <sys/wait.h>
#include <unistd.h>

#include "../../guests/sql/database.h"
#include "disk.h"
#include "sqlite3.h"

#define ROWS 60
#define TRANSACTIONS 6

enum { RIGHT, CORRUPT, WRONG };

static const char *mode;
static int is_sequential;

static void must(sqlite3 *database, const char *sql) {
    if (sqlite3_exec(database, sql, NULL, NULL, NULL) != SQLITE_OK) {
        fprintf(stderr, "%s: %s\n", sql, sqlite3_errmsg(database));
        exit(3);
    }
}

static int sequential(sqlite3_file *file) {
    (void)file;
    return SQLITE_IOCAP_ATOMIC512 | SQLITE_IOCAP_SAFE_APPEND | SQLITE_IOCAP_SEQUENTIAL | SQLITE_IOCAP_POWERSAFE_OVERWRITE;
}

static sqlite3 *opened(void) {
    static sqlite3_io_methods methods;
    sqlite3 *database;
    sqlite3_file *file;
    if (!vfs_start() || vfs_register() != SQLITE_OK || database_open(&database) != SQLITE_OK)
        exit(3);
    if (is_sequential && sqlite3_file_control(database, "main", SQLITE_FCNTL_FILE_POINTER, &file) == SQLITE_OK) {
        methods = *file->pMethods;
        methods.xDeviceCharacteristics = sequential;
        file->pMethods = &methods;
    }
    return database;
}

/* One transaction: each row of a part of the table is changed, some come and some go, and a cache that is too small writes before the
   end. */
static void change(sqlite3 *database, int number) {
    char *sql = sqlite3_mprintf("BEGIN; UPDATE t SET number = %d, filler = printf('%%.*c', 100 + id * 37 %% 400, 'x') WHERE id %% 3 = %d;"
                                "DELETE FROM t WHERE id = %d; INSERT INTO t VALUES(%d, %d, hex(zeroblob(%d)));"
                                "UPDATE total SET number = %d, sum = (SELECT sum(length(filler)) FROM t); COMMIT",
                                number, number % 3, number * 3, 1000 + number, number, 300 * number, number);
    must(database, sql);
    sqlite3_free(sql);
    medium->told = (uint64_t)number;
}

static void begin(void) {
    sqlite3 *database = opened();
    must(database, "PRAGMA page_size = 1024; PRAGMA cache_size = 10; PRAGMA synchronous = FULL");
    char *sql = sqlite3_mprintf("PRAGMA journal_mode = %s", mode);
    must(database, sql);
    must(database, "BEGIN; CREATE TABLE t(id INTEGER PRIMARY KEY, number INTEGER, filler TEXT); CREATE INDEX i ON t(number);"
                   "CREATE TABLE total(number INTEGER, sum INTEGER)");
    must(database, "WITH RECURSIVE c(x) AS (VALUES(1) UNION ALL SELECT x + 1 FROM c WHERE x < 60)"
                   "INSERT INTO t SELECT x, 0, printf('%.*c', 100 + x * 7, 'y') FROM c");
    must(database, "INSERT INTO total SELECT 0, sum(length(filler)) FROM t; COMMIT");
    sqlite3_close(database);
}

static void work(void) {
    sqlite3 *database = opened();
    must(database, "PRAGMA cache_size = 10; PRAGMA synchronous = FULL; PRAGMA temp_store = MEMORY; PRAGMA wal_autocheckpoint = 100");
    for (int number = 1; number <= TRANSACTIONS; number++) {
        change(database, number);
        if (number == TRANSACTIONS / 2 && log_is_there() && log_empty(database) != SQLITE_OK)
            exit(3);
    }
    must(database, "VACUUM");
    sqlite3_close(database);
}

static int keep(void *to, int count, char **values, char **names) {
    (void)names;
    for (int i = 0; i < count && i < 4; i++)
        sqlite3_snprintf(64, (char *)to + 64 * i, "%s", values[i] == NULL ? "" : values[i]);
    return 0;
}

/* What stands there after the next boot. */
static int look(uint64_t told) {
    char is_whole[4][64] = {""}, seen[4][64] = {""};
    sqlite3 *database = opened();
    if (sqlite3_exec(database, "PRAGMA integrity_check", keep, is_whole, NULL) != SQLITE_OK || strcmp(is_whole[0], "ok") != 0)
        return CORRUPT;
    const char *sql = "SELECT number, sum = (SELECT sum(length(filler)) FROM t), (SELECT count(*) FROM t), (SELECT max(number) FROM t)"
                      " FROM total";
    if (sqlite3_exec(database, sql, keep, seen, NULL) != SQLITE_OK)
        return CORRUPT;
    uint64_t number = strtoull(seen[0], NULL, 10);
    int is_right = number >= told && number <= told + 1 && strcmp(seen[1], "1") == 0 && atoi(seen[2]) == ROWS
                   && strtoull(seen[3], NULL, 10) == number;
    return is_right ? RIGHT : WRONG;
}

/* Looks in a process of its own, which starts with nothing in memory, and whose writes nobody sees. */
static int in_child(uint64_t told, int (*act)(uint64_t)) {
    int status;
    fflush(stdout);
    pid_t child = fork();
    if (child == 0)
        _exit(act(told));
    if (child < 0 || waitpid(child, &status, 0) != child)
        exit(2);
    return WIFEXITED(status) ? WEXITSTATUS(status) : CORRUPT;
}

static int works(uint64_t told) {
    (void)told;
    work();
    return 0;
}

static int begins(uint64_t told) {
    (void)told;
    begin();
    return 0;
}

int main(int count, char **words) {
    mode = count > 1 ? words[1] : "DELETE";
    is_sequential = count > 2;
    medium_make(NULL);
    struct medium *shared = medium, *copy = malloc(sizeof *copy);
    if (copy == NULL || in_child(0, begins) != 0)
        return 2;
    memcpy(copy, shared, sizeof *copy);
    shared->writes = 0;
    if (in_child(0, works) != 0)
        return 2;
    /* What a child writes to this one is its own. */
    medium = copy;
    unsigned found[3] = {0};
    for (uint64_t i = 0; i < shared->writes; i++) {
        const struct write *write = &shared->written[i];
        memcpy(copy->sectors[write->sector], write->bytes, SECTOR);
        copy->writes = 0;
        int status = in_child(write->told, look);
        found[status <= WRONG ? status : CORRUPT]++;
    }
    printf("%llu places, %u corrupt, %u wrong\n", (unsigned long long)shared->writes, found[CORRUPT], found[WRONG]);
    return shared->writes == MOST_WRITES || shared->told != TRANSACTIONS;
}
