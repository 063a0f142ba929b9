/* A virtual file system of SQLite (sqlite3_vfs) over the disk: one database, its rollback journal and its write-ahead log, each in an area
   of the disk, and in sector 0 which of them there are, how long they are, and where the log's begins. A write is on the disk when it
   returns, in order; the length of a file is written when it is synced, cut or deleted. The index of the log, which its connections share,
   is in memory alone: a boot makes it anew. After each read and write others may have their turns. */
#include "vfs.h"

#include <string.h>

#include "../server/disk.h"
#include "clock.h"
#include "locks.h"
#include "sqlite3.h"
#include "turns.h"

/* The first bytes of sector 0 of a disk that has files: 'sqlfiles'. */
#define WRITTEN 0x73656c69666c7173

/* The day on which the machine began, in milliseconds since noon of 24 November 4714 BC, as SQLite counts: the machine knows how long it
   runs, not which day it is. */
#ifndef BEGAN
#define BEGAN (24610415 * (int64_t)8640000) /* 1 January 2026 */
#endif

/* Where the areas begin, in sectors, and where the last ends. */
static uint32_t areas[FILES + 1] = {8, JOURNAL_SECTOR, LOG_SECTOR, DISK_SECTORS};
static const char *const names[FILES] = {DATABASE, DATABASE "-journal", DATABASE "-wal"};

static struct head {
    uint64_t written;
    uint64_t exists[FILES];
    uint64_t length[FILES];
    uint64_t log_sector; /* 0: FIRST_LOG_SECTOR */
    uint8_t rest[SECTOR - 16 - 16 * FILES];
} head __attribute__((aligned(8)));

struct file {
    sqlite3_file base;
    int number;
    struct lock lock;
    struct log_locks log;
    int has_index;
};

/* The log's index, in parts of a size that SQLite chooses, and how many connections have it. */
#define MOST_PARTS 8
static void *index_parts[MOST_PARTS];
static int index_users;

static uint8_t part[SECTOR] __attribute__((aligned(8)));

static struct file *of(sqlite3_file *file) { return (struct file *)file; }

static void write_head(void) { disk_write(0, &head, 1); }

static int number_of(const char *name) {
    for (int i = 0; name != NULL && i < FILES; i++)
        if (strcmp(name, names[i]) == 0)
            return i;
    return -1;
}

/* How many bytes of a run that begins at a place lie in its first sector, where that isn't taken as a whole. */
static uint32_t in_part(uint64_t at, uint32_t count) {
    uint32_t left = SECTOR - (uint32_t)(at % SECTOR);
    return left < count ? left : count;
}

static int is_whole(uint64_t at, uint32_t count) { return at % SECTOR == 0 && count >= SECTOR; }

static void read_bytes(uint32_t area, uint64_t at, uint8_t *to, uint32_t count) {
    for (uint32_t done; count > 0; at += done, to += done, count -= done) {
        uint32_t sector = area + (uint32_t)(at / SECTOR);
        if (is_whole(at, count)) {
            done = count - count % SECTOR;
            disk_read(sector, to, done / SECTOR);
        } else {
            done = in_part(at, count);
            disk_read(sector, part, 1);
            memcpy(to, part + at % SECTOR, done);
        }
    }
}

static void write_bytes(uint32_t area, uint64_t at, const uint8_t *from, uint32_t count) {
    for (uint32_t done; count > 0; at += done, from += done, count -= done) {
        uint32_t sector = area + (uint32_t)(at / SECTOR);
        if (is_whole(at, count)) {
            done = count - count % SECTOR;
            disk_write(sector, from, done / SECTOR);
        } else {
            done = in_part(at, count);
            disk_read(sector, part, 1);
            memcpy(part + at % SECTOR, from, done);
            disk_write(sector, part, 1);
        }
    }
}

/* The methods of a file. */

static int index_unmap(sqlite3_file *file, int is_log_deleted);

static int file_close(sqlite3_file *file) {
    index_unmap(file, 0);
    lock_lower(&of(file)->lock, LOCK_NONE);
    return SQLITE_OK;
}

static int file_read(sqlite3_file *file, void *to, int count, sqlite3_int64 at) {
    int number = of(file)->number;
    uint64_t length = head.length[number];
    uint64_t there = (uint64_t)at >= length ? 0 : length - (uint64_t)at;
    uint32_t wanted = there < (uint64_t)count ? (uint32_t)there : (uint32_t)count;
    read_bytes(areas[number], (uint64_t)at, to, wanted);
    turn_look();
    if (wanted == (uint32_t)count)
        return SQLITE_OK;
    memset((uint8_t *)to + wanted, 0, (uint32_t)count - wanted);
    return SQLITE_IOERR_SHORT_READ;
}

static int file_write(sqlite3_file *file, const void *from, int count, sqlite3_int64 at) {
    int number = of(file)->number;
    uint64_t end = (uint64_t)at + (uint64_t)count;
    if (end > vfs_room(number))
        return SQLITE_FULL;
    write_bytes(areas[number], (uint64_t)at, from, (uint32_t)count);
    if (end > head.length[number])
        head.length[number] = end;
    turn_look();
    return SQLITE_OK;
}

static int file_truncate(sqlite3_file *file, sqlite3_int64 length) {
    if ((uint64_t)length < head.length[of(file)->number]) {
        head.length[of(file)->number] = (uint64_t)length;
        write_head();
    }
    return SQLITE_OK;
}

static int file_sync(sqlite3_file *file, int flags) {
    (void)file, (void)flags;
    write_head();
    return SQLITE_OK;
}

static int file_size(sqlite3_file *file, sqlite3_int64 *length) {
    *length = (sqlite3_int64)head.length[of(file)->number];
    return SQLITE_OK;
}

static int file_lock(sqlite3_file *file, int level) {
    if (of(file)->number != DATABASE_FILE)
        return SQLITE_OK;
    return lock_raise(&of(file)->lock, level) ? SQLITE_OK : SQLITE_BUSY;
}

static int file_unlock(sqlite3_file *file, int level) {
    lock_lower(&of(file)->lock, level);
    return SQLITE_OK;
}

static int file_is_reserved(sqlite3_file *file, int *is) {
    (void)file;
    *is = lock_is_reserved();
    return SQLITE_OK;
}

static int file_control(sqlite3_file *file, int what, void *with) {
    (void)file, (void)what, (void)with;
    return SQLITE_NOTFOUND;
}

static int file_sector(sqlite3_file *file) {
    (void)file;
    return SECTOR;
}

/* The bytes of a write are there before the length that covers them is. Not SQLITE_IOCAP_SEQUENTIAL, though the disk's writes are in order:
   SQLite doesn't sync its journal then, so the journal's length would come to the disk after what it is to undo. */
static int file_properties(sqlite3_file *file) {
    (void)file;
    return SQLITE_IOCAP_ATOMIC512 | SQLITE_IOCAP_SAFE_APPEND | SQLITE_IOCAP_POWERSAFE_OVERWRITE;
}

/* The log's index. */

/* Others may have their turns while memory is asked for, and make the same part. */
static int make_part(int number, int size) {
    void *made = sqlite3_malloc64((sqlite3_uint64)size);
    if (made == NULL)
        return 0;
    memset(made, 0, (size_t)size);
    if (index_parts[number] == NULL)
        index_parts[number] = made;
    else
        sqlite3_free(made);
    return 1;
}

static int index_map(sqlite3_file *file, int number, int size, int is_made, void volatile **to) {
    *to = NULL;
    if (number >= MOST_PARTS)
        return SQLITE_FULL;
    if (!of(file)->has_index)
        index_users++;
    of(file)->has_index = 1;
    if (index_parts[number] == NULL && is_made && !make_part(number, size))
        return SQLITE_NOMEM;
    *to = index_parts[number];
    return SQLITE_OK;
}

static int index_lock(sqlite3_file *file, int first, int count, int flags) {
    if (flags & SQLITE_SHM_UNLOCK)
        log_unlock(&of(file)->log, first, count);
    else if (!log_lock(&of(file)->log, first, count, flags & SQLITE_SHM_EXCLUSIVE))
        return SQLITE_BUSY;
    return SQLITE_OK;
}

static void index_barrier(sqlite3_file *file) { (void)file; }

/* The index is kept while nobody has it: it is right as long as the log is there. */
static int index_unmap(sqlite3_file *file, int is_log_deleted) {
    if (!of(file)->has_index)
        return SQLITE_OK;
    of(file)->has_index = 0;
    log_unlock(&of(file)->log, 0, LOG_LOCKS);
    if (--index_users > 0 || !is_log_deleted)
        return SQLITE_OK;
    for (int i = 0; i < MOST_PARTS; i++) {
        void *gone = index_parts[i];
        index_parts[i] = NULL;
        sqlite3_free(gone);
    }
    return SQLITE_OK;
}

static const sqlite3_io_methods methods = {
    .iVersion = 2,
    .xClose = file_close,
    .xRead = file_read,
    .xWrite = file_write,
    .xTruncate = file_truncate,
    .xSync = file_sync,
    .xFileSize = file_size,
    .xLock = file_lock,
    .xUnlock = file_unlock,
    .xCheckReservedLock = file_is_reserved,
    .xFileControl = file_control,
    .xSectorSize = file_sector,
    .xDeviceCharacteristics = file_properties,
    .xShmMap = index_map,
    .xShmLock = index_lock,
    .xShmBarrier = index_barrier,
    .xShmUnmap = index_unmap,
};

/* The methods of the file system. There are no other files than these three: temporary ones stay in memory. */

static int vfs_open(sqlite3_vfs *vfs, const char *name, sqlite3_file *base, int flags, int *out) {
    (void)vfs;
    struct file *file = of(base);
    memset(file, 0, sizeof *file);
    file->number = number_of(name);
    if (file->number < 0 || (!head.exists[file->number] && !(flags & SQLITE_OPEN_CREATE)))
        return SQLITE_CANTOPEN;
    if (!head.exists[file->number]) {
        head.exists[file->number] = 1;
        head.length[file->number] = 0;
        write_head();
    }
    file->base.pMethods = &methods;
    if (out != NULL)
        *out = flags;
    return SQLITE_OK;
}

static int vfs_delete(sqlite3_vfs *vfs, const char *name, int sync) {
    (void)vfs, (void)sync;
    int number = number_of(name);
    if (number < 0 || !head.exists[number])
        return SQLITE_IOERR_DELETE_NOENT;
    head.exists[number] = head.length[number] = 0;
    write_head();
    return SQLITE_OK;
}

static int vfs_access(sqlite3_vfs *vfs, const char *name, int flags, int *is) {
    (void)vfs, (void)flags;
    int number = number_of(name);
    *is = number >= 0 && head.exists[number];
    return SQLITE_OK;
}

static int vfs_full_name(sqlite3_vfs *vfs, const char *name, int room, char *to) {
    (void)vfs;
    size_t length = strlen(name);
    if (length >= (size_t)room)
        return SQLITE_CANTOPEN;
    memcpy(to, name, length + 1);
    return SQLITE_OK;
}

/* The machine has no source of chance: numbers from a start that its clock gives. */
static int vfs_random(sqlite3_vfs *vfs, int count, char *to) {
    static uint64_t state;
    (void)vfs;
    state ^= clock_steps() * 0x9e3779b97f4a7c15 | 1;
    for (int i = 0; i < count; i++) {
        state ^= state << 13;
        state ^= state >> 7;
        state ^= state << 17;
        to[i] = (char)(state >> 32);
    }
    return count;
}

static int vfs_sleep(sqlite3_vfs *vfs, int microseconds) {
    (void)vfs;
    turn_leave();
    return microseconds;
}

static int vfs_time(sqlite3_vfs *vfs, sqlite3_int64 *now) {
    (void)vfs;
    *now = (sqlite3_int64)(BEGAN + (int64_t)clock_now());
    return SQLITE_OK;
}

static int vfs_old_time(sqlite3_vfs *vfs, double *now) {
    sqlite3_int64 exact;
    vfs_time(vfs, &exact);
    *now = (double)exact / 86400000.0;
    return SQLITE_OK;
}

static int vfs_error(sqlite3_vfs *vfs, int room, char *to) {
    (void)vfs, (void)room, (void)to;
    return 0;
}

static sqlite3_vfs vfs = {
    .iVersion = 2,
    .szOsFile = sizeof(struct file),
    .mxPathname = 64,
    .zName = "disk",
    .xOpen = vfs_open,
    .xDelete = vfs_delete,
    .xAccess = vfs_access,
    .xFullPathname = vfs_full_name,
    .xRandomness = vfs_random,
    .xSleep = vfs_sleep,
    .xCurrentTime = vfs_old_time,
    .xGetLastError = vfs_error,
    .xCurrentTimeInt64 = vfs_time,
};

int vfs_start(void) {
    if (!disk_start(areas[FILES]))
        return 0;
    disk_read(0, &head, 1);
    if (head.written != WRITTEN) {
        memset(&head, 0, sizeof head);
        head.written = WRITTEN;
    }
    if (head.log_sector == 0 && !head.exists[JOURNAL_FILE] && !head.exists[LOG_FILE]) {
        head.log_sector = LOG_SECTOR;
        write_head();
    }
    areas[LOG_FILE] = head.log_sector == 0 ? FIRST_LOG_SECTOR : (uint32_t)head.log_sector;
    return 1;
}

uint64_t vfs_length(int file) { return head.exists[file] ? head.length[file] : 0; }

uint64_t vfs_room(int file) { return (uint64_t)(areas[file + 1] - areas[file]) * SECTOR; }

int vfs_read(int file, uint64_t at, void *to, uint32_t count) {
    if (at + count > vfs_length(file))
        return 0;
    read_bytes(areas[file], at, to, count);
    turn_look();
    return 1;
}

const void *vfs_index(void) { return index_parts[0]; }

uint32_t vfs_read_locks(sqlite3 *database) {
    sqlite3_file *file = NULL;
    if (sqlite3_file_control(database, "main", SQLITE_FCNTL_FILE_POINTER, &file) != SQLITE_OK || file == NULL)
        return 0;
    return of(file)->log.read;
}

int vfs_register(void) { return sqlite3_vfs_register(&vfs, 1); }
