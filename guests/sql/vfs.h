/* The files of SQLite on the disk, as one of its virtual file systems. */
#ifndef VFS_H
#define VFS_H

#include <stdint.h>

#include "sqlite3.h"

/* The name of the one database. */
#define DATABASE "/db"

enum { DATABASE_FILE, JOURNAL_FILE, LOG_FILE, FILES };

/* The sectors of the disk, and of them the first of the journal's and of the write-ahead log's. The database is before them, from
   sector 8 on. On a disk that doesn't say where its log begins that is at FIRST_LOG_SECTOR. */
#ifndef DISK_SECTORS
#define DISK_SECTORS 32768
#define JOURNAL_SECTOR 20488
#define LOG_SECTOR 24584
#define FIRST_LOG_SECTOR 28680
#endif

/* Reads which files there are; a disk that is empty has none. Answers whether the disk can be used. */
int vfs_start(void);

/* How long a file is, and how long it may become, in bytes. */
uint64_t vfs_length(int file);
uint64_t vfs_room(int file);

/* What stands in a file, past SQLite: so many bytes from a place on. Answers whether it has them. */
int vfs_read(int file, uint64_t at, void *to, uint32_t count);

/* The log's index, of which there are a part's bytes or none (https://sqlite.org/walformat.html#the_wal_index_file_format), and by which of
   the log's locks a connection reads, a bit for each; it must have the database open. */
const void *vfs_index(void);
uint32_t vfs_read_locks(sqlite3 *database);

/* Makes the file system SQLite's default. Answers as SQLite does. */
int vfs_register(void);

#endif
