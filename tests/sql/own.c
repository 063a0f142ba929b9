/* For a build over SQLite's own source, as the guest has it: SQLite asks for these where it has no file system of its own. */
#include "../../guests/sql/vfs.h"

int sqlite3_os_init(void) { return vfs_register(); }

int sqlite3_os_end(void) { return 0; }
