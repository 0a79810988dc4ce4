/* The locks of a database file between the connections of this process, as SQLite's own VFS has them for an inode. */
#ifndef BLOBCRASH_LOCKS_H
#define BLOBCRASH_LOCKS_H

#include <sqlite3ext.h>

int locks_lock(sqlite3_file *base, int level);
int locks_unlock(sqlite3_file *base, int level);
int locks_is_reserved(sqlite3_file *base, int *answer);

#endif
