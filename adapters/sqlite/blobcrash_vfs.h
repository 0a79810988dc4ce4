/*
 * The SQLite VFS `blobcrash`: the files of a database are in a file system of the crash-fault layer (docs/FILES.md).
 *
 * A process has one file system, as a machine has one disk. A crash hits all of its files. It belongs to the thread that started it; a
 * call of another thread fails.
 *
 * A program links store.c, locks.c, memory.c, parameters.c and vfs.c, and disk.c and record.c of adapters/common, with `-DSQLITE_CORE`, and
 * uses this header. A program that loads the extension uses the SQL functions of extension.c. adapters/sqlite/README.md describes both.
 */
#ifndef BLOBCRASH_VFS_H
#define BLOBCRASH_VFS_H

#include "disk.h"

/* Registers the VFS under its name, not as the default. Returns a SQLite result code. Later calls do nothing. */
int blobcrash_vfs_register(void);

/*
 * Starts an empty file system and ends the one before. `preamble` has the lines of blobcrash_files_open, as "seed 7\nprofile xfs\n".
 *
 * Returns SQLITE_OK, or with the file system before unchanged:
 * - SQLITE_BUSY if a file is open.
 * - SQLITE_NOMEM.
 * - SQLITE_MISUSE if the preamble has a line that may not be there, or on another thread.
 */
int blobcrash_vfs_start(const char *preamble);

/*
 * Makes a setting of blobcrash_files_configure, as "config sync 1 40" or "syncs lie".
 *
 * Returns SQLITE_OK; SQLITE_MISUSE if it is no such setting, or no file system is started, or on another thread; SQLITE_NOMEM.
 * The last two change nothing.
 */
int blobcrash_vfs_set(const char *setting);

/* Adds a comment to the record that BLOBCRASH_RECORD asks for (disk.h), if there is one. Returns SQLITE_OK; SQLITE_MISUSE as blobcrash_vfs_set. */
int blobcrash_vfs_note(const char *text);

/* Makes all files durable, without a draw. Returns SQLITE_OK; SQLITE_NOMEM; SQLITE_MISUSE as blobcrash_vfs_set. */
int blobcrash_vfs_settle(void);

/*
 * Lets `calls` more calls change something (create, write, truncate, sync, delete, sync a directory). After them every call fails
 * until the next crash. A negative number cancels this. Returns SQLITE_OK; SQLITE_MISUSE as blobcrash_vfs_set.
 */
int blobcrash_vfs_power_off_after(int64_t calls);

bool blobcrash_vfs_is_off(void);

/* The calls that have changed something since the start, and the faults that were injected. */
uint64_t blobcrash_vfs_changes(void);
uint64_t blobcrash_vfs_faults(void);

/*
 * Crashes, and turns the power on again. Files that are open now fail from here on: close and open them again. `crash`
 * may be NULL.
 *
 * Returns SQLITE_OK; SQLITE_NOMEM with the power off: crash again; SQLITE_MISUSE as blobcrash_vfs_set.
 */
int blobcrash_vfs_crash(struct disk_crash *crash);

/* Ends the file system. The next open starts a new one. Returns SQLITE_BUSY and changes nothing if a file is open. */
int blobcrash_vfs_end(void);

/* Why the last refused call of this thread was refused, for people; empty if none was. Valid until the next. */
const char *blobcrash_vfs_message(void);

#endif
