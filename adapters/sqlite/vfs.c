/* The VFS: SQLite's calls, and what they mean to the store. */
#include "file.h"
#include "locks.h"

#include <stdio.h>
#include <string.h>

#ifndef SQLITE_CORE
SQLITE_EXTENSION_INIT3
#endif

/* Files of these kinds are in the file system. Temporary files, which no crash keeps, are in the default VFS. */
enum {
    STORED = SQLITE_OPEN_MAIN_DB | SQLITE_OPEN_MAIN_JOURNAL | SQLITE_OPEN_SUPER_JOURNAL | SQLITE_OPEN_WAL,
    LONGEST_SUFFIX = 32
};

static sqlite3_vfs *default_vfs;

/* Bytes. */

static int file_close(sqlite3_file *base) {
    struct file *file = file_of(base);
    memory_unmap(base, 0);
    locks_unlock(base, SQLITE_LOCK_NONE);
    store_close(&file->open);
    return SQLITE_OK;
}

static int file_read(sqlite3_file *base, void *into, int len, sqlite3_int64 offset) {
    return store_read(&file_of(base)->open, into, len, offset);
}

static int file_write(sqlite3_file *base, const void *bytes, int len, sqlite3_int64 offset) {
    return store_write(&file_of(base)->open, bytes, len, offset);
}

static int file_truncate(sqlite3_file *base, sqlite3_int64 size) { return store_truncate(&file_of(base)->open, size); }

static int file_sync(sqlite3_file *base, int flags) {
    struct file *file = file_of(base);
    (void)flags;
    int code = store_sync(&file->open);
    if (code || !file->syncs_directory) return code;
    if ((code = store_sync_directory(file->open.name)) == SQLITE_OK) file->syncs_directory = false;
    return code;
}

static int file_size(sqlite3_file *base, sqlite3_int64 *size) { return store_size(&file_of(base)->open, size); }

static int file_control(sqlite3_file *base, int operation, void *argument) {
    (void)base, (void)operation, (void)argument;
    return SQLITE_NOTFOUND;
}

static int file_sector_size(sqlite3_file *base) { return file_of(base)->device.sector_size; }
static int file_characteristics(sqlite3_file *base) { return file_of(base)->device.characteristics; }

static const sqlite3_io_methods methods = {
    .iVersion = 2,
    .xClose = file_close,
    .xRead = file_read,
    .xWrite = file_write,
    .xTruncate = file_truncate,
    .xSync = file_sync,
    .xFileSize = file_size,
    .xLock = locks_lock,
    .xUnlock = locks_unlock,
    .xCheckReservedLock = locks_is_reserved,
    .xFileControl = file_control,
    .xSectorSize = file_sector_size,
    .xDeviceCharacteristics = file_characteristics,
    .xShmMap = memory_map,
    .xShmLock = memory_lock,
    .xShmBarrier = memory_barrier,
    .xShmUnmap = memory_unmap,
};

/* Names. */

static int vfs_open(sqlite3_vfs *vfs, const char *name, sqlite3_file *base, int flags, int *flags_out) {
    struct file *file = file_of(base);
    (void)vfs;
    base->pMethods = NULL;
    if (!name || !(flags & STORED)) return default_vfs->xOpen(default_vfs, name, base, flags, flags_out);
    memset(file, 0, sizeof *file);
    if (flags & SQLITE_OPEN_MAIN_DB) {
        int code = parameters_apply(name, &file->device);
        if (code) return code;
    } else if (flags & SQLITE_OPEN_SUPER_JOURNAL) {
        file->device = default_device;
    } else {
        parameters_device(sqlite3_filename_database(name), &file->device);
    }
    int code = store_open(name, flags & SQLITE_OPEN_CREATE, flags & SQLITE_OPEN_EXCLUSIVE, &file->open);
    if (code) return code;
    file->syncs_directory = (flags & SQLITE_OPEN_CREATE) && !(flags & SQLITE_OPEN_MAIN_DB);
    base->pMethods = &methods;
    if (flags_out) *flags_out = flags;
    return SQLITE_OK;
}

static int vfs_delete(sqlite3_vfs *vfs, const char *name, int syncs_directory) {
    (void)vfs;
    return store_remove(name, syncs_directory);
}

static int vfs_access(sqlite3_vfs *vfs, const char *name, int flags, int *answer) {
    (void)vfs, (void)flags;
    return store_exists(name, answer);
}

/* A path from the root on. */
static int vfs_full_pathname(sqlite3_vfs *vfs, const char *name, int capacity, char *full) {
    (void)vfs;
    const char *slash = name[0] == '/' ? "" : "/";
    return snprintf(full, (size_t)capacity, "%s%s", slash, name) < capacity ? SQLITE_OK : SQLITE_CANTOPEN;
}

static int vfs_randomness(sqlite3_vfs *vfs, int len, char *bytes) {
    (void)vfs;
    return default_vfs->xRandomness(default_vfs, len, bytes);
}

static int vfs_sleep(sqlite3_vfs *vfs, int microseconds) {
    (void)vfs;
    return default_vfs->xSleep(default_vfs, microseconds);
}

static int vfs_time(sqlite3_vfs *vfs, double *time) {
    (void)vfs;
    return default_vfs->xCurrentTime(default_vfs, time);
}

static int vfs_last_error(sqlite3_vfs *vfs, int capacity, char *text) {
    (void)vfs;
    if (capacity > 0) snprintf(text, (size_t)capacity, "%s", blobcrash_vfs_message());
    return 0;
}

int blobcrash_vfs_register(void) {
    static sqlite3_vfs vfs = {
        .iVersion = 1,
        .mxPathname = LONGEST_NAME - LONGEST_SUFFIX,
        .zName = "blobcrash",
        .xOpen = vfs_open,
        .xDelete = vfs_delete,
        .xAccess = vfs_access,
        .xFullPathname = vfs_full_pathname,
        .xRandomness = vfs_randomness,
        .xSleep = vfs_sleep,
        .xCurrentTime = vfs_time,
        .xGetLastError = vfs_last_error,
    };
    if (sqlite3_vfs_find(vfs.zName)) return SQLITE_OK;
    default_vfs = sqlite3_vfs_find(NULL);
    if (!default_vfs) return SQLITE_ERROR;
    vfs.szOsFile = (int)sizeof(struct file);
    if (vfs.szOsFile < default_vfs->szOsFile) vfs.szOsFile = default_vfs->szOsFile;
    return sqlite3_vfs_register(&vfs, 0);
}
