/* The files of the VFS over the disk. Functions return SQLite result codes. */
#ifndef BLOBCRASH_STORE_H
#define BLOBCRASH_STORE_H

#include "blobcrash_vfs.h"

#include <sqlite3ext.h>

#ifndef SQLITE_CORE
extern const sqlite3_api_routines *sqlite3_api;
#endif

enum { LONGEST_NAME = 512 };

struct memory;

/* What the connections of this process share of an open file, apart from its bytes: locks and shared memory. */
struct node {
    struct node *next;
    uint64_t inode;
    int references;
    /* The strongest lock that a connection has, and how many have one. */
    int lock, lock_holders;
    /* The memory of a write-ahead log's index; NULL until it is mapped. */
    struct memory *memory;
};

/* An open file of the disk. */
struct open_file {
    uint64_t descriptor;
    struct node *node;
    const char *name;
};

/* Starts a file system with this seed. Returns as blobcrash_vfs_start. */
int store_start_seed(uint64_t seed);

/* Whether a file system is started, and whether with this seed. */
bool store_is_started(void);
bool store_is_current(uint64_t seed);

/* Whether the power is on, and this is the thread of the file system. */
bool store_is_on(void);

/* Whether there is a file with this name that isn't empty: 1 or 0. */
int store_exists(const char *name, int *answer);

/* Opens a file. `creates` and `excludes` are those of open(2). The name must stay until the close. */
int store_open(const char *name, bool creates, bool excludes, struct open_file *file);
void store_close(struct open_file *file);
int store_remove(const char *name, bool syncs_directory);

int store_read(const struct open_file *file, void *into, int len, sqlite3_int64 offset);
int store_write(const struct open_file *file, const void *bytes, int len, sqlite3_int64 offset);
int store_truncate(const struct open_file *file, sqlite3_int64 size);
int store_size(const struct open_file *file, sqlite3_int64 *size);
int store_sync(const struct open_file *file);
int store_sync_directory(const char *name);

/* Keeps a text for blobcrash_vfs_message, and returns `code`. */
int store_refuse(int code, const char *format, ...);

#endif
