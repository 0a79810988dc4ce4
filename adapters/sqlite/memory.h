/*
 * The shared memory of a write-ahead log's index, between the connections of this process. No crash keeps it. It is freed when its last
 * user unmaps it.
 */
#ifndef BLOBCRASH_MEMORY_H
#define BLOBCRASH_MEMORY_H

#include <sqlite3ext.h>
#include <stdbool.h>

struct memory;

/* A connection that has mapped memory: which of its locks it shares, and which it has alone, a bit for each. */
struct memory_user {
    bool is_mapped;
    unsigned shared, exclusive;
};

/* The methods xShmMap, xShmLock, xShmBarrier and xShmUnmap. */
int memory_map(sqlite3_file *base, int region, int size, int extends, void volatile **at);
int memory_lock(sqlite3_file *base, int first, int count, int flags);
void memory_barrier(sqlite3_file *base);
int memory_unmap(sqlite3_file *base, int deletes);

/* Frees memory that has no user. NULL is allowed. */
void memory_free(struct memory *memory);

#endif
