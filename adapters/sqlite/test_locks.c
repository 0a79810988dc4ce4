/*
 * Random calls of locks, on a file of this VFS and on one of SQLite's own: three connections to each get the same results. The last line
 * is `N passed, M failed`.
 */
#include "blobcrash_vfs.h"
#include "random.h"

#include <sqlite3.h>
#include <stdio.h>
#include <stdlib.h>
#include <string.h>
#include <unistd.h>

enum { CONNECTIONS = 3, SEEDS = 50, STEPS = 400 };

/* The files of a connection, with the same calls: of this VFS, and of SQLite's own. */
struct connection {
    sqlite3_file *files[2];
    sqlite3_filename names[2];
    int level;
    unsigned shared, exclusive;
};

static int passed, failed;
static uint64_t draws;

static void check(const char *call, int argument, const int codes[2]) {
    bool holds = codes[0] == codes[1];
    passed += holds;
    failed += !holds;
    if (!holds) printf("test_locks.c: %s %d returned %d, and %d of SQLite's own VFS\n", call, argument, codes[0], codes[1]);
}

static void open_both(struct connection *connection, const char *path) {
    sqlite3_vfs *vfs[2] = {sqlite3_vfs_find("blobcrash"), sqlite3_vfs_find(NULL)};
    *connection = (struct connection){0};
    for (int i = 0; i < 2; i++) {
        connection->files[i] = calloc(1, (size_t)vfs[i]->szOsFile);
        connection->names[i] = (sqlite3_filename)sqlite3_create_filename(path, "", "", 0, NULL);
        int flags = SQLITE_OPEN_MAIN_DB | SQLITE_OPEN_CREATE | SQLITE_OPEN_READWRITE;
        if (!connection->files[i] || vfs[i]->xOpen(vfs[i], connection->names[i], connection->files[i], flags, NULL)) abort();
    }
}

/* SQLite gives the locks of memory up before it unmaps it. */
static void close_both(struct connection *connection) {
    for (int i = 0; i < 2; i++) {
        const sqlite3_io_methods *calls = connection->files[i]->pMethods;
        for (int lock = 0; lock < SQLITE_SHM_NLOCK; lock++) {
            bool is_shared = connection->shared >> lock & 1, is_exclusive = connection->exclusive >> lock & 1;
            int kind = is_shared ? SQLITE_SHM_SHARED : SQLITE_SHM_EXCLUSIVE;
            if (is_shared || is_exclusive) calls->xShmLock(connection->files[i], lock, 1, SQLITE_SHM_UNLOCK | kind);
        }
        calls->xShmUnmap(connection->files[i], 0);
        connection->files[i]->pMethods->xClose(connection->files[i]);
        free(connection->files[i]);
        sqlite3_free_filename(connection->names[i]);
    }
}

/* The next level that a connection may ask for. */
static int next_level(const struct connection *connection) {
    if (connection->level == SQLITE_LOCK_NONE) return SQLITE_LOCK_SHARED;
    bool reserves = connection->level == SQLITE_LOCK_SHARED && random_below(&draws, 2);
    return reserves ? SQLITE_LOCK_RESERVED : SQLITE_LOCK_EXCLUSIVE;
}

static void lock_file(struct connection *connection) {
    int codes[2], reserved[2], level = next_level(connection);
    for (int i = 0; i < 2; i++) codes[i] = connection->files[i]->pMethods->xLock(connection->files[i], level);
    check("xLock", level, codes);
    if (codes[1] == SQLITE_OK) connection->level = level;
    for (int i = 0; i < 2; i++) connection->files[i]->pMethods->xCheckReservedLock(connection->files[i], &reserved[i]);
    check("xCheckReservedLock", 0, reserved);
}

static void unlock_file(struct connection *connection) {
    int codes[2], level = random_below(&draws, 3) ? SQLITE_LOCK_NONE : SQLITE_LOCK_SHARED;
    if (connection->level < level) return;
    for (int i = 0; i < 2; i++) codes[i] = connection->files[i]->pMethods->xUnlock(connection->files[i], level);
    check("xUnlock", level, codes);
    connection->level = level;
}

static void change_memory_lock(struct connection *connection) {
    int codes[2], first = (int)random_below(&draws, SQLITE_SHM_NLOCK), count = 1;
    unsigned mask = 1u << first;
    int flags = SQLITE_SHM_LOCK | (random_below(&draws, 2) ? SQLITE_SHM_SHARED : SQLITE_SHM_EXCLUSIVE);
    if (connection->shared & mask) flags = SQLITE_SHM_UNLOCK | SQLITE_SHM_SHARED;
    else if (connection->exclusive & mask) flags = SQLITE_SHM_UNLOCK | SQLITE_SHM_EXCLUSIVE;
    else if (flags & SQLITE_SHM_EXCLUSIVE) {
        /* More than one at a time, of which the connection has none. */
        while (first + count < SQLITE_SHM_NLOCK && random_below(&draws, 2)) count++;
        mask = ((1u << count) - 1) << first;
        if ((connection->shared | connection->exclusive) & mask) return;
    }
    for (int i = 0; i < 2; i++) codes[i] = connection->files[i]->pMethods->xShmLock(connection->files[i], first, count, flags);
    check("xShmLock", first, codes);
    if (flags & SQLITE_SHM_UNLOCK) connection->shared &= ~mask, connection->exclusive &= ~mask;
    else if (codes[1] == SQLITE_OK && flags & SQLITE_SHM_SHARED) connection->shared |= mask;
    else if (codes[1] == SQLITE_OK) connection->exclusive |= mask;
}

/* Maps a region, in which both files must have what was last written there. */
static void use_memory(struct connection *connection) {
    int codes[2], bytes[2] = {0}, region = (int)random_below(&draws, 3), extends = (int)random_below(&draws, 2);
    void volatile *at[2];
    char next = (char)random_below(&draws, 100);
    for (int i = 0; i < 2; i++) {
        codes[i] = connection->files[i]->pMethods->xShmMap(connection->files[i], region, 32768, extends, &at[i]);
        if (at[i]) bytes[i] = *(char volatile *)at[i], *(char volatile *)at[i] = next;
    }
    check("xShmMap", region, codes);
    check("a region of memory", region, (int[2]){at[0] != NULL, at[1] != NULL});
    check("a byte of memory", region, bytes);
}

static void step(struct connection *connection, const char *path) {
    switch (random_below(&draws, 12)) {
    case 0: use_memory(connection); break;
    case 1:
        if (random_below(&draws, 4)) break;
        close_both(connection);
        open_both(connection, path);
        use_memory(connection);
        break;
    case 2:
    case 3: unlock_file(connection); break;
    case 4:
    case 5:
    case 6: lock_file(connection); break;
    default: change_memory_lock(connection);
    }
}

int main(void) {
    char folder[] = "/tmp/blobcrash.XXXXXX", path[sizeof folder + 16], memory[sizeof path + 8];
    struct connection connections[CONNECTIONS];
    if (blobcrash_vfs_register() != SQLITE_OK || !mkdtemp(folder)) return 1;
    snprintf(path, sizeof path, "%s/a.db", folder);
    snprintf(memory, sizeof memory, "%s-shm", path);
    for (draws = 0; draws < SEEDS; draws++) {
        uint64_t seed = draws;
        if (blobcrash_vfs_start("") != SQLITE_OK) return 1;
        for (int i = 0; i < CONNECTIONS; i++) open_both(&connections[i], path), use_memory(&connections[i]);
        for (int i = 0; i < STEPS; i++) step(&connections[random_below(&draws, CONNECTIONS)], path);
        for (int i = 0; i < CONNECTIONS; i++) close_both(&connections[i]);
        unlink(memory);
        unlink(path);
        draws = seed;
    }
    rmdir(folder);
    blobcrash_vfs_end();
    printf("%d passed, %d failed\n", passed, failed);
    return failed != 0;
}
