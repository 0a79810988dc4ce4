#include "locks.h"

#include "file.h"

/* Whether another connection's lock rules out this one. */
static bool is_refused(const struct file *file, const struct node *node, int level) {
    if (file->lock == node->lock) return false;
    return node->lock >= SQLITE_LOCK_PENDING || level > SQLITE_LOCK_SHARED;
}

int locks_lock(sqlite3_file *base, int level) {
    struct file *file = file_of(base);
    struct node *node = file->open.node;
    if (file->lock >= level) return SQLITE_OK;
    if (is_refused(file, node, level)) return SQLITE_BUSY;
    if (file->lock == SQLITE_LOCK_NONE) {
        node->lock_holders++;
        if (node->lock < SQLITE_LOCK_SHARED) node->lock = SQLITE_LOCK_SHARED;
        file->lock = SQLITE_LOCK_SHARED;
        return SQLITE_OK;
    }
    /* One that waits for readers keeps new ones out. */
    bool waits = level == SQLITE_LOCK_EXCLUSIVE && node->lock_holders > 1;
    file->lock = node->lock = waits ? SQLITE_LOCK_PENDING : level;
    return waits ? SQLITE_BUSY : SQLITE_OK;
}

int locks_unlock(sqlite3_file *base, int level) {
    struct file *file = file_of(base);
    struct node *node = file->open.node;
    if (file->lock <= level) return SQLITE_OK;
    if (file->lock > SQLITE_LOCK_SHARED) node->lock = SQLITE_LOCK_SHARED;
    if (level == SQLITE_LOCK_NONE && --node->lock_holders == 0) node->lock = SQLITE_LOCK_NONE;
    file->lock = level;
    return SQLITE_OK;
}

int locks_is_reserved(sqlite3_file *base, int *answer) {
    *answer = file_of(base)->open.node->lock > SQLITE_LOCK_SHARED;
    return SQLITE_OK;
}
