#include "memory.h"

#include "file.h"

#include <stdatomic.h>
#include <string.h>

struct memory {
    int users;
    /* How many users share a lock, and whether one has it alone. */
    int shared[SQLITE_SHM_NLOCK];
    bool is_exclusive[SQLITE_SHM_NLOCK];
    int regions_len;
    void **regions;
};

void memory_free(struct memory *memory) {
    if (!memory) return;
    for (int i = 0; i < memory->regions_len; i++) sqlite3_free(memory->regions[i]);
    sqlite3_free(memory->regions);
    sqlite3_free(memory);
}

/* Makes the file's connection a user of the memory, and the memory if it is the first. */
static int use(struct file *file) {
    struct node *node = file->open.node;
    if (file->memory.is_mapped) return SQLITE_OK;
    if (!node->memory) {
        if (!(node->memory = sqlite3_malloc(sizeof *node->memory))) return SQLITE_IOERR_NOMEM;
        memset(node->memory, 0, sizeof *node->memory);
    }
    node->memory->users++;
    file->memory = (struct memory_user){.is_mapped = true};
    return SQLITE_OK;
}

/* Adds a region of zeros. */
static int add_region(struct memory *memory, int size) {
    void **more = sqlite3_realloc(memory->regions, (memory->regions_len + 1) * (int)sizeof *more);
    if (!more) return SQLITE_IOERR_NOMEM;
    memory->regions = more;
    void *region = sqlite3_malloc(size);
    if (!region) return SQLITE_IOERR_NOMEM;
    memset(region, 0, (size_t)size);
    more[memory->regions_len++] = region;
    return SQLITE_OK;
}

int memory_map(sqlite3_file *base, int region, int size, int extends, void volatile **at) {
    struct file *file = file_of(base);
    *at = NULL;
    if (!store_is_on()) return SQLITE_IOERR_SHMMAP;
    int code = use(file);
    if (code) return code;
    struct memory *memory = file->open.node->memory;
    while (memory->regions_len <= region && extends && !code) code = add_region(memory, size);
    if (!code && region < memory->regions_len) *at = memory->regions[region];
    return code;
}

static void unlock(struct memory *memory, struct memory_user *user, int lock) {
    unsigned bit = 1u << lock;
    if (user->shared & bit) memory->shared[lock]--;
    if (user->exclusive & bit) memory->is_exclusive[lock] = false;
    user->shared &= ~bit;
    user->exclusive &= ~bit;
}

/* Whether other users' locks rule out a lock. */
static bool is_refused(const struct memory *memory, const struct memory_user *user, int lock, bool is_shared) {
    unsigned bit = 1u << lock;
    if (user->exclusive & bit) return false;
    if (memory->is_exclusive[lock]) return true;
    return !is_shared && memory->shared[lock] > ((user->shared & bit) != 0);
}

static void lock_one(struct memory *memory, struct memory_user *user, int lock, bool is_shared) {
    unsigned bit = 1u << lock;
    if ((user->shared | user->exclusive) & bit && is_shared) return;
    unlock(memory, user, lock);
    if (is_shared) memory->shared[lock]++, user->shared |= bit;
    else memory->is_exclusive[lock] = true, user->exclusive |= bit;
}

int memory_lock(sqlite3_file *base, int first, int count, int flags) {
    struct file *file = file_of(base);
    struct memory *memory = file->open.node->memory;
    bool is_shared = flags & SQLITE_SHM_SHARED;
    if (!memory || !file->memory.is_mapped) return SQLITE_IOERR_SHMLOCK;
    if (flags & SQLITE_SHM_UNLOCK) {
        for (int i = first; i < first + count; i++) unlock(memory, &file->memory, i);
        return SQLITE_OK;
    }
    if (!store_is_on()) return SQLITE_IOERR_SHMLOCK;
    for (int i = first; i < first + count; i++) {
        if (is_refused(memory, &file->memory, i, is_shared)) return SQLITE_BUSY;
    }
    for (int i = first; i < first + count; i++) lock_one(memory, &file->memory, i, is_shared);
    return SQLITE_OK;
}

void memory_barrier(sqlite3_file *base) {
    (void)base;
    atomic_thread_fence(memory_order_seq_cst);
}

int memory_unmap(sqlite3_file *base, int deletes) {
    struct file *file = file_of(base);
    struct node *node = file->open.node;
    (void)deletes;
    if (!file->memory.is_mapped) return SQLITE_OK;
    for (int i = 0; i < SQLITE_SHM_NLOCK; i++) unlock(node->memory, &file->memory, i);
    file->memory.is_mapped = false;
    if (--node->memory->users == 0) {
        memory_free(node->memory);
        node->memory = NULL;
    }
    return SQLITE_OK;
}
