#include "store.h"

#include "memory.h"
#include "parameters.h"

#include <inttypes.h>
#include <stdarg.h>
#include <stdatomic.h>
#include <stdio.h>
#include <string.h>

enum { MESSAGE_SIZE = 512 };

/* A variable of the thread that started the file system; NULL if none is started. */
static _Atomic(const char *) owner;
static _Thread_local char this_thread, message[MESSAGE_SIZE];

static struct {
    struct disk disk;
    bool has_seed;
    uint64_t seed;
    /* Of the files that are open, and were opened since the last crash. */
    struct node *nodes;
    int open_files;
} store;

int store_refuse(int code, const char *format, ...) {
    va_list words;
    va_start(words, format);
    vsnprintf(message, sizeof message, format, words);
    va_end(words);
    return code;
}

const char *blobcrash_vfs_message(void) { return message; }

static bool is_ours(void) { return owner == &this_thread; }

static int refuse_thread(void) {
    return store_refuse(SQLITE_MISUSE, owner ? "the file system belongs to another thread" : "no file system is started");
}

bool store_is_started(void) { return is_ours(); }
bool store_is_current(uint64_t seed) { return is_ours() && store.has_seed && store.seed == seed; }
bool store_is_on(void) { return is_ours() && store.disk.is_on; }

/* Returns the result code of a status: `failed` if the call was made and failed. Keeps a message. */
static int code_of(uint32_t status, int failed) {
    switch (status) {
    case BLOBCRASH_DONE: return SQLITE_OK;
    case BLOBCRASH_E_INJECTED: return store_refuse(failed, "an injected fault");
    case DISK_OFF: return store_refuse(failed, "the power is off");
    case BLOBCRASH_F_STALE: return store_refuse(failed, "the file was opened before a crash");
    case BLOBCRASH_NO_MEMORY:
    case BLOBCRASH_E_MEMORY: return store_refuse(SQLITE_IOERR_NOMEM, "out of memory");
    case BLOBCRASH_F_NO_SPACE: return store_refuse(SQLITE_FULL, "a limit of the file system is reached");
    default: return store_refuse(failed, "the file system returned %u", (unsigned)status);
    }
}

/* Names. */

/* Makes a call on a path. */
static struct blobcrash_file_reply call(uint32_t kind, const char *path) { return disk_call(&store.disk, kind, 0, 0, path); }

/* Copies the path of the directory of a name: what precedes its last slash. */
static void copy_directory(const char *name, char path[LONGEST_NAME]) {
    size_t len = (size_t)(strrchr(name, '/') - name);
    memcpy(path, name, len);
    path[len] = 0;
}

static bool is_too_long(const char *name) { return strlen(name) >= LONGEST_NAME || name[0] != '/'; }

int store_exists(const char *name, int *answer) {
    *answer = 0;
    if (is_too_long(name)) return SQLITE_OK;
    if (!is_ours()) return SQLITE_IOERR_ACCESS;
    struct blobcrash_file_reply reply = call(BLOBCRASH_F_FIND, name);
    *answer = reply.status == BLOBCRASH_DONE && (reply.kind == 1 || reply.size > 0);
    return reply.status == DISK_OFF ? code_of(reply.status, SQLITE_IOERR_ACCESS) : SQLITE_OK;
}

int store_sync_directory(const char *name) {
    char path[LONGEST_NAME];
    copy_directory(name, path);
    disk_trace("sync the directory of %s", name);
    return code_of(call(BLOBCRASH_F_SYNC_DIRECTORY, path).status, SQLITE_IOERR_DIR_FSYNC);
}

int store_remove(const char *name, bool syncs_directory) {
    if (is_too_long(name)) return SQLITE_IOERR_DELETE_NOENT;
    if (!is_ours()) return SQLITE_IOERR_DELETE;
    disk_trace("delete %s", name);
    uint32_t status = call(BLOBCRASH_F_UNLINK, name).status;
    if (status == BLOBCRASH_F_NOT_FOUND) return SQLITE_IOERR_DELETE_NOENT;
    if (status != BLOBCRASH_DONE) return code_of(status, SQLITE_IOERR_DELETE);
    return syncs_directory ? store_sync_directory(name) : SQLITE_OK;
}

/* Makes the directories of a name that don't exist, each durable. */
static uint32_t make_directories(const char *name) {
    char path[LONGEST_NAME];
    uint32_t status = BLOBCRASH_F_NOT_FOUND;
    for (const char *slash = strchr(name + 1, '/'); slash; slash = strchr(slash + 1, '/')) {
        memcpy(path, name, (size_t)(slash - name));
        path[slash - name] = 0;
        status = call(BLOBCRASH_F_MAKE_DIRECTORY, path).status;
        if (status == BLOBCRASH_F_EXISTS) continue;
        if (status == BLOBCRASH_DONE && store_sync_directory(path) != SQLITE_OK) status = DISK_OFF;
        if (status != BLOBCRASH_DONE) return status;
    }
    return status == BLOBCRASH_F_EXISTS ? BLOBCRASH_DONE : status;
}

/* Files. */

/* Finds or makes the node of an inode. */
static struct node *node_of(uint64_t inode) {
    struct node *node = store.nodes;
    while (node && node->inode != inode) node = node->next;
    if (node || !(node = sqlite3_malloc(sizeof *node))) return node;
    *node = (struct node){.next = store.nodes, .inode = inode};
    store.nodes = node;
    return node;
}

static struct blobcrash_file_reply open_path(const char *name, bool creates, bool excludes) {
    struct blobcrash_file_reply reply = {.status = BLOBCRASH_F_NOT_FOUND};
    if (!excludes) reply = call(BLOBCRASH_F_OPEN, name);
    if (!creates || reply.status != BLOBCRASH_F_NOT_FOUND) return reply;
    disk_trace("create %s", name);
    reply = call(BLOBCRASH_F_CREATE, name);
    if (reply.status == BLOBCRASH_F_NOT_FOUND && make_directories(name) == BLOBCRASH_DONE) reply = call(BLOBCRASH_F_CREATE, name);
    return reply;
}

int store_open(const char *name, bool creates, bool excludes, struct open_file *file) {
    if (is_too_long(name)) return store_refuse(SQLITE_CANTOPEN, "a name of %zu bytes", strlen(name));
    if (!is_ours()) return store_refuse(SQLITE_CANTOPEN, "the file system belongs to another thread");
    struct blobcrash_file_reply reply = open_path(name, creates, excludes);
    if (reply.status == BLOBCRASH_F_NOT_FOUND) return store_refuse(SQLITE_CANTOPEN, "%s doesn't exist", name);
    if (reply.status == BLOBCRASH_F_EXISTS) return store_refuse(SQLITE_CANTOPEN, "%s exists", name);
    if (reply.status != BLOBCRASH_DONE) return code_of(reply.status, SQLITE_CANTOPEN);
    file->descriptor = reply.number;
    file->name = name;
    reply = disk_call(&store.disk, BLOBCRASH_F_INODE_OF, file->descriptor, 0, NULL);
    if (!(file->node = node_of(reply.number))) {
        disk_call(&store.disk, BLOBCRASH_F_CLOSE, file->descriptor, 0, NULL);
        return SQLITE_NOMEM;
    }
    file->node->references++;
    store.open_files++;
    return SQLITE_OK;
}

/* Frees the node of a file that isn't open. One from before a crash is in no list. */
static void free_node(struct node *node) {
    struct node **at = &store.nodes;
    while (*at && *at != node) at = &(*at)->next;
    if (*at) *at = node->next;
    memory_free(node->memory);
    sqlite3_free(node);
}

void store_close(struct open_file *file) {
    store.open_files--;
    disk_call(&store.disk, BLOBCRASH_F_CLOSE, file->descriptor, 0, NULL);
    if (--file->node->references == 0) free_node(file->node);
}

int store_read(const struct open_file *file, void *into, int len, sqlite3_int64 offset) {
    if (!is_ours()) return SQLITE_IOERR_READ;
    struct blobcrash_ran ran = disk_read(&store.disk, file->descriptor, (uint64_t)offset, into, (size_t)len);
    if (ran.status != BLOBCRASH_DONE) return code_of(ran.status, SQLITE_IOERR_READ);
    if (ran.len == (size_t)len) return SQLITE_OK;
    /* SQLite takes the missing bytes as zeros. */
    memset((char *)into + ran.len, 0, (size_t)len - ran.len);
    return SQLITE_IOERR_SHORT_READ;
}

int store_write(const struct open_file *file, const void *bytes, int len, sqlite3_int64 offset) {
    if (!is_ours()) return SQLITE_IOERR_WRITE;
    disk_trace("write %s, %d bytes at %lld", file->name, len, (long long)offset);
    return code_of(disk_write(&store.disk, file->descriptor, (uint64_t)offset, bytes, (size_t)len), SQLITE_IOERR_WRITE);
}

int store_truncate(const struct open_file *file, sqlite3_int64 size) {
    if (!is_ours()) return SQLITE_IOERR_TRUNCATE;
    disk_trace("truncate %s to %lld", file->name, (long long)size);
    return code_of(disk_call(&store.disk, BLOBCRASH_F_TRUNCATE, file->descriptor, (uint64_t)size, NULL).status, SQLITE_IOERR_TRUNCATE);
}

int store_size(const struct open_file *file, sqlite3_int64 *size) {
    if (!is_ours()) return SQLITE_IOERR_FSTAT;
    struct blobcrash_file_reply reply = disk_call(&store.disk, BLOBCRASH_F_SIZE, file->descriptor, 0, NULL);
    if (reply.status == BLOBCRASH_DONE) *size = (sqlite3_int64)reply.size;
    return code_of(reply.status, SQLITE_IOERR_FSTAT);
}

/* As SQLite's own VFS on Linux, which calls fdatasync. */
int store_sync(const struct open_file *file) {
    if (!is_ours()) return SQLITE_IOERR_FSYNC;
    disk_trace("sync %s", file->name);
    return code_of(disk_call(&store.disk, BLOBCRASH_F_SYNC_DATA, file->descriptor, 0, NULL).status, SQLITE_IOERR_FSYNC);
}

/* The file system. */

int blobcrash_vfs_end(void) {
    if (!owner) return SQLITE_OK;
    if (!is_ours()) return refuse_thread();
    if (store.open_files) return store_refuse(SQLITE_BUSY, "%d files are open", store.open_files);
    disk_end(&store.disk);
    parameters_reset();
    memset(&store, 0, sizeof store);
    owner = NULL;
    return SQLITE_OK;
}

int blobcrash_vfs_start(const char *preamble) {
    const char *none = NULL;
    struct disk started = {0};
    bool is_first = atomic_compare_exchange_strong(&owner, &none, &this_thread);
    if (!is_ours()) return refuse_thread();
    if (store.open_files) return store_refuse(SQLITE_BUSY, "%d files are open", store.open_files);
    uint32_t status = disk_start(&started, preamble);
    if (status != BLOBCRASH_DONE) {
        if (is_first) owner = NULL;
        if (status == BLOBCRASH_BAD_LINE) return store_refuse(SQLITE_MISUSE, "a line of the preamble is no setting");
        return store_refuse(SQLITE_NOMEM, "out of memory");
    }
    disk_end(&store.disk);
    parameters_reset();
    memset(&store, 0, sizeof store);
    store.disk = started;
    return SQLITE_OK;
}

int store_start_seed(uint64_t seed) {
    char preamble[32];
    snprintf(preamble, sizeof preamble, "seed %" PRIu64 "\n", seed);
    int code = blobcrash_vfs_start(preamble);
    if (code == SQLITE_OK) {
        store.has_seed = true;
        store.seed = seed;
    }
    return code;
}

int blobcrash_vfs_set(const char *setting) {
    if (!is_ours()) return refuse_thread();
    if (strpbrk(setting, "\r\n")) return store_refuse(SQLITE_MISUSE, "more than one line");
    switch (disk_set(&store.disk, setting)) {
    case BLOBCRASH_DONE: return SQLITE_OK;
    case BLOBCRASH_NO_MEMORY: return store_refuse(SQLITE_NOMEM, "out of memory");
    default: return store_refuse(SQLITE_MISUSE, "no setting: %.200s", setting);
    }
}

int blobcrash_vfs_note(const char *text) {
    if (!is_ours()) return refuse_thread();
    if (strpbrk(text, "\r\n")) return store_refuse(SQLITE_MISUSE, "more than one line");
    disk_note(&store.disk, text);
    return SQLITE_OK;
}

int blobcrash_vfs_settle(void) {
    if (!is_ours()) return refuse_thread();
    return disk_call(&store.disk, BLOBCRASH_F_SETTLE, 0, 0, NULL).status == BLOBCRASH_DONE ? SQLITE_OK : SQLITE_NOMEM;
}

int blobcrash_vfs_power_off_after(int64_t calls) {
    if (!is_ours()) return refuse_thread();
    disk_power_off_after(&store.disk, calls);
    return SQLITE_OK;
}

bool blobcrash_vfs_is_off(void) { return owner && !store.disk.is_on; }
uint64_t blobcrash_vfs_changes(void) { return disk_changes(&store.disk); }
uint64_t blobcrash_vfs_faults(void) { return store.disk.faults; }

int blobcrash_vfs_crash(struct disk_crash *crash) {
    if (!is_ours()) return refuse_thread();
    if (disk_crash(&store.disk, crash) != BLOBCRASH_DONE) return store_refuse(SQLITE_NOMEM, "out of memory");
    /* Those who have a file open keep its node, and every call on it fails. */
    store.nodes = NULL;
    return SQLITE_OK;
}
