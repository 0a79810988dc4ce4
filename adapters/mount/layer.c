#include "layer.h"

#include "record.h"

#include <errno.h>
#include <stdio.h>
#include <stdlib.h>
#include <string.h>

/* Its power stays on: power.h counts the calls of the kernel. */
static struct disk disk;
static char writes[512]; /* the setting of writes */

static int error_of(uint32_t status) {
    switch (status) {
    case BLOBCRASH_DONE: return 0;
    case BLOBCRASH_F_EXISTS: return EEXIST;
    case BLOBCRASH_F_NOT_FOUND: return ENOENT;
    case BLOBCRASH_F_NOT_EMPTY: return ENOTEMPTY;
    case BLOBCRASH_F_IS_DIRECTORY: return EISDIR;
    case BLOBCRASH_F_NOT_DIRECTORY: return ENOTDIR;
    case BLOBCRASH_F_NAME_TOO_LONG: return ENAMETOOLONG;
    case BLOBCRASH_F_INVALID_NAME: return EINVAL;
    case BLOBCRASH_F_TOO_MANY_LINKS: return EMLINK;
    case BLOBCRASH_F_NO_SPACE: return ENOSPC;
    case BLOBCRASH_F_LOOP: return EINVAL;
    case BLOBCRASH_NO_MEMORY:
    case BLOBCRASH_E_MEMORY: return ENOMEM;
    case BLOBCRASH_E_OFFSET_OVERFLOW: return EFBIG;
    default: return EIO;
    }
}

static struct blobcrash_file_reply apply(uint32_t kind, uint64_t number, uint64_t first, const char *path) {
    return disk_call(&disk, kind, number, first, path);
}

static int run(uint32_t kind, uint64_t number, uint64_t first, const char *path) {
    return error_of(apply(kind, number, first, path).status);
}

/* Makes a call that replies with a number. */
static int ask(uint32_t kind, uint64_t number, const char *path, uint64_t *found) {
    struct blobcrash_file_reply reply = apply(kind, number, 0, path);
    *found = reply.number;
    return error_of(reply.status);
}

/* Keeps the setting of writes, the last one of some lines. */
static void keep_setting(const char *lines) {
    for (const char *found = lines; (found = strstr(found, "config write ")); found++)
        snprintf(writes, sizeof writes, "%.*s", (int)strcspn(found, "\n"), found);
}

int layer_begin(const char *preamble, uint64_t *line) {
    keep_setting(preamble);
    struct blobcrash_script_ran ran = blobcrash_files_open(&disk.files, (const uint8_t *)preamble, strlen(preamble));
    *line = ran.line;
    disk.is_on = disk.is_recorded = true;
    record_preamble(preamble);
    return ran.status == BLOBCRASH_BAD_LINE ? EINVAL : error_of(ran.status);
}

void layer_end(void) { blobcrash_files_close(&disk.files); }

int layer_set(const char *setting) {
    uint32_t status = disk_set(&disk, setting);
    if (status == BLOBCRASH_DONE) keep_setting(setting);
    return status == BLOBCRASH_BAD_LINE ? EINVAL : error_of(status);
}

int layer_keep_writes(bool all) { return error_of(disk_set(&disk, all ? "config write 0 1 1 1 subset" : writes)); }

int layer_find(uint64_t directory, const char *name, uint64_t *inode, uint64_t *size) {
    struct blobcrash_file_reply reply = apply(BLOBCRASH_F_FIND_AT, directory, 0, name);
    *inode = reply.number;
    *size = reply.size;
    return error_of(reply.status);
}

int layer_list(uint64_t directory, struct layer_name **names, size_t *count) {
    struct blobcrash_file_reply reply = apply(BLOBCRASH_F_LIST_AT, directory, 0, NULL);
    if (reply.status != BLOBCRASH_DONE) return error_of(reply.status);
    size_t all = (size_t)reply.size;
    struct layer_name *list = calloc(all + 1, sizeof *list);
    if (!list) return ENOMEM;
    for (size_t at = 0; at < all; at++) {
        reply = blobcrash_files_name(&disk.files, at, (uint8_t *)list[at].name, NAME_MOST);
        if (reply.status != BLOBCRASH_DONE) {
            free(list);
            return error_of(reply.status);
        }
        list[at].inode = reply.number;
        list[at].is_directory = reply.kind == 1;
    }
    *names = list;
    *count = all;
    return 0;
}

int layer_create(uint64_t directory, const char *name, uint64_t *inode, uint64_t *descriptor) {
    int error = ask(BLOBCRASH_F_CREATE_AT, directory, name, descriptor);
    return error ? error : ask(BLOBCRASH_F_INODE_OF, *descriptor, NULL, inode);
}

int layer_make_directory(uint64_t directory, const char *name, uint64_t *inode) {
    return ask(BLOBCRASH_F_MAKE_DIRECTORY_AT, directory, name, inode);
}

int layer_link(uint64_t inode, uint64_t directory, const char *name) { return run(BLOBCRASH_F_LINK_AT, directory, inode, name); }

int layer_unlink(uint64_t directory, const char *name) { return run(BLOBCRASH_F_UNLINK_AT, directory, 0, name); }

int layer_remove_directory(uint64_t directory, const char *name) {
    return run(BLOBCRASH_F_REMOVE_DIRECTORY_AT, directory, 0, name);
}

int layer_rename(uint64_t directory, const char *name, uint64_t to_directory, const char *to_name, enum layer_rename how) {
    struct blobcrash_file_call call = {
        .kind = BLOBCRASH_F_RENAME_AT, .number = directory, .first = to_directory, .last = (uint64_t)how};
    return error_of(disk_apply(&disk, &call, name, to_name).status);
}

int layer_sync_directory(uint64_t directory) { return run(BLOBCRASH_F_SYNC_DIRECTORY_AT, directory, 0, NULL); }

int layer_open(uint64_t inode, uint64_t *descriptor) { return ask(BLOBCRASH_F_OPEN_INODE, inode, NULL, descriptor); }

int layer_open_truncated(uint64_t inode, uint64_t *descriptor) {
    return ask(BLOBCRASH_F_OPEN_INODE_TRUNCATED, inode, NULL, descriptor);
}

int layer_close(uint64_t descriptor) { return run(BLOBCRASH_F_CLOSE, descriptor, 0, NULL); }

int layer_size(uint64_t descriptor, uint64_t *size) {
    struct blobcrash_file_reply reply = apply(BLOBCRASH_F_SIZE, descriptor, 0, NULL);
    *size = reply.size;
    return error_of(reply.status);
}

int layer_truncate(uint64_t descriptor, uint64_t length) { return run(BLOBCRASH_F_TRUNCATE, descriptor, length, NULL); }

int layer_sync(uint64_t descriptor, bool only_data) {
    return run(only_data ? BLOBCRASH_F_SYNC_DATA : BLOBCRASH_F_SYNC, descriptor, 0, NULL);
}

int layer_write(uint64_t descriptor, uint64_t offset, const void *bytes, size_t len) {
    return error_of(disk_write(&disk, descriptor, offset, bytes, len));
}

int layer_read(uint64_t descriptor, uint64_t offset, void *into, size_t capacity, size_t *len) {
    struct blobcrash_ran ran = disk_read(&disk, descriptor, offset, into, capacity);
    *len = ran.len;
    return error_of(ran.status);
}

int layer_commit(void) { return run(BLOBCRASH_F_COMMIT, 0, 0, NULL); }

int layer_settle(void) { return run(BLOBCRASH_F_SETTLE, 0, 0, NULL); }

int layer_crash(struct disk_crash *crash) { return error_of(disk_crash(&disk, crash)); }
