/*
 * Calls on files by functions: one for each call of blobcrash_files.h. A path or a name is a text with a final zero.
 *
 * Each returns BLOBCRASH_DONE; a refusal such as BLOBCRASH_F_EXISTS or BLOBCRASH_E_INJECTED; or a status that says why no call was made.
 * An out-parameter is written only if the call is DONE, and may be NULL. So may a pointer to no bytes; NULL as a text, or with a length
 * other than 0, is a BAD_CALL. What each call does: docs/FILES.md.
 *
 * A run as a script: define BLOBCRASH_ON_FILES_LINE as the name of a function before this header is included:
 *
 *     static void on_line(struct blobcrash_files *files, const char *line, size_t len);
 *
 * It gets each call that these functions make, once it was made, as a line of a script, without a line feed. The preamble of the files and
 * then these lines are a script with which `blobcrash files` makes the same calls, to the same outcome. `line` is NULL if it couldn't be
 * allocated: the script then lacks a call. After a call that was refused as BLOBCRASH_E_MEMORY a replay may differ.
 */
#ifndef BLOBCRASH_FILES_CALLS_H
#define BLOBCRASH_FILES_CALLS_H

#include "blobcrash_files.h"

#include <string.h>

#ifdef BLOBCRASH_ON_FILES_LINE
#include "blobcrash_lines.h"

/* Passes the line of a call on that was made. */
static inline void blobcrash_record_file_call(struct blobcrash_files *files, const struct blobcrash_file_call *asked, const void *path,
                                              size_t path_len, const char *to) {
    size_t len;
    char *line = blobcrash_new_files_line(asked, path, path_len, to, strlen(to), &len);
    BLOBCRASH_ON_FILES_LINE(files, line, line == NULL ? 0 : len);
    free(line);
}

#define BLOBCRASH_RECORD_FILE_CALL blobcrash_record_file_call
#else
#define BLOBCRASH_RECORD_FILE_CALL(files, asked, path, path_len, to) ((void)0)
#endif

/* Whether a call was made, also one that was refused. */
static inline bool blobcrash_is_file_call_made(uint32_t status) {
    return status != BLOBCRASH_BAD_CALL && status != BLOBCRASH_NO_MEMORY && status != BLOBCRASH_CLOSED && status != BLOBCRASH_POWER_LOSS;
}

/* Any call, by its fields. */
static inline struct blobcrash_file_reply blobcrash_file_make(struct blobcrash_files *files, uint32_t kind, uint64_t number, uint64_t first,
                                                              uint64_t last, const char *path, const char *to) {
    struct blobcrash_file_call asked = {kind, number, first, last};
    struct blobcrash_file_reply none = {BLOBCRASH_BAD_CALL, 0, 0, 0};
    if (path == NULL || to == NULL) return none;
    struct blobcrash_file_reply reply =
        blobcrash_files_apply(files, &asked, (const uint8_t *)path, strlen(path), (const uint8_t *)to, strlen(to));
    if (blobcrash_is_file_call_made(reply.status)) BLOBCRASH_RECORD_FILE_CALL(files, &asked, path, strlen(path), to);
    return reply;
}

/* Copies the numbers of a reply that is DONE. Returns its status. */
static inline uint32_t blobcrash_file_found(struct blobcrash_file_reply reply, uint64_t *number, bool *is_directory, uint64_t *size) {
    if (reply.status == BLOBCRASH_DONE) {
        if (number != NULL) *number = reply.number;
        if (is_directory != NULL) *is_directory = reply.kind == 1;
        if (size != NULL) *size = reply.size;
    }
    return reply.status;
}

/* Calls by paths. */

/* Makes a new file, and opens it. EXISTS if the name is taken. */
static inline uint32_t blobcrash_file_create(struct blobcrash_files *files, const char *path, uint64_t *descriptor) {
    return blobcrash_file_found(blobcrash_file_make(files, BLOBCRASH_F_CREATE, 0, 0, 0, path, ""), descriptor, NULL, NULL);
}

/* Opens a file that exists. */
static inline uint32_t blobcrash_file_open(struct blobcrash_files *files, const char *path, uint64_t *descriptor) {
    return blobcrash_file_found(blobcrash_file_make(files, BLOBCRASH_F_OPEN, 0, 0, 0, path, ""), descriptor, NULL, NULL);
}

/* The same, and makes it empty. */
static inline uint32_t blobcrash_file_open_truncated(struct blobcrash_files *files, const char *path, uint64_t *descriptor) {
    return blobcrash_file_found(blobcrash_file_make(files, BLOBCRASH_F_OPEN_TRUNCATED, 0, 0, 0, path, ""), descriptor, NULL, NULL);
}

/* Gives a file a second name. */
static inline uint32_t blobcrash_file_link(struct blobcrash_files *files, const char *path, const char *to) {
    return blobcrash_file_make(files, BLOBCRASH_F_LINK, 0, 0, 0, path, to).status;
}

/* Removes a name of a file. */
static inline uint32_t blobcrash_file_unlink(struct blobcrash_files *files, const char *path) {
    return blobcrash_file_make(files, BLOBCRASH_F_UNLINK, 0, 0, 0, path, "").status;
}

/* Moves a file or a directory, over what has the new name. */
static inline uint32_t blobcrash_file_rename(struct blobcrash_files *files, const char *path, const char *to) {
    return blobcrash_file_make(files, BLOBCRASH_F_RENAME, 0, 0, 0, path, to).status;
}

/* The same, but EXISTS if the new name is taken. */
static inline uint32_t blobcrash_file_rename_no_replace(struct blobcrash_files *files, const char *path, const char *to) {
    return blobcrash_file_make(files, BLOBCRASH_F_RENAME, 0, 1, 0, path, to).status;
}

/* Exchanges two names. */
static inline uint32_t blobcrash_file_exchange(struct blobcrash_files *files, const char *path, const char *to) {
    return blobcrash_file_make(files, BLOBCRASH_F_RENAME, 0, 2, 0, path, to).status;
}

/* Makes a directory. */
static inline uint32_t blobcrash_file_make_directory(struct blobcrash_files *files, const char *path) {
    return blobcrash_file_make(files, BLOBCRASH_F_MAKE_DIRECTORY, 0, 0, 0, path, "").status;
}

/* Removes an empty directory. */
static inline uint32_t blobcrash_file_remove_directory(struct blobcrash_files *files, const char *path) {
    return blobcrash_file_make(files, BLOBCRASH_F_REMOVE_DIRECTORY, 0, 0, 0, path, "").status;
}

/* Counts the names of a directory. Until the next call blobcrash_files_name copies one. */
static inline uint32_t blobcrash_file_list(struct blobcrash_files *files, const char *path, uint64_t *count) {
    return blobcrash_file_found(blobcrash_file_make(files, BLOBCRASH_F_LIST, 0, 0, 0, path, ""), NULL, NULL, count);
}

/* Makes the changes of a directory's names durable, and more if the profile says so. */
static inline uint32_t blobcrash_file_sync_directory(struct blobcrash_files *files, const char *path) {
    return blobcrash_file_make(files, BLOBCRASH_F_SYNC_DIRECTORY, 0, 0, 0, path, "").status;
}

/* Finds what has a path. The size is a file's. */
static inline uint32_t blobcrash_file_find(struct blobcrash_files *files, const char *path, uint64_t *inode, bool *is_directory,
                                           uint64_t *size) {
    return blobcrash_file_found(blobcrash_file_make(files, BLOBCRASH_F_FIND, 0, 0, 0, path, ""), inode, is_directory, size);
}

/* Calls by the inode of a directory, of which the root's is 1, and a name in it. */

static inline uint32_t blobcrash_file_create_at(struct blobcrash_files *files, uint64_t directory, const char *name, uint64_t *descriptor) {
    return blobcrash_file_found(blobcrash_file_make(files, BLOBCRASH_F_CREATE_AT, directory, 0, 0, name, ""), descriptor, NULL, NULL);
}

static inline uint32_t blobcrash_file_link_at(struct blobcrash_files *files, uint64_t inode, uint64_t directory, const char *name) {
    return blobcrash_file_make(files, BLOBCRASH_F_LINK_AT, directory, inode, 0, name, "").status;
}

static inline uint32_t blobcrash_file_unlink_at(struct blobcrash_files *files, uint64_t directory, const char *name) {
    return blobcrash_file_make(files, BLOBCRASH_F_UNLINK_AT, directory, 0, 0, name, "").status;
}

/* `how` is 0 to replace what has the new name, 1 to refuse a name that is taken, and 2 to exchange the two. */
static inline uint32_t blobcrash_file_rename_at(struct blobcrash_files *files, uint64_t directory, const char *name, uint64_t to_directory,
                                                const char *to, uint64_t how) {
    return blobcrash_file_make(files, BLOBCRASH_F_RENAME_AT, directory, to_directory, how, name, to).status;
}

static inline uint32_t blobcrash_file_make_directory_at(struct blobcrash_files *files, uint64_t directory, const char *name,
                                                        uint64_t *inode) {
    return blobcrash_file_found(blobcrash_file_make(files, BLOBCRASH_F_MAKE_DIRECTORY_AT, directory, 0, 0, name, ""), inode, NULL, NULL);
}

static inline uint32_t blobcrash_file_remove_directory_at(struct blobcrash_files *files, uint64_t directory, const char *name) {
    return blobcrash_file_make(files, BLOBCRASH_F_REMOVE_DIRECTORY_AT, directory, 0, 0, name, "").status;
}

static inline uint32_t blobcrash_file_list_at(struct blobcrash_files *files, uint64_t directory, uint64_t *count) {
    return blobcrash_file_found(blobcrash_file_make(files, BLOBCRASH_F_LIST_AT, directory, 0, 0, "", ""), NULL, NULL, count);
}

static inline uint32_t blobcrash_file_sync_directory_at(struct blobcrash_files *files, uint64_t directory) {
    return blobcrash_file_make(files, BLOBCRASH_F_SYNC_DIRECTORY_AT, directory, 0, 0, "", "").status;
}

static inline uint32_t blobcrash_file_find_at(struct blobcrash_files *files, uint64_t directory, const char *name, uint64_t *inode,
                                              bool *is_directory, uint64_t *size) {
    return blobcrash_file_found(blobcrash_file_make(files, BLOBCRASH_F_FIND_AT, directory, 0, 0, name, ""), inode, is_directory, size);
}

/* Calls by the inode of a file. */

static inline uint32_t blobcrash_file_open_inode(struct blobcrash_files *files, uint64_t inode, uint64_t *descriptor) {
    return blobcrash_file_found(blobcrash_file_make(files, BLOBCRASH_F_OPEN_INODE, inode, 0, 0, "", ""), descriptor, NULL, NULL);
}

static inline uint32_t blobcrash_file_open_inode_truncated(struct blobcrash_files *files, uint64_t inode, uint64_t *descriptor) {
    return blobcrash_file_found(blobcrash_file_make(files, BLOBCRASH_F_OPEN_INODE_TRUNCATED, inode, 0, 0, "", ""), descriptor, NULL, NULL);
}

/* Calls by a descriptor. */

static inline uint32_t blobcrash_file_close(struct blobcrash_files *files, uint64_t descriptor) {
    return blobcrash_file_make(files, BLOBCRASH_F_CLOSE, descriptor, 0, 0, "", "").status;
}

/* Reads at most `len` bytes from an offset on. `found` is how many there were. */
static inline uint32_t blobcrash_file_read(struct blobcrash_files *files, uint64_t descriptor, uint64_t offset, void *into, size_t len,
                                           size_t *found) {
    uint8_t none;
    if (into == NULL && len > 0) return BLOBCRASH_BAD_CALL;
    struct blobcrash_ran ran = blobcrash_files_read(files, descriptor, offset, into == NULL ? &none : (uint8_t *)into, len);
    if (blobcrash_is_file_call_made(ran.status)) {
        struct blobcrash_file_call asked = {BLOBCRASH_F_READ, descriptor, offset, len};
        (void)asked;
        BLOBCRASH_RECORD_FILE_CALL(files, &asked, "", 0, "");
    }
    if (ran.status == BLOBCRASH_DONE && found != NULL) *found = ran.len;
    return ran.status;
}

/* Writes bytes at an offset, unsynced. */
static inline uint32_t blobcrash_file_write(struct blobcrash_files *files, uint64_t descriptor, uint64_t offset, const void *bytes,
                                            size_t len) {
    if (bytes == NULL && len > 0) return BLOBCRASH_BAD_CALL;
    uint32_t status = blobcrash_files_write(files, descriptor, offset, (const uint8_t *)(bytes == NULL ? "" : bytes), len);
    if (blobcrash_is_file_call_made(status)) {
        struct blobcrash_file_call asked = {BLOBCRASH_F_WRITE, descriptor, offset, 0};
        (void)asked;
        BLOBCRASH_RECORD_FILE_CALL(files, &asked, bytes, len, "");
    }
    return status;
}

/* Truncates a file to `len` bytes, or extends it with zeros. */
static inline uint32_t blobcrash_file_truncate(struct blobcrash_files *files, uint64_t descriptor, uint64_t len) {
    return blobcrash_file_make(files, BLOBCRASH_F_TRUNCATE, descriptor, len, 0, "", "").status;
}

static inline uint32_t blobcrash_file_size(struct blobcrash_files *files, uint64_t descriptor, uint64_t *size) {
    return blobcrash_file_found(blobcrash_file_make(files, BLOBCRASH_F_SIZE, descriptor, 0, 0, "", ""), NULL, NULL, size);
}

/* Makes a file's bytes and size durable, and the names that the profile says. */
static inline uint32_t blobcrash_file_sync(struct blobcrash_files *files, uint64_t descriptor) {
    return blobcrash_file_make(files, BLOBCRASH_F_SYNC, descriptor, 0, 0, "", "").status;
}

/* The same as fdatasync does. */
static inline uint32_t blobcrash_file_sync_data(struct blobcrash_files *files, uint64_t descriptor) {
    return blobcrash_file_make(files, BLOBCRASH_F_SYNC_DATA, descriptor, 0, 0, "", "").status;
}

static inline uint32_t blobcrash_file_inode_of(struct blobcrash_files *files, uint64_t descriptor, uint64_t *inode) {
    return blobcrash_file_found(blobcrash_file_make(files, BLOBCRASH_F_INODE_OF, descriptor, 0, 0, "", ""), inode, NULL, NULL);
}

/* Calls of the whole file system. */

/* Makes the bytes of all files and all names durable. */
static inline uint32_t blobcrash_files_sync(struct blobcrash_files *files) {
    return blobcrash_file_make(files, BLOBCRASH_F_SYNC_ALL, 0, 0, 0, "", "").status;
}

/* Makes everything durable without a draw: the state before a test. */
static inline uint32_t blobcrash_files_settle(struct blobcrash_files *files) {
    return blobcrash_file_make(files, BLOBCRASH_F_SETTLE, 0, 0, 0, "", "").status;
}

/* Makes all names and truncations durable without a draw; the bytes of files stay unsynced. */
static inline uint32_t blobcrash_files_commit(struct blobcrash_files *files) {
    return blobcrash_file_make(files, BLOBCRASH_F_COMMIT, 0, 0, 0, "", "").status;
}

/* Crashes and recovers. Returns for how many writes it drew, and how many edits were unsettled. Until the next call blobcrash_files_kept_run
 * and blobcrash_files_kept_edit return what it kept. */
static inline uint32_t blobcrash_files_crash(struct blobcrash_files *files, uint64_t *writes, uint64_t *edits) {
    return blobcrash_file_found(blobcrash_file_make(files, BLOBCRASH_F_CRASH, 0, 0, 0, "", ""), edits, NULL, writes);
}

/* Counts the paths that the root reaches, without a draw. Until the next call blobcrash_files_path copies one. */
static inline uint32_t blobcrash_files_tree(struct blobcrash_files *files, uint64_t *paths) {
    return blobcrash_file_found(blobcrash_file_make(files, BLOBCRASH_F_TREE, 0, 0, 0, "", ""), NULL, NULL, paths);
}

/* Makes a setting, for example `config sync 1 8`. BAD_LINE if it is NULL or none. */
static inline uint32_t blobcrash_files_set(struct blobcrash_files *files, const char *setting) {
    if (setting == NULL) return BLOBCRASH_BAD_LINE;
    uint32_t status = blobcrash_files_configure(files, (const uint8_t *)setting, strlen(setting));
#ifdef BLOBCRASH_ON_FILES_LINE
    if (status == BLOBCRASH_DONE) BLOBCRASH_ON_FILES_LINE(files, setting, strlen(setting));
#endif
    return status;
}

#endif
