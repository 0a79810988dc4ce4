/*
 * Typed calls: a function for each call of a session, over blobcrash.h.
 *
 * Each returns BLOBCRASH_DONE; a refusal such as BLOBCRASH_E_INJECTED, with texts that blobcrash_reply prints; or CLOSED, NO_MEMORY,
 * BAD_CALL or BAD_LINE, and then no call was made. An out-parameter is written only if the call is DONE, and may be NULL. So may
 * a pointer to no bytes; NULL with a length other than 0 is a BAD_CALL. What each call does: docs/BEHAVIOUR.md.
 *
 * A failure as a script: define BLOBCRASH_ON_LINE as the name of a function before this header is included:
 *
 *     static void on_line(struct blobcrash_session *session, const char *line, size_t len);
 *
 * It gets each call that these functions make, once it was made, as a line of a script, without a line feed. The session's
 * preamble and then these lines are a script with the same replies, except that a partition that isn't a valid name is `!`.
 * `line` is NULL if it couldn't be allocated: the script then lacks a call.
 */
#ifndef BLOBCRASH_CALLS_H
#define BLOBCRASH_CALLS_H

#include "blobcrash.h"

#include <string.h>

/* The functions of blobcrash.h take no NULL. */
static inline const uint8_t *blobcrash_bytes(const void *bytes) {
    return (const uint8_t *)(bytes == NULL ? "" : bytes);
}

#ifdef BLOBCRASH_ON_LINE
#include "blobcrash_lines.h"

/* Passes the line of a call on that was made. */
static inline void blobcrash_record(struct blobcrash_session *session, const struct blobcrash_asked *asked, const char *partition,
                                    size_t partition_len, const void *name, size_t name_len) {
    size_t len;
    char *line = blobcrash_new_line(asked, partition, partition_len, name, name_len, &len);
    BLOBCRASH_ON_LINE(session, line, line == NULL ? 0 : len);
    free(line);
}

#define BLOBCRASH_RECORD blobcrash_record
#else
#define BLOBCRASH_RECORD(session, asked, partition, partition_len, bytes, len) ((void)0)
#endif

/* Whether a pointer may have this length. */
static inline bool blobcrash_has_bytes(const void *bytes, size_t len) {
    return bytes != NULL || len == 0;
}

static inline bool blobcrash_is_made(uint32_t status) {
    return status != BLOBCRASH_BAD_CALL && status != BLOBCRASH_NO_MEMORY && status != BLOBCRASH_CLOSED && status != BLOBCRASH_POWER_LOSS;
}

/* Makes a call by its fields. */
static inline struct blobcrash_typed_reply blobcrash_make(struct blobcrash_session *session, uint32_t kind, size_t number, uint64_t first,
                                                          uint64_t last, const char *partition, size_t partition_len, const void *name,
                                                          size_t name_len) {
    struct blobcrash_asked asked = {kind, number, first, last};
    struct blobcrash_typed_reply none = {BLOBCRASH_BAD_CALL, 0, 0, 0};
    if (!blobcrash_has_bytes(partition, partition_len) || !blobcrash_has_bytes(name, name_len)) return none;
    struct blobcrash_typed_reply reply =
        blobcrash_apply(session, &asked, blobcrash_bytes(partition), partition_len, blobcrash_bytes(name), name_len);
    if (blobcrash_is_made(reply.status)) BLOBCRASH_RECORD(session, &asked, partition, partition_len, name, name_len);
    return reply;
}

/* A call of a handle or a started sync that takes only its number. */
static inline struct blobcrash_typed_reply blobcrash_by_number(struct blobcrash_session *session, uint32_t kind, size_t number) {
    return blobcrash_make(session, kind, number, 0, 0, NULL, 0, NULL, 0);
}

static inline uint32_t blobcrash_opened(struct blobcrash_typed_reply reply, size_t *handle, uint64_t *size, uint16_t *version) {
    if (reply.status == BLOBCRASH_DONE) {
        if (handle != NULL) *handle = reply.number;
        if (size != NULL) *size = reply.size;
        if (version != NULL) *version = (uint16_t)reply.version;
    }
    return reply.status;
}

/* Opens a blob of version 0, or creates it. Its name must not be open. Discards what is pending of it. */
static inline uint32_t blobcrash_open_blob(struct blobcrash_session *session, const char *partition, size_t partition_len, const void *name,
                                           size_t name_len, size_t *handle, uint64_t *size) {
    return blobcrash_opened(blobcrash_make(session, BLOBCRASH_OPEN, 0, 0, 0, partition, partition_len, name, name_len),
                            handle, size, NULL);
}

/* The same for the versions from `first` to `last`; a new blob gets the last one. */
static inline uint32_t blobcrash_open_versioned(struct blobcrash_session *session, const char *partition, size_t partition_len,
                                                const void *name, size_t name_len, uint16_t first, uint16_t last, size_t *handle,
                                                uint64_t *size, uint16_t *version) {
    return blobcrash_opened(blobcrash_make(session, BLOBCRASH_OPEN, 0, first, last, partition, partition_len, name, name_len),
                            handle, size, version);
}

/* Opens a blob, even if its name is open. Discards nothing that is pending. */
static inline uint32_t blobcrash_open_loose(struct blobcrash_session *session, const char *partition, size_t partition_len,
                                            const void *name, size_t name_len, uint16_t first, uint16_t last, size_t *handle,
                                            uint64_t *size, uint16_t *version) {
    return blobcrash_opened(blobcrash_make(session, BLOBCRASH_OPEN_LOOSE, 0, first, last, partition, partition_len, name,
                                           name_len),
                            handle, size, version);
}

/* Discards what is pending of a blob. */
static inline uint32_t blobcrash_admit(struct blobcrash_session *session, const char *partition, size_t partition_len, const void *name,
                                       size_t name_len) {
    return blobcrash_make(session, BLOBCRASH_ADMIT, 0, 0, 0, partition, partition_len, name, name_len).status;
}

/* Closes a handle. blobcrash_close closes the session. */
static inline uint32_t blobcrash_close_blob(struct blobcrash_session *session, size_t handle) {
    return blobcrash_by_number(session, BLOBCRASH_CLOSE, handle).status;
}

/* Records the line of the call. */
static inline uint32_t blobcrash_moved(struct blobcrash_session *session, uint32_t status, uint32_t kind, size_t handle, uint64_t offset,
                                       const void *bytes, size_t len) {
    if (blobcrash_is_made(status)) {
        struct blobcrash_asked asked = {kind, handle, offset, len};
        (void)session, (void)asked, (void)bytes;
        BLOBCRASH_RECORD(session, &asked, NULL, 0, bytes, bytes == NULL ? 0 : len);
    }
    return status;
}

/* Reads exactly `len` bytes. */
static inline uint32_t blobcrash_read_at(struct blobcrash_session *session, size_t handle, uint64_t offset, void *into, size_t len) {
    uint8_t none;
    if (!blobcrash_has_bytes(into, len)) return BLOBCRASH_BAD_CALL;
    uint32_t status = blobcrash_read(session, handle, offset, into == NULL ? &none : (uint8_t *)into, len);
    return blobcrash_moved(session, status, BLOBCRASH_READ, handle, offset, NULL, len);
}

/* Writes bytes. */
static inline uint32_t blobcrash_write_at(struct blobcrash_session *session, size_t handle, uint64_t offset, const void *bytes, size_t len) {
    if (!blobcrash_has_bytes(bytes, len)) return BLOBCRASH_BAD_CALL;
    uint32_t status = blobcrash_write(session, handle, offset, blobcrash_bytes(bytes), len, false);
    return blobcrash_moved(session, status, BLOBCRASH_WRITE, handle, offset, bytes, len);
}

/* Writes bytes as a SYNC write, which is durable once it is DONE. */
static inline uint32_t blobcrash_write_at_sync(struct blobcrash_session *session, size_t handle, uint64_t offset, const void *bytes,
                                               size_t len) {
    if (!blobcrash_has_bytes(bytes, len)) return BLOBCRASH_BAD_CALL;
    uint32_t status = blobcrash_write(session, handle, offset, blobcrash_bytes(bytes), len, true);
    return blobcrash_moved(session, status, BLOBCRASH_WRITE_SYNC, handle, offset, bytes, len);
}

/* Truncates a blob to `len` bytes, or extends it with zeros. */
static inline uint32_t blobcrash_resize(struct blobcrash_session *session, size_t handle, uint64_t len) {
    return blobcrash_make(session, BLOBCRASH_RESIZE, handle, len, 0, NULL, 0, NULL, 0).status;
}

/* Returns the size of a blob in bytes. */
static inline uint32_t blobcrash_size(struct blobcrash_session *session, size_t handle, uint64_t *size) {
    struct blobcrash_typed_reply reply = blobcrash_by_number(session, BLOBCRASH_SIZE, handle);
    return blobcrash_opened(reply, NULL, size, NULL);
}

/* Reads at most `len` bytes: those from `offset` on that the blob has. `found` is their number. Two calls, `size` and `read`. */
static inline uint32_t blobcrash_read_some(struct blobcrash_session *session, size_t handle, uint64_t offset, void *into, size_t len,
                                           size_t *found) {
    uint64_t size = 0;
    uint32_t status = blobcrash_size(session, handle, &size);
    if (status != BLOBCRASH_DONE) return status;
    if (offset > size) offset = size;
    if (size - offset < len) len = (size_t)(size - offset);
    status = blobcrash_read_at(session, handle, offset, into, len);
    if (status == BLOBCRASH_DONE && found != NULL) *found = len;
    return status;
}

/* Makes a blob's bytes durable. */
static inline uint32_t blobcrash_sync(struct blobcrash_session *session, size_t handle) {
    return blobcrash_by_number(session, BLOBCRASH_SYNC, handle).status;
}

/* Starts a sync. Returns its number; blobcrash_finish with that number returns its outcome. */
static inline uint32_t blobcrash_start_sync(struct blobcrash_session *session, size_t handle, size_t *number) {
    struct blobcrash_typed_reply reply = blobcrash_by_number(session, BLOBCRASH_START_SYNC, handle);
    return blobcrash_opened(reply, number, NULL, NULL);
}

static inline uint32_t blobcrash_finish(struct blobcrash_session *session, size_t number) {
    return blobcrash_by_number(session, BLOBCRASH_FINISH, number).status;
}

/* Removes a blob. */
static inline uint32_t blobcrash_remove_blob(struct blobcrash_session *session, const char *partition, size_t partition_len,
                                             const void *name, size_t name_len) {
    return blobcrash_make(session, BLOBCRASH_REMOVE_BLOB, 0, 0, 0, partition, partition_len, name, name_len).status;
}

/* Removes a partition with all its blobs. */
static inline uint32_t blobcrash_remove_partition(struct blobcrash_session *session, const char *partition, size_t partition_len) {
    return blobcrash_make(session, BLOBCRASH_REMOVE_PARTITION, 0, 0, 0, partition, partition_len, NULL, 0).status;
}

/* Returns how many blobs a partition has. Until the next call blobcrash_name returns their names. */
static inline uint32_t blobcrash_scan(struct blobcrash_session *session, const char *partition, size_t partition_len, size_t *count) {
    struct blobcrash_typed_reply reply =
        blobcrash_make(session, BLOBCRASH_SCAN, 0, 0, 0, partition, partition_len, NULL, 0);
    if (reply.status == BLOBCRASH_DONE && count != NULL) *count = (size_t)reply.size;
    return reply.status;
}

/* Returns whether a blob of this name exists, by a scan. DONE too if its partition doesn't exist. */
static inline uint32_t blobcrash_exists(struct blobcrash_session *session, const char *partition, size_t partition_len, const void *name,
                                        size_t name_len, bool *exists) {
    if (!blobcrash_has_bytes(name, name_len)) return BLOBCRASH_BAD_CALL;
    uint32_t status = blobcrash_scan(session, partition, partition_len, NULL);
    bool is_found = status == BLOBCRASH_DONE &&
                    blobcrash_find_name(session, blobcrash_bytes(name), name_len).status == BLOBCRASH_DONE;
    if (status == BLOBCRASH_E_PARTITION_MISSING) status = BLOBCRASH_DONE;
    if (status == BLOBCRASH_DONE && exists != NULL) *exists = is_found;
    return status;
}

/* Crashes. Returns for how many pending writes it drew. Until the next call blobcrash_kept_run returns what it kept of each. */
static inline uint32_t blobcrash_crash(struct blobcrash_session *session, size_t *writes) {
    struct blobcrash_typed_reply reply = blobcrash_by_number(session, BLOBCRASH_CRASH, 0);
    if (reply.status == BLOBCRASH_DONE && writes != NULL) *writes = (size_t)reply.size;
    return reply.status;
}

/* Reopens the store over its durable bytes. All handles and started syncs are stale. */
static inline uint32_t blobcrash_reopen(struct blobcrash_session *session) {
    return blobcrash_by_number(session, BLOBCRASH_REOPEN, 0).status;
}

/* Makes the call of a line, for example `config sync 1 8`. Returns its refusal, like the other functions, or BAD_LINE if it is NULL or has
 * a line feed. A comment and an empty line are DONE, and make no call. */
static inline uint32_t blobcrash_line(struct blobcrash_session *session, const char *line) {
    uint8_t none;
    if (line == NULL) return BLOBCRASH_BAD_LINE;
    size_t len = strlen(line);
    if (memchr(line, '\n', len) != NULL) return BLOBCRASH_BAD_LINE;
    /* With a capacity of 0 only a line without a reply is DONE. */
    uint32_t status = blobcrash_call(session, blobcrash_bytes(line), len, &none, 0).status;
    bool is_call = status == BLOBCRASH_NO_ROOM || status == BLOBCRASH_UNPRINTED;
    if (!is_call && status != BLOBCRASH_DONE) return status;
#ifdef BLOBCRASH_ON_LINE
    BLOBCRASH_ON_LINE(session, line, len);
#endif
    return is_call ? blobcrash_last(session).status : (uint32_t)BLOBCRASH_DONE;
}

#endif
