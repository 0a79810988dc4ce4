/* Calls on open files. */
#define _GNU_SOURCE
#include "calls.h"
#include "failing.h"
#include "layer.h"
#include "power.h"

#include <errno.h>
#include <fcntl.h>
#include <stdlib.h>

enum { COPIED_MOST = 1 << 20 }; /* by one write of the layer */

/* Notes that a file was truncated, unless that failed. Returns the error. */
static int note_truncated(struct node *node, uint64_t length, bool is_edit, int error) {
    if (error) {
        node_measure(node);
        return error;
    }
    node_counts.changes += is_edit;
    node_resized(node, length);
    node_written(node);
    return 0;
}

int call_truncate(struct node *node, uint64_t length) {
    if (!is_file(node)) return EINVAL;
    bool is_edit = node->size != length;
    int error = is_edit ? nodes_make_room() : 0;
    if (!error && is_edit) error = node_open(node);
    if (!error && is_edit) error = layer_truncate(node->descriptor, length);
    return note_truncated(node, length, is_edit, error);
}

/* Truncates a file as an open does. */
static int open_truncated(struct node *node) {
    if (node->is_truncated) return call_truncate(node, 0);
    bool is_edit = node->size > 0;
    int error = is_edit ? nodes_make_room() : 0;
    if (!error) error = node_open_truncated(node);
    return note_truncated(node, 0, is_edit, error);
}

void call_opened(struct node *node, struct fuse_file_info *info) {
    node->opens++;
    info->fh = power.life;
    info->keep_cache = 1;
    info->noflush = 1; /* the kernel would wait for a flush at the end of a killed program too */
}

void call_open(fuse_req_t req, fuse_ino_t id, struct fuse_file_info *info) {
    bool truncates = info->flags & O_TRUNC;
    struct node *node = call_begin(req, id, truncates ? CALL_CHANGES : CALL_READS);
    if (!node) return;
    int error = failing_error(node, FAILING_OPEN);
    if (!error) error = truncates ? open_truncated(node) : node_open(node);
    if (error) {
        fuse_reply_err(req, error);
        return;
    }
    call_opened(node, info);
    if (fuse_reply_open(req, info)) {
        node->opens--;
        node_rest(node);
    }
}

void call_release(fuse_req_t req, fuse_ino_t id, struct fuse_file_info *info) {
    struct node *node = info->fh == power.life ? call_node(id) : NULL;
    if (node) {
        if (!power.is_ending) node_close_truncated(node);
        node->opens--;
        node_rest(node);
    }
    fuse_reply_err(req, 0);
}

void call_read(fuse_req_t req, fuse_ino_t id, size_t size, off_t offset, struct fuse_file_info *info) {
    (void)info;
    struct node *node = call_begin(req, id, CALL_READS);
    if (!node) return;
    char *bytes = malloc(size + 1);
    size_t len = 0;
    int error = bytes ? node_open(node) : ENOMEM;
    if (!error) error = layer_read(node->descriptor, (uint64_t)offset, bytes, size, &len);
    if (error)
        fuse_reply_err(req, error);
    else
        fuse_reply_buf(req, bytes, len);
    free(bytes);
}

/* Writes bytes, unsynced. */
static int write_at(struct node *node, uint64_t offset, const void *bytes, size_t len) {
    int error = node_open(node);
    if (!error) error = nodes_make_room_unsynced(len);
    if (!error) error = layer_write(node->descriptor, offset, bytes, len);
    if (error) {
        node_measure(node);
        return error;
    }
    if (len > 0 && offset + len > node->size) node_resized(node, offset + len);
    node->unsynced += len;
    node_counts.unsynced += len;
    node_written(node);
    return 0;
}

/* Writes the parts that a crash is to keep. */
static void write_parts(struct node *node, uint64_t offset, const char *bytes, size_t len, const struct failing_parts *parts) {
    size_t at = 0;
    int error = layer_keep_writes(true);
    for (size_t part = 0; part < parts->count && at < len && !error; part++) {
        size_t left = len - at, size = parts->sizes[0] ? parts->sizes[part] : len / parts->count;
        if (size > left || (!parts->sizes[0] && part + 1 == parts->count)) size = left;
        if (parts->kept >> part & 1) error = write_at(node, offset + at, bytes + at, size);
        at += size;
    }
    layer_keep_writes(false);
}

void call_write(fuse_req_t req, fuse_ino_t id, const char *bytes, size_t size, off_t offset, struct fuse_file_info *info) {
    (void)info;
    struct node *node = call_begin(req, id, CALL_CHANGES);
    if (!node) return;
    int error = failing_error(node, FAILING_WRITE);
    if (error && failing_write()) write_parts(node, (uint64_t)offset, bytes, size, failing_write());
    if (!error) error = write_at(node, (uint64_t)offset, bytes, size);
    if (error)
        fuse_reply_err(req, error);
    else
        fuse_reply_write(req, size);
}

/* Copies bytes, each part as a read and a write. Returns in `done` how many. */
static int copy(struct node *from, uint64_t offset, struct node *to, uint64_t to_offset, size_t len, size_t *done) {
    char *bytes = malloc(COPIED_MOST);
    int error = bytes ? node_open(from) : ENOMEM;
    size_t got = 1;
    for (*done = 0; !error && *done < len && got > 0; *done += got) {
        size_t left = len - *done;
        error = layer_read(from->descriptor, offset + *done, bytes, left < COPIED_MOST ? left : COPIED_MOST, &got);
        if (!error && got > 0) error = write_at(to, to_offset + *done, bytes, got);
        if (error) got = 0;
    }
    free(bytes);
    return *done > 0 ? 0 : error;
}

void call_copy(fuse_req_t req, fuse_ino_t id, off_t offset, struct fuse_file_info *info, fuse_ino_t to_id, off_t to_offset,
               struct fuse_file_info *to_info, size_t len, int flags) {
    (void)info, (void)to_info, (void)flags;
    struct node *to = call_begin(req, to_id, CALL_CHANGES), *from = to ? call_node(id) : NULL;
    size_t done = 0;
    if (!to) return;
    int error = from ? failing_error(to, FAILING_WRITE) : EIO;
    if (!error) error = copy(from, (uint64_t)offset, to, (uint64_t)to_offset, len, &done);
    if (error)
        fuse_reply_err(req, error);
    else
        fuse_reply_write(req, done);
}

void call_fsync(fuse_req_t req, fuse_ino_t id, int only_data, struct fuse_file_info *info) {
    (void)info;
    struct node *node = call_begin(req, id, CALL_CHANGES);
    if (!node) return;
    int error = failing_error(node, FAILING_SYNC);
    fuse_reply_err(req, error ? error : node_sync(node, only_data));
}

/* Writes zeros, up to the end of the file. */
static int write_zeros(struct node *node, uint64_t offset, uint64_t end) {
    static const char zeros[1 << 16];
    int error = 0;
    if (end > node->size) end = node->size;
    for (uint64_t at = offset; at < end && !error; at += sizeof zeros) {
        uint64_t len = end - at;
        error = write_at(node, at, zeros, len < sizeof zeros ? (size_t)len : sizeof zeros);
    }
    return error;
}

void call_fallocate(fuse_req_t req, fuse_ino_t id, int mode, off_t offset, off_t len, struct fuse_file_info *info) {
    (void)info;
    struct node *node = call_begin(req, id, CALL_CHANGES);
    if (!node) return;
    uint64_t from = (uint64_t)offset, end = from + (uint64_t)len;
    int error = 0;
    if (mode & ~(FALLOC_FL_KEEP_SIZE | FALLOC_FL_PUNCH_HOLE | FALLOC_FL_ZERO_RANGE)) error = EOPNOTSUPP;
    if (!error && mode & (FALLOC_FL_PUNCH_HOLE | FALLOC_FL_ZERO_RANGE)) error = write_zeros(node, from, end);
    if (!error && !(mode & FALLOC_FL_KEEP_SIZE) && end > node->size) error = call_truncate(node, end);
    fuse_reply_err(req, error);
}
