/* Calls on names. */
#define _GNU_SOURCE
#include "calls.h"
#include "failing.h"
#include "layer.h"
#include "notes.h"

#include <errno.h>
#include <stdio.h>
#include <stdlib.h>
#include <string.h>

void call_lookup(fuse_req_t req, fuse_ino_t parent, const char *name) {
    struct node *directory = call_begin(req, parent, CALL_READS);
    if (!directory) return;
    uint64_t inode, size;
    int error = layer_find(directory->inode, name, &inode, &size);
    struct node *node = error ? NULL : nodes_find(inode);
    if (error == ENOENT) {
        call_reply_no_entry(req);
        return;
    }
    if (!node) {
        fuse_reply_err(req, error ? error : EIO);
        return;
    }
    if (!node->name) node_name(node, directory->inode, name);
    call_reply_entry(req, node);
}

/* Makes a file, a directory, a symbolic link or another kind of node. Returns it, or NULL after a reply. */
static struct node *make(fuse_req_t req, struct node *directory, const char *name, mode_t mode, const char *target) {
    const struct fuse_ctx *by = fuse_req_ctx(req);
    bool inherits = directory->mode & S_ISGID;
    if (inherits && S_ISDIR(mode)) mode |= S_ISGID;
    struct node *node = node_new(mode, by->uid, inherits ? directory->group : by->gid);
    int error = ENOMEM;
    uint64_t inode;
    if (node && target) node->target = strdup(target);
    if (!node || (target && !node->target)) goto refused;
    if (S_ISDIR(mode))
        error = layer_make_directory(directory->inode, name, &inode);
    else
        error = layer_create(directory->inode, name, &inode, &node->descriptor);
    if (error) goto refused;
    node->is_open = !S_ISDIR(mode);
    node_add(node, inode);
    node_name(node, directory->inode, name);
    if (node->is_open) note_descriptor(node, node->descriptor);
    node_written(directory);
    if (S_ISDIR(mode)) directory->links++;
    return node;
refused:
    if (node) node_free(node);
    fuse_reply_err(req, error);
    return NULL;
}

void call_mknod(fuse_req_t req, fuse_ino_t parent, const char *name, mode_t mode, dev_t device) {
    struct node *directory = call_begin(req, parent, CALL_CHANGES_NAMES);
    struct node *node = directory ? make(req, directory, name, mode, NULL) : NULL;
    if (!node) return;
    node->device = device;
    call_reply_entry(req, node);
}

void call_mkdir(fuse_req_t req, fuse_ino_t parent, const char *name, mode_t mode) {
    struct node *directory = call_begin(req, parent, CALL_CHANGES_NAMES);
    struct node *node = directory ? make(req, directory, name, S_IFDIR | (mode & 07777), NULL) : NULL;
    if (node) call_reply_entry(req, node);
}

void call_symlink(fuse_req_t req, const char *target, fuse_ino_t parent, const char *name) {
    struct node *directory = call_begin(req, parent, CALL_CHANGES_NAMES);
    struct node *node = directory ? make(req, directory, name, S_IFLNK | 0777, target) : NULL;
    if (node) call_reply_entry(req, node);
}

void call_create(fuse_req_t req, fuse_ino_t parent, const char *name, mode_t mode, struct fuse_file_info *info) {
    struct node *directory = call_begin(req, parent, CALL_CHANGES_NAMES);
    int error = directory ? failing_create_error(directory, name) : 0;
    if (error) {
        fuse_reply_err(req, error);
        return;
    }
    struct node *node = directory ? make(req, directory, name, S_IFREG | (mode & 07777), NULL) : NULL;
    if (!node) return;
    struct fuse_entry_param entry = call_entry(node);
    call_opened(node, info);
    if (fuse_reply_create(req, &entry, info)) {
        node->opens--;
        node_forget(node, 1);
    }
}

void call_link(fuse_req_t req, fuse_ino_t id, fuse_ino_t parent, const char *name) {
    struct node *directory = call_begin(req, parent, CALL_CHANGES_NAMES);
    if (!directory) return;
    struct node *node = call_node(id);
    int error = node ? layer_link(node->inode, directory->inode, name) : EIO;
    if (error) {
        fuse_reply_err(req, error);
        return;
    }
    node->links++;
    node_name(node, directory->inode, name);
    node_changed(node);
    node_written(directory);
    call_reply_entry(req, node);
}

/* Returns the node of a name, or NULL without one. */
static struct node *find(const struct node *directory, const char *name) {
    uint64_t inode, size;
    return layer_find(directory->inode, name, &inode, &size) ? NULL : nodes_find(inode);
}

/* Takes one name from a node, and its own names from a directory. */
static void lose_name(struct node *directory, struct node *node) {
    if (is_directory(node)) {
        directory->links--;
        node_counts.files--;
    }
    node->links = is_directory(node) ? 0 : node->links - 1;
    node_changed(node);
    node_rest(node);
}

/* Removes a name by a call of the layer. */
static void remove_name(fuse_req_t req, fuse_ino_t parent, const char *name, int (*remove)(uint64_t directory, const char *name)) {
    struct node *directory = call_begin(req, parent, CALL_CHANGES_NAMES);
    if (!directory) return;
    struct node *node = find(directory, name);
    /* An open file lives on, by its descriptor. */
    int error = node && node->opens > 0 ? node_open(node) : 0;
    if (!error) error = remove(directory->inode, name);
    if (!error) {
        node_written(directory);
        if (node) lose_name(directory, node);
    }
    fuse_reply_err(req, error);
}

void call_unlink(fuse_req_t req, fuse_ino_t parent, const char *name) { remove_name(req, parent, name, layer_unlink); }

void call_rmdir(fuse_req_t req, fuse_ino_t parent, const char *name) { remove_name(req, parent, name, layer_remove_directory); }

/* Notes that a node has moved from one directory to another. */
static void move(struct node *node, struct node *from, struct node *to, const char *name) {
    if (is_directory(node)) {
        from->links--;
        to->links++;
    }
    node_name(node, to->inode, name);
    node_changed(node);
}

/* Notes a rename that the layer has done. */
static void note_rename(struct node *from, struct node *to, const char *name, const char *to_name, struct node *moved,
                        struct node *was, bool exchanges) {
    if (moved == was) return;
    move(moved, from, to, to_name);
    if (was && exchanges)
        move(was, to, from, name);
    else if (was)
        lose_name(to, was);
    node_written(from);
    node_written(to);
}

void call_rename(fuse_req_t req, fuse_ino_t parent, const char *name, fuse_ino_t to_parent, const char *to_name, unsigned flags) {
    struct node *from = call_begin(req, parent, CALL_CHANGES_NAMES);
    if (!from) return;
    struct node *to = call_node(to_parent);
    struct node *moved = find(from, name), *was = to ? find(to, to_name) : NULL;
    enum layer_rename how = RENAME_REPLACES;
    int error = to ? 0 : EIO;
    if (flags == RENAME_NOREPLACE)
        how = RENAME_IS_REFUSED;
    else if (flags == RENAME_EXCHANGE)
        how = RENAME_EXCHANGES;
    else if (flags)
        error = EINVAL;
    if (!error && was && was->opens > 0) error = node_open(was);
    if (!error) error = layer_rename(from->inode, name, to->inode, to_name, how);
    if (!error && moved) note_rename(from, to, name, to_name, moved, was, how == RENAME_EXCHANGES);
    fuse_reply_err(req, error);
}
