/* The calls of the kernel. */
#ifndef MOUNT_CALLS_H
#define MOUNT_CALLS_H

#define FUSE_USE_VERSION 312
#include "nodes.h"

#include <fuse_lowlevel.h>

/* All of them, and all but those on extended attributes: with these the kernel asks for one before each write. */
extern const struct fuse_lowlevel_ops calls, calls_without_attributes;

/* What a call does to the disk. A change counts for the power. A change of names is in the layer until the next crash. */
enum call_kind { CALL_READS, CALL_CHANGES, CALL_CHANGES_NAMES };

/*
 * Begins a call on a node. Returns the node, or NULL after a reply: EIO if the power went off during the call or the node is of an
 * older life, or the error of a commit before a change of names.
 */
struct node *call_begin(fuse_req_t req, fuse_ino_t id, enum call_kind kind);
/* Returns the kernel's number of a node. */
fuse_ino_t call_id(const struct node *node);
/* Returns the node of the kernel's number, or NULL if that is of an older life. */
struct node *call_node(fuse_ino_t id);

/* Replies with a node that a name leads to. */
void call_reply_entry(fuse_req_t req, struct node *node);
/* Replies that no node has the name. */
void call_reply_no_entry(fuse_req_t req);
/* Replies with attributes. */
void call_reply_attributes(fuse_req_t req, const struct node *node);
/* Returns an entry for the kernel. From then on the kernel knows the node. */
struct fuse_entry_param call_entry(struct node *node);

/* Extended attributes: call_attributes.c. */
void call_set_attribute(fuse_req_t req, fuse_ino_t id, const char *name, const char *value, size_t size, int flags);
void call_get_attribute(fuse_req_t req, fuse_ino_t id, const char *name, size_t size);
void call_list_attributes(fuse_req_t req, fuse_ino_t id, size_t size);
void call_remove_attribute(fuse_req_t req, fuse_ino_t id, const char *name);

/* Names: call_names.c. */
void call_lookup(fuse_req_t req, fuse_ino_t parent, const char *name);
void call_mknod(fuse_req_t req, fuse_ino_t parent, const char *name, mode_t mode, dev_t device);
void call_mkdir(fuse_req_t req, fuse_ino_t parent, const char *name, mode_t mode);
void call_symlink(fuse_req_t req, const char *target, fuse_ino_t parent, const char *name);
void call_create(fuse_req_t req, fuse_ino_t parent, const char *name, mode_t mode, struct fuse_file_info *info);
void call_link(fuse_req_t req, fuse_ino_t id, fuse_ino_t parent, const char *name);
void call_unlink(fuse_req_t req, fuse_ino_t parent, const char *name);
void call_rmdir(fuse_req_t req, fuse_ino_t parent, const char *name);
void call_rename(fuse_req_t req, fuse_ino_t parent, const char *name, fuse_ino_t to_parent, const char *to_name, unsigned flags);

/* Directories: call_directories.c. */
void call_opendir(fuse_req_t req, fuse_ino_t id, struct fuse_file_info *info);
void call_readdir(fuse_req_t req, fuse_ino_t id, size_t size, off_t offset, struct fuse_file_info *info);
void call_releasedir(fuse_req_t req, fuse_ino_t id, struct fuse_file_info *info);
/* Closes the directories that are still open, at the end. */
void call_directories_end(void);
void call_fsyncdir(fuse_req_t req, fuse_ino_t id, int only_data, struct fuse_file_info *info);

/* Bytes: call_files.c. */
void call_open(fuse_req_t req, fuse_ino_t id, struct fuse_file_info *info);
void call_release(fuse_req_t req, fuse_ino_t id, struct fuse_file_info *info);
void call_read(fuse_req_t req, fuse_ino_t id, size_t size, off_t offset, struct fuse_file_info *info);
void call_write(fuse_req_t req, fuse_ino_t id, const char *bytes, size_t size, off_t offset, struct fuse_file_info *info);
void call_fsync(fuse_req_t req, fuse_ino_t id, int only_data, struct fuse_file_info *info);
void call_fallocate(fuse_req_t req, fuse_ino_t id, int mode, off_t offset, off_t len, struct fuse_file_info *info);
void call_copy(fuse_req_t req, fuse_ino_t id, off_t offset, struct fuse_file_info *info, fuse_ino_t to_id, off_t to_offset,
               struct fuse_file_info *to_info, size_t len, int flags);
/* Changes the length of a file, unsynced. */
int call_truncate(struct node *node, uint64_t length);
/* Fills what the kernel gets of an open. */
void call_opened(struct node *node, struct fuse_file_info *info);

#endif
