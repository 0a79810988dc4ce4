/* The table of calls, those on attributes, and what all calls share. */
#include "calls.h"

#include "layer.h"
#include "power.h"
#include "record.h"

#include <errno.h>
#include <string.h>

/*
 * The kernel's number of a node has the life in its upper bits, so numbers of an older life are refused. The root is 1 in each
 * life. The kernel may cache names, that a name is missing, and attributes for ever, since all changes come through it. After a crash
 * the names in the root are invalidated: then each path leads to nodes of the new life.
 */
enum { LIFE_SHIFT = 40 };
#define FOREVER 86400.0

fuse_ino_t call_id(const struct node *node) {
    return node->inode == ROOT ? FUSE_ROOT_ID : (fuse_ino_t)(power.life << LIFE_SHIFT | node->inode);
}

struct node *call_node(fuse_ino_t id) {
    if (id == FUSE_ROOT_ID) return nodes_find(ROOT);
    if (id >> LIFE_SHIFT != power.life) return NULL;
    return nodes_find(id & (((uint64_t)1 << LIFE_SHIFT) - 1));
}

/* Counts a changing call. If it is the last one of a count, the power goes off after it. */
static void count_change(enum call_kind kind) {
    power.changing_calls++;
    if (kind == CALL_CHANGES_NAMES) node_counts.changes++;
    if (power.is_counting && --power.calls_left == 0) power.is_off = true;
}

struct node *call_begin(fuse_req_t req, fuse_ino_t id, enum call_kind kind) {
    power.calls++;
    record_process(fuse_req_ctx(req)->pid);
    struct node *node = power.is_ending ? NULL : call_node(id);
    if (!node) {
        if (!power.is_ending) power.stale_calls++;
        fuse_reply_err(req, EIO);
        return NULL;
    }
    if (kind == CALL_READS) return node;
    int error = kind == CALL_CHANGES_NAMES ? nodes_make_room() : 0;
    if (error) {
        fuse_reply_err(req, error);
        return NULL;
    }
    count_change(kind);
    return node;
}

static struct stat attributes_of(const struct node *node) {
    struct stat found = {0};
    found.st_ino = node->inode;
    found.st_mode = node->mode;
    found.st_nlink = node->links;
    found.st_uid = node->owner;
    found.st_gid = node->group;
    found.st_rdev = node->device;
    found.st_size = (off_t)(node->target ? strlen(node->target) : node->size);
    found.st_blksize = 4096;
    found.st_blocks = (found.st_size + 511) / 512;
    found.st_atim = node->read_at;
    found.st_mtim = node->written_at;
    found.st_ctim = node->changed_at;
    return found;
}

struct fuse_entry_param call_entry(struct node *node) {
    node->lookups++;
    return (struct fuse_entry_param){
        .ino = call_id(node), .attr = attributes_of(node), .attr_timeout = FOREVER, .entry_timeout = FOREVER};
}

void call_reply_entry(fuse_req_t req, struct node *node) {
    struct fuse_entry_param entry = call_entry(node);
    if (fuse_reply_entry(req, &entry)) node_forget(node, 1);
}

void call_reply_no_entry(fuse_req_t req) {
    struct fuse_entry_param entry = {.entry_timeout = FOREVER};
    fuse_reply_entry(req, &entry);
}

void call_reply_attributes(fuse_req_t req, const struct node *node) {
    struct stat found = attributes_of(node);
    fuse_reply_attr(req, &found, FOREVER);
}

/* The kernel may keep pages of files, for MAP_SHARED, but passes each write on immediately. */
static void begin(void *data, struct fuse_conn_info *connection) {
    (void)data;
    connection->want &= ~(unsigned)(FUSE_CAP_AUTO_INVAL_DATA | FUSE_CAP_WRITEBACK_CACHE | FUSE_CAP_HANDLE_KILLPRIV |
                                    FUSE_CAP_SPLICE_READ | FUSE_CAP_SPLICE_WRITE | FUSE_CAP_SPLICE_MOVE);
    connection->want |= connection->capable & FUSE_CAP_EXPLICIT_INVAL_DATA;
}

/* The kernel doesn't know a node any more. It is kept as long as a crash may bring a name back. */
static void forget(fuse_req_t req, fuse_ino_t id, uint64_t times) {
    struct node *node = call_node(id);
    if (node) node_forget(node, times);
    fuse_reply_none(req);
}

static void get_attributes(fuse_req_t req, fuse_ino_t id, struct fuse_file_info *info) {
    (void)info;
    struct node *node = call_begin(req, id, CALL_READS);
    if (node) call_reply_attributes(req, node);
}

static void set_times(struct node *node, const struct stat *to, int which) {
    node_changed(node);
    if (which & FUSE_SET_ATTR_ATIME) node->read_at = to->st_atim;
    if (which & FUSE_SET_ATTR_MTIME) node->written_at = to->st_mtim;
    if (which & FUSE_SET_ATTR_ATIME_NOW) node->read_at = node->changed_at;
    if (which & FUSE_SET_ATTR_MTIME_NOW) node->written_at = node->changed_at;
}

static void set_attributes(fuse_req_t req, fuse_ino_t id, struct stat *to, int which, struct fuse_file_info *info) {
    (void)info;
    struct node *node = call_begin(req, id, which & FUSE_SET_ATTR_SIZE ? CALL_CHANGES : CALL_READS);
    if (!node) return;
    if (which & FUSE_SET_ATTR_SIZE) {
        int error = call_truncate(node, (uint64_t)to->st_size);
        if (error) {
            fuse_reply_err(req, error);
            return;
        }
    }
    if (which & FUSE_SET_ATTR_MODE) node->mode = (node->mode & S_IFMT) | (to->st_mode & 07777);
    if (which & FUSE_SET_ATTR_UID) node->owner = to->st_uid;
    if (which & FUSE_SET_ATTR_GID) node->group = to->st_gid;
    set_times(node, to, which);
    call_reply_attributes(req, node);
}

static void read_link(fuse_req_t req, fuse_ino_t id) {
    struct node *node = call_begin(req, id, CALL_READS);
    if (!node) return;
    if (node->target)
        fuse_reply_readlink(req, node->target);
    else
        fuse_reply_err(req, EINVAL);
}

static uint64_t left(uint64_t limit, uint64_t used) { return used < limit ? limit - used : 0; }

static void get_counts(fuse_req_t req, fuse_ino_t id) {
    if (!call_begin(req, id, CALL_READS)) return;
    struct statvfs found = {.f_bsize = 4096, .f_frsize = 4096, .f_namemax = NAME_MOST};
    found.f_blocks = node_limits.bytes / 4096;
    found.f_bfree = found.f_bavail = left(node_limits.bytes, node_counts.bytes) / 4096;
    found.f_files = node_limits.files;
    found.f_ffree = found.f_favail = left(node_limits.files, node_counts.files);
    fuse_reply_statfs(req, &found);
}

#define CALLS \
    .init = begin, .forget = forget, .getattr = get_attributes, .setattr = set_attributes, .readlink = read_link, \
    .statfs = get_counts, .lookup = call_lookup, .mknod = call_mknod, .mkdir = call_mkdir, \
    .symlink = call_symlink, .create = call_create, .link = call_link, .unlink = call_unlink, .rmdir = call_rmdir, \
    .rename = call_rename, .opendir = call_opendir, .readdir = call_readdir, .releasedir = call_releasedir, \
    .fsyncdir = call_fsyncdir, .open = call_open, .release = call_release, .read = call_read, .write = call_write, \
    .fsync = call_fsync, .fallocate = call_fallocate, .copy_file_range = call_copy

const struct fuse_lowlevel_ops calls_without_attributes = {CALLS};
const struct fuse_lowlevel_ops calls = {CALLS,
                                        .setxattr = call_set_attribute,
                                        .getxattr = call_get_attribute,
                                        .listxattr = call_list_attributes,
                                        .removexattr = call_remove_attribute};
