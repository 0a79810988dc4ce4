/* Calls on open directories. */
#include "calls.h"
#include "failing.h"
#include "layer.h"
#include "power.h"

#include <errno.h>
#include <stdlib.h>

/* An open directory. Its names are read when it is read from the start, so that offsets stay what they are. */
struct directory {
    uint64_t life;
    bool is_read;
    struct layer_name *names;
    size_t count;
    struct directory *next;
};

/* All that are open. The kernel may end a session without closing them. */
static struct directory *all;

/* How many bytes the names of all open directories have. */
static uint64_t listed;

static struct directory *directory_of(const struct fuse_file_info *info) { return (struct directory *)(uintptr_t)info->fh; }

static void drop_names(struct directory *open) {
    listed -= open->count * sizeof *open->names;
    free(open->names);
    open->names = NULL;
    open->count = 0;
    open->is_read = false;
}

static int read_names(struct directory *open, const struct node *node) {
    drop_names(open);
    if (listed > node_limits.bytes) return ENOMEM;
    int error = layer_list(node->inode, &open->names, &open->count);
    if (error == ENOENT) error = 0; /* removed: it has no names */
    if (error) return error;
    listed += open->count * sizeof *open->names;
    open->is_read = true;
    return 0;
}

static void close_directory(struct directory *open) {
    struct directory **at = &all;
    while (*at != open) at = &(*at)->next;
    *at = open->next;
    drop_names(open);
    free(open);
}

void call_directories_end(void) {
    while (all) close_directory(all);
}

void call_opendir(fuse_req_t req, fuse_ino_t id, struct fuse_file_info *info) {
    if (!call_begin(req, id, CALL_READS)) return;
    struct directory *open = calloc(1, sizeof *open);
    if (!open) {
        fuse_reply_err(req, ENOMEM);
        return;
    }
    open->life = power.life;
    open->next = all;
    all = open;
    info->fh = (uintptr_t)open;
    if (fuse_reply_open(req, info)) close_directory(open);
}

void call_releasedir(fuse_req_t req, fuse_ino_t id, struct fuse_file_info *info) {
    (void)id;
    close_directory(directory_of(info));
    fuse_reply_err(req, 0);
}

/* Writes the entry at an offset: `.`, `..`, then the names. Returns its length, 0 after the last. */
static size_t add_entry(fuse_req_t req, const struct directory *open, const struct node *node, off_t at, char *into,
                        size_t capacity) {
    struct stat found = {.st_ino = node->inode, .st_mode = S_IFDIR};
    const char *name = ".";
    if (at == 1) {
        name = "..";
        found.st_ino = node->directory;
    }
    if (at > 1) {
        if ((uint64_t)at - 2 >= open->count) return 0;
        const struct layer_name *entry = &open->names[at - 2];
        const struct node *there = nodes_find(entry->inode);
        name = entry->name;
        found.st_ino = entry->inode;
        if (!entry->is_directory) found.st_mode = there ? there->mode : S_IFREG;
    }
    return fuse_add_direntry(req, into, capacity, name, &found, at + 1);
}

void call_readdir(fuse_req_t req, fuse_ino_t id, size_t size, off_t offset, struct fuse_file_info *info) {
    struct node *node = call_begin(req, id, CALL_READS);
    if (!node) return;
    struct directory *open = directory_of(info);
    int error = open->life == power.life ? 0 : EIO;
    if (!error && (offset == 0 || !open->is_read)) error = read_names(open, node);
    char *entries = error ? NULL : malloc(size);
    if (!entries) {
        fuse_reply_err(req, error ? error : ENOMEM);
        return;
    }
    size_t used = 0;
    for (;; offset++) {
        size_t len = add_entry(req, open, node, offset, entries + used, size - used);
        if (len == 0 || len > size - used) break;
        used += len;
    }
    fuse_reply_buf(req, entries, used);
    free(entries);
}

void call_fsyncdir(fuse_req_t req, fuse_ino_t id, int only_data, struct fuse_file_info *info) {
    (void)only_data;
    struct node *node = call_begin(req, id, CALL_CHANGES);
    if (!node) return;
    int error = directory_of(info)->life == power.life ? failing_error(node, FAILING_SYNC) : EIO;
    if (!error) error = node->links > 0 ? layer_sync_directory(node->inode) : 0;
    fuse_reply_err(req, error);
}
