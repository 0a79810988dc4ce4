#include "nodes.h"

#include "layer.h"
#include "notes.h"
#include "power.h"

#include <errno.h>
#include <stdlib.h>
#include <string.h>

struct node_counts node_counts;
struct node_limits node_limits;
/* A hash table of lists. Numbers of inodes are in sequence. */
static struct node **table;
static size_t table_size, table_count;

static struct node **place_of(uint64_t inode) { return &table[inode & (table_size - 1)]; }

struct node *nodes_find(uint64_t inode) {
    struct node *node = *place_of(inode);
    while (node && node->inode != inode) node = node->next;
    return node;
}

/* Doubles the table. Without memory it stays as it is. */
static void grow(void) {
    struct node **old = table, **larger = calloc(2 * table_size, sizeof *larger);
    if (!larger) return;
    size_t count = table_size;
    table = larger;
    table_size *= 2;
    for (size_t at = 0; at < count; at++) {
        for (struct node *node = old[at], *next; node; node = next) {
            next = node->next;
            struct node **place = place_of(node->inode);
            node->next = *place;
            *place = node;
        }
    }
    free(old);
}

static struct timespec now(void) {
    struct timespec time;
    clock_gettime(CLOCK_REALTIME, &time);
    return time;
}

void node_written(struct node *node) { node->written_at = node->changed_at = now(); }
void node_changed(struct node *node) { node->changed_at = now(); }

struct node *node_new(mode_t mode, uid_t owner, gid_t group) {
    struct node *node = calloc(1, sizeof *node);
    if (!node) return NULL;
    node->mode = mode;
    node->owner = owner;
    node->group = group;
    node->links = S_ISDIR(mode) ? 2 : 1;
    node_written(node);
    node->read_at = node->written_at;
    return node;
}

void node_add(struct node *node, uint64_t inode) {
    if (table_count >= table_size) grow();
    struct node **place = place_of(inode);
    node->inode = inode;
    node->next = *place;
    *place = node;
    table_count++;
    node_counts.files++;
}

void attribute_free(struct attribute *attribute) {
    if (attribute) free(attribute->name);
    free(attribute);
}

void node_free(struct node *node) {
    for (struct attribute *at = node->attributes, *next; at; at = next) {
        next = at->next;
        attribute_free(at);
    }
    free(node->target);
    free(node->name);
    free(node);
}

/* Takes a node from the table, and frees it. */
static void node_remove(struct node *node) {
    struct node **place = place_of(node->inode);
    while (*place != node) place = &(*place)->next;
    *place = node->next;
    table_count--;
    node_counts.unsynced -= node->unsynced;
    node_free(node);
}

int nodes_begin(uid_t owner, gid_t group) {
    table_size = 1024;
    table = calloc(table_size, sizeof *table);
    struct node *root = node_new(S_IFDIR | 0755, owner, group);
    if (!table || !root) return ENOMEM;
    node_add(root, ROOT);
    root->directory = ROOT;
    return 0;
}

void node_name(struct node *node, uint64_t directory, const char *name) {
    node->directory = directory;
    free(node->name);
    node->name = strdup(name);
}

bool node_path(const struct node *node, char *path, size_t capacity) {
    size_t at = capacity;
    if (capacity == 0) return false;
    path[--at] = 0;
    while (node->inode != ROOT) {
        size_t len = node->name ? strlen(node->name) : 0;
        if (len == 0 || len + 1 > at) return false;
        at -= len;
        memcpy(path + at, node->name, len);
        path[--at] = '/';
        node = nodes_find(node->directory);
        if (!node) return false;
    }
    memmove(path, path + at, capacity - at);
    return true;
}

int node_open(struct node *node) {
    if (node->is_open) return 0;
    int error = layer_open(node->inode, &node->descriptor);
    node->is_open = error == 0;
    if (!error) note_descriptor(node, node->descriptor);
    return error;
}

int node_open_truncated(struct node *node) {
    int error = layer_open_truncated(node->inode, &node->truncated);
    node->is_truncated = error == 0;
    if (!error) note_descriptor(node, node->truncated);
    return error;
}

int node_close_truncated(struct node *node) {
    int error = node->is_truncated ? layer_close(node->truncated) : 0;
    if (!error) node->is_truncated = false;
    return error;
}

/* Closes the layer's descriptors. */
static int close_all(struct node *node) {
    int error = node_close_truncated(node);
    if (!error && node->is_open) error = layer_close(node->descriptor);
    if (!error) node->is_open = false;
    return error;
}

void node_resized(struct node *node, uint64_t size) {
    node_counts.bytes += size - node->size;
    node->size = size;
}

void node_rest(struct node *node) {
    if (is_directory(node) || node->links > 0 || node->opens > 0 || node->is_gone || close_all(node)) return;
    node->is_gone = true;
    node_resized(node, 0);
    node_counts.files--;
    node_counts.removed += node->unsynced;
}

void node_forget(struct node *node, uint64_t times) {
    node->lookups -= times < node->lookups ? times : node->lookups;
    if (node->is_over && node->lookups == 0) node_remove(node);
}

void node_measure(struct node *node) {
    uint64_t size;
    if (node_open(node) == 0 && layer_size(node->descriptor, &size) == 0) node_resized(node, size);
}

static void mark_synced(struct node *node) {
    node_counts.unsynced -= node->unsynced;
    node->unsynced = 0;
}

int node_sync(struct node *node, bool only_data) {
    int error = node_open(node);
    if (!error) error = layer_sync(node->descriptor, only_data);
    if (!error) mark_synced(node);
    return error;
}

void nodes_visit(void (*visit)(const struct node *node, void *data), void *data) {
    for (size_t at = 0; at < table_size; at++)
        for (const struct node *node = table[at]; node; node = node->next) visit(node, data);
}

/* Removes the nodes that no crash finds any more, once all changes of names are durable. Those that the kernel knows stay so long. */
static void drop_gone(void) {
    for (size_t at = 0; at < table_size; at++) {
        for (struct node *node = table[at], *next; node; node = next) {
            next = node->next;
            if (is_directory(node) ? node->links > 0 : !node->is_gone) continue;
            node->is_over = true;
            mark_synced(node);
            node_forget(node, 0);
        }
    }
    node_counts.removed = 0;
}

/* Says that all changes of names are durable, and that the layer keeps none of them. */
static void end_changes(void) {
    node_counts.changes = 0;
    drop_gone();
}

/* Makes all changes of names durable, as a kernel does from time to time. Bytes stay as they are. */
static int commit(void) {
    int error = layer_commit();
    if (error) return error;
    power.commits++;
    end_changes();
    return 0;
}

int nodes_make_room(void) { return node_counts.changes < node_limits.changes ? 0 : commit(); }

static bool has_room_for(uint64_t len) { return node_counts.unsynced + len <= node_limits.bytes; }

/* Syncs the bytes of all files. Errors are left to the next sync. */
static void write_back(void) {
    power.write_backs++;
    for (size_t at = 0; at < table_size; at++)
        for (struct node *node = table[at]; node; node = node->next)
            if (node->unsynced > 0 && !node->is_gone) node_sync(node, true);
}

int nodes_make_room_unsynced(uint64_t len) {
    if (has_room_for(len)) return 0;
    if (len > node_limits.bytes) return ENOSPC;
    int error = node_counts.removed > 0 ? commit() : 0;
    if (!error && !has_room_for(len)) write_back();
    return error ? error : has_room_for(len) ? 0 : ENOSPC;
}

int nodes_settle(void) {
    int error = layer_settle();
    /* So that the journal is short again. */
    if (!error && node_counts.changes > 0) error = layer_commit();
    if (error) return error;
    for (size_t at = 0; at < table_size; at++)
        for (struct node *node = table[at]; node; node = node->next) mark_synced(node);
    end_changes();
    return 0;
}

/* After a crash nothing is open, and the kernel's nodes are those of an older life. */
static void reset(void) {
    node_counts = (struct node_counts){0};
    for (size_t at = 0; at < table_size; at++) {
        for (struct node *node = table[at]; node; node = node->next) {
            node->links = is_directory(node) ? 2 : 0;
            node->opens = node->lookups = node->size = node->unsynced = 0;
            node->is_open = node->is_truncated = node->is_gone = node->is_over = node->is_reached = false;
        }
    }
}

/* Counts one name. Returns whether its directory isn't counted yet. */
static bool reach(const struct layer_name *found, struct node *directory) {
    struct node *node = nodes_find(found->inode);
    if (!node) return false;
    bool is_new = !node->is_reached;
    node->is_reached = true;
    node_name(node, directory->inode, found->name);
    if (is_new) node_counts.files++;
    if (found->is_directory) {
        directory->links++;
        return is_new;
    }
    node->links++;
    uint64_t inode, size;
    if (is_new && is_file(node) && layer_find(directory->inode, found->name, &inode, &size) == 0) node_resized(node, size);
    return false;
}

/* Counts the names of a directory. Adds its directories to a list that is long enough for all. */
static int reach_all(uint64_t inode, uint64_t *directories, size_t *count) {
    struct layer_name *names;
    size_t all;
    struct node *directory = nodes_find(inode);
    int error = layer_list(inode, &names, &all);
    if (error) return error;
    for (size_t at = 0; at < all; at++)
        if (reach(&names[at], directory)) directories[(*count)++] = names[at].inode;
    free(names);
    return 0;
}

int nodes_recover(void) {
    uint64_t *directories = calloc(table_count + 1, sizeof *directories);
    if (!directories) return ENOMEM;
    reset();
    nodes_find(ROOT)->is_reached = true;
    node_counts.files = 1;
    size_t count = 1;
    int error = 0;
    directories[0] = ROOT;
    for (size_t at = 0; at < count && !error; at++) error = reach_all(directories[at], directories, &count);
    free(directories);
    if (error) return error;
    for (size_t at = 0; at < table_size; at++) {
        for (struct node *node = table[at], *next; node; node = next) {
            next = node->next;
            if (!node->is_reached) node_remove(node);
        }
    }
    return 0;
}
