/*
 * What the daemon keeps of each inode: its kind, mode, owner, times and counts, and the target of a symbolic link. The layer has the
 * names and the bytes. A node is kept by the number of its inode, so it survives a crash if the inode does. One without a name is
 * kept as long as a crash may bring a name back or the kernel knows it.
 */
#ifndef MOUNT_NODES_H
#define MOUNT_NODES_H

#include <stdbool.h>
#include <stddef.h>
#include <stdint.h>
#include <sys/stat.h>
#include <sys/types.h>
#include <time.h>

/* An extended attribute. */
struct attribute {
    struct attribute *next;
    char *name;
    size_t size;
    char value[];
};

struct node {
    uint64_t inode;
    mode_t mode; /* with the kind */
    uid_t owner;
    gid_t group;
    dev_t device;
    struct timespec read_at, written_at, changed_at;
    char *target;
    struct attribute *attributes;
    uint64_t links;   /* names of a file; 2 and the directories in it of a directory */
    uint64_t opens;   /* by programs */
    uint64_t lookups; /* how often the kernel got its number in this life, less what it forgot */
    uint64_t size;
    uint64_t unsynced; /* bytes written since the last sync */
    uint64_t descriptor, truncated; /* the layer's, of this life: for all calls, and of the open that truncated */
    bool is_open;                   /* whether there is the first */
    bool is_truncated;              /* whether there is the second: no program has closed the file since that open */
    bool is_gone;                   /* a file without a name that isn't open: the layer doesn't count it any more */
    bool is_over;                   /* no name, not open, and no crash finds it */
    bool is_reached;                /* used by nodes_recover */
    /* One of its names. NULL without memory. The name may have been removed. */
    uint64_t directory;
    char *name;
    struct node *next;
};

/* Counts of all nodes. */
struct node_counts {
    uint64_t bytes;    /* those that count against the limit of the layer */
    uint64_t files;    /* files and directories that the layer counts */
    uint64_t unsynced; /* bytes written since the last sync of their files */
    uint64_t removed;  /* those of removed files that no program has open, which a crash may find */
    uint64_t changes;  /* of names, and truncations, since the last commit or crash */
};

/* What bounds the memory. */
struct node_limits {
    uint64_t bytes;   /* of all files; of all unsynced writes */
    uint64_t files;   /* files and directories */
    uint64_t changes; /* of names, and truncations, between two commits: the layer keeps each until then */
};

extern struct node_counts node_counts;
extern struct node_limits node_limits;

static inline bool is_file(const struct node *node) { return S_ISREG(node->mode); }
static inline bool is_directory(const struct node *node) { return S_ISDIR(node->mode); }

/* Makes the root's node. ENOMEM. */
int nodes_begin(uid_t owner, gid_t group);
/* Calls `visit` with each node. */
void nodes_visit(void (*visit)(const struct node *node, void *data), void *data);
/* Returns the node of an inode, or NULL. */
struct node *nodes_find(uint64_t inode);
/* Returns a new node that isn't in the table yet, or NULL. The caller adds it or frees it. */
struct node *node_new(mode_t mode, uid_t owner, gid_t group);
void node_add(struct node *node, uint64_t inode);
void node_free(struct node *node);
/* Frees one that is in no list, or nothing. */
void attribute_free(struct attribute *attribute);
/* Closes a file that has no name and isn't open in a program. It doesn't count against the limits any more. */
void node_rest(struct node *node);
/* Notes that the kernel has forgotten this number of lookups. */
void node_forget(struct node *node, uint64_t times);

/* Remembers a name of the node. */
void node_name(struct node *node, uint64_t directory, const char *name);
/* Writes the path of one of its names. Returns whether it has one that fits. */
bool node_path(const struct node *node, char *path, size_t capacity);

/* Opens the layer's descriptor, if it isn't open. */
int node_open(struct node *node);
/* Opens it and makes it empty, as a program's open does. The layer's other descriptor stays open: the file may have no name. */
int node_open_truncated(struct node *node);
/* Ends that open: a profile may make the bytes durable. */
int node_close_truncated(struct node *node);
/* Says which size the file has now. */
void node_resized(struct node *node, uint64_t size);
/* Asks the layer for the size. */
void node_measure(struct node *node);
/* Syncs its bytes in the layer. */
int node_sync(struct node *node, bool only_data);
/* Commits if the layer keeps as many changes of names and truncations as it may. */
int nodes_make_room(void);
/*
 * Bounds the unsynced bytes before a write of this length: commits if removed files have some, and if that isn't enough, syncs the bytes of
 * all files, as a kernel does that has too much to write back. ENOSPC if the write alone exceeds the limit.
 */
int nodes_make_room_unsynced(uint64_t len);
/* Makes everything durable. */
int nodes_settle(void);

/* Sets times to the present. */
void node_written(struct node *node);
void node_changed(struct node *node);

/* After a crash: finds the nodes that names reach, counts their links and sizes, and removes the others. */
int nodes_recover(void);

#endif
