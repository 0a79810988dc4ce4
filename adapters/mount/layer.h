/* The layer's calls on files. Each returns 0 or a number of errno. */
#ifndef MOUNT_LAYER_H
#define MOUNT_LAYER_H

#include "disk.h"

#include <stdbool.h>
#include <stddef.h>
#include <stdint.h>

enum { ROOT = 1, NAME_MOST = 255 };

/* What a rename does if the new name is taken. */
enum layer_rename { RENAME_REPLACES = 0, RENAME_IS_REFUSED = 1, RENAME_EXCHANGES = 2 };

/* A name in a directory. */
struct layer_name {
    uint64_t inode;
    bool is_directory;
    char name[NAME_MOST + 1];
};

/* Opens a new, empty file system. EINVAL if a line of the preamble is bad: then `line` has its number. */
int layer_begin(const char *preamble, uint64_t *line);
void layer_end(void);
/* Makes a setting of the preamble. EINVAL if it is bad. */
int layer_set(const char *setting);
/* From now on a crash keeps all of each write, or, with `all` false, what the settings say. */
int layer_keep_writes(bool all);

/* Returns the inode of a name, and the size of a file. */
int layer_find(uint64_t directory, const char *name, uint64_t *inode, uint64_t *size);
/* Returns the names of a directory, which the caller frees. */
int layer_list(uint64_t directory, struct layer_name **names, size_t *count);
int layer_create(uint64_t directory, const char *name, uint64_t *inode, uint64_t *descriptor);
int layer_make_directory(uint64_t directory, const char *name, uint64_t *inode);
int layer_link(uint64_t inode, uint64_t directory, const char *name);
int layer_unlink(uint64_t directory, const char *name);
int layer_remove_directory(uint64_t directory, const char *name);
int layer_rename(uint64_t directory, const char *name, uint64_t to_directory, const char *to_name, enum layer_rename how);
int layer_sync_directory(uint64_t directory);

int layer_open(uint64_t inode, uint64_t *descriptor);
/* A profile may make the bytes durable that are written until the close. */
int layer_open_truncated(uint64_t inode, uint64_t *descriptor);
int layer_close(uint64_t descriptor);
int layer_size(uint64_t descriptor, uint64_t *size);
int layer_truncate(uint64_t descriptor, uint64_t length);
int layer_sync(uint64_t descriptor, bool only_data);
int layer_write(uint64_t descriptor, uint64_t offset, const void *bytes, size_t len);
/* Returns in `len` how many bytes were read. */
int layer_read(uint64_t descriptor, uint64_t offset, void *into, size_t capacity, size_t *len);

/* Makes all changes of names durable, and drops what the layer keeps of them until then. Makes no draw. */
int layer_commit(void);
/* Makes everything durable. */
int layer_settle(void);
/* Crashes. All descriptors are stale. After an error crash again. */
int layer_crash(struct disk_crash *crash);

#endif
