/* What the kernel keeps of a life, which a crash ends: names in the root, attributes, and pages of files. */
#ifndef MOUNT_CACHED_H
#define MOUNT_CACHED_H

#include "layer.h"

struct fuse_session;

struct cached {
    struct layer_name *names; /* in the root */
    size_t name_count;
    uint64_t *ids; /* the kernel's numbers of all that it knows */
    size_t id_count;
};

/* Lists what the kernel keeps. Returns 0 or a number of errno. Free it in each case. */
int cached_list(struct cached *cached);
void cached_free(struct cached *cached);
/*
 * Lets the kernel forget what it keeps of the life before, and that names are missing which the crash brought back. It may wait for calls
 * that the daemon is to take.
 */
void cached_forget(struct fuse_session *session, const struct cached *before, const struct cached *after);

#endif
