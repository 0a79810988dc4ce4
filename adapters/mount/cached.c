#include "cached.h"

#include "calls.h"

#include <errno.h>
#include <stdlib.h>
#include <string.h>

static void count_known(const struct node *node, void *count) { *(size_t *)count += node->lookups > 0; }

static void add_known(const struct node *node, void *list) {
    struct cached *cached = list;
    if (node->lookups > 0) cached->ids[cached->id_count++] = call_id(node);
}

int cached_list(struct cached *cached) {
    size_t count = 0;
    *cached = (struct cached){0};
    nodes_visit(count_known, &count);
    cached->ids = calloc(count + 1, sizeof *cached->ids);
    if (!cached->ids) return ENOMEM;
    nodes_visit(add_known, cached);
    return layer_list(ROOT, &cached->names, &cached->name_count);
}

void cached_free(struct cached *cached) {
    free(cached->names);
    free(cached->ids);
}

static void forget_name(struct fuse_session *session, const char *name) {
    fuse_lowlevel_notify_inval_entry(session, FUSE_ROOT_ID, name, strlen(name));
}

/* Both lists are sorted. */
static void forget_names(struct fuse_session *session, const struct cached *before, const struct cached *after) {
    size_t at = 0;
    for (size_t next = 0; next < after->name_count; next++) {
        const char *name = after->names[next].name;
        while (at < before->name_count && strcmp(before->names[at].name, name) < 0) forget_name(session, before->names[at++].name);
        if (at < before->name_count && strcmp(before->names[at].name, name) == 0) at++;
        forget_name(session, name);
    }
    while (at < before->name_count) forget_name(session, before->names[at++].name);
}

void cached_forget(struct fuse_session *session, const struct cached *before, const struct cached *after) {
    forget_names(session, before, after);
    /* The pages of an old file too: a read of an old descriptor gets EIO, and no lost bytes. */
    for (size_t at = 0; at < before->id_count; at++) fuse_lowlevel_notify_inval_inode(session, before->ids[at], 0, 0);
    fuse_lowlevel_notify_inval_inode(session, FUSE_ROOT_ID, -1, 0);
}
