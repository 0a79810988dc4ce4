/* Calls on extended attributes. They need no sync, as modes: they survive with their file, as they were last. */
#include "calls.h"

#include <errno.h>
#include <stdlib.h>
#include <string.h>
#include <sys/xattr.h>

enum { BYTES_MOST = 1 << 16 }; /* of all attributes of a file */

/* Returns the place of an attribute in the list of its node: that of NULL if there is none. */
static struct attribute **place_of(struct node *node, const char *name) {
    struct attribute **at = &node->attributes;
    while (*at && strcmp((*at)->name, name)) at = &(*at)->next;
    return at;
}

static size_t bytes_of(const struct node *node) {
    size_t all = 0;
    for (const struct attribute *at = node->attributes; at; at = at->next) all += strlen(at->name) + 1 + at->size;
    return all;
}

static struct attribute *new_attribute(const char *name, const char *value, size_t size) {
    struct attribute *made = malloc(sizeof *made + size);
    char *copy = strdup(name);
    if (!made || !copy) {
        free(made);
        free(copy);
        return NULL;
    }
    *made = (struct attribute){.name = copy, .size = size};
    memcpy(made->value, value, size);
    return made;
}

static int set(struct node *node, const char *name, const char *value, size_t size, int flags) {
    struct attribute **place = place_of(node, name), *old = *place;
    if (!strncmp(name, "system.", 7)) return EOPNOTSUPP; /* access control lists are the kernel's */
    if (old && flags & XATTR_CREATE) return EEXIST;
    if (!old && flags & XATTR_REPLACE) return ENODATA;
    if (bytes_of(node) + strlen(name) + 1 + size > BYTES_MOST) return ENOSPC;
    struct attribute *made = new_attribute(name, value, size);
    if (!made) return ENOMEM;
    made->next = old ? old->next : NULL;
    *place = made;
    attribute_free(old);
    node_changed(node);
    return 0;
}

void call_set_attribute(fuse_req_t req, fuse_ino_t id, const char *name, const char *value, size_t size, int flags) {
    struct node *node = call_begin(req, id, CALL_READS);
    if (node) fuse_reply_err(req, set(node, name, value, size, flags));
}

/* Replies with bytes, or if the kernel has no space for them yet with their number. */
static void reply(fuse_req_t req, const char *bytes, size_t len, size_t capacity) {
    if (capacity == 0)
        fuse_reply_xattr(req, len);
    else if (capacity < len)
        fuse_reply_err(req, ERANGE);
    else
        fuse_reply_buf(req, bytes, len);
}

void call_get_attribute(fuse_req_t req, fuse_ino_t id, const char *name, size_t size) {
    struct node *node = call_begin(req, id, CALL_READS);
    if (!node) return;
    const struct attribute *found = *place_of(node, name);
    if (found)
        reply(req, found->value, found->size, size);
    else
        fuse_reply_err(req, ENODATA);
}

void call_list_attributes(fuse_req_t req, fuse_ino_t id, size_t size) {
    struct node *node = call_begin(req, id, CALL_READS);
    if (!node) return;
    char names[BYTES_MOST];
    size_t used = 0;
    for (const struct attribute *at = node->attributes; at; at = at->next) {
        size_t len = strlen(at->name) + 1;
        memcpy(names + used, at->name, len);
        used += len;
    }
    reply(req, names, used, size);
}

void call_remove_attribute(fuse_req_t req, fuse_ino_t id, const char *name) {
    struct node *node = call_begin(req, id, CALL_READS);
    if (!node) return;
    struct attribute **place = place_of(node, name), *old = *place;
    if (old) {
        *place = old->next;
        attribute_free(old);
        node_changed(node);
    }
    fuse_reply_err(req, old ? 0 : ENODATA);
}
