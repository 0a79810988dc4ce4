/* Calls that are to fail: the n-th open, write or sync of a path. The layer doesn't see them, so they change nothing. */
#ifndef MOUNT_FAILING_H
#define MOUNT_FAILING_H

#include "nodes.h"

enum failing_call { FAILING_OPEN, FAILING_WRITE, FAILING_SYNC };
enum { FAILING_PARTS_MOST = 32 };

/* The parts of a write, with their sizes, or equal ones if the first is 0. A crash keeps those that `kept` has a bit of. */
struct failing_parts {
    size_t count;
    uint64_t sizes[FAILING_PARTS_MOST];
    uint32_t kept;
};

/*
 * Takes `PATH CALL N ERROR`: an absolute path of the mount, `open`, `write` or `sync`, which of these calls from now on, and the name of an
 * error, or `off`: the power goes off after that call, which is made. Returns 0, EINVAL, or ENOBUFS if there are too many.
 */
int failing_set(const char *text);
/*
 * The power goes off before or after the next such call on a path in which this regular expression is found. A call before which it goes off
 * fails with EIO. Returns as failing_set.
 */
int failing_crash(const char *pattern, enum failing_call call, bool is_before);
/* The power goes off in the n-th write of a path, of which these parts are made; it fails with EIO. Returns as failing_set. */
int failing_torn(const char *path, uint64_t number, const struct failing_parts *parts);
/* Takes all back. Prints the numbers of those that were never due: they count from 1, in the order in which they were set. */
void failing_end(char *reply, size_t capacity);
/* Counts a call on a node. Returns the error with which it is to fail, or 0. */
int failing_error(const struct node *node, enum failing_call call);
/* Returns the parts of the write for which failing_error returned an error, or NULL if nothing of it is to be made. */
const struct failing_parts *failing_write(void);
/* The same of an open that makes a file of this name. */
int failing_create_error(const struct node *directory, const char *name);

#endif
