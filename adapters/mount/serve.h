/* The loop of the daemon: one call at a time, so that their order is that of the layer's. */
#ifndef MOUNT_SERVE_H
#define MOUNT_SERVE_H

#include "layer.h"

#include <sys/types.h>

struct fuse_session;

/* Makes the loop call `ready` when a descriptor can be read. Returns 0 or a number of errno. */
int serve_watch(int fd, void (*ready)(int fd));
/* Ends that. Call it before the descriptor is closed. */
void serve_unwatch(int fd);

/* Serves calls of the kernel, and what is watched, until the end. Returns 0 or a number of errno. */
int serve(struct fuse_session *session);
/* Ends the loop. */
void serve_end(void);
/*
 * Ends the calls that wait with EIO, and crashes. Returns 0 or a number of errno.
 *
 * The kernel caches names, attributes and pages of the life before. To invalidate them it may wait for a call that this process is to
 * make, so a child process does it. After a crash this returns in both, with `child` 0 in the child, which only sends the reply.
 */
int serve_crash(struct disk_crash *crash, pid_t *child);

#endif
