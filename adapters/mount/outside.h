/* Paths that the daemon opens itself. */
#ifndef MOUNT_OUTSIDE_H
#define MOUNT_OUTSIDE_H

#include <stdbool.h>

/*
 * Returns whether a path leads to the mount of this folder, or through it, also by symbolic links: the daemon would wait for itself. Makes
 * no call on the mount. An absolute path.
 */
bool leads_to_mount(const char *path, const char *mount);

#endif
