/* The control socket: a line each way. It is its owner's alone. */
#ifndef MOUNT_CONTROL_H
#define MOUNT_CONTROL_H

/* Opens the socket. Returns 0 or a number of errno: EADDRINUSE if another daemon uses it, EEXIST if the path isn't a socket's. */
int control_begin(const char *path);
void control_end(void);

#endif
