/* The commands of the control socket and of the fifo. */
#ifndef MOUNT_COMMANDS_H
#define MOUNT_COMMANDS_H

#include <stddef.h>
#include <sys/types.h>

/* Says where the layer is mounted. */
void commands_mounted_on(const char *directory);

/*
 * Makes the command of a line, and writes its reply, without a line feed: `ok` with what there is to say, or `error:` and why.
 *
 * Returns the process that is to send the reply: 0 for this one. After a crash that is a child process, in which this returns too:
 * it sends the reply and ends.
 */
pid_t command_run(const char *line, char *reply, size_t capacity);

#endif
