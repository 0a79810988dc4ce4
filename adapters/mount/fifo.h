/*
 * The fifo of LazyFS, for harnesses written for it. Each line of it is a command:
 *
 *   lazyfs::clear-cache            a crash: what no sync made durable is lost as the profile says
 *   lazyfs::cache-checkpoint       makes everything durable
 *   lazyfs::unsynced-data-report   writes to the log how many unsynced bytes each file has
 *   lazyfs::display-cache-usage    writes to the log how many bytes are unsynced
 *   lazyfs::help                   writes the commands to the log
 *   lazyfs::crash.., torn-op..     the power goes off at a call: lazy.h
 *
 * After each command `finished::` and its name go to the other fifo, if there is one.
 */
#ifndef MOUNT_FIFO_H
#define MOUNT_FIFO_H

/*
 * Makes the fifos, with mode 0600, and opens the log. The last two may be NULL. Returns 0 or a number of errno: EEXIST if the path is
 * another file's, EADDRINUSE if another daemon uses it.
 */
int fifo_begin(const char *commands, const char *completed, const char *log);
/* Removes the fifos. */
void fifo_end(void);

#endif
