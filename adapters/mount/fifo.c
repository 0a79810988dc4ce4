#define _GNU_SOURCE
#include "fifo.h"

#include "commands.h"
#include "lazy.h"
#include "nodes.h"
#include "serve.h"

#include <errno.h>
#include <fcntl.h>
#include <inttypes.h>
#include <limits.h>
#include <stdbool.h>
#include <stdio.h>
#include <string.h>
#include <sys/stat.h>
#include <unistd.h>

enum { LINE_MOST = 512 };

static const char prefix[] = "lazyfs::";
static const char *paths[2];
static int commands = -1, completed = -1;
static FILE *log_file;
static char line[LINE_MOST];
static size_t line_len;
static bool is_too_long; /* the line: its rest is no command */

static void report_node(const struct node *node, void *count) {
    char path[PATH_MAX];
    if (node->unsynced == 0) return;
    ++*(uint64_t *)count;
    if (!node_path(node, path, sizeof path)) strcpy(path, "(no name)");
    fprintf(log_file, "unsynced: inode %" PRIu64 " %s %" PRIu64 " bytes\n", node->inode, path, node->unsynced);
}

static void report(void) {
    uint64_t count = 0;
    nodes_visit(report_node, &count);
    fprintf(log_file,
            "unsynced: %" PRIu64 " files, %" PRIu64 " bytes, %" PRIu64 " changes of names and truncations since the last commit\n",
            count, node_counts.unsynced, node_counts.changes);
}

/* Makes a command. Returns the process that is to report it, as command_run. */
static pid_t run(const char *command) {
    char reply[LINE_MOST] = "ok";
    pid_t child = 0;
    int error = is_lazy_fault(command) ? lazy_fault(command) : 0;
    if (!strcmp(command, "clear-cache")) child = command_run("crash", reply, sizeof reply);
    else if (!strcmp(command, "cache-checkpoint")) child = command_run("settle", reply, sizeof reply);
    else if (!strcmp(command, "unsynced-data-report")) report();
    else if (!strcmp(command, "display-cache-usage")) fprintf(log_file, "unsynced: %" PRIu64 " bytes\n", node_counts.unsynced);
    else if (!strcmp(command, "help"))
        fputs("commands: clear-cache cache-checkpoint crash torn-op unsynced-data-report display-cache-usage help, each after lazyfs::\n", log_file);
    else if (error) snprintf(reply, sizeof reply, "error: %s", strerror(error));
    else if (!is_lazy_fault(command)) snprintf(reply, sizeof reply, "error: no such command");
    if (child == 0) fprintf(log_file, "%s%s: %s\n", prefix, command, reply);
    fflush(log_file);
    return child;
}

/* Makes the command of a line, and says that it is done. */
static void take_line(const char *text, size_t len) {
    char done[LINE_MOST + 16];
    pid_t owner = getpid();
    bool is_command = !is_too_long && strlen(text) == len && strncmp(text, prefix, sizeof prefix - 1) == 0;
    if (!is_command) {
        fprintf(log_file, "not a command: %s%s\n", is_too_long ? ".." : "", text);
        fflush(log_file);
        return;
    }
    const char *command = text + sizeof prefix - 1;
    if (run(command) == 0 && completed >= 0) {
        int len = snprintf(done, sizeof done, "finished::%s\n", command);
        /* Nobody need read it. */
        if (write(completed, done, (size_t)len) < 0) fputs("the fifo of what is completed is full\n", log_file);
    }
    if (getpid() != owner) _exit(0);
}

static void hear_line(int fd) {
    ssize_t got = read(fd, line + line_len, sizeof line - line_len);
    if (got <= 0) return;
    line_len += (size_t)got;
    for (char *end; (end = memchr(line, '\n', line_len));) {
        size_t used = (size_t)(end + 1 - line);
        *end = 0;
        take_line(line, used - 1);
        is_too_long = false;
        line_len -= used;
        memmove(line, line + used, line_len);
    }
    if (line_len == sizeof line) {
        is_too_long = true;
        line_len = 0;
    }
}

/* Makes a fifo and opens it, for both directions, so that neither end waits for the other. A fifo of an earlier daemon is replaced. */
static int make_fifo(const char *path, int *fd) {
    struct stat there;
    if (lstat(path, &there) == 0) {
        if (!S_ISFIFO(there.st_mode)) return EEXIST;
        int used = open(path, O_WRONLY | O_NONBLOCK | O_CLOEXEC | O_NOFOLLOW);
        if (used >= 0) {
            close(used);
            return EADDRINUSE;
        }
        if (unlink(path)) return errno;
    }
    if (mkfifo(path, 0600)) return errno;
    *fd = open(path, O_RDWR | O_NONBLOCK | O_CLOEXEC | O_NOFOLLOW);
    return *fd < 0 ? errno : 0;
}

int fifo_begin(const char *commands_path, const char *completed_path, const char *log_path) {
    log_file = log_path ? fopen(log_path, "ae") : stderr;
    if (!log_file) return errno;
    int error = make_fifo(commands_path, &commands);
    if (error) return error;
    paths[0] = commands_path;
    if (completed_path) {
        error = make_fifo(completed_path, &completed);
        if (error) return error;
        paths[1] = completed_path;
    }
    return serve_watch(commands, hear_line);
}

void fifo_end(void) {
    for (int at = 0; at < 2; at++)
        if (paths[at]) unlink(paths[at]);
}
