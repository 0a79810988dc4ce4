#define _GNU_SOURCE
#include "control.h"

#include "commands.h"
#include "serve.h"

#include <errno.h>
#include <stdbool.h>
#include <string.h>
#include <sys/socket.h>
#include <sys/stat.h>
#include <sys/un.h>
#include <unistd.h>

enum { CLIENTS = 64, LINE_MOST = 512 };

struct client {
    int fd;
    size_t len;
    char line[LINE_MOST];
};

static int listens = -1;
static struct sockaddr_un address = {.sun_family = AF_UNIX};
static struct client clients[CLIENTS];

/* Removes the socket of a daemon that has ended. */
static int clear_path(void) {
    struct stat there;
    if (lstat(address.sun_path, &there)) return errno == ENOENT ? 0 : errno;
    if (!S_ISSOCK(there.st_mode)) return EEXIST;
    int fd = socket(AF_UNIX, SOCK_STREAM | SOCK_CLOEXEC, 0);
    if (fd < 0) return errno;
    int is_used = connect(fd, (struct sockaddr *)&address, sizeof address) == 0;
    close(fd);
    if (is_used) return EADDRINUSE;
    return unlink(address.sun_path) ? errno : 0;
}

static void drop_client(struct client *client) {
    serve_unwatch(client->fd);
    close(client->fd);
    client->fd = -1;
    client->len = 0;
}

/* Adds the end of the line to a reply, and sends it. Returns whether that was possible without waiting. */
static bool send_reply(int fd, char *reply) {
    size_t len = strlen(reply);
    reply[len++] = '\n';
    return send(fd, reply, len, MSG_NOSIGNAL | MSG_DONTWAIT) == (ssize_t)len;
}

/* Makes the command of a line, and sends its reply. Returns whether that was possible. */
static bool answer(int fd, const char *line, size_t len) {
    char reply[LINE_MOST];
    pid_t owner = getpid(), child = 0;
    if (strlen(line) < len)
        strcpy(reply, "error: a line with a zero byte");
    else
        child = command_run(line, reply, sizeof reply - 1);
    bool is_sent = child != 0 || send_reply(fd, reply);
    if (getpid() != owner) _exit(0);
    return is_sent;
}

/* Makes the commands of the whole lines that a client has sent. A client that doesn't take its reply is dropped, with what it sent. */
static void answer_lines(struct client *client) {
    char *end;
    while ((end = memchr(client->line, '\n', client->len))) {
        *end = 0;
        if (!answer(client->fd, client->line, (size_t)(end - client->line))) {
            drop_client(client);
            return;
        }
        client->len -= (size_t)(end + 1 - client->line);
        memmove(client->line, end + 1, client->len);
    }
    if (client->len == LINE_MOST) drop_client(client);
}

static void hear(struct client *client) {
    ssize_t got = recv(client->fd, client->line + client->len, LINE_MOST - client->len, MSG_DONTWAIT);
    if (got < 0 && (errno == EAGAIN || errno == EINTR)) return;
    if (got <= 0) {
        drop_client(client);
        return;
    }
    client->len += (size_t)got;
    answer_lines(client);
}

static void hear_client(int fd) {
    for (int at = 0; at < CLIENTS; at++)
        if (clients[at].fd == fd) hear(&clients[at]);
}

/* Takes a new client. If there are too many, says so to it. */
static void take_client(int from) {
    char refusal[] = "error: all connections to the daemon are in use\n";
    int fd = accept4(from, NULL, NULL, SOCK_CLOEXEC | SOCK_NONBLOCK);
    if (fd < 0) return;
    for (int at = 0; at < CLIENTS; at++) {
        if (clients[at].fd >= 0) continue;
        if (serve_watch(fd, hear_client)) break;
        clients[at].fd = fd;
        return;
    }
    send(fd, refusal, sizeof refusal - 1, MSG_NOSIGNAL | MSG_DONTWAIT);
    close(fd);
}

int control_begin(const char *path) {
    for (int at = 0; at < CLIENTS; at++) clients[at].fd = -1;
    if (strlen(path) >= sizeof address.sun_path) return ENAMETOOLONG;
    memcpy(address.sun_path, path, strlen(path) + 1);
    int error = clear_path();
    if (error) return error;
    listens = socket(AF_UNIX, SOCK_STREAM | SOCK_CLOEXEC | SOCK_NONBLOCK, 0);
    if (listens < 0) return errno;
    mode_t mask = umask(0177);
    if (bind(listens, (struct sockaddr *)&address, sizeof address) || listen(listens, CLIENTS)) error = errno;
    umask(mask);
    return error ? error : serve_watch(listens, take_client);
}

void control_end(void) {
    for (int at = 0; at < CLIENTS; at++)
        if (clients[at].fd >= 0) close(clients[at].fd);
    close(listens);
    unlink(address.sun_path);
}
