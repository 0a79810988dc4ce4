#define _GNU_SOURCE
#include "outside.h"

#include <fcntl.h>
#include <limits.h>
#include <stdio.h>
#include <string.h>
#include <sys/stat.h>
#include <unistd.h>

enum { LINKS_MOST = 40, REST_MOST = 2 * PATH_MAX };

/* A place on a path, and what comes after it. */
struct walk {
    int at;
    int links;
    char rest[REST_MOST];
};

/* Looks at a file as the kernel knows it, without a call. */
static bool look(int fd, const char *path, struct statx *found) {
    return statx(fd, path, AT_EMPTY_PATH | AT_STATX_DONT_SYNC, STATX_TYPE, found) == 0;
}

/* Replaces the place. */
static void go(struct walk *walk, int fd) {
    if (walk->at >= 0) close(walk->at);
    walk->at = fd;
}

/* Takes the next name from the path. Returns whether there is one. */
static bool take_name(struct walk *walk, char *name) {
    char *from = walk->rest + strspn(walk->rest, "/");
    size_t len = strcspn(from, "/");
    if (len == 0 || len > NAME_MAX) return false;
    memcpy(name, from, len);
    name[len] = 0;
    memmove(walk->rest, from + len, strlen(from + len) + 1);
    return true;
}

/* Puts the target of a link before the rest of the path. Returns whether it is followed. */
static bool follow(struct walk *walk, int link) {
    char target[PATH_MAX], rest[REST_MOST];
    ssize_t len = readlinkat(link, "", target, sizeof target - 1);
    if (len <= 0 || ++walk->links > LINKS_MOST) return false;
    target[len] = 0;
    if ((size_t)snprintf(rest, sizeof rest, "%s%s", target, walk->rest) >= sizeof rest) return false;
    memcpy(walk->rest, rest, sizeof rest);
    if (*target == '/') go(walk, open("/", O_PATH | O_CLOEXEC));
    return walk->at >= 0;
}

/* Goes on by one name. Returns whether there is more to look at. */
static bool step(struct walk *walk) {
    char name[NAME_MAX + 1];
    struct statx found;
    if (!take_name(walk, name)) return false;
    int next = openat(walk->at, name, O_PATH | O_NOFOLLOW | O_CLOEXEC);
    if (next < 0) return false;
    if (look(next, "", &found) && S_ISLNK(found.stx_mode)) {
        bool is_followed = follow(walk, next);
        close(next);
        return is_followed;
    }
    go(walk, next);
    return true;
}

bool leads_to_mount(const char *path, const char *mount) {
    struct walk walk = {.at = open("/", O_PATH | O_CLOEXEC)};
    struct statx of_mount, found;
    bool is_on = false;
    if (walk.at < 0 || !look(AT_FDCWD, mount, &of_mount) || strlen(path) >= sizeof walk.rest) return false;
    strcpy(walk.rest, path);
    do
        is_on = look(walk.at, "", &found) && found.stx_dev_major == of_mount.stx_dev_major && found.stx_dev_minor == of_mount.stx_dev_minor;
    while (!is_on && step(&walk));
    go(&walk, -1);
    return is_on;
}
