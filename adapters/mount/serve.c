#include "serve.h"

#include "acknowledged.h"
#include "cached.h"
#include "calls.h"
#include "power.h"

#include <errno.h>
#include <fcntl.h>
#include <poll.h>
#include <signal.h>
#include <sys/epoll.h>
#include <sys/prctl.h>
#include <unistd.h>

enum {
    ENDED_MOST = 1 << 16, /* calls that a crash ends. A program that goes on after a power loss may make calls without end */
    WATCHED_MOST = 128,
    READY_MOST = 8
};

static struct fuse_session *session;
static int events = -1;
static struct watched {
    int fd;
    void (*ready)(int fd);
} watched[WATCHED_MOST];
static size_t watched_count;

int serve_watch(int fd, void (*ready)(int fd)) {
    struct epoll_event event = {.events = EPOLLIN, .data.fd = fd};
    if (events < 0 && (events = epoll_create1(EPOLL_CLOEXEC)) < 0) return errno;
    if (watched_count == WATCHED_MOST) return EMFILE;
    if (epoll_ctl(events, EPOLL_CTL_ADD, fd, &event)) return errno;
    watched[watched_count++] = (struct watched){fd, ready};
    return 0;
}

void serve_unwatch(int fd) {
    epoll_ctl(events, EPOLL_CTL_DEL, fd, NULL);
    for (size_t at = 0; at < watched_count; at++) {
        if (watched[at].fd != fd) continue;
        watched[at] = watched[--watched_count];
        return;
    }
}

static void call_ready(int fd) {
    for (size_t at = 0; at < watched_count; at++) {
        if (watched[at].fd != fd) continue;
        watched[at].ready(fd);
        return;
    }
}

/* Makes one call of the kernel, if one waits. */
static void take_call(void) {
    static struct fuse_buf buffer; /* the library allocates it once */
    if (fuse_session_receive_buf(session, &buffer) > 0) fuse_session_process_buf(session, &buffer);
}

/* An acknowledgement before the call may switch the power off: then the call waits. */
static void take_call_of(int fd) {
    (void)fd;
    bool was_off = power.is_off;
    acknowledged_look();
    if (was_off || !power.is_off) take_call();
}

/* While the power is off no call is taken. An unmount is reported all the same. */
static void follow_power(void) {
    static bool is_off;
    if (is_off == power.is_off) return;
    is_off = power.is_off;
    int fd = fuse_session_fd(session);
    struct epoll_event event = {.events = is_off ? 0 : EPOLLIN, .data.fd = fd};
    epoll_ctl(events, EPOLL_CTL_MOD, fd, &event);
}

/* Ends the calls that wait. */
static void end_calls(void) {
    struct pollfd wait = {.fd = fuse_session_fd(session), .events = POLLIN};
    power.is_off = power.is_ending = true;
    for (int ended = 0; ended < ENDED_MOST && !fuse_session_exited(session) && poll(&wait, 1, 0) > 0; ended++) take_call();
}

/* Crashes, and lists what the kernel keeps before and after. */
static int crash_between(struct disk_crash *crash, struct cached *before, struct cached *after) {
    int error = cached_list(before);
    if (!error) error = power_crash(crash);
    if (!error) error = cached_list(after);
    return error;
}

int serve_crash(struct disk_crash *crash, pid_t *child) {
    struct cached before = {0}, after = {0};
    end_calls();
    int error = crash_between(crash, &before, &after);
    if (!error) {
        *child = fork();
        if (*child < 0) error = errno;
        if (*child == 0 && prctl(PR_SET_PDEATHSIG, SIGKILL) == 0) cached_forget(session, &before, &after);
    }
    cached_free(&before);
    cached_free(&after);
    return error;
}

void serve_end(void) { fuse_session_exit(session); }

/* A killed program may take its call back before it is read. */
static int do_not_block(int fd) {
    int flags = fcntl(fd, F_GETFL);
    return flags < 0 || fcntl(fd, F_SETFL, flags | O_NONBLOCK) < 0 ? errno : 0;
}

int serve(struct fuse_session *mounted) {
    session = mounted;
    signal(SIGCHLD, SIG_IGN); /* no child is waited for */
    int error = do_not_block(fuse_session_fd(session));
    if (!error) error = serve_watch(fuse_session_fd(session), take_call_of);
    while (!error && !fuse_session_exited(session)) {
        struct epoll_event ready[READY_MOST];
        follow_power();
        int count = epoll_wait(events, ready, READY_MOST, -1);
        if (count < 0 && errno != EINTR) error = errno;
        for (int at = 0; at < count; at++) {
            /* A command before it may have switched the power off. */
            if (ready[at].data.fd != fuse_session_fd(session) || !power.is_off || ready[at].events & EPOLLERR)
                call_ready(ready[at].data.fd);
        }
    }
    return error;
}
