/*
 * A session that is handed from thread to thread while another thread has a session of its own, and threads with forks of one session and
 * of files. It is for a checker of races, and ends with the status 1 if a call doesn't return what it should.
 */
#include "blobcrash_calls.h"
#include "blobcrash_files_calls.h"

#include <pthread.h>
#include <stdlib.h>

enum { TURNS = 8 };

static struct blobcrash_session handed;

static void want(bool holds) {
    if (!holds) exit(1);
}

/* One turn: a write that a crash keeps, and a line. */
static void turn(struct blobcrash_session *session) {
    size_t handle;
    uint8_t into[3];
    want(blobcrash_open_blob(session, "p", 1, "b", 1, &handle, NULL) == BLOBCRASH_DONE);
    want(blobcrash_write_at(session, handle, 0, "abc", 3) == BLOBCRASH_DONE);
    want(blobcrash_crash(session, NULL) == BLOBCRASH_DONE && blobcrash_kept_run(session, 0, 0).len == 3);
    want(blobcrash_line(session, "reopen") == BLOBCRASH_DONE);
    want(blobcrash_open_blob(session, "p", 1, "b", 1, &handle, NULL) == BLOBCRASH_DONE);
    want(blobcrash_read_at(session, handle, 0, into, 3) == BLOBCRASH_DONE && memcmp(into, "abc", 3) == 0);
    want(blobcrash_remove_blob(session, "p", 1, "b", 1) == BLOBCRASH_DONE);
}

static void begin(struct blobcrash_session *session) {
    static const char preamble[] = "seed 7\nconfig write 0 1 1 1 subset\n";
    want(blobcrash_open(session, (const uint8_t *)preamble, sizeof preamble - 1).status == BLOBCRASH_DONE);
}

static void *take_turn(void *unused) {
    turn(&handed);
    return unused;
}

static void *have_own(void *unused) {
    struct blobcrash_session own = {0};
    begin(&own);
    for (int i = 0; i < TURNS; i++) turn(&own);
    blobcrash_close(&own);
    return unused;
}

/* A thread with a fork: it writes pages of a blob that the session and its other fork have too. */
static void *have_fork(void *at) {
    struct blobcrash_session *own = at;
    size_t handle = 0;
    for (int i = 0; i < TURNS; i++) {
        want(blobcrash_write_at(own, handle, (uint64_t)i * 20000, "own", 3) == BLOBCRASH_DONE);
        want(blobcrash_sync(own, handle) == BLOBCRASH_DONE);
    }
    blobcrash_close(own);
    return NULL;
}

static void forks(void) {
    static uint8_t bytes[200000];
    struct blobcrash_session first = {0}, own[2] = {{0}, {0}};
    pthread_t threads[2];
    size_t handle;
    begin(&first);
    want(blobcrash_open_blob(&first, "p", 1, "b", 1, &handle, NULL) == BLOBCRASH_DONE && handle == 0);
    want(blobcrash_write_at(&first, handle, 0, bytes, sizeof bytes) == BLOBCRASH_DONE && blobcrash_sync(&first, handle) == BLOBCRASH_DONE);
    for (int i = 0; i < 2; i++) want(blobcrash_fork_session(&first, &own[i]) == BLOBCRASH_DONE);
    for (int i = 0; i < 2; i++) want(pthread_create(&threads[i], NULL, have_fork, &own[i]) == 0);
    for (int i = 0; i < 2; i++) want(pthread_join(threads[i], NULL) == 0);
    want(blobcrash_read_at(&first, handle, 0, bytes, 3) == BLOBCRASH_DONE && memcmp(bytes, "\0\0\0", 3) == 0);
    blobcrash_close(&first);
}

/* The same with a fork of files. */
static void *have_file_fork(void *at) {
    struct blobcrash_files *own = at;
    uint64_t file = 0;
    for (int i = 0; i < TURNS; i++) {
        want(blobcrash_file_write(own, file, (uint64_t)i * 20000, "own", 3) == BLOBCRASH_DONE);
        want(blobcrash_file_rename(own, i % 2 == 0 ? "/a" : "/b", i % 2 == 0 ? "/b" : "/a") == BLOBCRASH_DONE);
        want(blobcrash_file_sync(own, file) == BLOBCRASH_DONE);
    }
    want(blobcrash_files_crash(own, NULL, NULL) == BLOBCRASH_DONE && blobcrash_file_open(own, "/a", NULL) == BLOBCRASH_DONE);
    blobcrash_files_close(own);
    return NULL;
}

static void file_forks(void) {
    static uint8_t bytes[200000];
    struct blobcrash_files first = {0}, own[2] = {{0}, {0}};
    pthread_t threads[2];
    size_t found;
    want(blobcrash_files_open(&first, (const uint8_t *)"seed 7\n", 7).status == BLOBCRASH_DONE);
    want(blobcrash_file_create(&first, "/a", NULL) == BLOBCRASH_DONE);
    want(blobcrash_file_write(&first, 0, 0, bytes, sizeof bytes) == BLOBCRASH_DONE && blobcrash_files_settle(&first) == BLOBCRASH_DONE);
    for (int i = 0; i < 2; i++) want(blobcrash_files_fork(&first, &own[i]) == BLOBCRASH_DONE);
    for (int i = 0; i < 2; i++) want(pthread_create(&threads[i], NULL, have_file_fork, &own[i]) == 0);
    for (int i = 0; i < 2; i++) want(pthread_join(threads[i], NULL) == 0);
    want(blobcrash_file_read(&first, 0, 0, bytes, 3, &found) == BLOBCRASH_DONE && found == 3 && memcmp(bytes, "\0\0\0", 3) == 0);
    blobcrash_files_close(&first);
}

static void *close_it(void *unused) {
    blobcrash_close(&handed);
    return unused;
}

int main(void) {
    pthread_t other, next;
    want(pthread_create(&other, NULL, have_own, NULL) == 0);
    begin(&handed);
    for (int i = 0; i < TURNS; i++) {
        want(pthread_create(&next, NULL, i + 1 < TURNS ? take_turn : close_it, NULL) == 0 && pthread_join(next, NULL) == 0);
        if (i + 1 < TURNS) turn(&handed);
    }
    want(blobcrash_sync(&handed, 0) == BLOBCRASH_CLOSED);
    want(pthread_join(other, NULL) == 0);
    forks();
    file_forks();
    return 0;
}
