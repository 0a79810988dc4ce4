/*
 * A run that forks at a crash, and what a fork has of the session. It prints each check that fails, and ends with the status 1 if there
 * is one.
 */
#include "blobcrash.h"

static void on_line(struct blobcrash_session *session, const char *line, size_t len);
#define BLOBCRASH_ON_LINE on_line
#include "fork.h"

#include <stdio.h>

static int failed;
static struct blobcrash_session session;
static struct blobcrash_script script;

#define CHECK(holds) ((holds) ? (void)0 : (void)(failed = printf("line %d: %s\n", __LINE__, #holds)))

/* The calls of `session` alone. */
static void on_line(struct blobcrash_session *of, const char *line, size_t len) {
    if (of == &session) blobcrash_add_line(&script, of, line, len);
}

static bool has_digest_of(struct blobcrash_session *one, struct blobcrash_session *other) {
    uint8_t a[4], b[4];
    CHECK(blobcrash_audit(one, a, 4).status == BLOBCRASH_DONE && blobcrash_audit(other, b, 4).status == BLOBCRASH_DONE);
    return memcmp(a, b, 4) == 0;
}

static bool reads(struct blobcrash_session *of, size_t handle, const char *bytes) {
    uint8_t into[8];
    size_t len = strlen(bytes);
    return blobcrash_read_at(of, handle, 0, into, len) == BLOBCRASH_DONE && memcmp(into, bytes, len) == 0;
}

static void a_fork_has_the_same_state(void) {
    static const char preamble[] = "image p 61 43574943000000006f6c64\nseed 7\nconfig write 1 4 1 2 subset\nconfig sync 1 4\n";
    struct blobcrash_session fork = {0}, second = {0};
    struct blobcrash_script copy = {0};
    size_t handle = 9, number = 9, kept = 0, again = 0;
    CHECK(blobcrash_open_recorded(&session, &script, preamble, sizeof preamble - 1).status == BLOBCRASH_DONE);
    CHECK(blobcrash_open_blob(&session, "p", 1, "a", 1, &handle, NULL) == BLOBCRASH_DONE);
    while (blobcrash_write_at(&session, handle, 0, "new", 3) != BLOBCRASH_DONE) {}
    CHECK(blobcrash_start_sync(&session, handle, &number) == BLOBCRASH_DONE);
    CHECK(blobcrash_write_at(&session, 5, 0, "x", 1) == BLOBCRASH_E_NO_HANDLE);
    for (int i = 0; i < 64; i++) blobcrash_write_at(&session, handle, 8 * (uint64_t)i, "abcdefgh", 8);
    CHECK(blobcrash_fork(&script, &fork, &copy) == BLOBCRASH_DONE);
    /* The handle, the sync, what is pending and the rest of the words. */
    CHECK(has_digest_of(&session, &fork) && reads(&fork, handle, "abcdefgh"));
    CHECK(blobcrash_finish(&session, number) == blobcrash_finish(&fork, number));
    CHECK(blobcrash_crash(&session, &kept) == BLOBCRASH_DONE && blobcrash_crash(&fork, &again) == BLOBCRASH_DONE);
    CHECK(kept > 8 && kept == again && has_digest_of(&session, &fork));
    /* From here on the two share nothing. */
    CHECK(blobcrash_remove_partition(&session, "p", 1) == BLOBCRASH_DONE && !has_digest_of(&session, &fork));
    CHECK(blobcrash_reopen(&fork) == BLOBCRASH_DONE && blobcrash_open_blob(&fork, "p", 1, "a", 1, &handle, NULL) == BLOBCRASH_DONE);
    /* The copy is the script at the fork, and a fork of it has no later call. */
    CHECK(copy.len < script.len && blobcrash_fork(&copy, &second, NULL) == BLOBCRASH_DONE);
    CHECK(reads(&second, 0, "abcdefgh") && blobcrash_size(&second, 1, NULL) == BLOBCRASH_E_NO_HANDLE);
    blobcrash_free_script(&copy);
    blobcrash_close(&second);
    blobcrash_close(&fork);
    blobcrash_close(&session);
}

static void refusals(void) {
    struct blobcrash_session fork = {0};
    struct blobcrash_script none = {0}, copy = {0};
    CHECK(blobcrash_fork(&none, &fork, NULL) == BLOBCRASH_NO_MEMORY && blobcrash_last(&fork).status == BLOBCRASH_CLOSED);
    CHECK(blobcrash_open_recorded(&session, &script, "frob", 4).status == BLOBCRASH_BAD_LINE && script.len > 0);
    CHECK(blobcrash_open_recorded(&session, &script, NULL, 0).status == BLOBCRASH_DONE && script.len == script.calls);
    CHECK(blobcrash_fork(&script, &fork, &copy) == BLOBCRASH_DONE && copy.len == script.len);
    blobcrash_free_script(&copy);
    /* A line that couldn't be allocated, and lengths that can't be had. */
    blobcrash_add_line(&script, &session, NULL, 0);
    CHECK(script.is_short && blobcrash_fork(&script, &fork, &copy) == BLOBCRASH_NO_MEMORY);
    CHECK(copy.text == NULL && blobcrash_last(&fork).status == BLOBCRASH_CLOSED);
    CHECK(blobcrash_open_recorded(&session, &script, "", 0).status == BLOBCRASH_DONE && !script.is_short);
    blobcrash_add_line(&script, &session, "crash", SIZE_MAX);
    CHECK(script.is_short);
    blobcrash_free_script(&script);
    CHECK(script.text == NULL && !script.is_short);
    blobcrash_close(&session);
}

int main(void) {
    a_fork_has_the_same_state();
    refusals();
    return failed != 0;
}
