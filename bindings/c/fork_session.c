/*
 * Forks of a session by blobcrash_fork_session: the same state, independence, hostile arguments, and each allocation refused in turn. It is
 * linked with `-Wl,--wrap=malloc,--wrap=realloc`. It prints each check that fails, and ends with the status 1 if there is one.
 */
#include "blobcrash_calls.h"
#include "checks.h"
#include "memory_checks.h"

/* Half of the pending bytes survive a crash, and a fourth of the syncs fails. */
static const char preamble[] = "image p 61 43574943000000006f6c64\nseed 7\nconfig write 1 8 1 2 subset\nconfig sync 1 4\n";
static struct blobcrash_session session;
static size_t small, large, started;

enum { LARGE = 100000 };
static uint8_t bytes[LARGE];

static void write_until_done(size_t handle, uint64_t offset, size_t len) {
    while (blobcrash_write_at(&session, handle, offset, bytes, len) != BLOBCRASH_DONE) {}
}

/* Opens the session, with a small and a large blob, pending writes, a started sync and a handle that is closed. */
static void begin(void) {
    memset(bytes, 'a', sizeof bytes);
    CHECK(blobcrash_open(&session, TEXT(preamble)).status == BLOBCRASH_DONE);
    CHECK(blobcrash_open_blob(&session, "p", 1, "a", 1, &small, NULL) == BLOBCRASH_DONE);
    CHECK(blobcrash_close_blob(&session, small) == BLOBCRASH_DONE);
    CHECK(blobcrash_open_blob(&session, "p", 1, "a", 1, &small, NULL) == BLOBCRASH_DONE && small == 1);
    CHECK(blobcrash_open_blob(&session, "p", 1, "b", 1, &large, NULL) == BLOBCRASH_DONE && large == 2);
    write_until_done(large, 0, LARGE);
    while (blobcrash_sync(&session, large) != BLOBCRASH_DONE) {}
    memset(bytes, 'b', sizeof bytes);
    write_until_done(small, 1, 64);
    CHECK(blobcrash_start_sync(&session, small, &started) == BLOBCRASH_DONE);
    write_until_done(small, 9, 64);
    write_until_done(large, 40000, 64);
}

/* Whether two sessions have replied alike to the last call. */
static bool replied_alike(struct blobcrash_session *one, struct blobcrash_session *other) {
    uint8_t a[4096], b[4096];
    struct blobcrash_ran said = blobcrash_reply(one, a, sizeof a), again = blobcrash_reply(other, b, sizeof b);
    CHECK(said.status == BLOBCRASH_DONE && again.status == BLOBCRASH_DONE);
    return said.len == again.len && memcmp(a, b, said.len) == 0;
}

static bool has_digest_of(struct blobcrash_session *one, struct blobcrash_session *other) {
    uint8_t a[4], b[4];
    CHECK(blobcrash_audit(one, a, 4).status == BLOBCRASH_DONE && blobcrash_audit(other, b, 4).status == BLOBCRASH_DONE);
    return memcmp(a, b, 4) == 0;
}

/* The calls after a fork, a line each. */
static const char *const later[] = {
    "size 1", "read 1 0 73", "read 0 0 1", "read 2 39990 80", "finish 0", "write 2 99999 6363", "sync 1", "scan p", "startsync 2",
    "open p 62", "crash", "reopen", "finish 1", "open p 61", "open p 63", "read 3 0 40", "writes 4 2 6464", "scan p", "close 3",
    "remove p 61", "crash", "remove q",
};

static void a_fork_has_the_same_state(void) {
    struct blobcrash_session fork = {0}, second = {0};
    begin();
    CHECK(blobcrash_fork_session(&session, &fork) == BLOBCRASH_DONE && replied_alike(&session, &fork) && has_digest_of(&session, &fork));
    for (size_t i = 0; i < sizeof later / sizeof *later; i++) {
        /* A fork of a fork is one of the session. */
        if (i % 3 == 0) CHECK(blobcrash_fork_session(&fork, &second) == BLOBCRASH_DONE && replied_alike(&fork, &second));
        uint32_t status = blobcrash_line(&session, later[i]);
        check(blobcrash_line(&fork, later[i]) == status && replied_alike(&session, &fork), later[i], (int)i);
        check(blobcrash_line(&second, later[i]) == status && replied_alike(&session, &second), later[i], (int)i);
        CHECK(has_digest_of(&session, &fork) && has_digest_of(&session, &second));
        if (i % 3 == 2) blobcrash_close(&second);
    }
    blobcrash_close(&second);
    blobcrash_close(&fork);
    blobcrash_close(&session);
}

static void two_share_no_change(void) {
    struct blobcrash_session fork = {0};
    uint8_t into[2];
    begin();
    CHECK(blobcrash_fork_session(&session, &fork) == BLOBCRASH_DONE);
    /* On a page that both have, and in what is pending. */
    write_until_done(large, 0, 2);
    CHECK(blobcrash_read_at(&session, large, 0, into, 2) == BLOBCRASH_DONE && memcmp(into, "bb", 2) == 0);
    CHECK(blobcrash_read_at(&fork, large, 0, into, 2) == BLOBCRASH_DONE && memcmp(into, "aa", 2) == 0);
    CHECK(blobcrash_remove_partition(&fork, "p", 1) == BLOBCRASH_DONE && !has_digest_of(&session, &fork));
    CHECK(blobcrash_scan(&session, "p", 1, NULL) == BLOBCRASH_DONE);
    /* The first may be closed first. */
    blobcrash_close(&session);
    CHECK(blobcrash_reopen(&fork) == BLOBCRASH_DONE && blobcrash_open_blob(&fork, "p", 1, "a", 1, NULL, NULL) == BLOBCRASH_DONE);
    blobcrash_close(&fork);
}

/* The settings, the words that were pushed, the power and the registry. */
static void what_else_a_fork_has(void) {
    const struct blobcrash_debt_call admit = {BLOBCRASH_DEBT_ADMIT, BLOBCRASH_DONE, 0, true};
    const uint64_t words[] = {0, UINT64_MAX, 5};
    struct blobcrash_session fork = {0};
    size_t handle;
    CHECK(blobcrash_open(&session, TEXT("config write 0 1 1 2 subset\n")).status == BLOBCRASH_DONE);
    CHECK(blobcrash_open_blob(&session, "p", 1, "b", 1, &handle, NULL) == BLOBCRASH_DONE);
    CHECK(blobcrash_write_at(&session, handle, 0, "ab", 2) == BLOBCRASH_DONE);
    CHECK(blobcrash_push_words(&session, words, 3) == BLOBCRASH_DONE && blobcrash_power_off_after(&session, 2) == BLOBCRASH_DONE);
    CHECK(blobcrash_debt(&session, &admit, TEXT("p"), TEXT("b")).status == BLOBCRASH_DONE);
    CHECK(blobcrash_fork_session(&session, &fork) == BLOBCRASH_DONE);
    CHECK(blobcrash_words_left(&fork).len == 3 && blobcrash_power(&fork).left == 2);
    CHECK(blobcrash_debt(&session, &admit, TEXT("p"), TEXT("b")).status == BLOBCRASH_E_BLOB_ALREADY_OPEN);
    CHECK(blobcrash_debt(&fork, &admit, TEXT("p"), TEXT("b")).status == BLOBCRASH_DONE);
    CHECK(blobcrash_sync(&session, handle) == BLOBCRASH_DONE && blobcrash_sync(&session, handle) == BLOBCRASH_DONE);
    CHECK(blobcrash_sync(&session, handle) == BLOBCRASH_POWER_LOSS && blobcrash_power(&fork).left == 2);
    CHECK(blobcrash_crash(&fork, NULL) == BLOBCRASH_DONE && blobcrash_words_left(&fork).len == 1);
    CHECK(blobcrash_kept_run(&fork, 0, 0).start == 0 && blobcrash_kept_run(&fork, 0, 0).len == 1 && blobcrash_words_left(&session).len == 3);
    blobcrash_close(&fork);
    /* A setting that is added to those before it. */
    CHECK(blobcrash_power_on(&session) == BLOBCRASH_DONE && blobcrash_fork_session(&session, &fork) == BLOBCRASH_DONE);
    CHECK(blobcrash_line(&fork, "config read 1 1") == BLOBCRASH_DONE && blobcrash_write_at(&fork, handle, 0, "cd", 2) == BLOBCRASH_DONE);
    CHECK(blobcrash_crash(&fork, NULL) == BLOBCRASH_DONE && blobcrash_kept_run(&fork, 0, 0).len == 1);
    blobcrash_close(&fork);
    blobcrash_close(&session);
}

static void hostile_arguments(void) {
    struct blobcrash_session fork = {0}, other = {0};
    CHECK(blobcrash_fork_session(&session, &fork) == BLOBCRASH_CLOSED && blobcrash_last(&fork).status == BLOBCRASH_CLOSED);
    CHECK(blobcrash_fork_session(&session, &session) == BLOBCRASH_CLOSED);
    CHECK(blobcrash_open(&other, TEXT("image p 61 00")).status == BLOBCRASH_DONE);
    /* An open session isn't ended, also if there is nothing to fork. */
    CHECK(blobcrash_fork_session(&session, &other) == BLOBCRASH_BAD_CALL && blobcrash_scan(&other, "p", 1, NULL) == BLOBCRASH_DONE);
    CHECK(blobcrash_fork_session(&other, &other) == BLOBCRASH_BAD_CALL && blobcrash_scan(&other, "p", 1, NULL) == BLOBCRASH_DONE);
    begin();
    CHECK(blobcrash_fork_session(&session, &other) == BLOBCRASH_BAD_CALL && !has_digest_of(&session, &other));
    blobcrash_close(&other);
    CHECK(blobcrash_fork_session(&session, &other) == BLOBCRASH_DONE && has_digest_of(&session, &other));
    blobcrash_close(&session);
    CHECK(blobcrash_fork_session(&session, &other) == BLOBCRASH_BAD_CALL && blobcrash_fork_session(&other, &session) == BLOBCRASH_DONE);
    blobcrash_close(&session);
    blobcrash_close(&other);
}

/* Replies of each kind are copied: after a line a fork repeats it. */
static void each_reply_is_copied(void) {
    static const char *const lines[] = {"size 1", "read 1 0 9", "read 9 0 9", "scan p", "scan q", "startsync 1", "open p 61", "open p 64 2 1",
                                        "open - 64", "loose p 64", "remove p 7a", "write 1 18446744073709551615 6162", "crash", "close 1"};
    begin();
    for (size_t i = 0; i < sizeof lines / sizeof *lines; i++) {
        struct blobcrash_session fork = {0};
        blobcrash_line(&session, lines[i]);
        check(blobcrash_fork_session(&session, &fork) == BLOBCRASH_DONE && replied_alike(&session, &fork), lines[i], (int)i);
        struct blobcrash_typed_reply one = blobcrash_last(&session), other = blobcrash_last(&fork);
        CHECK(one.status == other.status && one.number == other.number && one.size == other.size && one.version == other.version);
        blobcrash_close(&fork);
    }
    blobcrash_close(&session);
}

/* Forks after a reply; each allocation is refused in turn. */
static void refused_after(const char *line) {
    struct blobcrash_session fork = {0}, whole = {0};
    unsigned long nth = 1;
    begin();
    blobcrash_line(&session, line);
    CHECK(blobcrash_fork_session(&session, &whole) == BLOBCRASH_DONE);
    for (;; nth++) {
        until_refused = nth;
        uint32_t status = blobcrash_fork_session(&session, &fork);
        bool was_refused = until_refused == 0;
        until_refused = 0;
        if (!was_refused) {
            CHECK(status == BLOBCRASH_DONE && replied_alike(&fork, &whole));
            break;
        }
        CHECK(status == BLOBCRASH_NO_MEMORY && blobcrash_last(&fork).status == BLOBCRASH_CLOSED && replied_alike(&session, &whole));
    }
    CHECK(nth > 10);
    /* The session is as if it hadn't been asked. */
    for (size_t i = 0; i < sizeof later / sizeof *later; i++) {
        uint32_t status = blobcrash_line(&session, later[i]);
        CHECK(blobcrash_line(&whole, later[i]) == status && replied_alike(&session, &whole));
    }
    blobcrash_close(&fork);
    blobcrash_close(&whole);
    blobcrash_close(&session);
}

int main(void) {
    hostile_arguments();
    a_fork_has_the_same_state();
    two_share_no_change();
    what_else_a_fork_has();
    each_reply_is_copied();
    refused_after("size 1");
    refused_after("scan p");
    refused_after("remove p 7a");
    refused_after("crash");
    return failed;
}
