/*
 * Forks of files by blobcrash_files_fork: the same state, independence, crashes of both, hostile arguments, and each allocation refused in
 * turn. It is linked with `-Wl,--wrap=malloc,--wrap=realloc`. It prints each check that fails, and ends with the status 1 if there is one.
 */
#include "blobcrash_files_calls.h"
#include "checks.h"
#include "memory_checks.h"

/* Half of the unsynced bytes survive a crash, a fourth of the syncs fails, and one that fails drops bytes. */
static const char preamble[] = "seed 7\nprofile xfs\nconfig write 1 8 1 2 subset\nconfig sync 1 4\nfailed_sync drops\n";
static struct blobcrash_files files;

enum { LARGE = 100000, SMALL_FILE = 1, LARGE_FILE = 2, GONE_FILE = 3 };
static uint8_t bytes[LARGE];

static void write_until_done(uint64_t file, uint64_t offset, size_t len) {
    while (blobcrash_file_write(&files, file, offset, bytes, len) != BLOBCRASH_DONE) {}
}

static void create(const char *path, uint64_t descriptor) {
    uint64_t opened = UINT64_MAX;
    CHECK(blobcrash_file_create(&files, path, &opened) == BLOBCRASH_DONE && opened == descriptor);
}

/* Opens the files, with a closed descriptor, unsynced writes, a truncation, and edits that nothing settled. */
static void begin(void) {
    memset(bytes, 'a', sizeof bytes);
    CHECK(blobcrash_files_open(&files, TEXT(preamble)).status == BLOBCRASH_DONE);
    create("/closed", 0);
    CHECK(blobcrash_file_close(&files, 0) == BLOBCRASH_DONE && blobcrash_file_make_directory(&files, "/d") == BLOBCRASH_DONE);
    create("/d/small", SMALL_FILE);
    create("/large", LARGE_FILE);
    create("/gone", GONE_FILE);
    write_until_done(LARGE_FILE, 0, LARGE);
    write_until_done(GONE_FILE, 0, 9);
    CHECK(blobcrash_files_settle(&files) == BLOBCRASH_DONE);
    memset(bytes, 'b', sizeof bytes);
    write_until_done(SMALL_FILE, 1, 64);
    write_until_done(LARGE_FILE, 40000, 64);
    CHECK(blobcrash_file_truncate(&files, LARGE_FILE, LARGE - 9) == BLOBCRASH_DONE);
    CHECK(blobcrash_file_rename(&files, "/closed", "/d/renamed") == BLOBCRASH_DONE);
    CHECK(blobcrash_file_link(&files, "/large", "/linked") == BLOBCRASH_DONE && blobcrash_file_unlink(&files, "/gone") == BLOBCRASH_DONE);
}

static bool are_equal(struct blobcrash_file_reply one, struct blobcrash_file_reply other) {
    return one.status == other.status && one.kind == other.kind && one.number == other.number && one.size == other.size;
}

/* Whether two have the same parts of the last reply: names, paths, and what a crash kept. */
static bool replied_alike(struct blobcrash_files *one, struct blobcrash_files *other) {
    uint8_t a[256], b[256];
    struct blobcrash_file_reply said = {0, 0, 0, 0};
    bool alike = true;
    for (size_t i = 0; said.status == BLOBCRASH_DONE; i++) {
        said = blobcrash_files_name(one, i, a, sizeof a);
        alike = alike && are_equal(said, blobcrash_files_name(other, i, b, sizeof b));
        alike = alike && (said.status != BLOBCRASH_DONE || memcmp(a, b, said.size) == 0);
    }
    said.status = BLOBCRASH_DONE;
    for (size_t i = 0; said.status == BLOBCRASH_DONE; i++) {
        said = blobcrash_files_path(one, i, a, sizeof a);
        alike = alike && are_equal(said, blobcrash_files_path(other, i, b, sizeof b));
        alike = alike && (said.status != BLOBCRASH_DONE || memcmp(a, b, said.size) == 0);
        alike = alike && are_equal(blobcrash_files_path_found(one, i), blobcrash_files_path_found(other, i));
    }
    for (size_t i = 0; i < 9; i++) {
        struct blobcrash_ran edit = blobcrash_files_kept_edit(one, i), again = blobcrash_files_kept_edit(other, i);
        alike = alike && edit.status == again.status && edit.len == again.len;
        alike = alike && are_equal(blobcrash_files_kept_place(one, i), blobcrash_files_kept_place(other, i));
        for (size_t from = 0; from < 99; from++) {
            struct blobcrash_kept_run run = blobcrash_files_kept_run(one, i, from), same = blobcrash_files_kept_run(other, i, from);
            alike = alike && run.status == same.status && run.write == same.write && run.bytes == same.bytes;
            alike = alike && run.start == same.start && run.len == same.len;
        }
    }
    return alike;
}

/* Whether both have the same paths and durable bytes. */
static bool has_tree_of(struct blobcrash_files *one, struct blobcrash_files *other) {
    static uint8_t a[LARGE], b[LARGE];
    uint64_t count = 0, again = 0;
    CHECK(blobcrash_files_tree(one, &count) == BLOBCRASH_DONE && blobcrash_files_tree(other, &again) == BLOBCRASH_DONE);
    bool alike = count == again && replied_alike(one, other);
    for (size_t i = 0; alike && i < count; i++) {
        struct blobcrash_file_reply found = blobcrash_files_path_found(one, i);
        struct blobcrash_ran ran = blobcrash_files_durable(one, found.number, a, LARGE);
        struct blobcrash_ran same = blobcrash_files_durable(other, found.number, b, LARGE);
        alike = ran.status == same.status && ran.len == same.len && (ran.status != BLOBCRASH_DONE || memcmp(a, b, ran.len) == 0);
    }
    return alike;
}

/* The calls after a fork. The bytes of a write are the path. */
static const struct {
    struct blobcrash_file_call call;
    const char *path, *to;
} later[] = {
    {{BLOBCRASH_F_SIZE, LARGE_FILE, 0, 0}, "", ""},
    {{BLOBCRASH_F_READ, LARGE_FILE, 39990, 90}, "", ""},
    {{BLOBCRASH_F_READ, SMALL_FILE, 0, 90}, "", ""},
    {{BLOBCRASH_F_READ, GONE_FILE, 0, 90}, "", ""},
    {{BLOBCRASH_F_READ, 0, 0, 90}, "", ""},
    {{BLOBCRASH_F_WRITE, SMALL_FILE, 60, 0}, "written later", ""},
    {{BLOBCRASH_F_CREATE, 0, 0, 0}, "/d/new", ""},
    {{BLOBCRASH_F_SYNC, SMALL_FILE, 0, 0}, "", ""},
    {{BLOBCRASH_F_SYNC, SMALL_FILE, 0, 0}, "", ""},
    {{BLOBCRASH_F_READ, SMALL_FILE, 0, 90}, "", ""},
    {{BLOBCRASH_F_LIST, 0, 0, 0}, "/d", ""},
    {{BLOBCRASH_F_WRITE, LARGE_FILE, 99980, 0}, "over the end", ""},
    {{BLOBCRASH_F_MAKE_DIRECTORY, 0, 0, 0}, "/e", ""},
    {{BLOBCRASH_F_FIND, 0, 0, 0}, "/none", ""},
    {{BLOBCRASH_F_CRASH, 0, 0, 0}, "", ""},
    {{BLOBCRASH_F_SIZE, LARGE_FILE, 0, 0}, "", ""},
    {{BLOBCRASH_F_OPEN, 0, 0, 0}, "/large", ""},
    {{BLOBCRASH_F_READ, 5, 39990, 90}, "", ""},
    {{BLOBCRASH_F_RENAME, 0, 2, 0}, "/d", "/large"},
    {{BLOBCRASH_F_SYNC_ALL, 0, 0, 0}, "", ""},
    {{BLOBCRASH_F_CREATE, 0, 0, 0}, "/last", ""},
    {{BLOBCRASH_F_CRASH, 0, 0, 0}, "", ""},
};

enum { COUNT = sizeof later / sizeof *later };

/* Makes a call. Returns the numbers of its reply. What is read is in `into`, of 90 bytes. */
static struct blobcrash_file_reply make(struct blobcrash_files *of, size_t index, uint8_t *into) {
    const struct blobcrash_file_call *call = &later[index].call;
    struct blobcrash_file_reply reply = {0, 0, 0, 0};
    if (call->kind == BLOBCRASH_F_WRITE) reply.status = blobcrash_files_write(of, call->number, call->first, TEXT(later[index].path));
    else if (call->kind == BLOBCRASH_F_READ) {
        struct blobcrash_ran ran = blobcrash_files_read(of, call->number, call->first, into, call->last);
        reply.status = ran.status;
        reply.size = ran.len;
    } else reply = blobcrash_files_apply(of, call, TEXT(later[index].path), TEXT(later[index].to));
    return reply;
}

/* Makes a call of both, which have to reply alike. */
static void both(struct blobcrash_files *one, struct blobcrash_files *other, size_t index) {
    uint8_t a[90] = {0}, b[90] = {0};
    struct blobcrash_file_reply reply = make(one, index, a);
    check(are_equal(reply, make(other, index, b)) && memcmp(a, b, sizeof a) == 0 && replied_alike(one, other), "a later call", (int)index);
}

static void a_fork_has_the_same_state(void) {
    struct blobcrash_files fork = {0}, second = {0}, third = {0};
    begin();
    CHECK(blobcrash_files_fork(&files, &fork) == BLOBCRASH_DONE && has_tree_of(&files, &fork));
    for (size_t i = 0; i < COUNT; i++) {
        /* A fork of a fork is one of the files, and one after each reply repeats its parts. */
        CHECK(blobcrash_files_fork(&fork, &second) == BLOBCRASH_DONE && replied_alike(&files, &second));
        CHECK(blobcrash_files_fork(&second, &third) == BLOBCRASH_DONE && has_tree_of(&second, &third));
        uint8_t a[90] = {0}, b[90] = {0};
        struct blobcrash_file_reply reply = make(&second, i, a);
        both(&files, &fork, i);
        check(are_equal(reply, make(&third, i, b)) && memcmp(a, b, sizeof a) == 0, "a call of a fork of a fork", (int)i);
        CHECK(replied_alike(&second, &files) && replied_alike(&third, &files));
        blobcrash_files_close(&third);
        blobcrash_files_close(&second);
    }
    CHECK(has_tree_of(&files, &fork));
    blobcrash_files_close(&fork);
    blobcrash_files_close(&files);
}

static void two_share_no_change(void) {
    struct blobcrash_files fork = {0};
    uint8_t into[2];
    size_t found;
    begin();
    CHECK(blobcrash_files_fork(&files, &fork) == BLOBCRASH_DONE);
    /* On a page that both have, and of a name. */
    write_until_done(LARGE_FILE, 0, 2);
    CHECK(blobcrash_file_read(&files, LARGE_FILE, 0, into, 2, &found) == BLOBCRASH_DONE && memcmp(into, "bb", 2) == 0);
    CHECK(blobcrash_file_read(&fork, LARGE_FILE, 0, into, 2, &found) == BLOBCRASH_DONE && memcmp(into, "aa", 2) == 0);
    CHECK(blobcrash_file_unlink(&fork, "/d/small") == BLOBCRASH_DONE && !has_tree_of(&files, &fork));
    CHECK(blobcrash_file_find(&files, "/d/small", NULL, NULL, NULL) == BLOBCRASH_DONE);
    /* The first may be closed first. */
    blobcrash_files_close(&files);
    CHECK(blobcrash_files_crash(&fork, NULL, NULL) == BLOBCRASH_DONE && blobcrash_file_open(&fork, "/large", NULL) == BLOBCRASH_DONE);
    blobcrash_files_close(&fork);
}

/* Whether a file has these four bytes. */
static bool has(struct blobcrash_files *of, const char *path, const char *text) {
    uint8_t into[5];
    uint64_t file = 0;
    size_t found = 0;
    CHECK(blobcrash_file_open(of, path, &file) == BLOBCRASH_DONE && blobcrash_file_read(of, file, 0, into, 5, &found) == BLOBCRASH_DONE);
    return found == 4 && memcmp(into, text, 4) == 0;
}

/* Each crashes by its own words: of two bytes that are written over `aaaa` each takes one, and 0 keeps it. */
static void both_crash(void) {
    const uint64_t kept[] = {0, 0}, first[] = {0, UINT64_MAX}, none[] = {UINT64_MAX, UINT64_MAX};
    struct blobcrash_files fork = {0}, second = {0};
    CHECK(blobcrash_files_open(&files, TEXT("config write 0 1 1 2 subset\n")).status == BLOBCRASH_DONE);
    create("/f", 0);
    CHECK(blobcrash_file_write(&files, 0, 0, "aaaa", 4) == BLOBCRASH_DONE && blobcrash_files_settle(&files) == BLOBCRASH_DONE);
    CHECK(blobcrash_file_write(&files, 0, 0, "bb", 2) == BLOBCRASH_DONE);
    CHECK(blobcrash_files_fork(&files, &fork) == BLOBCRASH_DONE && blobcrash_files_fork(&fork, &second) == BLOBCRASH_DONE);
    CHECK(blobcrash_files_push_words(&files, kept, 2) == BLOBCRASH_DONE && blobcrash_files_push_words(&fork, first, 2) == BLOBCRASH_DONE);
    CHECK(blobcrash_files_push_words(&second, none, 2) == BLOBCRASH_DONE);
    CHECK(blobcrash_files_crash(&files, NULL, NULL) == BLOBCRASH_DONE && has(&files, "/f", "bbaa"));
    CHECK(blobcrash_file_size(&fork, 0, NULL) == BLOBCRASH_DONE && has(&fork, "/f", "bbaa"));
    CHECK(blobcrash_files_crash(&fork, NULL, NULL) == BLOBCRASH_DONE && has(&fork, "/f", "baaa"));
    CHECK(blobcrash_files_crash(&second, NULL, NULL) == BLOBCRASH_DONE && has(&second, "/f", "aaaa"));
    blobcrash_files_close(&second);
    blobcrash_files_close(&fork);
    /* A fork of files that have crashed: its descriptors are stale, and another crash finds the same. */
    CHECK(blobcrash_files_fork(&files, &fork) == BLOBCRASH_DONE && blobcrash_file_size(&fork, 0, NULL) == BLOBCRASH_F_STALE);
    CHECK(has(&fork, "/f", "bbaa") && blobcrash_files_crash(&fork, NULL, NULL) == BLOBCRASH_DONE && has(&fork, "/f", "bbaa"));
    blobcrash_files_close(&fork);
    blobcrash_files_close(&files);
}

/* The settings, the words that were pushed and the power. */
static void what_else_a_fork_has(void) {
    const uint64_t words[] = {0, UINT64_MAX, 5};
    struct blobcrash_files fork = {0};
    CHECK(blobcrash_files_open(&files, TEXT("config write 0 1 1 2 subset\nspace 5 2\n")).status == BLOBCRASH_DONE);
    create("/f", 0);
    CHECK(blobcrash_files_push_words(&files, words, 3) == BLOBCRASH_DONE && blobcrash_files_power_off_after(&files, 2) == BLOBCRASH_DONE);
    CHECK(blobcrash_files_fork(&files, &fork) == BLOBCRASH_DONE);
    CHECK(blobcrash_files_words_left(&fork).len == 3 && blobcrash_files_power(&fork).left == 2);
    CHECK(blobcrash_file_write(&fork, 0, 0, "123456", 6) == BLOBCRASH_F_NO_SPACE);
    CHECK(blobcrash_file_write(&fork, 0, 0, "12345", 5) == BLOBCRASH_DONE && blobcrash_file_sync(&fork, 0) == BLOBCRASH_POWER_LOSS);
    CHECK(blobcrash_files_power(&files).left == 2 && blobcrash_files_power_on(&fork) == BLOBCRASH_DONE);
    /* A setting that is added to those before it. */
    CHECK(blobcrash_files_set(&fork, "space 6 2") == BLOBCRASH_DONE && blobcrash_file_write(&fork, 0, 5, "6", 1) == BLOBCRASH_DONE);
    CHECK(blobcrash_files_power_on(&files) == BLOBCRASH_DONE && blobcrash_file_write(&files, 0, 5, "6", 1) == BLOBCRASH_F_NO_SPACE);
    blobcrash_files_close(&fork);
    blobcrash_files_close(&files);
}

static void hostile_arguments(void) {
    struct blobcrash_files fork = {0}, other = {0};
    CHECK(blobcrash_files_fork(&files, &fork) == BLOBCRASH_CLOSED && blobcrash_files_tree(&fork, NULL) == BLOBCRASH_CLOSED);
    CHECK(blobcrash_files_fork(&files, &files) == BLOBCRASH_CLOSED);
    CHECK(blobcrash_files_open(&other, TEXT("")).status == BLOBCRASH_DONE && blobcrash_file_create(&other, "/own", NULL) == BLOBCRASH_DONE);
    /* Open files aren't ended, also if there is nothing to fork. */
    CHECK(blobcrash_files_fork(&files, &other) == BLOBCRASH_BAD_CALL);
    CHECK(blobcrash_files_fork(&other, &other) == BLOBCRASH_BAD_CALL);
    begin();
    CHECK(blobcrash_files_fork(&files, &other) == BLOBCRASH_BAD_CALL);
    CHECK(blobcrash_file_find(&other, "/own", NULL, NULL, NULL) == BLOBCRASH_DONE);
    blobcrash_files_close(&other);
    CHECK(blobcrash_files_fork(&files, &other) == BLOBCRASH_DONE && has_tree_of(&files, &other));
    blobcrash_files_close(&files);
    CHECK(blobcrash_files_fork(&files, &other) == BLOBCRASH_BAD_CALL && blobcrash_files_fork(&other, &files) == BLOBCRASH_DONE);
    blobcrash_files_close(&files);
    blobcrash_files_close(&other);
}

/* Forks after a call; each allocation is refused in turn. */
static void refused_after(uint32_t kind) {
    struct blobcrash_file_call call = {kind, 0, 0, 0};
    struct blobcrash_files fork = {0}, whole = {0};
    unsigned long nth = 1;
    begin();
    blobcrash_files_apply(&files, &call, TEXT("/"), TEXT(""));
    CHECK(blobcrash_files_fork(&files, &whole) == BLOBCRASH_DONE);
    for (;; nth++) {
        until_refused = nth;
        uint32_t status = blobcrash_files_fork(&files, &fork);
        bool was_refused = until_refused == 0;
        until_refused = 0;
        if (!was_refused) {
            CHECK(status == BLOBCRASH_DONE && replied_alike(&fork, &whole));
            break;
        }
        CHECK(status == BLOBCRASH_NO_MEMORY && blobcrash_files_words_left(&fork).status == BLOBCRASH_CLOSED && replied_alike(&files, &whole));
    }
    CHECK(nth > 20);
    /* The files are as if they hadn't been asked. */
    for (size_t i = 0; i < COUNT; i++) both(&files, &whole, i);
    blobcrash_files_close(&fork);
    blobcrash_files_close(&whole);
    blobcrash_files_close(&files);
}

/* After a recovery that failed there is no fork until a crash returns DONE. */
static void after_a_failed_recovery(void) {
    struct blobcrash_files fork = {0};
    unsigned long nth = 1, failed_recoveries = 0;
    uint32_t status = BLOBCRASH_E_MEMORY;
    for (; status != BLOBCRASH_DONE; nth++) {
        begin();
        refuses_on = true;
        until_refused = nth + 1;
        status = blobcrash_files_crash(&files, NULL, NULL);
        until_refused = 0;
        refuses_on = false;
        bool is_down = blobcrash_files_tree(&files, NULL) == BLOBCRASH_F_CRASHED;
        failed_recoveries += is_down;
        CHECK(blobcrash_files_fork(&files, &fork) == (is_down ? BLOBCRASH_F_CRASHED : BLOBCRASH_DONE));
        CHECK(is_down == (blobcrash_files_words_left(&fork).status == BLOBCRASH_CLOSED));
        blobcrash_files_close(&fork);
        CHECK(blobcrash_files_crash(&files, NULL, NULL) == BLOBCRASH_DONE && blobcrash_files_fork(&files, &fork) == BLOBCRASH_DONE);
        CHECK(has_tree_of(&files, &fork));
        blobcrash_files_close(&fork);
        blobcrash_files_close(&files);
    }
    CHECK(nth > 20 && failed_recoveries > 0);
}

int main(void) {
    hostile_arguments();
    a_fork_has_the_same_state();
    two_share_no_change();
    both_crash();
    what_else_a_fork_has();
    refused_after(BLOBCRASH_F_SYNC_ALL);
    refused_after(BLOBCRASH_F_LIST);
    refused_after(BLOBCRASH_F_TREE);
    refused_after(BLOBCRASH_F_CRASH);
    after_a_failed_recovery();
    return failed;
}
