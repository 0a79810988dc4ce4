/*
 * What each call on files returns: each kind, each refusal, hostile arguments, crashes, and each allocation refused in turn. It is
 * linked with `-Wl,--wrap=malloc,--wrap=realloc`. It prints each check that fails, and ends with the status 1 if there is one.
 */
#include "files_checks.h"
#include "memory_checks.h"

#include <stdlib.h>

/* The address sanitizer, if there is one, refuses what can't be allocated, as `malloc` does. */
const char *__asan_default_options(void);
const char *__asan_default_options(void) { return "allocator_may_return_null=1"; }

/* Whether the durable bytes of an inode are copied with this status and this length. */
static bool durable_is(uint64_t inode, uint8_t *into, size_t capacity, uint32_t status, size_t len) {
    struct blobcrash_ran ran = blobcrash_files_durable(&files, inode, into, capacity);
    return ran.status == status && ran.len == len;
}

static void closed_files(void) {
    uint8_t into[4] = "...";
    const uint64_t word = 1;
    blobcrash_files_close(&files);
    for (int round = 0; round < 2; round++) {
        CHECK(refuses(on(BLOBCRASH_F_CREATE, "/a"), BLOBCRASH_CLOSED));
        CHECK(refuses(on(1000, "/a"), BLOBCRASH_CLOSED));
        CHECK(blobcrash_files_configure(&files, TEXT("keep 1 1")) == BLOBCRASH_CLOSED);
        CHECK(blobcrash_files_write(&files, 0, 0, TEXT("a")) == BLOBCRASH_CLOSED);
        CHECK(blobcrash_files_read(&files, 0, 0, into, 3).status == BLOBCRASH_CLOSED && memcmp(into, "...", 4) == 0);
        CHECK(refuses(blobcrash_files_name(&files, 0, into, 3), BLOBCRASH_CLOSED) && memcmp(into, "...", 4) == 0);
        CHECK(blobcrash_files_kept_run(&files, 0, 0).status == BLOBCRASH_CLOSED);
        CHECK(refuses(blobcrash_files_kept_place(&files, 0), BLOBCRASH_CLOSED));
        CHECK(blobcrash_files_kept_edit(&files, 0).status == BLOBCRASH_CLOSED);
        CHECK(blobcrash_files_follows(&files, 0).status == BLOBCRASH_CLOSED);
        CHECK(refuses(blobcrash_files_path(&files, 0, into, 3), BLOBCRASH_CLOSED) && memcmp(into, "...", 4) == 0);
        CHECK(refuses(blobcrash_files_path_found(&files, 0), BLOBCRASH_CLOSED));
        CHECK(durable_is(2, into, 3, BLOBCRASH_CLOSED, 0) && memcmp(into, "...", 4) == 0);
        CHECK(blobcrash_files_words_left(&files).status == BLOBCRASH_CLOSED);
        CHECK(blobcrash_files_push_words(&files, &word, 1) == BLOBCRASH_CLOSED);
        if (round == 0) begin("");
        blobcrash_files_close(&files);
    }
}

static void preambles(void) {
    static const struct { const char *text; uint64_t line; } rows[] = {
        {"", 0}, {"\n# a comment\n\n", 0}, {"words 1 max\nwords 2\nseed 7\n", 0}, {"seed 7\nwords 1\n", 0},
        {"space 0 0\nkeep 0 1\nconfig write 1 8 1 2 sectors 512\nprofile btrfs\nprofile posix\nkeep 1 1\nconfig clear\n", 0},
        {"seed 1\nprofile xfs", 0}, {"profile ext4\r\n", 1}, {"profile\n", 1}, {"profile zfs\n", 1}, {"profile xfs xfs\n", 1},
        {"keep 1\n", 1}, {"keep 1 0\n", 1}, {"keep 2 1\n", 1}, {"keep 1 2 3\n", 1}, {"space 1\n", 1}, {"space 1 2 3\n", 1},
        {"space -1 2\n", 1}, {"space 18446744073709551616 2\n", 1}, {"seed 1\nseed 2\n", 2}, {"profile xfs\nseed 1\n", 2},
        {"failed_sync drops\nsyncs lie\nfailed_write prefix\nfailed_sync keeps\nsyncs honest\nfailed_write mode\n", 0},
        {"profile xfs\nedits any\nedits logged\nedits prefix\n", 0}, {"edits\n", 1}, {"edits all\n", 1}, {"edits any any\n", 1},
        {"failed_sync\n", 1}, {"failed_sync lie\n", 1}, {"failed_sync drops drops\n", 1}, {"syncs\n", 1}, {"syncs drops\n", 1},
        {"syncs lie 1\n", 1}, {"failed_write\n", 1}, {"failed_write sectors 4\n", 1}, {"failed_write subset\n", 1},
        {"keep 1 2\n\nwords 1\n", 3}, {"image p 61 -\n", 1}, {"open p 61\n", 1}, {"config\n", 1}, {"config keep 1 2\n", 1},
        {"\xff\n", 1}, {"words\n", 1},
    };
    for (size_t i = 0; i < sizeof rows / sizeof *rows; i++) {
        begin("");
        CHECK(is(on(BLOBCRASH_F_CREATE, "/old"), 0, 0, 0));
        struct blobcrash_script_ran ran = blobcrash_files_open(&files, TEXT(rows[i].text));
        check(ran.status == (rows[i].line ? BLOBCRASH_BAD_LINE : BLOBCRASH_DONE) && ran.line == rows[i].line &&
        ran.len == 0, rows[i].text,
              __LINE__);
        CHECK(lists("/", rows[i].line ? "old," : ""));
    }
    begin("");
    static const char *const bad[] = {"", "# no", "words 1", "seed 1", "crash", "profile", "keep 1 2\n", "config write"};
    for (size_t i = 0; i < sizeof bad / sizeof *bad; i++) {
        CHECK(blobcrash_files_configure(&files, TEXT(bad[i])) == BLOBCRASH_BAD_LINE);
    }
    CHECK(blobcrash_files_configure(&files, TEXT("space 3 9")) == BLOBCRASH_DONE);
    CHECK(is(on(BLOBCRASH_F_CREATE, "/a"), 0, 0, 0) && write_at(0, 0, "abcd") == BLOBCRASH_F_NO_SPACE &&
          write_at(0, 0, "abc") == BLOBCRASH_DONE);
    CHECK(blobcrash_files_configure(&files, TEXT("config write 1 1 0 1 prefix")) == BLOBCRASH_DONE);
    CHECK(write_at(0, 0, "x") == BLOBCRASH_E_INJECTED);
}

/* Each kind by paths and by descriptors. The root has the number 1, and what is made gets the numbers from 2 on. */
static void kinds_by_paths(void) {
    begin("");
    CHECK(is(on(BLOBCRASH_F_CREATE, "/a"), 0, 0, 0));
    CHECK(write_at(0, 0, "abc") == BLOBCRASH_DONE && write_at(0, 5, "f") == BLOBCRASH_DONE);
    CHECK(is(by(BLOBCRASH_F_SIZE, 0), 0, 0, 6) && is(by(BLOBCRASH_F_INODE_OF, 0), 0, 2, 0));
    CHECK(reads(0, 0, "abc") == false && reads(0, 1, "bc") == false && reads(0, 5, "f") && reads(0, 6, "") &&
          reads(0, UINT64_MAX, ""));
    CHECK(ask(BLOBCRASH_F_TRUNCATE, 0, "", "", 2, 0).status == BLOBCRASH_DONE && reads(0, 0, "ab"));
    CHECK(is(on(BLOBCRASH_F_OPEN, "//a/"), 0, 1, 0) && reads(1, 0, "ab"));
    CHECK(is(by(BLOBCRASH_F_SYNC, 0), 0, 0, 0) && is(by(BLOBCRASH_F_SYNC_DATA, 1), 0, 0, 0));
    CHECK(is(by(BLOBCRASH_F_CLOSE, 0), 0, 0, 0) && refuses(by(BLOBCRASH_F_CLOSE, 0), BLOBCRASH_F_STALE));
    CHECK(is(on(BLOBCRASH_F_OPEN_TRUNCATED, "a"), 0, 2, 0) && reads(1, 0, "") && is(by(BLOBCRASH_F_SIZE, 2), 0, 0, 0));
    CHECK(ends(BLOBCRASH_F_MAKE_DIRECTORY, "/d") == BLOBCRASH_DONE && is(on(BLOBCRASH_F_FIND, "/d"), 1, 3, 0));
    CHECK(pair(BLOBCRASH_F_LINK, "/a", "/d/b", 0) == BLOBCRASH_DONE && is(on(BLOBCRASH_F_FIND, "/d/b"), 0, 2, 0));
    CHECK(pair(BLOBCRASH_F_RENAME, "/a", "/c", 1) == BLOBCRASH_DONE && lists("", "c,d,"));
    CHECK(write_at(2, 0, "sized") == BLOBCRASH_DONE && is(on(BLOBCRASH_F_FIND, "/c"), 0, 2, 5) && is(on(BLOBCRASH_F_FIND, "/d/b"), 0, 2, 5));
    CHECK(is(on(BLOBCRASH_F_CREATE, "/e"), 0, 3, 0) && pair(BLOBCRASH_F_RENAME, "/e", "/c", 0) == BLOBCRASH_DONE &&
          lists("/", "c,d,"));
    CHECK(is(on(BLOBCRASH_F_FIND, "/c"), 0, 4, 0) && pair(BLOBCRASH_F_RENAME, "/c", "/d/b", 2) == BLOBCRASH_DONE);
    CHECK(is(on(BLOBCRASH_F_FIND, "/c"), 0, 2, 5) && is(on(BLOBCRASH_F_FIND, "/d/b"), 0, 4, 0));
    CHECK(ends(BLOBCRASH_F_UNLINK, "/d/b") == BLOBCRASH_DONE && write_at(3, 0, "still") == BLOBCRASH_DONE && reads(3, 0, "still"));
    CHECK(ends(BLOBCRASH_F_SYNC_DIRECTORY, "/d") == BLOBCRASH_DONE && lists("/d", ""));
    CHECK(ends(BLOBCRASH_F_REMOVE_DIRECTORY, "/d") == BLOBCRASH_DONE && lists("/", "c,"));
    CHECK(is(by(BLOBCRASH_F_SYNC_ALL, 0), 0, 0, 0) && is(by(BLOBCRASH_F_SETTLE, 0), 0, 0, 0) &&
          is(by(BLOBCRASH_F_CRASH, 0), 0, 0, 0));
    CHECK(lists("/", "c,"));
    CHECK(ends(BLOBCRASH_F_MAKE_DIRECTORY, "/e") == BLOBCRASH_DONE && is(by(BLOBCRASH_F_COMMIT, 0), 0, 0, 0) &&
          is(by(BLOBCRASH_F_CRASH, 0), 0, 0, 0) && lists("/", "c,e,"));
}

static void kinds_by_numbers(void) {
    begin("");
    CHECK(is(at(BLOBCRASH_F_MAKE_DIRECTORY_AT, 1, "d"), 0, 2, 0) && is(at(BLOBCRASH_F_CREATE_AT, 2, "a"), 0, 0, 0));
    CHECK(is(at(BLOBCRASH_F_FIND_AT, 2, "a"), 0, 3, 0) && is(at(BLOBCRASH_F_FIND_AT, 1, "d"), 1, 2, 0));
    CHECK(is(ask(BLOBCRASH_F_LINK_AT, 1, "b", "", 3, 0), 0, 0, 0) && is(by(BLOBCRASH_F_OPEN_INODE, 3), 0, 1, 0));
    CHECK(write_at(0, 0, "abc") == BLOBCRASH_DONE && is(at(BLOBCRASH_F_FIND_AT, 2, "a"), 0, 3, 3) && reads(1, 0, "abc"));
    CHECK(is(by(BLOBCRASH_F_OPEN_INODE_TRUNCATED, 3), 0, 2, 0) && reads(1, 0, "") && is(at(BLOBCRASH_F_FIND_AT, 2, "a"), 0, 3, 0));
    CHECK(refuses(by(BLOBCRASH_F_OPEN_INODE_TRUNCATED, 2), BLOBCRASH_F_IS_DIRECTORY));
    CHECK(is(ask(BLOBCRASH_F_RENAME_AT, 2, "a", "c", 1, 1), 0, 0, 0) && is(by(BLOBCRASH_F_LIST_AT, 2), 0, 0, 0));
    CHECK(is(by(BLOBCRASH_F_LIST_AT, 1), 0, 0, 3) && lists("/", "b,c,d,"));
    uint8_t name[2] = "..";
    CHECK(is(by(BLOBCRASH_F_LIST_AT, 1), 0, 0, 3) && is(blobcrash_files_name(&files, 1, name, 2), 0, 3, 1) &&
          memcmp(name, "c.", 2) == 0);
    struct blobcrash_file_reply none = blobcrash_files_name(&files, 2, name, 0);
    CHECK(none.status == BLOBCRASH_NO_ROOM && none.size == 1 && none.kind == 1 && none.number == 2);
    CHECK(refuses(blobcrash_files_name(&files, 3, name, 2), BLOBCRASH_OTHER_REPLY));
    CHECK(refuses(blobcrash_files_name(&files, SIZE_MAX, name, 2), BLOBCRASH_OTHER_REPLY));
    CHECK(is(at(BLOBCRASH_F_UNLINK_AT, 1, "b"), 0, 0, 0) &&
          refuses(blobcrash_files_name(&files, 0, name, 2), BLOBCRASH_OTHER_REPLY));
    CHECK(is(by(BLOBCRASH_F_SYNC_DIRECTORY_AT, 1), 0, 0, 0) && is(at(BLOBCRASH_F_REMOVE_DIRECTORY_AT, 1, "d"), 0, 0, 0) &&
          lists("/", "c,"));
}

static void refusals(void) {
    char longest[258];
    memset(longest, 'n', sizeof longest);
    longest[0] = '/';
    longest[257] = 0;
    begin("space 100 6\n");
    CHECK(is(on(BLOBCRASH_F_CREATE, "/a"), 0, 0, 0) && ends(BLOBCRASH_F_MAKE_DIRECTORY, "/d") == 0 &&
          ends(BLOBCRASH_F_MAKE_DIRECTORY, "/d/e") == 0);
    CHECK(ends(BLOBCRASH_F_CREATE, longest) == BLOBCRASH_F_NAME_TOO_LONG);
    longest[256] = 0;
    CHECK(is(on(BLOBCRASH_F_CREATE, longest), 0, 1, 0) && ends(BLOBCRASH_F_UNLINK, longest) == BLOBCRASH_DONE);
    static const struct { uint32_t kind; const char *path, *to; uint64_t first; uint32_t status; } rows[] = {
        {BLOBCRASH_F_CREATE, "/a", "", 0, BLOBCRASH_F_EXISTS}, {BLOBCRASH_F_CREATE, "/d", "", 0, BLOBCRASH_F_EXISTS},
        {BLOBCRASH_F_MAKE_DIRECTORY, "/a", "", 0, BLOBCRASH_F_EXISTS}, {BLOBCRASH_F_LINK, "/a", "/a", 0, BLOBCRASH_F_EXISTS},
        {BLOBCRASH_F_RENAME, "/a", "/d", 1, BLOBCRASH_F_EXISTS}, {BLOBCRASH_F_OPEN, "/b", "", 0, BLOBCRASH_F_NOT_FOUND},
        {BLOBCRASH_F_OPEN, "/b/c", "", 0, BLOBCRASH_F_NOT_FOUND}, {BLOBCRASH_F_UNLINK, "/b", "", 0, BLOBCRASH_F_NOT_FOUND},
        {BLOBCRASH_F_RENAME, "/b", "/c", 0, BLOBCRASH_F_NOT_FOUND}, {BLOBCRASH_F_RENAME, "/a", "/c", 2, BLOBCRASH_F_NOT_FOUND},
        {BLOBCRASH_F_LIST, "/b", "", 0, BLOBCRASH_F_NOT_FOUND}, {BLOBCRASH_F_SYNC_DIRECTORY, "/b", "", 0, BLOBCRASH_F_NOT_FOUND},
        {BLOBCRASH_F_REMOVE_DIRECTORY, "/d", "", 0, BLOBCRASH_F_NOT_EMPTY},
        {BLOBCRASH_F_OPEN, "/d", "", 0, BLOBCRASH_F_IS_DIRECTORY},
        {BLOBCRASH_F_OPEN_TRUNCATED, "/d", "", 0, BLOBCRASH_F_IS_DIRECTORY},
        {BLOBCRASH_F_UNLINK, "/d", "", 0, BLOBCRASH_F_IS_DIRECTORY},
        {BLOBCRASH_F_LINK, "/d", "/l", 0, BLOBCRASH_F_IS_DIRECTORY}, {BLOBCRASH_F_RENAME, "/a", "/d", 0, BLOBCRASH_F_IS_DIRECTORY},
        {BLOBCRASH_F_RENAME, "/d", "/a", 0, BLOBCRASH_F_NOT_DIRECTORY},
        {BLOBCRASH_F_CREATE, "/a/b", "", 0, BLOBCRASH_F_NOT_DIRECTORY},
        {BLOBCRASH_F_REMOVE_DIRECTORY, "/a", "", 0, BLOBCRASH_F_NOT_DIRECTORY},
        {BLOBCRASH_F_LIST, "/a", "", 0, BLOBCRASH_F_NOT_DIRECTORY},
        {BLOBCRASH_F_CREATE, "", "", 0, BLOBCRASH_F_INVALID_NAME}, {BLOBCRASH_F_CREATE, "//", "", 0, BLOBCRASH_F_INVALID_NAME},
        {BLOBCRASH_F_CREATE, "/.", "", 0, BLOBCRASH_F_INVALID_NAME}, {BLOBCRASH_F_CREATE, "/d/..", "", 0, BLOBCRASH_F_INVALID_NAME},
        {BLOBCRASH_F_OPEN, "/d/../a", "", 0, BLOBCRASH_F_INVALID_NAME}, {BLOBCRASH_F_FIND, "/", "", 0, BLOBCRASH_F_INVALID_NAME},
        {BLOBCRASH_F_REMOVE_DIRECTORY, "/", "", 0, BLOBCRASH_F_INVALID_NAME},
        {BLOBCRASH_F_RENAME, "/", "/r", 0, BLOBCRASH_F_INVALID_NAME},
        {BLOBCRASH_F_RENAME, "/d", "/d/f", 0, BLOBCRASH_F_LOOP}, {BLOBCRASH_F_RENAME, "/d", "/d/e/f", 0, BLOBCRASH_F_LOOP},
        {BLOBCRASH_F_RENAME, "/d", "/d/e", 2, BLOBCRASH_F_LOOP}, {BLOBCRASH_F_RENAME, "/d/e", "/d", 2, BLOBCRASH_F_LOOP},
        {BLOBCRASH_F_RENAME, "/a", "/b", 3, BLOBCRASH_BAD_CALL}, {BLOBCRASH_F_RENAME, "/a", "/b", UINT64_MAX, BLOBCRASH_BAD_CALL},
        {11, "/a", "", 0, BLOBCRASH_BAD_CALL}, {15, "/a", "", 0, BLOBCRASH_BAD_CALL}, {27, "a", "", 0, BLOBCRASH_BAD_CALL},
        {38, "", "", 0, BLOBCRASH_BAD_CALL}, {53, "", "", 0, BLOBCRASH_BAD_CALL}, {UINT32_MAX, "", "", 0, BLOBCRASH_BAD_CALL},
    };
    for (size_t i = 0; i < sizeof rows / sizeof *rows; i++) {
        struct blobcrash_file_reply reply = ask(rows[i].kind, 0, rows[i].path, rows[i].to, rows[i].first, 0);
        if (!refuses(reply, rows[i].status)) printf("row %zu: %u, not %u\n", i, (unsigned)reply.status, (unsigned)rows[i].status);
        failed |= !refuses(reply, rows[i].status);
        CHECK(lists("/", "a,d,") && lists("/d", "e,"));
    }
    CHECK(ends(BLOBCRASH_F_CREATE, "/f") == BLOBCRASH_DONE && ends(BLOBCRASH_F_CREATE, "/g") == BLOBCRASH_DONE);
    CHECK(ends(BLOBCRASH_F_CREATE, "/h") == BLOBCRASH_F_NO_SPACE && ends(BLOBCRASH_F_MAKE_DIRECTORY, "/h") == BLOBCRASH_F_NO_SPACE);
    CHECK(write_at(0, 99, "x") == BLOBCRASH_DONE && write_at(0, 100, "x") == BLOBCRASH_F_NO_SPACE &&
          is(by(BLOBCRASH_F_SIZE, 0), 0, 0, 100));
}

/* Names, numbers and lengths that a path can't have. */
static void hostile_arguments(void) {
    begin("");
    CHECK(is(on(BLOBCRASH_F_CREATE, "/a"), 0, 0, 0) && ends(BLOBCRASH_F_MAKE_DIRECTORY, "/d") == BLOBCRASH_DONE);
    const struct blobcrash_file_call zero = {BLOBCRASH_F_CREATE, 0, 0, 0}, zero_at = {BLOBCRASH_F_CREATE_AT, 1, 0, 0};
    const uint8_t name[] = "x\0y", any[] = {0xff, 0x80, 0x0a, 0x20};
    CHECK(refuses(blobcrash_files_apply(&files, &zero, name, 3, name, 0), BLOBCRASH_F_INVALID_NAME));
    CHECK(refuses(blobcrash_files_apply(&files, &zero_at, name, 3, name, 0), BLOBCRASH_F_INVALID_NAME));
    CHECK(is(blobcrash_files_apply(&files, &zero_at, any, 4, any, 0), 0, 1, 0) && lists("/", "a,d,\xff\x80\n ,"));
    CHECK(refuses(at(BLOBCRASH_F_CREATE_AT, 1, "b/c"), BLOBCRASH_F_INVALID_NAME) &&
          refuses(at(BLOBCRASH_F_CREATE_AT, 1, ""), BLOBCRASH_F_INVALID_NAME));
    CHECK(refuses(at(BLOBCRASH_F_FIND_AT, 1, ".."), BLOBCRASH_F_INVALID_NAME) &&
          refuses(at(BLOBCRASH_F_UNLINK_AT, 1, "."), BLOBCRASH_F_INVALID_NAME));
    static const uint64_t numbers[] = {0, 99, UINT64_MAX};
    for (size_t i = 0; i < 3; i++) {
        CHECK(refuses(at(BLOBCRASH_F_CREATE_AT, numbers[i], "b"), BLOBCRASH_F_NOT_FOUND));
        CHECK(refuses(by(BLOBCRASH_F_LIST_AT, numbers[i]), BLOBCRASH_F_NOT_FOUND));
        CHECK(refuses(by(BLOBCRASH_F_SYNC_DIRECTORY_AT, numbers[i]), BLOBCRASH_F_NOT_FOUND));
        CHECK(refuses(by(BLOBCRASH_F_OPEN_INODE, numbers[i]), BLOBCRASH_F_NOT_FOUND));
        CHECK(refuses(by(BLOBCRASH_F_OPEN_INODE_TRUNCATED, numbers[i]), BLOBCRASH_F_NOT_FOUND));
        CHECK(refuses(ask(BLOBCRASH_F_LINK_AT, 1, "b", "", numbers[i], 0), BLOBCRASH_F_NOT_FOUND));
        CHECK(refuses(ask(BLOBCRASH_F_RENAME_AT, 1, "a", "b", numbers[i], 0), BLOBCRASH_F_NOT_FOUND));
    }
    CHECK(refuses(at(BLOBCRASH_F_CREATE_AT, 2, "b"), BLOBCRASH_F_NOT_DIRECTORY) &&
          refuses(by(BLOBCRASH_F_LIST_AT, 2), BLOBCRASH_F_NOT_DIRECTORY));
    CHECK(refuses(by(BLOBCRASH_F_OPEN_INODE, 3), BLOBCRASH_F_IS_DIRECTORY) &&
          refuses(ask(BLOBCRASH_F_LINK_AT, 1, "b", "", 3, 0), BLOBCRASH_F_IS_DIRECTORY));
    CHECK(refuses(ask(BLOBCRASH_F_RENAME_AT, 1, "d", "e", 3, 0), BLOBCRASH_F_LOOP));
    CHECK(refuses(ask(BLOBCRASH_F_RENAME_AT, 1, "a", "b", 1, 3), BLOBCRASH_BAD_CALL));
    for (uint32_t kind = BLOBCRASH_F_CLOSE; kind <= BLOBCRASH_F_INODE_OF; kind++) {
        CHECK(refuses(by(kind, 2), BLOBCRASH_F_STALE) && refuses(by(kind, UINT64_MAX), BLOBCRASH_F_STALE));
    }
    uint8_t into[1];
    CHECK(write_at(2, 0, "x") == BLOBCRASH_F_STALE && blobcrash_files_read(&files, 2, 0, into, 1).status == BLOBCRASH_F_STALE);
    CHECK(write_at(0, UINT64_MAX, "x") == BLOBCRASH_E_OFFSET_OVERFLOW && write_at(0, 1ull << 62, "x") == BLOBCRASH_E_MEMORY);
    CHECK(ask(BLOBCRASH_F_TRUNCATE, 0, "", "", UINT64_MAX, 0).status == BLOBCRASH_E_OFFSET_OVERFLOW);
    CHECK(ask(BLOBCRASH_F_TRUNCATE, 0, "", "", 1ull << 62, 0).status == BLOBCRASH_E_MEMORY);
    CHECK(is(by(BLOBCRASH_F_SIZE, 0), 0, 0, 0) && write_at(0, 0, "") == BLOBCRASH_DONE && is(by(BLOBCRASH_F_SIZE, 0), 0, 0, 0));
    CHECK(blobcrash_files_read(&files, 0, 0, into, 0).status == BLOBCRASH_DONE &&
          blobcrash_files_kept_edit(&files, 0).status == BLOBCRASH_OTHER_REPLY);
}

/* Whether the last call, a TREE, has this path with an index, and what it is bound to. */
static bool has_path(size_t index, const char *path, uint32_t kind, uint64_t inode, uint64_t size) {
    uint8_t into[32];
    memset(into, '.', sizeof into);
    size_t len = strlen(path);
    return is(blobcrash_files_path(&files, index, into, len), kind, inode, len) && memcmp(into, path, len) == 0 && into[len] == '.' &&
           is(blobcrash_files_path_found(&files, index), kind, inode, size);
}

static void trees(void) {
    uint8_t into[8] = ".......";
    begin("words max 0 0 max\nconfig write 1 2 1 2 prefix\n");
    CHECK(is(by(BLOBCRASH_F_TREE, 0), 0, 0, 0) && refuses(blobcrash_files_path_found(&files, 0), BLOBCRASH_OTHER_REPLY));
    CHECK(is(on(BLOBCRASH_F_CREATE, "/b"), 0, 0, 0) && is(on(BLOBCRASH_F_MAKE_DIRECTORY, "/a"), 0, 0, 0));
    CHECK(pair(BLOBCRASH_F_LINK, "/b", "/a/c", 0) == BLOBCRASH_DONE && write_at(0, 0, "abc") == BLOBCRASH_DONE);
    CHECK(refuses(blobcrash_files_path(&files, 0, into, 8), BLOBCRASH_OTHER_REPLY));
    CHECK(is(by(BLOBCRASH_F_TREE, 99), 0, 0, 3));
    CHECK(has_path(0, "/a", 1, 3, 0) && has_path(1, "/a/c", 0, 2, 3) && has_path(2, "/b", 0, 2, 3));
    struct blobcrash_file_reply room = blobcrash_files_path(&files, 1, into, 3);
    CHECK(room.status == BLOBCRASH_NO_ROOM && room.size == 4 && room.number == 2 && memcmp(into, ".......", 8) == 0);
    CHECK(refuses(blobcrash_files_path(&files, 3, into, 8), BLOBCRASH_OTHER_REPLY) &&
          refuses(blobcrash_files_path_found(&files, SIZE_MAX), BLOBCRASH_OTHER_REPLY));
    CHECK(refuses(blobcrash_files_name(&files, 0, into, 8), BLOBCRASH_OTHER_REPLY) && is(by(BLOBCRASH_F_LIST_AT, 3), 0, 0, 1) &&
          refuses(blobcrash_files_path(&files, 0, into, 8), BLOBCRASH_OTHER_REPLY));
    /* Nothing is durable before a sync. After it a failed write keeps a byte, and what it kept is durable too. */
    CHECK(durable_is(2, into, 8, BLOBCRASH_DONE, 0) && is(by(BLOBCRASH_F_SYNC, 0), 0, 0, 0));
    CHECK(durable_is(2, into, 8, BLOBCRASH_DONE, 3) && memcmp(into, "abc....", 8) == 0 && write_at(0, 1, "xy") == BLOBCRASH_E_INJECTED);
    CHECK(durable_is(2, into, 2, BLOBCRASH_NO_ROOM, 3) && durable_is(2, into, 3, BLOBCRASH_DONE, 3) && memcmp(into, "axc....", 8) == 0);
    CHECK(durable_is(1, into, 8, BLOBCRASH_F_NOT_FOUND, 0) && durable_is(3, into, 8, BLOBCRASH_F_NOT_FOUND, 0) &&
          durable_is(UINT64_MAX, into, 8, BLOBCRASH_F_NOT_FOUND, 0) && memcmp(into, "axc....", 8) == 0);
    CHECK(ends(BLOBCRASH_F_UNLINK, "/b") == BLOBCRASH_DONE && ends(BLOBCRASH_F_UNLINK, "/a/c") == BLOBCRASH_DONE);
    CHECK(durable_is(2, into, 8, BLOBCRASH_DONE, 3) && is(by(BLOBCRASH_F_CLOSE, 0), 0, 0, 0) &&
          durable_is(2, into, 8, BLOBCRASH_F_NOT_FOUND, 0));
}

static bool is_run(struct blobcrash_kept_run run, size_t bytes, size_t start, size_t len) {
    return run.status == BLOBCRASH_DONE && run.bytes == bytes && run.start == start && run.len == len;
}

/* On btrfs the log follows the removal of a name that a sync has settled, and not the making of another one. */
static void follows(void) {
    begin("profile btrfs\n");
    CHECK(is(on(BLOBCRASH_F_CREATE, "/a"), 0, 0, 0) && blobcrash_files_follows(&files, 0).status == BLOBCRASH_DONE);
    CHECK(is(by(BLOBCRASH_F_SYNC, 0), 0, 0, 0) && blobcrash_files_follows(&files, 0).status == BLOBCRASH_OTHER_REPLY);
    CHECK(ends(BLOBCRASH_F_UNLINK, "/a") == BLOBCRASH_DONE && is(on(BLOBCRASH_F_CREATE, "/b"), 0, 1, 0));
    CHECK(blobcrash_files_follows(&files, 0).len == 1 && blobcrash_files_follows(&files, 1).len == 0);
    CHECK(blobcrash_files_follows(&files, 2).status == BLOBCRASH_OTHER_REPLY &&
          blobcrash_files_follows(&files, SIZE_MAX).status == BLOBCRASH_OTHER_REPLY);
}

/* A word of 0 keeps, `max` loses. */
static void crashes(void) {
    begin("words max\nprofile posix\nconfig write 0 1 1 2 sectors 2\n");
    CHECK(is(on(BLOBCRASH_F_CREATE, "/a"), 0, 0, 0) && is(on(BLOBCRASH_F_CREATE, "/b"), 0, 1, 0));
    CHECK(blobcrash_files_words_left(&files).len == 1 && is(by(BLOBCRASH_F_CRASH, 0), 0, 2, 2));
    CHECK(blobcrash_files_kept_edit(&files, 0).len == 0 && blobcrash_files_kept_edit(&files, 1).len == 1);
    CHECK(blobcrash_files_kept_edit(&files, 2).status == BLOBCRASH_OTHER_REPLY &&
          blobcrash_files_kept_run(&files, 2, 0).status == BLOBCRASH_OTHER_REPLY);
    /* A record of the journal: 17 bytes, 17 of a change, and its entry, 8 bytes of the directory's number and the name. */
    CHECK(is_run(blobcrash_files_kept_run(&files, 0, 0), 43, 43, 0) && is_run(blobcrash_files_kept_run(&files, 1, 5), 43, 5, 38));
    CHECK(is_run(blobcrash_files_kept_run(&files, 1, SIZE_MAX), 43, 43, 0));
    CHECK(is(blobcrash_files_kept_place(&files, 0), 0, 0, 0) && is(blobcrash_files_kept_place(&files, 1), 0, 0, 43) &&
          refuses(blobcrash_files_kept_place(&files, 2), BLOBCRASH_OTHER_REPLY));
    CHECK(lists("/", "b,") && blobcrash_files_kept_edit(&files, 0).status == BLOBCRASH_OTHER_REPLY);
    CHECK(refuses(by(BLOBCRASH_F_SIZE, 1), BLOBCRASH_F_STALE) && write_at(1, 0, "x") == BLOBCRASH_F_STALE);
    CHECK(is(on(BLOBCRASH_F_OPEN, "/b"), 0, 2, 0) && write_at(2, 0, "old!") == BLOBCRASH_DONE &&
          is(by(BLOBCRASH_F_SYNC, 2), 0, 0, 0));
    /* The zeros of the new sector are lost, and of the three sectors of `newest` the second. */
    const uint64_t words[] = {UINT64_MAX, 0, UINT64_MAX};
    CHECK(write_at(2, 0, "newest") == BLOBCRASH_DONE && blobcrash_files_push_words(&files, words, 3) == BLOBCRASH_DONE);
    CHECK(blobcrash_files_words_left(&files).len == 3 && is(by(BLOBCRASH_F_CRASH, 0), 0, 0, 2));
    CHECK(is_run(blobcrash_files_kept_run(&files, 0, 0), 2, 2, 0));
    CHECK(is_run(blobcrash_files_kept_run(&files, 1, 0), 6, 0, 2) && is_run(blobcrash_files_kept_run(&files, 1, 2), 6, 4, 2));
    CHECK(is(blobcrash_files_kept_place(&files, 0), 0, 3, 4) && is(blobcrash_files_kept_place(&files, 1), 0, 3, 0) &&
          refuses(blobcrash_files_kept_place(&files, 2), BLOBCRASH_OTHER_REPLY));
    CHECK(is(on(BLOBCRASH_F_OPEN, "/b"), 0, 3, 0) && reads(3, 0, "ned!st"));
    CHECK(is(by(BLOBCRASH_F_CRASH, 0), 0, 0, 0) && is(by(BLOBCRASH_F_CRASH, 0), 0, 0, 0) && lists("/", "b,"));
    /* On ext4 an edit behind a lost one is lost too. */
    begin("words max 0\n");
    CHECK(is(on(BLOBCRASH_F_CREATE, "/a"), 0, 0, 0) && is(on(BLOBCRASH_F_CREATE, "/b"), 0, 1, 0) &&
          is(by(BLOBCRASH_F_CRASH, 0), 0, 2, 2));
    CHECK(blobcrash_files_kept_edit(&files, 0).len == 0 && blobcrash_files_kept_edit(&files, 1).len == 0 && lists("/", ""));
    begin("seed 1\n");
    CHECK(blobcrash_files_words_left(&files).status == BLOBCRASH_ENDLESS && blobcrash_files_words_left(&files).len == 0);
}

/* The statuses of a run whose allocations may be refused. */
static bool may_be(uint32_t status) {
    return status == BLOBCRASH_DONE || status == BLOBCRASH_E_MEMORY || status == BLOBCRASH_F_CRASHED;
}

static int recoveries_failed;

/* Each call makes what it says or changes no name. A crash that fails is repeated. Returns whether nothing was refused. */
static bool run_refused(unsigned long nth, bool goes_on) {
    const char *preamble = "words 0\nprofile xfs\nconfig write 0 1 1 1 prefix\n";
    const uint64_t word = 0;
    begin("");
    CHECK(is(on(BLOBCRASH_F_CREATE, "/old"), 0, 0, 0));
    refuses_on = goes_on;
    until_refused = nth + (goes_on ? 1 : 0);
    if (blobcrash_files_open(&files, TEXT(preamble)).status == BLOBCRASH_NO_MEMORY) {
        until_refused = 0;
        CHECK(lists("/", "old,"));
        return false;
    }
    uint32_t pushed = blobcrash_files_push_words(&files, &word, 1);
    CHECK(pushed == BLOBCRASH_DONE || pushed == BLOBCRASH_NO_MEMORY);
    struct blobcrash_file_reply made = on(BLOBCRASH_F_CREATE, "/a");
    uint32_t wrote = write_at(made.number, 0, "abc");
    CHECK(may_be(made.status) && (may_be(wrote) || (made.status && wrote == BLOBCRASH_F_STALE)));
    uint32_t moved = pair(BLOBCRASH_F_RENAME, "/a", "/b", 0), linked = pair(BLOBCRASH_F_LINK, "/b", "/c", 0);
    CHECK(may_be(moved) || moved == BLOBCRASH_F_NOT_FOUND);
    CHECK(may_be(linked) || linked == BLOBCRASH_F_NOT_FOUND);
    CHECK(may_be(ends(BLOBCRASH_F_MAKE_DIRECTORY, "/d")));
    CHECK(may_be(ends(BLOBCRASH_F_LIST, "/")));
    CHECK(may_be(ends(BLOBCRASH_F_SYNC_DIRECTORY, "/")));
    uint32_t crashed = by(BLOBCRASH_F_CRASH, 0).status;
    CHECK(may_be(crashed));
    bool was_refused = until_refused <= (goes_on ? 1 : 0);
    until_refused = 0;
    if (crashed != BLOBCRASH_DONE) {
        uint32_t after = by(BLOBCRASH_F_SYNC_ALL, 0).status;
        CHECK(after == BLOBCRASH_F_CRASHED || after == BLOBCRASH_DONE);
        recoveries_failed += after == BLOBCRASH_F_CRASHED;
        CHECK(by(BLOBCRASH_F_CRASH, 0).status == BLOBCRASH_DONE);
    }
    struct blobcrash_file_reply found = on(BLOBCRASH_F_OPEN, moved == BLOBCRASH_DONE ? "/b" : "/a");
    CHECK(found.status == (made.status == BLOBCRASH_DONE ? BLOBCRASH_DONE : BLOBCRASH_F_NOT_FOUND));
    if (found.status == BLOBCRASH_DONE) CHECK(reads(found.number, 0, wrote == BLOBCRASH_DONE ? "abc" : ""));
    CHECK(ends(BLOBCRASH_F_FIND, "/c") == (linked == BLOBCRASH_DONE ? BLOBCRASH_DONE : BLOBCRASH_F_NOT_FOUND));
    return !was_refused;
}

static void refused_memory(void) {
    for (int goes_on = 0; goes_on < 2; goes_on++) {
        unsigned long nth = 1;
        while (nth < 10000 && !run_refused(nth, goes_on)) nth++;
        CHECK(nth > 20 && nth < 10000);
    }
    CHECK(recoveries_failed > 0);
}

static void too_many_links(void) {
    char path[16];
    begin("");
    CHECK(is(on(BLOBCRASH_F_CREATE, "/a"), 0, 0, 0));
    for (int i = 1; i < 65000; i++) {
        snprintf(path, sizeof path, "/%d", i);
        if (pair(BLOBCRASH_F_LINK, "/a", path, 0) != BLOBCRASH_DONE) CHECK(!"a link");
        if (i % 100 == 0) CHECK(ends(BLOBCRASH_F_SYNC_DIRECTORY, "/") == BLOBCRASH_DONE);
    }
    CHECK(pair(BLOBCRASH_F_LINK, "/a", "/b", 0) == BLOBCRASH_F_TOO_MANY_LINKS && ends(BLOBCRASH_F_UNLINK, "/7") == BLOBCRASH_DONE);
    CHECK(pair(BLOBCRASH_F_LINK, "/a", "/b", 0) == BLOBCRASH_DONE);
}

int main(void) {
    closed_files();
    preambles();
    kinds_by_paths();
    kinds_by_numbers();
    refusals();
    hostile_arguments();
    trees();
    follows();
    crashes();
    refused_memory();
    too_many_links();
    blobcrash_files_close(&files);
    return failed;
}
