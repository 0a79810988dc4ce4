/*
 * Files in C that fail: syncs that drop bytes or lie, and writes that write a prefix. Also what a crash says of pending writes, and files
 * without names. It prints each check that fails, and ends with the status 1 if there is one.
 */
#include "files_checks.h"

/* The places of pending writes: two files, each at an offset, and an edit between them. Each file grew, and has zeros before its write. */
static void places(void) {
    begin("profile posix\nconfig write 0 1 1 1 prefix\nkeep 1 1\n");
    CHECK(is(on(BLOBCRASH_F_CREATE, "/a"), 0, 0, 0) && is(on(BLOBCRASH_F_CREATE, "/b"), 0, 1, 0) && is(by(BLOBCRASH_F_SETTLE, 0), 0, 0, 0));
    CHECK(write_at(1, 7, "b") == BLOBCRASH_DONE && pair(BLOBCRASH_F_LINK, "/a", "/c", 0) == BLOBCRASH_DONE &&
          write_at(0, 0, "aa") == BLOBCRASH_DONE && is(by(BLOBCRASH_F_CRASH, 0), 0, 1, 5));
    /* The records of the creates have 43 bytes each. */
    static const uint64_t wanted[][2] = {{3, 0}, {3, 7}, {0, 86}, {2, 0}, {2, 0}};
    for (size_t i = 0; i < 5; i++) CHECK(is(blobcrash_files_kept_place(&files, i), 0, wanted[i][0], wanted[i][1]));
    CHECK(refuses(blobcrash_files_kept_place(&files, 5), BLOBCRASH_OTHER_REPLY));
    CHECK(refuses(blobcrash_files_kept_place(&files, SIZE_MAX), BLOBCRASH_OTHER_REPLY));
}

/* A sync that fails and drops bytes: they are read until the next open, and no later sync writes them. A word of 0 fails. */
static void failed_syncs(void) {
    begin("words 0 max\nconfig write 0 1 1 1 prefix\nfailed_sync drops\n");
    CHECK(is(on(BLOBCRASH_F_CREATE, "/a"), 0, 0, 0) && write_at(0, 0, "old") == BLOBCRASH_DONE && is(by(BLOBCRASH_F_SETTLE, 0), 0, 0, 0));
    CHECK(blobcrash_files_configure(&files, TEXT("config sync 1 2")) == BLOBCRASH_DONE && write_at(0, 0, "newer") == BLOBCRASH_DONE);
    CHECK(refuses(by(BLOBCRASH_F_SYNC, 0), BLOBCRASH_E_INJECTED) && reads(0, 0, "newer") && is(by(BLOBCRASH_F_SIZE, 0), 0, 0, 5));
    CHECK(write_at(0, 1, "E") == BLOBCRASH_DONE && reads(0, 0, "nEwer") && is(by(BLOBCRASH_F_SYNC, 0), 0, 0, 0) && reads(0, 0, "nEwer"));
    CHECK(is(on(BLOBCRASH_F_OPEN, "/a"), 0, 1, 0) && reads(0, 0, "oEd") && is(on(BLOBCRASH_F_FIND, "/a"), 0, 2, 3));
    CHECK(is(by(BLOBCRASH_F_CRASH, 0), 0, 0, 0) && is(on(BLOBCRASH_F_OPEN, "/a"), 0, 2, 0) && reads(2, 0, "oEd"));
    /* What was truncated or appended is dropped too. */
    begin("words 0\nconfig write 0 1 1 1 prefix\nfailed_sync drops\nspace 5 9\n");
    CHECK(is(on(BLOBCRASH_F_CREATE, "/a"), 0, 0, 0) && write_at(0, 0, "old") == BLOBCRASH_DONE && is(by(BLOBCRASH_F_SETTLE, 0), 0, 0, 0));
    CHECK(blobcrash_files_configure(&files, TEXT("config sync 1 2")) == BLOBCRASH_DONE &&
          ask(BLOBCRASH_F_TRUNCATE, 0, "", "", 1, 0).status == BLOBCRASH_DONE && refuses(by(BLOBCRASH_F_SYNC_DATA, 0), BLOBCRASH_E_INJECTED));
    CHECK(reads(0, 0, "o") && ask(BLOBCRASH_F_TRUNCATE, 0, "", "", 2, 0).status == BLOBCRASH_DONE && is(by(BLOBCRASH_F_SIZE, 0), 0, 0, 2));
    CHECK(write_at(0, 3, "xy") == BLOBCRASH_DONE && write_at(0, 5, "z") == BLOBCRASH_F_NO_SPACE && is(by(BLOBCRASH_F_SIZE, 0), 0, 0, 5));
    CHECK(is(by(BLOBCRASH_F_SETTLE, 0), 0, 0, 0) && is(by(BLOBCRASH_F_SIZE, 0), 0, 0, 5) && is(by(BLOBCRASH_F_CLOSE, 0), 0, 0, 0));
    /* Bytes that stay unsynced are written by the next sync. */
    begin("words 0\nconfig sync 1 2\nkeep 1 1\n");
    CHECK(is(on(BLOBCRASH_F_CREATE, "/a"), 0, 0, 0) && write_at(0, 0, "new") == BLOBCRASH_DONE &&
          refuses(by(BLOBCRASH_F_SYNC, 0), BLOBCRASH_E_INJECTED) && blobcrash_files_configure(&files, TEXT("config clear")) == BLOBCRASH_DONE);
    CHECK(is(by(BLOBCRASH_F_SYNC, 0), 0, 0, 0) && is(by(BLOBCRASH_F_CRASH, 0), 0, 0, 0) && is(on(BLOBCRASH_F_OPEN, "/a"), 0, 1, 0) &&
          reads(1, 0, "new"));
}

/* Syncs that return DONE and make nothing durable, as a close does always. */
static void lying_syncs(void) {
    begin("keep 0 1\nconfig sync 1 1\nsyncs lie\n");
    CHECK(is(on(BLOBCRASH_F_CREATE, "/a"), 0, 0, 0) && write_at(0, 0, "old") == BLOBCRASH_DONE && is(by(BLOBCRASH_F_SYNC, 0), 0, 0, 0));
    CHECK(is(by(BLOBCRASH_F_SYNC_DATA, 0), 0, 0, 0) && ends(BLOBCRASH_F_SYNC_DIRECTORY, "/") == BLOBCRASH_DONE &&
          is(by(BLOBCRASH_F_SYNC_ALL, 0), 0, 0, 0) && refuses(by(BLOBCRASH_F_SYNC, 9), BLOBCRASH_F_STALE) &&
          ends(BLOBCRASH_F_SYNC_DIRECTORY, "/b") == BLOBCRASH_F_NOT_FOUND);
    CHECK(is(by(BLOBCRASH_F_CRASH, 0), 0, 1, 0) && lists("/", ""));
    CHECK(is(on(BLOBCRASH_F_CREATE, "/a"), 0, 1, 0) && write_at(1, 0, "old") == BLOBCRASH_DONE && is(by(BLOBCRASH_F_SETTLE, 0), 0, 0, 0));
    CHECK(is(on(BLOBCRASH_F_OPEN_TRUNCATED, "/a"), 0, 2, 0) && is(by(BLOBCRASH_F_CLOSE, 2), 0, 0, 0) && is(by(BLOBCRASH_F_CRASH, 0), 0, 1, 0));
    CHECK(is(on(BLOBCRASH_F_OPEN, "/a"), 0, 3, 0) && reads(3, 0, "old"));
}

/* A write that fails writes a prefix, which its mode wouldn't. Words of 0 fail and keep, `max` doesn't. */
static void failed_writes(void) {
    begin("words 0 0 0 max\nconfig write 1 2 1 2 sectors 4\nfailed_write prefix\n");
    CHECK(is(on(BLOBCRASH_F_CREATE, "/a"), 0, 0, 0) && write_at(0, 0, "abcd") == BLOBCRASH_E_INJECTED && reads(0, 0, "ab"));
    CHECK(blobcrash_files_words_left(&files).len == 0);
    begin("words max 0\nconfig write 1 2 1 2 sectors 4\nfailed_write prefix\n");
    CHECK(is(on(BLOBCRASH_F_CREATE, "/a"), 0, 0, 0) && write_at(0, 2, "ab") == BLOBCRASH_DONE && is(by(BLOBCRASH_F_SIZE, 0), 0, 0, 4));
    begin("words 0\nconfig write 1 2 0 1 sectors 4\nfailed_write prefix\n");
    CHECK(is(on(BLOBCRASH_F_CREATE, "/a"), 0, 0, 0) && write_at(0, 8, "ab") == BLOBCRASH_E_INJECTED && is(by(BLOBCRASH_F_SIZE, 0), 0, 0, 0));
}

/* The bytes of a file without names and descriptors don't count. A crash that loses the unlink finds it. */
static void unlinked_files(void) {
    begin("space 3 1\nkeep 0 1\n");
    CHECK(is(on(BLOBCRASH_F_CREATE, "/a"), 0, 0, 0) && write_at(0, 0, "abc") == BLOBCRASH_DONE && is(by(BLOBCRASH_F_SETTLE, 0), 0, 0, 0));
    CHECK(ends(BLOBCRASH_F_UNLINK, "/a") == BLOBCRASH_DONE && ends(BLOBCRASH_F_CREATE, "/b") == BLOBCRASH_F_NO_SPACE && reads(0, 0, "abc"));
    CHECK(is(by(BLOBCRASH_F_CLOSE, 0), 0, 0, 0) && refuses(by(BLOBCRASH_F_OPEN_INODE, 2), BLOBCRASH_F_NOT_FOUND) &&
          refuses(ask(BLOBCRASH_F_LINK_AT, 1, "b", "", 2, 0), BLOBCRASH_F_NOT_FOUND));
    CHECK(is(on(BLOBCRASH_F_CREATE, "/b"), 0, 1, 0) && write_at(1, 0, "def") == BLOBCRASH_DONE && write_at(1, 3, "g") == BLOBCRASH_F_NO_SPACE);
    CHECK(is(by(BLOBCRASH_F_CRASH, 0), 0, 2, 0) && lists("/", "a,") && is(on(BLOBCRASH_F_OPEN, "/a"), 0, 2, 0) && reads(2, 0, "abc"));
    CHECK(is(by(BLOBCRASH_F_CLOSE, 2), 0, 0, 0) && ends(BLOBCRASH_F_UNLINK, "/a") == BLOBCRASH_DONE &&
          ends(BLOBCRASH_F_SYNC_DIRECTORY, "/") == BLOBCRASH_DONE && is(by(BLOBCRASH_F_CRASH, 0), 0, 0, 0) && lists("/", ""));
}

int main(void) {
    places();
    failed_syncs();
    lying_syncs();
    failed_writes();
    unlinked_files();
    blobcrash_files_close(&files);
    return failed;
}
