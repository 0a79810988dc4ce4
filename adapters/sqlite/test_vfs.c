/* Tests of the linkable VFS, by its own calls. The last line is `N passed, M failed`. */
#include "blobcrash_vfs.h"

#include <sqlite3.h>
#include <stdio.h>
#include <stdlib.h>
#include <string.h>

static int passed, failed;

#define CHECK(what) check((what), #what, __LINE__)

static void check(bool holds, const char *what, int line) {
    passed += holds;
    failed += !holds;
    if (!holds) printf("test_vfs.c:%d: %s (%s)\n", line, what, blobcrash_vfs_message());
}

static sqlite3_vfs *vfs;

/* A database file of some name, opened as SQLite opens it. Its name is freed by shut. */
struct opened {
    sqlite3_file *file;
    sqlite3_filename name;
};

static int open_as(const char *name, int flags, struct opened *opened) {
    opened->file = calloc(1, (size_t)vfs->szOsFile);
    opened->name = (sqlite3_filename)sqlite3_create_filename(name, "/journal", "/wal", 0, NULL);
    if (!opened->file || !opened->name) abort();
    return vfs->xOpen(vfs, opened->name, opened->file, flags | SQLITE_OPEN_READWRITE, NULL);
}

static int open_file(const char *name, struct opened *opened) {
    return open_as(name, SQLITE_OPEN_MAIN_DB | SQLITE_OPEN_CREATE, opened);
}

static void shut(struct opened *opened) {
    if (opened->file->pMethods) opened->file->pMethods->xClose(opened->file);
    free(opened->file);
    sqlite3_free_filename(opened->name);
}

static int write_text(struct opened *opened, const char *text, sqlite3_int64 offset) {
    return opened->file->pMethods->xWrite(opened->file, text, (int)strlen(text), offset);
}

static int read_text(struct opened *opened, char *text, int len, sqlite3_int64 offset) {
    text[len] = 0;
    return opened->file->pMethods->xRead(opened->file, text, len, offset);
}

static int sync_file(struct opened *opened) { return opened->file->pMethods->xSync(opened->file, SQLITE_SYNC_NORMAL); }

/* Starts a file system with this seed and profile. */
static bool start_as(const char *profile, unsigned seed) {
    char preamble[100];
    snprintf(preamble, sizeof preamble, "seed %u\nprofile %s\nconfig write 0 1 0 1 prefix\n", seed, profile);
    return blobcrash_vfs_start(preamble) == SQLITE_OK;
}

static bool start(void) { return start_as("ext4", 7); }

static void test_two_opens_share_bytes_and_a_close_drops_none(void) {
    struct opened first, second;
    char text[8];
    CHECK(start());
    CHECK(open_file("/a", &first) == SQLITE_OK && open_file("/a", &second) == SQLITE_OK);
    CHECK(write_text(&first, "bytes", 0) == SQLITE_OK);
    CHECK(read_text(&second, text, 5, 0) == SQLITE_OK && strcmp(text, "bytes") == 0);
    shut(&first);
    shut(&second);
    CHECK(open_file("/a", &first) == SQLITE_OK);
    CHECK(read_text(&first, text, 5, 0) == SQLITE_OK && strcmp(text, "bytes") == 0);
    shut(&first);
    CHECK(blobcrash_vfs_end() == SQLITE_OK);
}

static void test_a_short_read_is_filled_with_zeros(void) {
    struct opened file;
    char text[8] = "xxxxxxx";
    CHECK(start());
    CHECK(open_file("/a", &file) == SQLITE_OK && write_text(&file, "ab", 0) == SQLITE_OK);
    CHECK(read_text(&file, text, 5, 1) == SQLITE_IOERR_SHORT_READ && memcmp(text, "b\0\0\0\0", 5) == 0);
    CHECK(read_text(&file, text, 5, (sqlite3_int64)1 << 62) == SQLITE_IOERR_SHORT_READ &&
          memcmp(text, "\0\0\0\0\0", 5) == 0);
    CHECK(write_text(&file, "ab", (sqlite3_int64)1 << 62) == SQLITE_IOERR_NOMEM);
    CHECK(file.file->pMethods->xTruncate(file.file, INT64_MAX) == SQLITE_IOERR_NOMEM);
    shut(&file);
}

static void test_each_fault_has_its_code(void) {
    struct opened file, other;
    char text[4];
    CHECK(start());
    CHECK(open_file("/a", &file) == SQLITE_OK && write_text(&file, "abc", 0) == SQLITE_OK);
    CHECK(blobcrash_vfs_set("config read 1 1") == SQLITE_OK && read_text(&file, text, 3, 0) == SQLITE_IOERR_READ);
    CHECK(blobcrash_vfs_set("config write 1 1 0 1 prefix") == SQLITE_OK && write_text(&file, "abc", 0) == SQLITE_IOERR_WRITE);
    CHECK(blobcrash_vfs_set("config resize 1 1 0 1") == SQLITE_OK);
    CHECK(file.file->pMethods->xTruncate(file.file, 1) == SQLITE_IOERR_TRUNCATE);
    CHECK(blobcrash_vfs_set("config sync 1 1") == SQLITE_OK && sync_file(&file) == SQLITE_IOERR_FSYNC);
    CHECK(blobcrash_vfs_set("config open 1 1") == SQLITE_OK && open_file("/b", &other) == SQLITE_CANTOPEN);
    shut(&other);
    CHECK(blobcrash_vfs_faults() == 5);
    shut(&file);
}

static void test_names(void) {
    struct opened file;
    char name[600];
    int answer = -1;
    CHECK(start());
    CHECK(vfs->xDelete(vfs, "/none", 0) == SQLITE_IOERR_DELETE_NOENT);
    CHECK(open_as("/none", SQLITE_OPEN_MAIN_DB, &file) == SQLITE_CANTOPEN);
    shut(&file);
    CHECK(open_file("/a b/\n'\xc3\xa9", &file) == SQLITE_OK);
    CHECK(vfs->xAccess(vfs, "/a b/\n'\xc3\xa9", 0, &answer) == SQLITE_OK && answer == 0);
    CHECK(write_text(&file, "a", 0) == SQLITE_OK);
    shut(&file);
    CHECK(vfs->xAccess(vfs, "/a b/\n'\xc3\xa9", 0, &answer) == SQLITE_OK && answer == 1);
    CHECK(vfs->xAccess(vfs, "/a c", 0, &answer) == SQLITE_OK && answer == 0);
    CHECK(open_as("/a b/\n'\xc3\xa9", SQLITE_OPEN_MAIN_DB | SQLITE_OPEN_CREATE | SQLITE_OPEN_EXCLUSIVE, &file) ==
          SQLITE_CANTOPEN);
    shut(&file);
    memset(name, 'x', sizeof name);
    name[0] = '/';
    name[sizeof name - 1] = 0;
    CHECK(open_file(name, &file) == SQLITE_CANTOPEN);
    shut(&file);
    CHECK(vfs->xAccess(vfs, name, 0, &answer) == SQLITE_OK && answer == 0);
    CHECK(vfs->xDelete(vfs, name, 0) == SQLITE_IOERR_DELETE_NOENT);
    CHECK(open_file("no path", &file) == SQLITE_CANTOPEN);
    shut(&file);
    CHECK(vfs->xFullPathname(vfs, "abc", 4, name) == SQLITE_CANTOPEN);
    CHECK(vfs->xFullPathname(vfs, "abc", 5, name) == SQLITE_OK && strcmp(name, "/abc") == 0);
    CHECK(vfs->xFullPathname(vfs, "/abc", 5, name) == SQLITE_OK && strcmp(name, "/abc") == 0);
}

static void test_a_removed_file_lives_while_it_is_open(void) {
    struct opened file, next;
    char text[4];
    CHECK(start());
    CHECK(open_file("/a", &file) == SQLITE_OK && write_text(&file, "abc", 0) == SQLITE_OK);
    CHECK(vfs->xDelete(vfs, "/a", 0) == SQLITE_OK);
    CHECK(open_file("/a", &next) == SQLITE_OK && read_text(&next, text, 3, 0) == SQLITE_IOERR_SHORT_READ);
    CHECK(read_text(&file, text, 3, 0) == SQLITE_OK && strcmp(text, "abc") == 0);
    CHECK(sync_file(&file) == SQLITE_OK);
    CHECK(blobcrash_vfs_crash(NULL) == SQLITE_OK);
    CHECK(read_text(&file, text, 3, 0) == SQLITE_IOERR_READ);
    shut(&file);
    shut(&next);
}

static void test_a_crash_keeps_what_was_synced(void) {
    struct opened file;
    struct disk_crash crash;
    char text[8];
    CHECK(start());
    CHECK(blobcrash_vfs_set("config write 0 1 1 2 subset") == SQLITE_OK);
    CHECK(open_file("/a", &file) == SQLITE_OK && write_text(&file, "old", 0) == SQLITE_OK &&
          sync_file(&file) == SQLITE_OK);
    CHECK(write_text(&file, "later", 0) == SQLITE_OK && write_text(&file, "er", 3) == SQLITE_OK);
    CHECK(blobcrash_vfs_set("config write 0 1 0 1 prefix") == SQLITE_OK && write_text(&file, "none", 0) == SQLITE_OK);
    CHECK(blobcrash_vfs_crash(&crash) == SQLITE_OK);
    // The two bytes by which the file grows are zeros before they are data: a write of their own.
    CHECK(crash.files.writes == 3 && crash.files.kept_bytes + crash.files.lost_bytes == 9);
    CHECK(write_text(&file, "x", 0) == SQLITE_IOERR_WRITE && sync_file(&file) == SQLITE_IOERR_FSYNC);
    shut(&file);
    CHECK(open_file("/a", &file) == SQLITE_OK && read_text(&file, text, 3, 0) == SQLITE_OK);
    for (int i = 0; i < 3; i++) CHECK(text[i] == "old"[i] || text[i] == "lat"[i]);
    shut(&file);
}

static void test_the_power_goes_off_after_so_many_changes(void) {
    struct opened file;
    char text[4];
    sqlite3_int64 size;
    int answer;
    CHECK(start());
    CHECK(open_file("/a", &file) == SQLITE_OK && blobcrash_vfs_changes() == 1);
    CHECK(blobcrash_vfs_power_off_after(2) == SQLITE_OK);
    CHECK(write_text(&file, "abc", 0) == SQLITE_OK && sync_file(&file) == SQLITE_OK && !blobcrash_vfs_is_off());
    CHECK(write_text(&file, "abc", 0) == SQLITE_IOERR_WRITE && blobcrash_vfs_is_off() && blobcrash_vfs_changes() == 3);
    CHECK(read_text(&file, text, 3, 0) == SQLITE_IOERR_READ);
    CHECK(file.file->pMethods->xFileSize(file.file, &size) == SQLITE_IOERR_FSTAT);
    CHECK(file.file->pMethods->xTruncate(file.file, 0) == SQLITE_IOERR_TRUNCATE);
    CHECK(vfs->xDelete(vfs, "/a", 0) == SQLITE_IOERR_DELETE &&
          vfs->xAccess(vfs, "/a", 0, &answer) == SQLITE_IOERR_ACCESS);
    shut(&file);
    CHECK(open_file("/a", &file) == SQLITE_CANTOPEN);
    shut(&file);
    CHECK(blobcrash_vfs_crash(NULL) == SQLITE_OK && !blobcrash_vfs_is_off());
    CHECK(open_file("/a", &file) == SQLITE_OK && read_text(&file, text, 3, 0) == SQLITE_OK && strcmp(text, "abc") == 0);
    shut(&file);
}

static void test_a_start_and_an_end_need_closed_files(void) {
    struct opened file;
    char text[4];
    CHECK(start());
    CHECK(open_file("/a", &file) == SQLITE_OK && write_text(&file, "abc", 0) == SQLITE_OK);
    CHECK(blobcrash_vfs_start("") == SQLITE_BUSY && blobcrash_vfs_end() == SQLITE_BUSY);
    CHECK(read_text(&file, text, 3, 0) == SQLITE_OK);
    shut(&file);
    CHECK(blobcrash_vfs_start("seed 1\ncreate /a\n") == SQLITE_MISUSE);
    CHECK(open_as("/a", SQLITE_OPEN_MAIN_DB, &file) == SQLITE_OK && read_text(&file, text, 3, 0) == SQLITE_OK);
    shut(&file);
    CHECK(blobcrash_vfs_end() == SQLITE_OK && blobcrash_vfs_end() == SQLITE_OK);
    CHECK(blobcrash_vfs_set("config sync 0 1") == SQLITE_MISUSE && blobcrash_vfs_crash(NULL) == SQLITE_MISUSE);
    CHECK(blobcrash_vfs_power_off_after(1) == SQLITE_MISUSE && blobcrash_vfs_settle() == SQLITE_MISUSE);
    CHECK(start());
    CHECK(blobcrash_vfs_set("config sync 2 1") == SQLITE_MISUSE && blobcrash_vfs_set("config sync 0 1\nsettle") == SQLITE_MISUSE);
    CHECK(blobcrash_vfs_set("settle") == SQLITE_MISUSE && blobcrash_vfs_set("") == SQLITE_MISUSE);
}

/* Syncs a file, and not its directory. Returns in how many of 40 seeds a crash keeps the name. */
static int count_kept(const char *profile) {
    int kept = 0;
    for (unsigned seed = 0; seed < 40; seed++) {
        struct opened file;
        int answer = 0;
        CHECK(start_as(profile, seed));
        CHECK(open_file("/a", &file) == SQLITE_OK && write_text(&file, "abc", 0) == SQLITE_OK && sync_file(&file) == SQLITE_OK);
        shut(&file);
        CHECK(blobcrash_vfs_crash(NULL) == SQLITE_OK && vfs->xAccess(vfs, "/a", 0, &answer) == SQLITE_OK);
        kept += answer;
    }
    return kept;
}

static void test_a_sync_settles_the_name_by_the_profile(void) {
    int kept = count_kept("posix");
    CHECK(kept > 5 && kept < 35);
    CHECK(count_kept("ext4") == 40 && count_kept("xfs") == 40 && count_kept("btrfs") == 40);
}

static void test_a_journal_s_sync_settles_its_name(void) {
    struct opened database, journal;
    int answer;
    for (unsigned seed = 0; seed < 20; seed++) {
        CHECK(start_as("posix", seed) && open_file("/a", &database) == SQLITE_OK);
        journal.file = calloc(1, (size_t)vfs->szOsFile);
        journal.name = NULL;
        CHECK(vfs->xOpen(vfs, sqlite3_filename_journal(database.name), journal.file,
                         SQLITE_OPEN_MAIN_JOURNAL | SQLITE_OPEN_CREATE | SQLITE_OPEN_READWRITE, NULL) == SQLITE_OK);
        CHECK(write_text(&journal, "abc", 0) == SQLITE_OK && sync_file(&journal) == SQLITE_OK);
        CHECK(blobcrash_vfs_crash(NULL) == SQLITE_OK);
        CHECK(vfs->xAccess(vfs, sqlite3_filename_journal(database.name), 0, &answer) == SQLITE_OK && answer == 1);
        shut(&journal);
        shut(&database);
    }
}

static void test_a_sync_that_lies(void) {
    struct opened file;
    char text[4];
    CHECK(start() && open_file("/a", &file) == SQLITE_OK && blobcrash_vfs_settle() == SQLITE_OK);
    CHECK(blobcrash_vfs_set("syncs lie") == SQLITE_OK);
    CHECK(write_text(&file, "abc", 0) == SQLITE_OK && sync_file(&file) == SQLITE_OK);
    CHECK(blobcrash_vfs_crash(NULL) == SQLITE_OK);
    shut(&file);
    CHECK(open_file("/a", &file) == SQLITE_OK && read_text(&file, text, 3, 0) == SQLITE_IOERR_SHORT_READ);
    CHECK(blobcrash_vfs_set("syncs honest") == SQLITE_OK);
    CHECK(write_text(&file, "abc", 0) == SQLITE_OK && sync_file(&file) == SQLITE_OK &&
          blobcrash_vfs_crash(NULL) == SQLITE_OK);
    shut(&file);
    CHECK(open_file("/a", &file) == SQLITE_OK && read_text(&file, text, 3, 0) == SQLITE_OK);
    shut(&file);
}

static sqlite3 *connect(void) {
    sqlite3 *db = NULL;
    CHECK(sqlite3_open_v2("lock.db", &db, SQLITE_OPEN_READWRITE | SQLITE_OPEN_CREATE, "blobcrash") == SQLITE_OK);
    return db;
}

static int run(sqlite3 *db, const char *sql) { return sqlite3_exec(db, sql, NULL, NULL, NULL); }

static void test_locks_between_connections(void) {
    CHECK(start());
    sqlite3 *one = connect(), *two = connect();
    CHECK(run(one, "CREATE TABLE t(v); INSERT INTO t VALUES(1)") == SQLITE_OK &&
          run(two, "SELECT * FROM t") == SQLITE_OK);
    CHECK(run(one, "BEGIN IMMEDIATE") == SQLITE_OK && run(two, "BEGIN IMMEDIATE") == SQLITE_BUSY);
    CHECK(run(two, "BEGIN; SELECT * FROM t") == SQLITE_OK);
    CHECK(run(one, "INSERT INTO t VALUES(2); COMMIT") == SQLITE_BUSY);
    CHECK(run(two, "COMMIT") == SQLITE_OK && run(two, "SELECT * FROM t") == SQLITE_BUSY);
    CHECK(run(one, "COMMIT") == SQLITE_OK && run(two, "INSERT INTO t VALUES(3)") == SQLITE_OK);
    CHECK(run(one, "BEGIN EXCLUSIVE") == SQLITE_OK && run(two, "SELECT * FROM t") == SQLITE_BUSY);
    CHECK(sqlite3_close(one) == SQLITE_OK && run(two, "PRAGMA integrity_check") == SQLITE_OK);
    CHECK(sqlite3_close(two) == SQLITE_OK && blobcrash_vfs_end() == SQLITE_OK);
}

static void test_a_lock_that_waits_keeps_readers_out(void) {
    struct opened one, two, three;
    int answer;
    CHECK(start() && open_file("/a", &one) == SQLITE_OK && open_file("/a", &two) == SQLITE_OK && open_file("/a", &three) == SQLITE_OK);
    const sqlite3_io_methods *calls = one.file->pMethods;
    CHECK(calls->xLock(one.file, SQLITE_LOCK_SHARED) == SQLITE_OK && calls->xLock(two.file, SQLITE_LOCK_SHARED) == SQLITE_OK);
    CHECK(calls->xCheckReservedLock(two.file, &answer) == SQLITE_OK && answer == 0);
    CHECK(calls->xLock(one.file, SQLITE_LOCK_RESERVED) == SQLITE_OK && calls->xLock(two.file, SQLITE_LOCK_RESERVED) == SQLITE_BUSY);
    CHECK(calls->xCheckReservedLock(two.file, &answer) == SQLITE_OK && answer == 1);
    CHECK(calls->xLock(three.file, SQLITE_LOCK_SHARED) == SQLITE_OK && calls->xUnlock(three.file, SQLITE_LOCK_NONE) == SQLITE_OK);
    CHECK(calls->xLock(one.file, SQLITE_LOCK_EXCLUSIVE) == SQLITE_BUSY && calls->xLock(three.file, SQLITE_LOCK_SHARED) == SQLITE_BUSY);
    CHECK(calls->xUnlock(two.file, SQLITE_LOCK_NONE) == SQLITE_OK && calls->xLock(one.file, SQLITE_LOCK_EXCLUSIVE) == SQLITE_OK);
    CHECK(calls->xUnlock(one.file, SQLITE_LOCK_SHARED) == SQLITE_OK && calls->xLock(three.file, SQLITE_LOCK_SHARED) == SQLITE_OK);
    /* A close gives its lock up. */
    CHECK(calls->xLock(one.file, SQLITE_LOCK_RESERVED) == SQLITE_OK);
    shut(&one);
    CHECK(calls->xLock(three.file, SQLITE_LOCK_EXCLUSIVE) == SQLITE_OK);
    shut(&two);
    shut(&three);
}

static void test_shared_memory(void) {
    struct opened one, two;
    void volatile *at, *other;
    CHECK(start() && open_file("/a", &one) == SQLITE_OK && open_file("/a", &two) == SQLITE_OK);
    const sqlite3_io_methods *calls = one.file->pMethods;
    const int exclusive = SQLITE_SHM_LOCK | SQLITE_SHM_EXCLUSIVE, shared = SQLITE_SHM_LOCK | SQLITE_SHM_SHARED;
    CHECK(calls->xShmLock(one.file, 0, 1, exclusive) == SQLITE_IOERR_SHMLOCK);
    CHECK(calls->xShmMap(one.file, 1, 32768, 0, &at) == SQLITE_OK && at == NULL);
    CHECK(calls->xShmMap(one.file, 1, 32768, 1, &at) == SQLITE_OK && at && *(char volatile *)at == 0);
    *(char volatile *)at = 7;
    calls->xShmBarrier(one.file);
    CHECK(calls->xShmMap(two.file, 1, 32768, 0, &other) == SQLITE_OK && other == at);
    CHECK(calls->xShmLock(one.file, 3, 1, shared) == SQLITE_OK && calls->xShmLock(two.file, 3, 1, shared) == SQLITE_OK);
    CHECK(calls->xShmLock(one.file, 2, 3, exclusive) == SQLITE_BUSY && calls->xShmLock(two.file, 2, 1, exclusive) == SQLITE_OK);
    CHECK(calls->xShmLock(two.file, 3, 1, SQLITE_SHM_UNLOCK | SQLITE_SHM_SHARED) == SQLITE_OK);
    CHECK(calls->xShmLock(one.file, 2, 1, shared) == SQLITE_BUSY);
    CHECK(calls->xShmUnmap(two.file, 0) == SQLITE_OK && calls->xShmLock(one.file, 2, 1, exclusive) == SQLITE_OK);
    /* The last one frees it, and so does a crash. */
    CHECK(calls->xShmUnmap(one.file, 0) == SQLITE_OK && calls->xShmMap(two.file, 0, 32768, 0, &at) == SQLITE_OK && !at);
    CHECK(calls->xShmMap(two.file, 0, 32768, 1, &at) == SQLITE_OK && at && blobcrash_vfs_settle() == SQLITE_OK);
    CHECK(blobcrash_vfs_crash(NULL) == SQLITE_OK);
    shut(&one);
    CHECK(open_file("/a", &one) == SQLITE_OK && calls->xShmMap(one.file, 0, 32768, 0, &at) == SQLITE_OK && !at);
    blobcrash_vfs_power_off_after(0);
    CHECK(write_text(&one, "a", 0) == SQLITE_IOERR_WRITE && calls->xShmMap(one.file, 0, 32768, 1, &at) == SQLITE_IOERR_SHMMAP);
    CHECK(calls->xShmLock(two.file, 0, 1, exclusive) == SQLITE_IOERR_SHMLOCK && calls->xShmUnmap(two.file, 1) == SQLITE_OK);
    shut(&one);
    shut(&two);
}

static void test_a_write_ahead_log_with_two_connections(void) {
    CHECK(start());
    sqlite3 *one = connect(), *two = connect();
    CHECK(run(one, "PRAGMA journal_mode=WAL; CREATE TABLE t(v); INSERT INTO t VALUES(1)") == SQLITE_OK);
    CHECK(run(two, "BEGIN; SELECT * FROM t") == SQLITE_OK && run(one, "INSERT INTO t VALUES(2)") == SQLITE_OK);
    /* The reader still sees one row, so that it may not write. */
    CHECK(run(two, "INSERT INTO t VALUES(3)") == SQLITE_BUSY && run(two, "COMMIT; INSERT INTO t VALUES(3)") == SQLITE_OK);
    CHECK(run(one, "BEGIN IMMEDIATE") == SQLITE_OK && run(two, "BEGIN IMMEDIATE") == SQLITE_BUSY && run(one, "COMMIT") == SQLITE_OK);
    CHECK(run(two, "CREATE TABLE u AS SELECT count(*) AS n FROM t") == SQLITE_OK);
    CHECK(run(one, "INSERT INTO t SELECT 1/(n = 3) FROM u") == SQLITE_OK);
    CHECK(sqlite3_close(one) == SQLITE_OK && sqlite3_close(two) == SQLITE_OK && blobcrash_vfs_end() == SQLITE_OK);
}

static void test_the_other_calls_of_the_vfs(void) {
    char text[200];
    double day = 0;
    CHECK(blobcrash_vfs_register() == SQLITE_OK && sqlite3_vfs_find("blobcrash") == vfs);
    CHECK(sqlite3_vfs_find(NULL) != vfs);
    CHECK(vfs->xRandomness(vfs, 8, text) > 0 && vfs->xSleep(vfs, 1) >= 0 && vfs->xCurrentTime(vfs, &day) == SQLITE_OK &&
          day > 0);
    CHECK(vfs->xGetLastError(vfs, sizeof text, text) == 0 && strlen(text) < sizeof text);
}

int main(void) {
    CHECK(blobcrash_vfs_register() == SQLITE_OK);
    vfs = sqlite3_vfs_find("blobcrash");
    if (!vfs) return 1;
    test_two_opens_share_bytes_and_a_close_drops_none();
    test_a_short_read_is_filled_with_zeros();
    test_each_fault_has_its_code();
    test_names();
    test_a_removed_file_lives_while_it_is_open();
    test_a_crash_keeps_what_was_synced();
    test_the_power_goes_off_after_so_many_changes();
    test_a_start_and_an_end_need_closed_files();
    test_a_sync_settles_the_name_by_the_profile();
    test_a_journal_s_sync_settles_its_name();
    test_a_sync_that_lies();
    test_locks_between_connections();
    test_a_lock_that_waits_keeps_readers_out();
    test_shared_memory();
    test_a_write_ahead_log_with_two_connections();
    test_the_other_calls_of_the_vfs();
    blobcrash_vfs_end();
    printf("%d passed, %d failed\n", passed, failed);
    return failed != 0;
}
