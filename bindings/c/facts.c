/*
 * What the library says of calls: what each may do, its line, the words of what numbers name, and the supply of power. The rows are by hand,
 * from docs/BEHAVIOUR.md, docs/FILES.md and docs/FORMATS.md. It prints each check that fails, and ends with the status 1 if there is one.
 */
#include "blobcrash_files.h"

#include <stdio.h>
#include <string.h>

static int failed;

static void check(bool holds, const char *what, int row) {
    if (holds) return;
    printf("%s, %d\n", what, row);
    failed = 1;
}

#define CHECK(holds) check(holds, #holds, __LINE__)
#define TEXT(text) (const uint8_t *)(text), strlen(text)

enum { CAPACITY = 512, UNKNOWN = 60 };

static void open_session(struct blobcrash_session *session, const char *preamble) {
    CHECK(blobcrash_open(session, TEXT(preamble)).status == BLOBCRASH_DONE);
}

/* What each call may do, by docs/BEHAVIOUR.md. */
static const struct { uint32_t kind, effects; } effects[] = {
    {BLOBCRASH_OPEN, BLOBCRASH_CHANGES | BLOBCRASH_DRAWS},
    {BLOBCRASH_OPEN_LOOSE, BLOBCRASH_CHANGES | BLOBCRASH_DRAWS},
    {BLOBCRASH_ADMIT, BLOBCRASH_CHANGES},
    {BLOBCRASH_CLOSE, 0},
    {BLOBCRASH_RESIZE, BLOBCRASH_CHANGES | BLOBCRASH_DRAWS},
    {BLOBCRASH_SIZE, BLOBCRASH_LOOKS},
    {BLOBCRASH_SYNC, BLOBCRASH_CHANGES | BLOBCRASH_DRAWS | BLOBCRASH_SYNCS},
    {BLOBCRASH_START_SYNC, BLOBCRASH_CHANGES | BLOBCRASH_DRAWS | BLOBCRASH_SYNCS},
    {BLOBCRASH_FINISH, BLOBCRASH_CHANGES},
    {BLOBCRASH_REMOVE_BLOB, BLOBCRASH_CHANGES | BLOBCRASH_DRAWS},
    {BLOBCRASH_REMOVE_PARTITION, BLOBCRASH_CHANGES | BLOBCRASH_DRAWS},
    {BLOBCRASH_SCAN, BLOBCRASH_DRAWS},
    {BLOBCRASH_CRASH, BLOBCRASH_DRAWS},
    {BLOBCRASH_REOPEN, 0},
    {BLOBCRASH_READ, BLOBCRASH_DRAWS},
    {BLOBCRASH_WRITE, BLOBCRASH_CHANGES | BLOBCRASH_DRAWS},
    {BLOBCRASH_WRITE_SYNC, BLOBCRASH_CHANGES | BLOBCRASH_DRAWS | BLOBCRASH_SYNCS},
    {BLOBCRASH_CONFIGURE, 0},
    {BLOBCRASH_CONFIGURE + 1, 0},
};

static void effects_of_calls(void) {
    for (size_t i = 0; i < sizeof effects / sizeof *effects; i++) {
        check(blobcrash_effect(effects[i].kind) == effects[i].effects, "the effect of a kind", (int)effects[i].kind);
    }
}

/* Lines of the kinds that have functions of their own, and those that no call has. */
static void lines_of_calls(void) {
    const struct { struct blobcrash_asked asked; const char *partition, *name, *line; } rows[] = {
        {{BLOBCRASH_READ, 1, 2, 3}, "", "", "read 1 2 3"},
        {{BLOBCRASH_WRITE, 1, 2, 3}, "", "az", "write 1 2 617a"},
        {{BLOBCRASH_WRITE_SYNC, 1, UINT64_MAX, 3}, "", "", "writes 1 18446744073709551615 -"},
        {{BLOBCRASH_OPEN, 0, 0, 0}, "a-Z_9", "", "open a-Z_9 -"},
        {{BLOBCRASH_SCAN, 0, 0, 0}, "a b", "", "scan !"},
        {{BLOBCRASH_SCAN, 0, 0, 0}, "", "", "scan !"},
        {{BLOBCRASH_CONFIGURE, 0, 0, 0}, "", "", NULL},
        {{BLOBCRASH_CONFIGURE + 1, 0, 0, 0}, "", "", NULL},
    };
    for (size_t i = 0; i < sizeof rows / sizeof *rows; i++) {
        uint8_t line[64] = "untouched";
        const char *partition = rows[i].partition, *name = rows[i].name;
        struct blobcrash_ran ran = blobcrash_line_of(&rows[i].asked, TEXT(partition), TEXT(name), line, sizeof line);
        bool is_right = ran.status == BLOBCRASH_BAD_CALL && ran.len == 0 && line[0] == 'u';
        if (rows[i].line) is_right = ran.status == BLOBCRASH_DONE && ran.len == strlen(rows[i].line) && memcmp(line, rows[i].line, ran.len) == 0;
        check(is_right, "a line", (int)i);
        line[0] = 'u';
        ran = blobcrash_line_of(&rows[i].asked, TEXT(partition), TEXT(name), line, 5);
        if (rows[i].line) check(ran.status == BLOBCRASH_NO_ROOM && ran.len == strlen(rows[i].line) && line[0] == 'u', "a short buffer", (int)i);
    }
}

/* The power goes off right after the last call of a count. Only a crash and settings are made then, and then a close and the reopening. */
static void power_of_a_session(void) {
    struct blobcrash_session session = {0};
    CHECK(blobcrash_power_off_after(&session, 1) == BLOBCRASH_CLOSED && blobcrash_power_on(&session) == BLOBCRASH_CLOSED);
    CHECK(blobcrash_power(&session).status == BLOBCRASH_CLOSED);
    open_session(&session, "config write 0 1 0 1 subset\n");
    CHECK(!blobcrash_power(&session).is_off && blobcrash_power_off_after(&session, 2) == BLOBCRASH_DONE);
    uint8_t byte = 0, reply[CAPACITY];
    const struct blobcrash_asked opens = {BLOBCRASH_OPEN, 0, 0, 0}, syncs = {BLOBCRASH_SYNC, 0, 0, 0};
    CHECK(blobcrash_apply(&session, &opens, TEXT("p"), TEXT("a")).status == BLOBCRASH_DONE);
    CHECK(blobcrash_tracked_size(&session, 0).status == BLOBCRASH_DONE && blobcrash_power(&session).left == 1);
    CHECK(blobcrash_write(&session, 0, 0, TEXT("xy"), false) == BLOBCRASH_DONE && blobcrash_power(&session).is_off);
    CHECK(blobcrash_write(&session, 0, 0, TEXT("z"), true) == BLOBCRASH_POWER_LOSS);
    CHECK(blobcrash_read(&session, 0, 0, &byte, 1) == BLOBCRASH_POWER_LOSS && byte == 0);
    CHECK(blobcrash_apply(&session, &syncs, TEXT(""), TEXT("")).status == BLOBCRASH_POWER_LOSS);
    CHECK(blobcrash_call(&session, TEXT("close 0"), reply, CAPACITY).status == BLOBCRASH_POWER_LOSS);
    CHECK(blobcrash_call(&session, TEXT("reopen"), reply, CAPACITY).status == BLOBCRASH_POWER_LOSS);
    CHECK(blobcrash_call(&session, TEXT("config sync 0 1"), reply, CAPACITY).status == BLOBCRASH_DONE);
    CHECK(blobcrash_power_off_after(&session, 5) == BLOBCRASH_POWER_LOSS);
    CHECK(blobcrash_call(&session, TEXT("crash"), reply, CAPACITY).status == BLOBCRASH_DONE && blobcrash_power(&session).has_crashed);
    CHECK(blobcrash_call(&session, TEXT("scan p"), reply, CAPACITY).status == BLOBCRASH_POWER_LOSS);
    CHECK(blobcrash_call(&session, TEXT("close 0"), reply, CAPACITY).status == BLOBCRASH_DONE);
    CHECK(blobcrash_call(&session, TEXT("reopen"), reply, CAPACITY).status == BLOBCRASH_DONE);
    struct blobcrash_power_state power = blobcrash_power(&session);
    CHECK(!power.is_off && !power.has_crashed && !power.is_counting);
    CHECK(blobcrash_call(&session, TEXT("scan p"), reply, CAPACITY).status == BLOBCRASH_DONE);
    CHECK(blobcrash_power_off_after(&session, 0) == BLOBCRASH_DONE && blobcrash_power(&session).is_off);
    CHECK(blobcrash_power_on(&session) == BLOBCRASH_DONE && !blobcrash_power(&session).is_off);
    blobcrash_close(&session);
}

/* What each call on files may do. */
static const struct { uint32_t kind, effects; } file_effects[] = {
    {BLOBCRASH_F_CREATE, BLOBCRASH_CHANGES | BLOBCRASH_DRAWS},
    {BLOBCRASH_F_OPEN, 0},
    {BLOBCRASH_F_OPEN_TRUNCATED, BLOBCRASH_CHANGES | BLOBCRASH_DRAWS},
    {BLOBCRASH_F_LINK, BLOBCRASH_CHANGES},
    {BLOBCRASH_F_UNLINK, BLOBCRASH_CHANGES},
    {BLOBCRASH_F_RENAME, BLOBCRASH_CHANGES},
    {BLOBCRASH_F_MAKE_DIRECTORY, BLOBCRASH_CHANGES},
    {BLOBCRASH_F_REMOVE_DIRECTORY, BLOBCRASH_CHANGES},
    {BLOBCRASH_F_LIST, BLOBCRASH_LOOKS},
    {BLOBCRASH_F_SYNC_DIRECTORY, BLOBCRASH_CHANGES | BLOBCRASH_SYNCS},
    {BLOBCRASH_F_FIND, BLOBCRASH_LOOKS},
    {BLOBCRASH_F_FIND + 1, 0},
    {BLOBCRASH_F_CREATE_AT, BLOBCRASH_CHANGES | BLOBCRASH_DRAWS},
    {BLOBCRASH_F_LINK_AT, BLOBCRASH_CHANGES},
    {BLOBCRASH_F_UNLINK_AT, BLOBCRASH_CHANGES},
    {BLOBCRASH_F_RENAME_AT, BLOBCRASH_CHANGES},
    {BLOBCRASH_F_MAKE_DIRECTORY_AT, BLOBCRASH_CHANGES},
    {BLOBCRASH_F_REMOVE_DIRECTORY_AT, BLOBCRASH_CHANGES},
    {BLOBCRASH_F_LIST_AT, BLOBCRASH_LOOKS},
    {BLOBCRASH_F_SYNC_DIRECTORY_AT, BLOBCRASH_CHANGES | BLOBCRASH_SYNCS},
    {BLOBCRASH_F_FIND_AT, BLOBCRASH_LOOKS},
    {BLOBCRASH_F_OPEN_INODE, 0},
    {BLOBCRASH_F_OPEN_INODE_TRUNCATED, BLOBCRASH_CHANGES | BLOBCRASH_DRAWS},
    {BLOBCRASH_F_CLOSE, 0},
    {BLOBCRASH_F_TRUNCATE, BLOBCRASH_CHANGES | BLOBCRASH_DRAWS},
    {BLOBCRASH_F_SIZE, BLOBCRASH_LOOKS},
    {BLOBCRASH_F_SYNC, BLOBCRASH_CHANGES | BLOBCRASH_DRAWS | BLOBCRASH_SYNCS},
    {BLOBCRASH_F_SYNC_DATA, BLOBCRASH_CHANGES | BLOBCRASH_DRAWS | BLOBCRASH_SYNCS},
    {BLOBCRASH_F_INODE_OF, BLOBCRASH_LOOKS},
    {BLOBCRASH_F_READ, BLOBCRASH_DRAWS},
    {BLOBCRASH_F_WRITE, BLOBCRASH_CHANGES | BLOBCRASH_DRAWS},
    {BLOBCRASH_F_SYNC_ALL, BLOBCRASH_CHANGES | BLOBCRASH_DRAWS | BLOBCRASH_SYNCS},
    {BLOBCRASH_F_SETTLE, BLOBCRASH_SYNCS},
    {BLOBCRASH_F_CRASH, BLOBCRASH_DRAWS},
    {BLOBCRASH_F_TREE, BLOBCRASH_LOOKS},
    {BLOBCRASH_F_COMMIT, BLOBCRASH_SYNCS},
    {UNKNOWN, 0},
};

static void effects_of_file_calls(void) {
    for (size_t i = 0; i < sizeof file_effects / sizeof *file_effects; i++) {
        uint32_t kind = file_effects[i].kind;
        check(blobcrash_files_effect(kind) == file_effects[i].effects, "the effect of a kind of files", (int)kind);
    }
}

/* The line of each call, with the paths `/a b` and `c`, number 1, first 2 and last 1. NULL if there is none. */
static const struct { uint32_t kind; uint64_t first; const char *line; } file_lines[] = {
    {BLOBCRASH_F_CREATE, 2, "create /a\\x20b"},
    {BLOBCRASH_F_OPEN, 2, "open /a\\x20b"},
    {BLOBCRASH_F_OPEN_TRUNCATED, 2, "open_truncated /a\\x20b"},
    {BLOBCRASH_F_LINK, 2, "link /a\\x20b c"},
    {BLOBCRASH_F_UNLINK, 2, "unlink /a\\x20b"},
    {BLOBCRASH_F_RENAME, 0, "rename /a\\x20b c"},
    {BLOBCRASH_F_RENAME, 1, "rename /a\\x20b c noreplace"},
    {BLOBCRASH_F_RENAME, 2, "rename /a\\x20b c exchange"},
    {BLOBCRASH_F_RENAME, 3, NULL},
    {BLOBCRASH_F_MAKE_DIRECTORY, 2, "mkdir /a\\x20b"},
    {BLOBCRASH_F_REMOVE_DIRECTORY, 2, "rmdir /a\\x20b"},
    {BLOBCRASH_F_LIST, 2, "listdir /a\\x20b"},
    {BLOBCRASH_F_SYNC_DIRECTORY, 2, "fsyncdir /a\\x20b"},
    {BLOBCRASH_F_FIND, 2, "find /a\\x20b"},
    {BLOBCRASH_F_CREATE_AT, 2, "create_at 1 /a\\x20b"},
    {BLOBCRASH_F_LINK_AT, 2, "link_at 2 1 /a\\x20b"},
    {BLOBCRASH_F_UNLINK_AT, 2, "unlink_at 1 /a\\x20b"},
    {BLOBCRASH_F_RENAME_AT, 2, "rename_at 1 /a\\x20b 2 c noreplace"},
    {BLOBCRASH_F_MAKE_DIRECTORY_AT, 2, "mkdir_at 1 /a\\x20b"},
    {BLOBCRASH_F_REMOVE_DIRECTORY_AT, 2, "rmdir_at 1 /a\\x20b"},
    {BLOBCRASH_F_LIST_AT, 2, "listdir_at 1"},
    {BLOBCRASH_F_SYNC_DIRECTORY_AT, 2, "fsyncdir_at 1"},
    {BLOBCRASH_F_FIND_AT, 2, "find_at 1 /a\\x20b"},
    {BLOBCRASH_F_OPEN_INODE, 2, "open_inode 1"},
    {BLOBCRASH_F_OPEN_INODE_TRUNCATED, 2, "open_inode_truncated 1"},
    {BLOBCRASH_F_CLOSE, 2, "close 1"},
    {BLOBCRASH_F_TRUNCATE, 2, "truncate 1 2"},
    {BLOBCRASH_F_SIZE, 2, "size 1"},
    {BLOBCRASH_F_SYNC, 2, "fsync 1"},
    {BLOBCRASH_F_SYNC_DATA, 2, "fdatasync 1"},
    {BLOBCRASH_F_INODE_OF, 2, "inode_of 1"},
    {BLOBCRASH_F_READ, 2, "read 1 2 1"},
    {BLOBCRASH_F_WRITE, 2, "write 1 2 2f612062"},
    {BLOBCRASH_F_SYNC_ALL, 2, "sync"},
    {BLOBCRASH_F_SETTLE, 2, "settle"},
    {BLOBCRASH_F_CRASH, 2, "crash"},
    {BLOBCRASH_F_TREE, 2, "tree"},
    {BLOBCRASH_F_COMMIT, 2, "commit"},
    {UNKNOWN, 2, NULL},
};

static void lines_of_file_calls(void) {
    for (size_t i = 0; i < sizeof file_lines / sizeof *file_lines; i++) {
        const struct blobcrash_file_call asked = {file_lines[i].kind, 1, file_lines[i].first, 1};
        uint8_t line[CAPACITY] = "untouched";
        struct blobcrash_ran ran = blobcrash_files_line_of(&asked, TEXT("/a b"), TEXT("c"), line, sizeof line);
        const char *wanted = file_lines[i].line;
        bool is_right = ran.status == BLOBCRASH_BAD_CALL && ran.len == 0 && line[0] == 'u';
        if (wanted) is_right = ran.status == BLOBCRASH_DONE && ran.len == strlen(wanted) && memcmp(line, wanted, ran.len) == 0;
        check(is_right, "the line of a kind of files", (int)i);
        line[0] = 'U';
        ran = blobcrash_files_line_of(&asked, TEXT("/a b"), TEXT("c"), line, 3);
        if (wanted) check(ran.status == BLOBCRASH_NO_ROOM && ran.len == strlen(wanted) && line[0] == 'U', "a short buffer", (int)i);
    }
}

/* A path has each byte that isn't printable ASCII, a space, a backslash and a number sign in hex. */
static void paths(void) {
    const struct { const char *bytes, *token; size_t len; } rows[] = {
        {"", "\"\"", 0}, {"~!", "~!", 2}, {"\\#", "\\x5c\\x23", 2}, {"\0\x7f\xff", "\\x00\\x7f\\xff", 3}, {"\"\"", "\"\"", 2},
    };
    for (size_t i = 0; i < sizeof rows / sizeof *rows; i++) {
        const struct blobcrash_file_call asked = {BLOBCRASH_F_FIND, 0, 0, 0};
        uint8_t line[CAPACITY];
        struct blobcrash_ran ran = blobcrash_files_line_of(&asked, (const uint8_t *)rows[i].bytes, rows[i].len, TEXT(""), line, sizeof line);
        size_t len = strlen(rows[i].token);
        check(ran.len == len + 5 && memcmp(line, "find ", 5) == 0 && memcmp(line + 5, rows[i].token, len) == 0, "a path", (int)i);
    }
}

static bool has_word(uint32_t table, uint32_t number, const char *word) {
    uint8_t found[64];
    struct blobcrash_ran ran = blobcrash_word(table, number, found, sizeof found);
    if (!word) return ran.status == BLOBCRASH_OTHER_REPLY;
    return ran.status == BLOBCRASH_DONE && ran.len == strlen(word) && memcmp(found, word, ran.len) == 0;
}

static void words(void) {
    static const char *const profiles[] = {"ext4", "xfs", "btrfs", "posix", NULL}, *const modes[] = {"prefix", "subset", "sectors", NULL};
    static const char *const renames[] = {"", "noreplace", "exchange", NULL};
    static const char *const refusals[] = {"Exists", "NotFound", "NotEmpty", "IsDirectory", "NotDirectory", "NameTooLong", "InvalidName",
                                           "TooManyLinks", "Stale", "NoSpace", "Loop", "Crashed", NULL};
    for (uint32_t i = 0; i < 5; i++) CHECK(has_word(BLOBCRASH_W_PROFILES, i, profiles[i]));
    for (uint32_t i = 0; i < 4; i++) CHECK(has_word(BLOBCRASH_W_MODES, i, modes[i]) && has_word(BLOBCRASH_W_RENAMES, i, renames[i]));
    for (uint32_t i = 0; i < 13; i++) CHECK(has_word(BLOBCRASH_W_REFUSALS, BLOBCRASH_F_EXISTS + i, refusals[i]));
    CHECK(has_word(BLOBCRASH_W_KINDS, BLOBCRASH_CONFIGURE, "config") && has_word(BLOBCRASH_W_KINDS, BLOBCRASH_CONFIGURE + 1, NULL));
    CHECK(has_word(BLOBCRASH_W_FILE_KINDS, BLOBCRASH_F_WRITE, "write") && has_word(BLOBCRASH_W_FILE_KINDS, UNKNOWN, NULL));
    CHECK(has_word(BLOBCRASH_W_REFUSALS, BLOBCRASH_DONE, NULL) && has_word(BLOBCRASH_W_RENAMES + 1, 0, NULL));
    uint8_t none = 7;
    struct blobcrash_ran ran = blobcrash_word(BLOBCRASH_W_PROFILES, 0, &none, 1);
    CHECK(ran.status == BLOBCRASH_NO_ROOM && ran.len == 4 && none == 7);
}

static uint32_t make(struct blobcrash_files *files, uint32_t kind, uint64_t number, const char *path) {
    const struct blobcrash_file_call asked = {kind, number, 0, 0};
    return blobcrash_files_apply(files, &asked, TEXT(path), TEXT("")).status;
}

/* The power of files goes off right after the last call of a count. Only a crash and settings are made then, and a crash turns it on. */
static void power_of_files(void) {
    struct blobcrash_files files = {0};
    uint8_t byte = 0;
    CHECK(blobcrash_files_power_off_after(&files, 1) == BLOBCRASH_CLOSED && blobcrash_files_power_on(&files) == BLOBCRASH_CLOSED);
    CHECK(blobcrash_files_power(&files).status == BLOBCRASH_CLOSED);
    CHECK(blobcrash_files_open(&files, TEXT("")).status == BLOBCRASH_DONE && blobcrash_files_power_off_after(&files, 3) == BLOBCRASH_DONE);
    CHECK(make(&files, BLOBCRASH_F_CREATE, 0, "/a") == BLOBCRASH_DONE && make(&files, BLOBCRASH_F_CREATE, 0, "/a") == BLOBCRASH_F_EXISTS);
    CHECK(make(&files, BLOBCRASH_F_OPEN, 0, "/a") == BLOBCRASH_DONE && make(&files, BLOBCRASH_F_CLOSE, 1, "") == BLOBCRASH_DONE);
    CHECK(make(&files, BLOBCRASH_F_SETTLE, 0, "") == BLOBCRASH_DONE && make(&files, BLOBCRASH_F_FIND, 0, "/a") == BLOBCRASH_DONE);
    struct blobcrash_power_state power = blobcrash_files_power(&files);
    CHECK(!power.is_off && power.is_counting && power.left == 1 && power.changes == 2);
    CHECK(blobcrash_files_write(&files, 0, 0, TEXT("x")) == BLOBCRASH_DONE && blobcrash_files_power(&files).is_off);
    CHECK(blobcrash_files_write(&files, 0, 0, TEXT("y")) == BLOBCRASH_POWER_LOSS);
    CHECK(blobcrash_files_read(&files, 0, 0, &byte, 1).status == BLOBCRASH_POWER_LOSS && byte == 0);
    CHECK(make(&files, BLOBCRASH_F_FIND, 0, "/a") == BLOBCRASH_POWER_LOSS && make(&files, BLOBCRASH_F_CLOSE, 0, "") == BLOBCRASH_POWER_LOSS);
    CHECK(make(&files, BLOBCRASH_F_SETTLE, 0, "") == BLOBCRASH_POWER_LOSS && blobcrash_files_power(&files).changes == 3);
    CHECK(blobcrash_files_configure(&files, TEXT("keep 1 1")) == BLOBCRASH_DONE);
    CHECK(blobcrash_files_power_off_after(&files, 1) == BLOBCRASH_POWER_LOSS);
    CHECK(make(&files, BLOBCRASH_F_CRASH, 0, "") == BLOBCRASH_DONE && !blobcrash_files_power(&files).is_off);
    CHECK(make(&files, BLOBCRASH_F_FIND, 0, "/a") == BLOBCRASH_DONE);
    /* A crash while the power is on doesn't end the count. */
    CHECK(blobcrash_files_power_off_after(&files, 2) == BLOBCRASH_DONE && make(&files, BLOBCRASH_F_CRASH, 0, "") == BLOBCRASH_DONE);
    CHECK(blobcrash_files_power(&files).left == 2 && blobcrash_files_power_on(&files) == BLOBCRASH_DONE);
    CHECK(!blobcrash_files_power(&files).is_counting);
    blobcrash_files_close(&files);
}

int main(void) {
    effects_of_calls();
    lines_of_calls();
    power_of_a_session();
    effects_of_file_calls();
    lines_of_file_calls();
    paths();
    words();
    power_of_files();
    return failed;
}
