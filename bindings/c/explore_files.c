/*
 * Programs on files over every crash of a small run, by explore_files.h: the power fails at each call in turn, and a crash keeps any sectors.
 * Each bug is found, and without it all runs pass. The last line is `N passed, M failed`.
 */
#define _POSIX_C_SOURCE 200809L
#include "explore_files.h"

enum { SECTOR = 512, LEN = 2 * SECTOR };
enum forgets { NOTHING, SYNC, DIRECTORY_SYNC, CHECKSUM, FAILED_SYNC };

static const char *const profiles[] = {"ext4", "xfs", "btrfs", "posix"};
static int passed, failed;

static void tell(bool holds, const char *what) {
    passed += holds;
    failed += !holds;
    if (!holds) printf("explore_files.c: FAILED: %s\n", what);
}

/* A run: its files, what it forgets and what it found. */
struct run {
    struct blobcrash_paths paths;
    struct blobcrash_files files;
    enum forgets forgets;
    bool is_done;
    unsigned appended, records;
    uint8_t found[2 * LEN];
    size_t len;
};

static struct blobcrash_file_reply on(struct run *run, uint32_t kind, const char *path) {
    return blobcrash_explored_path(&run->paths, &run->files, kind, path, NULL, 0);
}

static bool by(struct run *run, uint32_t kind, uint64_t number) {
    return blobcrash_explored_number(&run->paths, &run->files, kind, number, 0).status == BLOBCRASH_DONE;
}

static bool write_at(struct run *run, uint64_t file, uint64_t offset, const uint8_t *bytes) {
    return blobcrash_explored_files_write(&run->paths, &run->files, file, offset, bytes, LEN) == BLOBCRASH_DONE;
}

/* Makes a file of two sectors of a letter. */
static bool make(struct run *run, const char *path, char letter, bool syncs) {
    uint8_t bytes[LEN];
    memset(bytes, letter, LEN);
    struct blobcrash_file_reply file = on(run, BLOBCRASH_F_CREATE, path);
    return file.status == BLOBCRASH_DONE && write_at(run, file.number, 0, bytes) && (!syncs || by(run, BLOBCRASH_F_SYNC, file.number)) &&
           by(run, BLOBCRASH_F_CLOSE, file.number);
}

/* Reads a whole file. It is as none if nothing has the path. */
static bool read_all(struct run *run, const char *path) {
    run->len = 0;
    struct blobcrash_file_reply file = on(run, BLOBCRASH_F_OPEN, path);
    if (file.status != BLOBCRASH_DONE) return file.status == BLOBCRASH_F_NOT_FOUND;
    struct blobcrash_ran ran = blobcrash_explored_files_read(&run->paths, &run->files, file.number, 0, run->found, sizeof run->found);
    run->len = ran.len;
    return ran.status == BLOBCRASH_DONE;
}

static bool has(const struct run *run, char letter) {
    for (size_t i = 0; i < run->len; i++) {
        if (run->found[i] != (uint8_t)letter) return false;
    }
    return run->len == LEN;
}

static bool read_config(void *context) { return read_all(context, "/f"); }

/* Replaces a file by a rename. It has the old bytes or the new ones, and the new ones once the replacement has returned. */
static const char *replace(struct run *run) {
    bool is_set_up = make(run, "/f", 'A', false) && by(run, BLOBCRASH_F_SETTLE, 0);
    run->is_done = is_set_up && make(run, "/t", 'B', run->forgets != SYNC) &&
                   blobcrash_explored_path(&run->paths, &run->files, BLOBCRASH_F_RENAME, "/t", "/f", 0).status == BLOBCRASH_DONE &&
                   (run->forgets == DIRECTORY_SYNC || on(run, BLOBCRASH_F_SYNC_DIRECTORY, "/").status == BLOBCRASH_DONE);
    if (!blobcrash_recover_files(&run->paths, &run->files, read_config, run)) return "the file can't be read";
    if (!is_set_up || has(run, 'B') || (has(run, 'A') && !run->is_done)) return NULL;
    return has(run, 'A') ? "the old bytes are left" : "other bytes are left";
}

/* FNV-1a: a sector of a letter and one of zeros have different sums. */
static uint8_t checksum(const uint8_t *record) {
    uint32_t sum = 2166136261u;
    for (size_t i = 1; i < LEN; i++) sum = (sum ^ record[i]) * 16777619u;
    return (uint8_t)(sum >> 24);
}

static void make_record(uint8_t *record, unsigned number) {
    memset(record, 'a' + (int)number, LEN);
    record[0] = checksum(record);
}

/* Counts the records of the log: those before the first one with another checksum. */
static bool read_log(void *context) {
    struct run *run = context;
    run->records = 0;
    if (!read_all(run, "/log")) return false;
    for (; LEN * (run->records + 1) <= run->len; run->records++) {
        const uint8_t *record = run->found + LEN * run->records;
        uint8_t wanted[LEN];
        make_record(wanted, run->records);
        if (run->forgets != CHECKSUM && record[0] != checksum(record)) break;
        if (memcmp(record, wanted, LEN) != 0) return false;
    }
    return true;
}

/* Appends two records to a log. It has those that were acknowledged, and one more at most. */
static const char *append(struct run *run) {
    struct blobcrash_file_reply log = on(run, BLOBCRASH_F_CREATE, "/log");
    bool is_on = log.status == BLOBCRASH_DONE && on(run, BLOBCRASH_F_SYNC_DIRECTORY, "/").status == BLOBCRASH_DONE;
    for (run->appended = 0; is_on && run->appended < 2; run->appended += is_on) {
        uint8_t record[LEN];
        make_record(record, run->appended);
        is_on = write_at(run, log.number, LEN * run->appended, record) && by(run, BLOBCRASH_F_SYNC_DATA, log.number);
    }
    if (!blobcrash_recover_files(&run->paths, &run->files, read_log, run)) return "a record has other bytes";
    return run->records < run->appended || run->records > run->appended + 1 ? "another number of records" : NULL;
}

static const char *const set_up_paths[] = {"/data", "/log"};

/* Reads the first bytes of the page's file and of the log. */
static bool read_pages(void *context) {
    struct run *run = context;
    run->records = 0;
    for (size_t i = 0; i < 2; i++) {
        if (!read_all(run, set_up_paths[i])) return false;
        run->records += has(run, 'B');
    }
    return true;
}

/* Writes a page of the log to its file, and empties the log. The page is in one of them. If the sync of the file fails, the log stays; with
 * the bug that PostgreSQL had until 2018 the sync is tried again. */
static const char *checkpoint(struct run *run) {
    static const char sync_fails[] = "config sync 1 2";
    uint8_t page[LEN];
    memset(page, 'B', LEN);
    bool is_set_up = make(run, "/data", 'A', false) && make(run, "/log", 'B', false) && by(run, BLOBCRASH_F_SETTLE, 0);
    if (is_set_up) blobcrash_files_configure(&run->files, (const uint8_t *)sync_fails, strlen(sync_fails));
    struct blobcrash_file_reply data = on(run, BLOBCRASH_F_OPEN, "/data"), log = on(run, BLOBCRASH_F_OPEN, "/log");
    bool is_on = is_set_up && write_at(run, data.number, 0, page) &&
                 (by(run, BLOBCRASH_F_SYNC, data.number) || (run->forgets == FAILED_SYNC && by(run, BLOBCRASH_F_SYNC, data.number)));
    if (is_on && by(run, BLOBCRASH_F_TRUNCATE, log.number)) by(run, BLOBCRASH_F_SYNC, log.number);
    if (!blobcrash_recover_files(&run->paths, &run->files, read_pages, run)) return "the files can't be read";
    return is_set_up && run->records == 0 ? "the page is lost" : NULL;
}

typedef const char *body(struct run *run);

/* Explores a program. Returns what is wrong with the first run that fails, or NULL. */
static const char *explore(struct run *run, const char *profile, body *of) {
    char settings[80];
    int status;
    snprintf(settings, sizeof settings, "profile %s\nconfig write 0 1 1 2 sectors 512\nfailed_sync drops\n", profile);
    while ((status = blobcrash_next_files_run(&run->paths, &run->files, settings)) == BLOBCRASH_EXPLORE_RUN) {
        const char *wrong = of(run);
        status = blobcrash_end_files_run(&run->paths, &run->files);
        if (status != BLOBCRASH_EXPLORE_RUN && status != BLOBCRASH_EXPLORE_AGAIN) return "the run doesn't count";
        if (status == BLOBCRASH_EXPLORE_RUN && wrong != NULL) return wrong;
    }
    return status == BLOBCRASH_EXPLORE_END ? NULL : "the exploration didn't end";
}

static bool is_text(const char *found, const char *expected) {
    return expected == NULL ? found == NULL : found != NULL && strcmp(found, expected) == 0;
}

/* The bug is found as this text, or without one all runs pass. Returns how many there were. */
static uint64_t finds(const char *profile, body *of, enum forgets forgets, const char *expected) {
    struct run run = {.paths = {.power_losses = 1}, .forgets = forgets};
    const char *found = explore(&run, profile, of);
    char what[128];
    snprintf(what, sizeof what, "%s, without %d: %s", profile, (int)forgets, found == NULL ? "nothing is found" : found);
    tell(is_text(found, expected), what);
    uint64_t runs = run.paths.runs;
    blobcrash_free_paths(&run.paths);
    return runs;
}

static void bugs(void) {
    /* A run for each call and each way in which a loss there keeps the pending edits and sectors. The first file has 1 + 2, its
     * replacement 1 + 2 + 8 + 1 + 2, and a run without a loss 1. Except in XFS each of the two sectors may also be zeros: 32 in place of 8. In POSIX the name of the synced file is pending too, at the last two calls: 2 + 4. */
    static const uint64_t runs[] = {42, 18, 42, 45};
    for (size_t i = 0; i < 4; i++) {
        tell(finds(profiles[i], replace, NOTHING, NULL) == runs[i], "how many runs a replacement has");
        finds(profiles[i], replace, SYNC, "other bytes are left");
        finds(profiles[i], replace, DIRECTORY_SYNC, "the old bytes are left");
        finds(profiles[i], append, NOTHING, NULL);
        finds(profiles[i], append, CHECKSUM, "a record has other bytes");
        finds(profiles[i], checkpoint, NOTHING, NULL);
        finds(profiles[i], checkpoint, FAILED_SYNC, "the page is lost");
    }
}

/* The script of a run, which is made again. */
static const char *script_of(struct run *run, body *of, char **text) {
    size_t len = 0;
    const char *settings = "profile xfs\nconfig write 0 1 1 2 sectors 512\n";
    FILE *script = open_memstream(text, &len);
    if (script == NULL) return "there is no file";
    blobcrash_repeat_run(&run->paths, script);
    if (blobcrash_next_files_run(&run->paths, &run->files, settings) != BLOBCRASH_EXPLORE_RUN) return "the run isn't made again";
    const char *wrong = of(run);
    blobcrash_end_files_run(&run->paths, &run->files);
    fclose(script);
    return wrong;
}

static const char *two_names(struct run *run) {
    const uint8_t bytes[] = {'x'};
    struct blobcrash_file_reply file = on(run, BLOBCRASH_F_CREATE, "/a b");
    blobcrash_explored_files_write(&run->paths, &run->files, file.number, 0, bytes, 1);
    blobcrash_explored_path(&run->paths, &run->files, BLOBCRASH_F_RENAME, "/a b", "/c", 1);
    on(run, BLOBCRASH_F_OPEN, "/a b");
    blobcrash_explored_number(&run->paths, &run->files, BLOBCRASH_F_TRUNCATE, file.number, 0);
    by(run, BLOBCRASH_F_CRASH, 0);
    return on(run, BLOBCRASH_F_FIND, "/c").status == BLOBCRASH_DONE ? NULL : "/c is lost";
}

/* Makes a run again, and compares its script, which it writes to a file for `blobcrash files`. */
static void scripts(const char *path) {
    static const char *const expected = "words 0 0 max 0\n"
                                        "profile xfs\n"
                                        "config write 0 1 1 2 sectors 512\n"
                                        "create /a\\x20b # is 0\n"
                                        "write 0 0 78\n"
                                        "rename /a\\x20b /c noreplace\n"
                                        "open /a\\x20b # is NotFound\n"
                                        "truncate 0 0\n"
                                        "crash\n"
                                        "# of the unsettled edits it keeps 100\n"
                                        "# of write 0 it keeps bytes 0 to 44 of 45\n"
                                        "# of write 1 it keeps bytes 0 to 0 of 1\n"
                                        "# of write 2 it keeps none of 71\n"
                                        "# of write 3 it keeps bytes 0 to 41 of 42\n"
                                        "find /c # is NotFound\n";
    struct run run = {.forgets = NOTHING};
    char *text = NULL;
    tell(is_text(explore(&run, "xfs", two_names), "/c is lost"), "the second edit may be lost");
    tell(is_text(script_of(&run, two_names, &text), "/c is lost"), "the same run again");
    tell(text != NULL && strcmp(text, expected) == 0, text == NULL ? "no script" : text);
    FILE *file = path == NULL || text == NULL ? NULL : fopen(path, "w");
    if (file != NULL) tell(fputs(text, file) >= 0 && fclose(file) == 0, "the script is written");
    free(text);
    blobcrash_free_paths(&run.paths);
}

/* Programs that try a call until it succeeds. */
static const char *retry_create(struct run *run) {
    while (on(run, BLOBCRASH_F_CREATE, "/f").status != BLOBCRASH_DONE) {}
    return NULL;
}

static const char *retry_sync(struct run *run) {
    uint64_t file = on(run, BLOBCRASH_F_CREATE, "/f").number;
    while (!by(run, BLOBCRASH_F_SYNC, file)) {}
    return NULL;
}

/* More draws than a run is given at first. */
static const char *many(struct run *run) {
    static const uint8_t bytes[200];
    uint64_t file = on(run, BLOBCRASH_F_CREATE, "/f").number;
    blobcrash_explored_files_write(&run->paths, &run->files, file, 0, bytes, sizeof bytes);
    by(run, BLOBCRASH_F_CRASH, 0);
    return NULL;
}

static int status_of(struct run *run, const char *settings, body *of, uint64_t *again) {
    int status = BLOBCRASH_EXPLORE_RUN;
    for (*again = 0; status == BLOBCRASH_EXPLORE_RUN || status == BLOBCRASH_EXPLORE_AGAIN;) {
        status = blobcrash_next_files_run(&run->paths, &run->files, settings);
        if (status != BLOBCRASH_EXPLORE_RUN) return status;
        of(run);
        status = blobcrash_end_files_run(&run->paths, &run->files);
        *again += status == BLOBCRASH_EXPLORE_AGAIN;
    }
    return status;
}

static void limits(void) {
    static const struct { const char *settings; body *of; unsigned losses; int status; uint64_t runs; } rows[] = {
        {"", retry_create, 1, BLOBCRASH_EXPLORE_TOO_LONG, 1},
        {"config sync 1 2\n", retry_sync, 0, BLOBCRASH_EXPLORE_TOO_LONG, 0},
        /* The edit, and each prefix of 200 bytes. */
        {"profile xfs\nconfig write 0 1 1 2 prefix\n", many, 0, BLOBCRASH_EXPLORE_END, 402},
        /* Without a setting of writes: the edit, and on ext4 the zeros and the bytes of the sector. */
        {"", many, 0, BLOBCRASH_EXPLORE_END, 8},
        {"keep 1 1\nconfig sync 0 1\n", many, 0, BLOBCRASH_EXPLORE_END, 4},
        {"keep 1 1\n config  write 0 1 0 1 prefix\n", many, 0, BLOBCRASH_EXPLORE_END, 1},
        {"profile ntfs\n", many, 0, BLOBCRASH_EXPLORE_BAD_SETTINGS, 0},
        {"seed 7\n", many, 0, BLOBCRASH_EXPLORE_BAD_SETTINGS, 0},
    };
    for (size_t row = 0; row < sizeof rows / sizeof *rows; row++) {
        struct run run = {.paths = {.power_losses = rows[row].losses}};
        uint64_t again = 0;
        char what[64];
        int status = status_of(&run, rows[row].settings, rows[row].of, &again);
        snprintf(what, sizeof what, "row %zu of limits: status %d, %" PRIu64 " runs, %" PRIu64 " again", row, status, run.paths.runs, again);
        bool needs_words = rows[row].of == many && rows[row].runs > 100;
        tell(status == rows[row].status && run.paths.runs == rows[row].runs && (again > 0 || !needs_words), what);
        blobcrash_free_paths(&run.paths);
    }
}

/* What syncs the only write of a run. */
enum syncs { NO_SYNC, THE_SYNC, BY_ANOTHER, OF_ANOTHER, OF_ALL, A_SETTLE };

static enum syncs syncs_by;

static const char *write_and_sync(struct run *run) {
    uint64_t file = on(run, BLOBCRASH_F_CREATE, "/f").number, other = on(run, BLOBCRASH_F_CREATE, "/g").number;
    write_at(run, file, 0, run->found);
    if (syncs_by == THE_SYNC) by(run, BLOBCRASH_F_SYNC, file);
    if (syncs_by == BY_ANOTHER) by(run, BLOBCRASH_F_SYNC_DATA, on(run, BLOBCRASH_F_OPEN, "/f").number);
    if (syncs_by == OF_ANOTHER) by(run, BLOBCRASH_F_SYNC, other);
    if (syncs_by == OF_ALL) by(run, BLOBCRASH_F_SYNC_ALL, 0);
    if (syncs_by == A_SETTLE) by(run, BLOBCRASH_F_SETTLE, 0);
    by(run, BLOBCRASH_F_CRASH, 0);
    return NULL;
}

/* What is said of writes that no crash could keep. */
static void unkept(void) {
    static const struct { const char *settings; enum syncs by; bool is_said; } rows[] = {
        {"", NO_SYNC, false}, {"config write 0 1 0 1 prefix\n", NO_SYNC, true}, {"config write 0 1 0 1 prefix\n", THE_SYNC, false},
        {"config write 0 1 0 1 prefix\n", BY_ANOTHER, false}, {"config write 0 1 0 1 prefix\n", OF_ANOTHER, true},
        {"config write 0 1 0 1 prefix\n", OF_ALL, false}, {"config write 0 1 0 1 prefix\n", A_SETTLE, false},
        {"syncs lie\nconfig write 0 1 0 1 prefix\n", THE_SYNC, true}, {"syncs lie\nconfig write 0 1 0 1 prefix\n", OF_ALL, true},
        {"syncs lie\nconfig write 0 1 0 1 prefix\n", A_SETTLE, false},
    };
    for (size_t row = 0; row < sizeof rows / sizeof *rows; row++) {
        struct run run = {0};
        uint64_t again = 0;
        char what[160];
        syncs_by = rows[row].by;
        int status = status_of(&run, rows[row].settings, write_and_sync, &again);
        snprintf(what, sizeof what, "row %zu of unkept: status %d, `%s`", row, status, blobcrash_unkept(&run.paths));
        bool is_said = strncmp(blobcrash_unkept(&run.paths), "; no unsynced write could be kept", 33) == 0;
        tell(status == BLOBCRASH_EXPLORE_END && is_said == rows[row].is_said, what);
        blobcrash_free_paths(&run.paths);
    }
}

/* While the power is off nothing is made but the crash. */
static const char *without_power(struct run *run) {
    uint8_t into[1] = {'?'};
    uint64_t file = on(run, BLOBCRASH_F_CREATE, "/f").number;
    if (!run->paths.is_off) return NULL;
    run->is_done = on(run, BLOBCRASH_F_OPEN, "/f").status == BLOBCRASH_POWER_LOSS && on(run, BLOBCRASH_F_LIST, "/").status == BLOBCRASH_POWER_LOSS &&
                   !by(run, BLOBCRASH_F_SETTLE, 0) && !by(run, BLOBCRASH_F_CLOSE, file) && !write_at(run, file, 0, run->found) &&
                   blobcrash_explored_files_read(&run->paths, &run->files, file, 0, into, 1).status == BLOBCRASH_POWER_LOSS && into[0] == '?' &&
                   by(run, BLOBCRASH_F_CRASH, 0) && !run->paths.is_off && on(run, BLOBCRASH_F_OPEN, "/f").status == BLOBCRASH_F_NOT_FOUND;
    return NULL;
}

int main(int count, char **arguments) {
    bugs();
    scripts(count > 1 ? arguments[1] : NULL);
    limits();
    unkept();
    struct run run = {.paths = {.power_losses = 1}};
    tell(explore(&run, "ext4", without_power) == NULL && run.paths.runs == 2 && run.is_done, "what is made without power");
    blobcrash_free_paths(&run.paths);
    printf("%d passed, %d failed\n", passed, failed);
    return failed != 0;
}
