#include "explore.h"

#include "database.h"
#include "life.h"

#include <inttypes.h>
#include <stdio.h>
#include <stdlib.h>
#include <string.h>

/* A crash makes a choice for each sector of an unsynced write and for each change of names. This is the most that is explored. */
enum { MOST_CHOICES = 20, MOST_PREAMBLE = 16 + 4 * 2 * MOST_CHOICES + WORDS_PREAMBLE };

static const char *const default_names[] = {"delete-extra-xfs", "truncate-full-xfs", "persist-full-xfs", "wal-full-xfs"};

/* What was found after crashes. */
struct findings {
    uint64_t outcomes, old_found, new_found, lost, damaged;
};

struct exploration {
    struct mode mode;
    uint64_t calls; /* After which the power goes off in the transaction, so far. */
    unsigned most_choices;
    struct findings once, twice; /* After a crash; after another in the recovery from it. */
};

/* One crash: the calls after which the power goes off, and the choices, of which bit `i` set loses number `i`. */
struct crash {
    uint64_t calls;
    unsigned count;
    uint64_t choices;
};

static int write_words(char *text, const struct crash *crash) {
    int len = 0;
    for (unsigned i = 0; i < crash->count; i++) len += sprintf(text + len, crash->choices >> i & 1 ? " max" : " 0");
    return len;
}

/* Each word decides a choice at the rate 1/2: 0 keeps, and the greatest loses. Further choices keep. */
static void write_preamble(char *preamble, const struct mode *mode, const struct crash *first, const struct crash *second) {
    int len = sprintf(preamble, "words");
    len += write_words(preamble + len, first);
    if (second) len += write_words(preamble + len, second);
    if (len == 5) len = 0;
    sprintf(preamble + len, "\nprofile %s\nkeep %s\n", mode->disk.profile, mode->disk.keeps_names ? "1 1" : "1 2");
}

static _Noreturn void fail(const struct exploration *exploration, const char *what) {
    fprintf(stderr, "crash: %s: %s: %s\n", exploration->mode.name, what, blobcrash_vfs_message());
    exit(2);
}

static int open_small(struct exploration *exploration, struct database *database) {
    const char *journal = exploration->mode.journal;
    *database = (struct database){.mode = &exploration->mode};
    int code = sqlite3_open_v2("file:test.db", &database->db,
                               SQLITE_OPEN_READWRITE | SQLITE_OPEN_CREATE | SQLITE_OPEN_URI, "blobcrash");
    if (!code && exploration->mode.is_exclusive) code = database_run(database, "PRAGMA locking_mode=EXCLUSIVE");
    if (code) return code;
    return database_run(database, "PRAGMA page_size=512; PRAGMA journal_mode=%s; PRAGMA synchronous=%s", journal,
                        exploration->mode.synchronous);
}

static void set_up(struct exploration *exploration, const struct crash *first, const struct crash *second) {
    struct database database;
    char preamble[MOST_PREAMBLE], line[80];
    const struct words *disk = &exploration->mode.disk;
    const char *sector = strncmp(disk->tear, "sectors", 7) == 0 ? disk->tear + 7 : "9223372036854775807";
    write_preamble(preamble, &exploration->mode, first, second);
    sqlite3_test_control(SQLITE_TESTCTRL_PRNG_SEED, 1, NULL);
    if (blobcrash_vfs_start(preamble) != SQLITE_OK) fail(exploration, "start");
    if (open_small(exploration, &database) != SQLITE_OK ||
        database_run(&database, "CREATE TABLE t(v); INSERT INTO t VALUES('old')") != SQLITE_OK) {
        fail(exploration, "create");
    }
    database_close(&database);
    snprintf(line, sizeof line, "config write 0 1 1 2 sectors %s", sector);
    if (blobcrash_vfs_settle() != SQLITE_OK || blobcrash_vfs_set(line) != SQLITE_OK ||
        blobcrash_vfs_set(disk->lies ? "syncs lie" : "syncs honest") != SQLITE_OK) {
        fail(exploration, line);
    }
}

/* What the table holds: 'o' for old, 'n' for new, '?' if it or the file is damaged. */
static char look(struct exploration *exploration) {
    struct database database;
    char line[80] = "", found = '?';
    sqlite3_stmt *statement = NULL;
    if (open_small(exploration, &database) == SQLITE_OK && database_check(&database, line, sizeof line) == SQLITE_OK &&
        strcmp(line, "ok") == 0 &&
        sqlite3_prepare_v2(database.db, "SELECT v FROM t", -1, &statement, NULL) == SQLITE_OK &&
        sqlite3_step(statement) == SQLITE_ROW) {
        const char *text = (const char *)sqlite3_column_text(statement, 0);
        if (text && (strcmp(text, "old") == 0 || strcmp(text, "new") == 0)) found = text[0];
    }
    sqlite3_finalize(statement);
    database_close(&database);
    return found;
}

/* How a run ended: whether the last of its parts was done before the power went off, and what the last crash did. */
struct end {
    bool is_done;
    struct disk_crash crash;
};

static void crash_now(struct exploration *exploration, struct end *end) {
    if (blobcrash_vfs_crash(&end->crash) != SQLITE_OK) fail(exploration, "crash");
}

/* One transaction, until the first crash. Then it is done if it was acknowledged. */
static struct end transact(struct exploration *exploration, const struct crash *first, const struct crash *second) {
    struct database database;
    struct end end;
    set_up(exploration, first, second);
    blobcrash_vfs_power_off_after((int64_t)first->calls);
    end.is_done =
        open_small(exploration, &database) == SQLITE_OK && database_run(&database, "UPDATE t SET v='new'") == SQLITE_OK;
    blobcrash_vfs_power_off_after(0);
    database_close(&database);
    crash_now(exploration, &end);
    return end;
}

/* And the recovery from it, until the second crash. Then it is done if the database was read. */
static struct end recover(struct exploration *exploration, const struct crash *first, const struct crash *second) {
    struct end end;
    transact(exploration, first, second);
    blobcrash_vfs_power_off_after((int64_t)second->calls);
    look(exploration);
    end.is_done = !blobcrash_vfs_is_off();
    crash_now(exploration, &end);
    return end;
}

static struct end run(struct exploration *exploration, const struct crash *first, const struct crash *second) {
    return second ? recover(exploration, first, second) : transact(exploration, first, NULL);
}

/* Finds how many choices the last crash makes: those after the given words keep, so it loses one more until none do. */
static void count_choices(struct exploration *exploration, struct crash *first, struct crash *second) {
    struct crash *last = second ? second : first;
    last->choices = UINT64_MAX;
    for (last->count = 0; last->count <= MOST_CHOICES; last->count++) {
        if (run(exploration, first, second).crash.kept_draws == 0) break;
    }
    if (last->count > MOST_CHOICES) fail(exploration, "a crash makes too many choices to explore");
    if (last->count > exploration->most_choices) exploration->most_choices = last->count;
}

static void record(struct exploration *exploration, struct findings *findings, bool is_acknowledged) {
    char found = look(exploration);
    findings->outcomes++;
    findings->old_found += found == 'o';
    findings->new_found += found == 'n';
    findings->lost += found == 'o' && is_acknowledged;
    findings->damaged += found == '?';
}

/* Explores each crash in the recovery from a crash, and the one after it. */
static void explore_recovery(struct exploration *exploration, struct crash *first, bool is_acknowledged) {
    struct crash second = {0};
    for (bool is_done = false; !is_done; second.calls++) {
        count_choices(exploration, first, &second);
        for (second.choices = 0; second.choices < (uint64_t)1 << second.count; second.choices++) {
            is_done = recover(exploration, first, &second).is_done;
            record(exploration, &exploration->twice, is_acknowledged);
        }
    }
}

/* Explores each crash in the transaction, and the one after it. */
static void explore_transaction(struct exploration *exploration) {
    struct crash first = {0};
    for (bool is_acknowledged = false; !is_acknowledged; first.calls++) {
        count_choices(exploration, &first, NULL);
        for (first.choices = 0; first.choices < (uint64_t)1 << first.count; first.choices++) {
            is_acknowledged = transact(exploration, &first, NULL).is_done;
            record(exploration, &exploration->once, is_acknowledged);
            explore_recovery(exploration, &first, is_acknowledged);
        }
    }
    exploration->calls = first.calls - 1;
}

static bool parse(const char *name, struct mode *mode) {
    if (!mode_parse(name, mode) || mode->has_faults || mode->has_two_files || mode->has_two_connections) return false;
    if (strcmp(mode->disk.tear, "mix") == 0) mode->disk.tear = "whole";
    return strcmp(mode->disk.tear, "whole") == 0 || strncmp(mode->disk.tear, "sectors", 7) == 0;
}

static void print_row(const char *name, const char *when, const struct exploration *exploration,
                      const struct findings *findings) {
    printf("| %-26s | %-11s | %5" PRIu64 " | %7u | %8" PRIu64 " | %7" PRIu64 " | %7" PRIu64 " | %5" PRIu64
           " | %7" PRIu64 " |\n",
           name, when, exploration->calls, exploration->most_choices, findings->outcomes, findings->old_found,
           findings->new_found, findings->lost, findings->damaged);
    fflush(stdout);
}

int explore(const char *const *names, size_t count) {
    int status = 0;
    if (count == 0) names = default_names, count = sizeof default_names / sizeof *default_names;
    printf("| %-26s | %-11s | %5s | %7s | %8s | %7s | %7s | %5s | %7s |\n", "mode", "crash in", "calls", "choices",
           "outcomes", "old", "new", "lost", "damaged");
    puts("|----------------------------|-------------|------:|--------:|---------:|--------:|--------:|------:|--------"
         ":|");
    for (size_t i = 0; i < count; i++) {
        struct exploration exploration = {0};
        if (!parse(names[i], &exploration.mode)) return fprintf(stderr, "crash: can't explore %s\n", names[i]), 2;
        explore_transaction(&exploration);
        const struct findings *once = &exploration.once, *twice = &exploration.twice;
        print_row(names[i], "transaction", &exploration, once);
        print_row(names[i], "recovery", &exploration, twice);
        if (mode_promise(&exploration.mode) == DURABLE &&
            once->lost + once->damaged + twice->lost + twice->damaged > 0) {
            status = 1;
        }
    }
    blobcrash_vfs_end();
    return status;
}
