#include "life.h"

#include "database.h"
#include "history.h"
#include "random.h"
#include "work.h"

#include <inttypes.h>
#include <stdarg.h>
#include <stdio.h>
#include <stdlib.h>
#include <string.h>

enum { ROUNDS = 12, TRIES = 60 };

/* How a step ended: well; a call failed, and it can be tried again; the power is off; this database is damaged. */
enum step { WELL, FAILED, OFF, DAMAGED };

struct life {
    const struct mode *mode;
    uint64_t seed, draws;
    bool is_told;
    /* The connections, of which `database` is the one in use. A mode without `two` has the first. */
    struct database connections[2], *database;
    uint64_t *counts;
};

static struct history history;

bool life_breaks(const uint64_t *counts, enum promise promise) {
    if (promise == NOTHING) return false;
    return counts[CORRUPT] || counts[WRONG] || (promise == DURABLE && counts[LOST]);
}

static void tell(const struct life *life, const char *format, ...) {
    if (!life->is_told) return;
    va_list words;
    va_start(words, format);
    printf("crash %" PRIu64 ": ", life->counts[CRASHES]);
    vprintf(format, words);
    putchar('\n');
    va_end(words);
}

static enum step corrupt(struct life *life, const char *where, int code) {
    life->counts[CORRUPT]++;
    tell(life, "corrupt at %s: %s: %s", where, sqlite3_errstr(code), sqlite3_errmsg(life->database->db));
    return DAMAGED;
}

/* Compares what the connection sees with what it may see. */
static enum step compare(struct life *life, int attempt, uint64_t hash, bool is_after_crash) {
    uint64_t lost;
    int durable = history.durable;
    switch (history_compare(&history, attempt, hash, is_after_crash, &lost)) {
    case FOUND_DURABLE: return WELL;
    case FOUND_UNACKNOWLEDGED: return WELL;
    case FOUND_OLDER:
        life->counts[LOST] += lost;
        tell(life, "%" PRIu64 " acknowledged transactions are lost: found %d, acknowledged %d", lost, attempt, durable);
        return WELL;
    default:
        life->counts[WRONG]++;
        tell(life, "no transaction left these rows: attempt %d of %d", attempt, history.last);
        return DAMAGED;
    }
}

static enum step judge(struct life *life, bool is_after_crash) {
    char line[200] = "";
    int attempt = -1;
    uint64_t hash = 0, faults = blobcrash_vfs_faults();
    int code = database_check(life->database, line, sizeof line);
    /* The check reports an injected fault as damage. */
    if (blobcrash_vfs_faults() != faults) return blobcrash_vfs_is_off() ? OFF : FAILED;
    if (!code) code = database_look(life->database, &attempt, &hash);
    if (blobcrash_vfs_is_off()) return OFF;
    if (code && !database_is_damage(code)) return FAILED;
    if (code) return corrupt(life, "a query", code);
    if (strcmp(line, "ok") != 0) {
        life->counts[CORRUPT]++;
        tell(life, "corrupt: integrity_check says: %s", line);
        return DAMAGED;
    }
    return compare(life, attempt, hash, is_after_crash);
}

/* Rolls back after a call failed, and checks the database. */
static enum step settle(struct life *life) {
    for (int i = 0; i < TRIES; i++) {
        if (!sqlite3_get_autocommit(life->database->db)) database_run(life->database, "ROLLBACK");
        if (blobcrash_vfs_is_off()) return OFF;
        if (!sqlite3_get_autocommit(life->database->db)) continue;
        enum step step = judge(life, false);
        if (step != FAILED) return step;
    }
    return FAILED;
}

static void close_all(struct life *life) {
    for (int i = 0; i < 2; i++) database_close(&life->connections[i]);
}

/* Opens all connections, and checks the database with the first. */
static enum step open_all(struct life *life, bool is_after_crash) {
    int code = database_open(life->database = &life->connections[0], NULL);
    enum step step = code || blobcrash_vfs_is_off() ? FAILED : judge(life, is_after_crash);
    if (step != FAILED) return step;
    return database_is_damage(code) && !blobcrash_vfs_is_off() ? corrupt(life, "an open", code) : FAILED;
}

/* Closes and opens all connections. */
static enum step open_again(struct life *life, bool is_after_crash) {
    for (int i = 0; i < TRIES; i++) {
        close_all(life);
        enum step step = open_all(life, is_after_crash);
        if (step == WELL && life->mode->has_two_connections && database_open(&life->connections[1], NULL) != SQLITE_OK) step = FAILED;
        if (blobcrash_vfs_is_off()) return step == DAMAGED ? DAMAGED : OFF;
        if (step != FAILED) return step;
        tell(life, "an open is tried again: %s", sqlite3_errmsg(life->database->db));
    }
    return FAILED;
}

/* What a connection reads in a read transaction of its own, and the attempt that it must read. */
struct view {
    struct database *reader;
    int code, attempt, current;
    uint64_t hash;
};

/* Sometimes lets the connection that isn't in use begin to read. Without a write-ahead log that is in the way of a COMMIT. */
static void begin_reading(struct life *life, struct view *view) {
    *view = (struct view){0};
    if (!life->mode->has_two_connections) return;
    struct database *other = &life->connections[random_below(&life->draws, 2)];
    life->database = &life->connections[other == &life->connections[0]];
    if (random_below(&life->draws, 3) != 0) return;
    *view = (struct view){.reader = other, .current = history.current};
    view->code = database_run(other, "BEGIN");
    if (!view->code) view->code = database_look(other, &view->attempt, &view->hash);
}

/* Ends the reading. What was read must still be there. */
static enum step end_reading(struct life *life, const struct view *view) {
    int attempt = -1;
    uint64_t hash = 0;
    if (!view->reader) return WELL;
    int code = view->code ? view->code : database_look(view->reader, &attempt, &hash);
    if (!sqlite3_get_autocommit(view->reader->db)) database_run(view->reader, "ROLLBACK");
    if (code || (attempt == view->attempt && hash == view->hash && attempt == view->current)) return WELL;
    life->counts[WRONG]++;
    tell(life, "a read transaction saw attempt %d, then %d, instead of %d", view->attempt, attempt, view->current);
    return DAMAGED;
}

static enum step transact(struct life *life) {
    bool in_commit = false;
    int last = history.last;
    struct view view;
    begin_reading(life, &view);
    int code = random_below(&life->draws, 40) ? work_transact(life->database, &history, &life->draws, &in_commit)
                                              : work_maintain(life->database, &life->draws);
    if (end_reading(life, &view) == DAMAGED) return DAMAGED;
    if (in_commit && (code & 0xff) == SQLITE_BUSY) code = work_commit(life->database, &history, &in_commit);
    life->counts[COMMITS] += history.last > last && history.attempts[history.last].is_acknowledged;
    if (blobcrash_vfs_is_off()) {
        life->counts[IN_COMMIT] += in_commit;
        return OFF;
    }
    if (database_is_damage(code)) return corrupt(life, "a transaction", code);
    return code ? settle(life) : WELL;
}

/* Opens, works until the power goes off, and closes. False if the database is lost. */
static bool live_round(struct life *life, bool is_first) {
    bool is_short = !is_first && random_below(&life->draws, 3) == 0;
    if (is_short) {
        blobcrash_vfs_power_off_after(1 + (int64_t)random_below(&life->draws, 2u << random_below(&life->draws, 6)));
    }
    enum step step = open_again(life, true);
    life->counts[IN_RECOVERY] += step == OFF;
    if (step == WELL) {
        blobcrash_vfs_power_off_after(1 + (int64_t)random_below(&life->draws, 8u << random_below(&life->draws, 8)));
    }
    while (step == WELL && history_has_capacity(&history)) {
        step = transact(life);
        if (step == WELL && random_below(&life->draws, 12) == 0) step = open_again(life, false);
    }
    /* What the close would write isn't written. */
    blobcrash_vfs_power_off_after(0);
    close_all(life);
    return step != DAMAGED;
}

static void fail(const struct life *life, const char *what) {
    fprintf(stderr, "%s, seed %" PRIu64 ": %s: %s\n", life->mode->name, life->seed, what, blobcrash_vfs_message());
    exit(2);
}

static void set(const struct life *life, const char *setting) {
    if (blobcrash_vfs_set(setting) != SQLITE_OK) fail(life, setting);
}

static void set_faults(struct life *life) {
    static const char *const faults[] = {"config sync 1 40", "config read 1 400", "config open 1 60"};
    const struct mode *mode = life->mode;
    char line[WORDS_LINE];
    words_write_setting(words_tear(&mode->disk, &life->draws), mode->has_faults ? "1 60" : "0 1", &life->draws, line);
    tell(life, "%s", line);
    set(life, line);
    if (mode->disk.lies) set(life, "syncs lie");
    if (!mode->has_faults) return;
    for (size_t i = 0; i < sizeof faults / sizeof *faults; i++) set(life, faults[i]);
    set(life, mode->has_partial_resize ? "config resize 1 12 1 2" : "config resize 1 12 0 1");
}

/* Creates the tables durably. Then the disk and the calls begin to fail. */
static void begin(struct life *life) {
    char preamble[WORDS_PREAMBLE];
    words_preamble(&life->mode->disk, life->seed, preamble);
    sqlite3_test_control(SQLITE_TESTCTRL_PRNG_SEED, (int)(life->seed % 1000000 + 1), NULL);
    if (blobcrash_vfs_start(preamble) != SQLITE_OK) fail(life, "start");
    if (database_open(life->database, "EXTRA") != SQLITE_OK) fail(life, "open");
    if (database_create(life->database) != SQLITE_OK) fail(life, "create");
    close_all(life);
    if (blobcrash_vfs_settle() != SQLITE_OK) fail(life, "settle");
    set_faults(life);
}

void life_run(const struct mode *mode, uint64_t seed, bool is_told, uint64_t *counts) {
    struct life life = {.mode = mode, .seed = seed, .draws = seed * 0x2545f4914f6cdd1d + 17, .is_told = is_told, .counts = counts};
    for (int i = 0; i < 2; i++) life.connections[i] = (struct database){.mode = mode, .seed = seed};
    life.database = &life.connections[0];
    begin(&life);
    history_start(&history);
    for (int round = 0; round < ROUNDS; round++) {
        if (!live_round(&life, round == 0)) break;
        if (blobcrash_vfs_crash(NULL) != SQLITE_OK) fail(&life, "crash");
        counts[CRASHES]++;
    }
    counts[FAULTS] += blobcrash_vfs_faults();
    history_end(&history);
    blobcrash_vfs_end();
}
