#include "work.h"

#include "random.h"

#include <string.h>

enum { LONGEST_VALUE = 8000 };

/* Random bytes, or mostly zeros. */
static void fill(uint8_t *bytes, size_t len, uint64_t *draws) {
    uint64_t own = random_next(draws);
    bool is_sparse = random_below(&own, 2);
    for (size_t i = 0; i < len; i++) {
        uint64_t word = random_next(&own);
        bytes[i] = is_sparse && word % 8 ? 0 : (uint8_t)(word >> 8);
    }
}

static int put(struct database *database, struct rows *rows, int id, uint64_t *draws) {
    static uint8_t bytes[LONGEST_VALUE];
    size_t len = random_below(draws, random_below(draws, 10) ? 400 : LONGEST_VALUE);
    int64_t key = (int64_t)random_below(draws, 1000);
    fill(bytes, len, draws);
    return database_put(database, rows->hash[id] != 0, id, key, bytes, len, &rows->hash[id]);
}

static int change(struct database *database, struct rows *rows, uint64_t *draws) {
    int id = (int)random_below(draws, MOST_ROWS);
    if (!rows->hash[id] || random_below(draws, 3) != 0) return put(database, rows, id, draws);
    rows->hash[id] = 0;
    return database_run(database, "DELETE FROM main.t WHERE id=%d", id);
}

/* Changes rows, and takes the changes back. */
static int undo_to_savepoint(struct database *database, const struct rows *rows, int changes, uint64_t *draws) {
    struct rows undone = *rows;
    int code = database_run(database, "SAVEPOINT s");
    while (!code && changes-- > 0) code = change(database, &undone, draws);
    return code ? code : database_run(database, "ROLLBACK TO s; RELEASE s");
}

static int begin(struct database *database, int number) {
    int code = database_run(database, "BEGIN; UPDATE main.meta SET attempt=%d", number);
    if (code || !database->mode->has_two_files) return code;
    return database_run(database,
                        "UPDATE two.meta SET attempt=%d; INSERT INTO two.t(v) VALUES(zeroblob(3000));"
                        "DELETE FROM two.t WHERE id %% 7 = %d",
                        number, number % 7);
}

static int change_rows(struct database *database, struct rows *rows, uint64_t *draws) {
    int changes = 1 + (int)random_below(draws, 6), code = SQLITE_OK;
    if (random_below(draws, 8) == 0) changes = 20 + (int)random_below(draws, 120);
    bool undoes = database->mode->has_savepoints && random_below(draws, 3) == 0;
    for (int i = 0; i < changes && !code; i++) {
        if (undoes && i == changes / 2) code = undo_to_savepoint(database, rows, changes / 2, draws);
        if (!code) code = change(database, rows, draws);
    }
    return code;
}

int work_commit(struct database *database, struct history *history, bool *in_commit) {
    int code = database_run(database, "COMMIT");
    *in_commit = code != SQLITE_OK;
    if (!code) history_acknowledge(history);
    return code;
}

int work_transact(struct database *database, struct history *history, uint64_t *draws, bool *in_commit) {
    struct rows rows = *history->attempts[history->current].rows;
    *in_commit = false;
    int code = begin(database, history->last + 1);
    if (!code) code = change_rows(database, &rows, draws);
    bool rolls_back = random_below(draws, 12) == 0;
    history_record(history, &rows, !code && !rolls_back);
    if (code) return code;
    if (rolls_back) return database_run(database, "ROLLBACK");
    return work_commit(database, history, in_commit);
}

int work_maintain(struct database *database, uint64_t *draws) {
    if (random_below(draws, 2)) return database_run(database, "VACUUM");
    if (strcmp(database->mode->journal, "wal") == 0) return database_run(database, "PRAGMA wal_checkpoint(TRUNCATE)");
    return database_run(database, "REINDEX");
}
