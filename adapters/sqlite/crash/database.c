#include "database.h"

#include "random.h"

#include <stdarg.h>
#include <stdio.h>
#include <stdlib.h>
#include <string.h>

enum { SQL_SIZE = 512 };

bool database_is_damage(int code) {
    switch (code & 0xff) {
    case SQLITE_CORRUPT:
    case SQLITE_NOTADB:
    case SQLITE_ERROR:
    case SQLITE_CONSTRAINT:
    case SQLITE_INTERNAL: return true;
    default: return false;
    }
}

int database_run(struct database *database, const char *format, ...) {
    char sql[SQL_SIZE];
    va_list words;
    va_start(words, format);
    int len = vsnprintf(sql, sizeof sql, format, words);
    va_end(words);
    if (len < 0 || len >= SQL_SIZE) abort();
    return sqlite3_exec(database->db, sql, NULL, NULL, NULL);
}

/* The pragmas come before anything is read. */
static int set_up(struct database *database, const char *synchronous) {
    static const int pages[] = {512, 1024, 4096};
    const struct mode *mode = database->mode;
    uint64_t draws = database->seed * 77 + 5;
    int page = pages[random_below(&draws, 3)], vacuums = (int)random_below(&draws, 2);
    int cache = 5 + (int)random_below(&draws, 12), checkpoint = 10 + (int)random_below(&draws, 60);
    int code = SQLITE_OK;
    if (mode->is_exclusive) code = database_run(database, "PRAGMA locking_mode=EXCLUSIVE");
    if (!code) {
        code = database_run(database, "PRAGMA page_size=%d; PRAGMA temp_store=MEMORY; PRAGMA auto_vacuum=%d", page,
                            vacuums);
    }
    if (!code) code = database_run(database, "PRAGMA cache_size=%d; PRAGMA synchronous=%s", cache, synchronous);
    if (!code && mode->has_two_files) {
        code = database_run(database, "ATTACH 'two.db' AS two");
        if (!code) {
            code = database_run(
                database, "PRAGMA two.page_size=1024; PRAGMA two.cache_size=5; PRAGMA two.synchronous=%s", synchronous);
        }
    }
    if (code) return code;
    return database_run(database, "PRAGMA journal_mode=%s; PRAGMA wal_autocheckpoint=%d", mode->journal, checkpoint);
}

int database_open(struct database *database, const char *synchronous) {
    char uri[64] = "file:test.db?vfs=blobcrash";
    const int flags = SQLITE_OPEN_READWRITE | SQLITE_OPEN_CREATE | SQLITE_OPEN_URI;
    const struct mode *mode = database->mode;
    if (mode->characteristics) {
        snprintf(uri, sizeof uri, "file:test.db?vfs=blobcrash&device=%d", mode->characteristics);
    }
    int code = sqlite3_open_v2(uri, &database->db, flags, NULL);
    if (code) return code;
    sqlite3_extended_result_codes(database->db, 1);
    return set_up(database, synchronous ? synchronous : mode->synchronous);
}

void database_close(struct database *database) {
    if (database->db && sqlite3_close(database->db) != SQLITE_OK) abort();
    database->db = NULL;
}

static int create_tables(struct database *database, const char *file) {
    return database_run(
        database,
        "BEGIN; CREATE TABLE %s.meta(attempt INT); INSERT INTO %s.meta VALUES(0);"
        "CREATE TABLE %s.t(id INTEGER PRIMARY KEY, k INT, v BLOB); CREATE INDEX %s.i ON t(k, id); COMMIT",
        file, file, file, file);
}

int database_create(struct database *database) {
    sqlite3_stmt *statement = NULL;
    int code = create_tables(database, "main");
    if (!code && database->mode->has_two_files) code = create_tables(database, "two");
    if (!code) code = sqlite3_prepare_v2(database->db, "PRAGMA journal_mode", -1, &statement, NULL);
    if (code) return code;
    if (sqlite3_step(statement) != SQLITE_ROW ||
        strcmp((const char *)sqlite3_column_text(statement, 0), database->mode->journal) != 0) {
        code = SQLITE_MISUSE;
    }
    sqlite3_finalize(statement);
    return code;
}

static uint64_t hash_bytes(uint64_t sum, const void *bytes, size_t len) {
    const uint8_t *at = bytes;
    for (size_t i = 0; i < len; i++) sum = (sum ^ at[i]) * 0x100000001b3;
    return sum;
}

/* FNV-1a, and never 0. */
static uint64_t hash_row(int64_t id, int64_t key, const void *bytes, size_t len) {
    uint64_t sum = hash_bytes(0xcbf29ce484222325, &id, sizeof id);
    sum = hash_bytes(hash_bytes(sum, &key, sizeof key), bytes, len);
    return (sum ^ sum >> 29) | 1;
}

static int look_at_attempt(struct database *database, const char *sql, int *attempt) {
    sqlite3_stmt *statement = NULL;
    int code = sqlite3_prepare_v2(database->db, sql, -1, &statement, NULL);
    if (!code) code = sqlite3_step(statement);
    if (code == SQLITE_ROW) *attempt = sqlite3_column_int(statement, 0), code = SQLITE_OK;
    else if (code == SQLITE_DONE) code = SQLITE_CORRUPT;
    sqlite3_finalize(statement);
    return code;
}

static int look_at_rows(struct database *database, uint64_t *hash) {
    sqlite3_stmt *statement = NULL;
    int code = sqlite3_prepare_v2(database->db, "SELECT id, k, v FROM main.t", -1, &statement, NULL);
    if (code) return code;
    while ((code = sqlite3_step(statement)) == SQLITE_ROW) {
        const void *bytes = sqlite3_column_blob(statement, 2);
        *hash += hash_row(sqlite3_column_int64(statement, 0), sqlite3_column_int64(statement, 1), bytes,
                          (size_t)sqlite3_column_bytes(statement, 2));
    }
    sqlite3_finalize(statement);
    return code == SQLITE_DONE ? SQLITE_OK : code;
}

int database_look(struct database *database, int *attempt, uint64_t *hash) {
    int other;
    *hash = 0;
    int code = look_at_attempt(database, "SELECT attempt FROM main.meta", attempt);
    if (!code && database->mode->has_two_files) {
        code = look_at_attempt(database, "SELECT attempt FROM two.meta", &other);
        if (!code && other != *attempt) *attempt = -1;
    }
    return code ? code : look_at_rows(database, hash);
}

int database_check(struct database *database, char *line, size_t capacity) {
    sqlite3_stmt *statement = NULL;
    int code = sqlite3_prepare_v2(database->db, "PRAGMA integrity_check(3)", -1, &statement, NULL);
    if (!code) code = sqlite3_step(statement);
    if (code == SQLITE_ROW) {
        snprintf(line, capacity, "%s", (const char *)sqlite3_column_text(statement, 0));
        code = SQLITE_OK;
    }
    sqlite3_finalize(statement);
    return code;
}

int database_put(struct database *database, bool exists, int id, int64_t key, const void *bytes, size_t len,
                 uint64_t *hash) {
    const char *sql = exists ? "UPDATE main.t SET k=?2, v=?3 WHERE id=?1" : "INSERT INTO main.t VALUES(?1, ?2, ?3)";
    sqlite3_stmt *statement = NULL;
    int code = sqlite3_prepare_v2(database->db, sql, -1, &statement, NULL);
    if (code) return code;
    sqlite3_bind_int(statement, 1, id);
    sqlite3_bind_int64(statement, 2, key);
    sqlite3_bind_blob(statement, 3, bytes, (int)len, SQLITE_STATIC);
    code = sqlite3_step(statement);
    sqlite3_finalize(statement);
    if (code != SQLITE_DONE) return code;
    *hash = hash_row(id, key, bytes, len);
    return SQLITE_OK;
}
