/*
 * The loadable extension `blobcrash`: registers the VFS for the process, and these SQL functions for the connection
 * that loads it.
 *
 * - blobcrash_crash(): crashes, and returns how many bytes of unsynced writes were lost by its choices.
 * - blobcrash_power_off(calls): lets this many more calls change something; then every call fails until the next crash.
 * - blobcrash_set(setting): makes a setting of the file system, as 'config sync 1 40' or 'syncs lie'.
 * - blobcrash_note(text): adds a comment to the record of the run.
 * - blobcrash_settle(): makes all files durable, without a draw.
 * - blobcrash_changes(): returns how many calls have changed something since the file system was started.
 * - blobcrash_reset(): ends the file system. The next open starts a new one.
 * - blobcrash_message(): returns why the last call was refused.
 *
 * Call them on a connection to another database, as ':memory:'. An error has the text of blobcrash_message.
 */
#include "store.h"

#include <string.h>

SQLITE_EXTENSION_INIT1

static void give(sqlite3_context *context, int code) {
    if (code == SQLITE_OK) {
        sqlite3_result_null(context);
    } else {
        sqlite3_result_error(context, blobcrash_vfs_message(), -1);
        sqlite3_result_error_code(context, code);
    }
}

static void sql_crash(sqlite3_context *context, int count, sqlite3_value **arguments) {
    struct disk_crash crash;
    (void)count, (void)arguments;
    int code = blobcrash_vfs_crash(&crash);
    if (code) give(context, code);
    else sqlite3_result_int64(context, (sqlite3_int64)crash.files.lost_bytes);
}

static void sql_power_off(sqlite3_context *context, int count, sqlite3_value **arguments) {
    (void)count;
    if (sqlite3_value_type(arguments[0]) != SQLITE_INTEGER) {
        sqlite3_result_error(context, "blobcrash_power_off takes an integer", -1);
        return;
    }
    give(context, blobcrash_vfs_power_off_after(sqlite3_value_int64(arguments[0])));
}

/* Returns the argument if it is a text without a zero byte, otherwise an error. */
static const char *text_of(sqlite3_context *context, sqlite3_value *argument) {
    const char *text = (const char *)sqlite3_value_text(argument);
    if (text && strlen(text) == (size_t)sqlite3_value_bytes(argument)) return text;
    sqlite3_result_error(context, "blobcrash_set and blobcrash_note take a text", -1);
    return NULL;
}

static void sql_set(sqlite3_context *context, int count, sqlite3_value **arguments) {
    const char *setting = text_of(context, arguments[0]);
    (void)count;
    if (setting) give(context, blobcrash_vfs_set(setting));
}

static void sql_note(sqlite3_context *context, int count, sqlite3_value **arguments) {
    const char *text = text_of(context, arguments[0]);
    (void)count;
    if (text) give(context, blobcrash_vfs_note(text));
}

static void sql_settle(sqlite3_context *context, int count, sqlite3_value **arguments) {
    (void)count, (void)arguments;
    give(context, blobcrash_vfs_settle());
}

static void sql_changes(sqlite3_context *context, int count, sqlite3_value **arguments) {
    (void)count, (void)arguments;
    sqlite3_result_int64(context, (sqlite3_int64)blobcrash_vfs_changes());
}

static void sql_reset(sqlite3_context *context, int count, sqlite3_value **arguments) {
    (void)count, (void)arguments;
    give(context, blobcrash_vfs_end());
}

static void sql_message(sqlite3_context *context, int count, sqlite3_value **arguments) {
    (void)count, (void)arguments;
    sqlite3_result_text(context, blobcrash_vfs_message(), -1, SQLITE_TRANSIENT);
}

static int create_functions(sqlite3 *db) {
    static const struct {
        const char *name;
        int arguments;
        void (*call)(sqlite3_context *, int, sqlite3_value **);
    } functions[] = {
        {"blobcrash_crash", 0, sql_crash},   {"blobcrash_power_off", 1, sql_power_off},
        {"blobcrash_set", 1, sql_set},       {"blobcrash_settle", 0, sql_settle},
        {"blobcrash_note", 1, sql_note},
        {"blobcrash_reset", 0, sql_reset},   {"blobcrash_changes", 0, sql_changes},
        {"blobcrash_message", 0, sql_message},
    };
    int code = SQLITE_OK;
    for (size_t i = 0; i < sizeof functions / sizeof *functions && !code; i++) {
        code = sqlite3_create_function_v2(db, functions[i].name, functions[i].arguments,
                                          SQLITE_UTF8 | SQLITE_DIRECTONLY, NULL, functions[i].call, NULL, NULL, NULL);
    }
    return code;
}

/* The library stays loaded when the connection is closed, since SQLite keeps the VFS. */
int sqlite3_blobcrash_init(sqlite3 *db, char **error, const sqlite3_api_routines *api);
int sqlite3_blobcrash_init(sqlite3 *db, char **error, const sqlite3_api_routines *api) {
    SQLITE_EXTENSION_INIT2(api);
    int code = blobcrash_vfs_register();
    if (!code) code = create_functions(db);
    if (code) *error = sqlite3_mprintf("blobcrash: %s", sqlite3_errstr(code));
    return code ? code : SQLITE_OK_LOAD_PERMANENTLY;
}
