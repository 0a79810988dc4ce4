/* The database of a life: opened, looked at and checked. Functions return SQLite result codes. */
#ifndef CRASH_DATABASE_H
#define CRASH_DATABASE_H

#include "mode.h"

#include <sqlite3.h>

struct database {
    sqlite3 *db; /* NULL if it is closed. */
    const struct mode *mode;
    uint64_t seed; /* Decides page size, cache size and the like, the same at each open. */
};

/* Opens the database with a mode's pragmas, but with another value of synchronous if it isn't NULL. */
int database_open(struct database *database, const char *synchronous);

/* Creates the tables and checks that the mode's journal is used. */
int database_create(struct database *database);

/* Aborts if SQLite refuses to close it. */
void database_close(struct database *database);

/* Runs SQL and drops its rows. */
int database_run(struct database *database, const char *format, ...);

/* Reads the number of the attempt, -1 if the two files have different ones, and the hash of all rows. */
int database_look(struct database *database, int *attempt, uint64_t *hash);

/* Fills in the first line of PRAGMA integrity_check, `ok` if there is no damage. */
int database_check(struct database *database, char *line, size_t capacity);

/* Changes or inserts a row with these values. `hash` becomes the hash of the row. */
int database_put(struct database *database, bool exists, int id, int64_t key, const void *bytes, size_t len,
                 uint64_t *hash);

/* Whether a code says that the file is damaged, not that a call failed. */
bool database_is_damage(int code);

#endif
