/* tdb: a transaction for each key. There is no tdb_check: after the recovery of a transaction that made the file longer it finds a free area
 * that no list has, though no key is lost. */
#include "store.h"

#include <sys/types.h>
#include <sys/stat.h>
#include <fcntl.h>
#include <signal.h>
#include <string.h>
#include <tdb.h>

static TDB_CONTEXT *db;

static void need(bool done, const char *what) {
    if (!done) fail(what, db ? tdb_errorstr(db) : "no file");
}

void open_store(const char *kind, const char *path) {
    (void)kind;
    db = tdb_open(path, 0, TDB_DEFAULT, O_RDWR | O_CREAT, 0644);
    need(db != NULL, "open");
}

void put(const char *key, const char *value, size_t len) {
    TDB_DATA name = {(unsigned char *)key, strlen(key)}, bytes = {(unsigned char *)value, len};
    need(tdb_transaction_start(db) == 0, "start");
    need(tdb_store(db, name, bytes, TDB_REPLACE) == 0, "store");
    need(tdb_transaction_commit(db) == 0, "commit");
}

static int show_one(TDB_CONTEXT *of, TDB_DATA key, TDB_DATA value, void *state) {
    (void)of, (void)state;
    show((char *)key.dptr, key.dsize, (char *)value.dptr, value.dsize);
    return 0;
}

void list(void) { need(tdb_traverse_read(db, show_one, NULL) >= 0, "traverse"); }

void close_store(void) { need(tdb_close(db) == 0, "close"); }
