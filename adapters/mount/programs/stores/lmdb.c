/* LMDB: a transaction for each key. */
#include "store.h"

#include <lmdb.h>
#include <string.h>
#include <sys/stat.h>
#include <unistd.h>

static MDB_env *env;

static void need(int error, const char *what) {
    if (error) fail(what, mdb_strerror(error));
}

void open_store(const char *kind, const char *path) {
    if (mkdir(path, 0755) && access(path, F_OK)) fail(path, "can't be made");
    need(mdb_env_create(&env), "create");
    need(mdb_env_set_mapsize(env, 16 << 20), "mapsize");
    need(mdb_env_open(env, path, strcmp(kind, "lmdb-writemap") == 0 ? MDB_WRITEMAP : 0, 0644), "open");
}

void put(const char *key, const char *value, size_t len) {
    MDB_txn *transaction;
    MDB_dbi table;
    MDB_val name = {strlen(key), (void *)key}, bytes = {len, (void *)value};
    need(mdb_txn_begin(env, NULL, 0, &transaction), "begin");
    need(mdb_dbi_open(transaction, NULL, MDB_CREATE, &table), "dbi");
    need(mdb_put(transaction, table, &name, &bytes, 0), "put");
    need(mdb_txn_commit(transaction), "commit");
}

void list(void) {
    MDB_txn *transaction;
    MDB_dbi table;
    MDB_cursor *cursor;
    MDB_val key, value;
    int error;
    need(mdb_txn_begin(env, NULL, MDB_RDONLY, &transaction), "begin");
    need(mdb_dbi_open(transaction, NULL, 0, &table), "dbi");
    need(mdb_cursor_open(transaction, table, &cursor), "cursor");
    while ((error = mdb_cursor_get(cursor, &key, &value, MDB_NEXT)) == 0)
        show(key.mv_data, key.mv_size, value.mv_data, value.mv_size);
    if (error != MDB_NOTFOUND) need(error, "next");
    mdb_txn_abort(transaction);
}

void close_store(void) { mdb_env_close(env); }
