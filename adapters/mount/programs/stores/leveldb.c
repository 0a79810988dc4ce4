/* LevelDB, and RocksDB with USE_ROCKSDB, which has the same interface: a synced write for each key. */
#include "store.h"

#include <string.h>

#ifdef USE_ROCKSDB
#include <rocksdb/c.h>
#define DB(name) rocksdb_##name
#else
#include <leveldb/c.h>
#define DB(name) leveldb_##name
#endif

static DB(t) * store;

static void need(const char *error, const char *what) {
    if (error) fail(what, error);
}

void open_store(const char *kind, const char *path) {
    (void)kind;
    char *error = NULL;
    DB(options_t) *options = DB(options_create)();
    DB(options_set_create_if_missing)(options, 1);
    DB(options_set_paranoid_checks)(options, 1);
    DB(options_set_write_buffer_size)(options, 8 << 10); /* small tables, so that there are many */
    store = DB(open)(options, path, &error);
    need(error, "open");
}

void put(const char *key, const char *value, size_t len) {
    char *error = NULL;
    static DB(writeoptions_t) * synced;
    if (!synced) {
        synced = DB(writeoptions_create)();
        DB(writeoptions_set_sync)(synced, 1);
    }
    DB(put)(store, synced, key, strlen(key), value, len, &error);
    need(error, "put");
}

void list(void) {
    char *error = NULL;
    DB(readoptions_t) *checked = DB(readoptions_create)();
    DB(readoptions_set_verify_checksums)(checked, 1);
    DB(iterator_t) *at = DB(create_iterator)(store, checked);
    for (DB(iter_seek_to_first)(at); DB(iter_valid)(at); DB(iter_next)(at)) {
        size_t key_len, len;
        const char *key = DB(iter_key)(at, &key_len), *value = DB(iter_value)(at, &len);
        show(key, key_len, value, len);
    }
    DB(iter_get_error)(at, &error);
    need(error, "next");
    DB(iter_destroy)(at);
}

void close_store(void) { DB(close)(store); }
