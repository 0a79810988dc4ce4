/* Berkeley DB: a transaction for each key, with a log. The environment is recovered at each open. */
#include "store.h"

#include <db.h>
#include <string.h>
#include <sys/stat.h>
#include <unistd.h>

static DB_ENV *env;
static DB *db;

static void need(int error, const char *what) {
    if (error) fail(what, db_strerror(error));
}

void open_store(const char *kind, const char *path) {
    const u_int32_t parts = DB_INIT_TXN | DB_INIT_LOG | DB_INIT_LOCK | DB_INIT_MPOOL;
    (void)kind;
    if (mkdir(path, 0755) && access(path, F_OK)) fail(path, "can't be made");
    need(db_env_create(&env, 0), "create");
    need(env->set_lg_bsize(env, 32 << 10), "log buffer");
    need(env->set_lg_max(env, 128 << 10), "log"); /* small, so that there are many */
    need(env->set_cachesize(env, 0, 64 << 10, 1), "cache");
    need(env->open(env, path, parts | DB_CREATE | DB_RECOVER, 0644), "open the environment");
    need(db_create(&db, env, 0), "create");
    need(db->open(db, NULL, "keys", NULL, DB_BTREE, DB_CREATE | DB_AUTO_COMMIT, 0644), "open");
}

void put(const char *key, const char *value, size_t len) {
    DBT name = {.data = (void *)key, .size = (u_int32_t)strlen(key)}, bytes = {.data = (void *)value, .size = (u_int32_t)len};
    need(db->put(db, NULL, &name, &bytes, DB_AUTO_COMMIT), "put");
}

void list(void) {
    DBC *at;
    DBT key = {0}, value = {0};
    int error;
    need(db->cursor(db, NULL, &at, 0), "cursor");
    while ((error = at->get(at, &key, &value, DB_NEXT)) == 0) show(key.data, key.size, value.data, value.size);
    if (error != DB_NOTFOUND) need(error, "next");
    need(at->close(at), "close the cursor");
}

void close_store(void) {
    need(db->close(db, 0), "close");
    need(env->close(env, 0), "close the environment");
}
