/* gdbm: gdbm_sync after each key. Its tolerance of crashes needs a file system with reflinks, which FUSE doesn't have. */
#include "store.h"

#include <gdbm.h>
#include <string.h>

static GDBM_FILE db;

static void need(bool done, const char *what) {
    if (!done) fail(what, gdbm_strerror(gdbm_errno));
}

void open_store(const char *kind, const char *path) {
    (void)kind;
    db = gdbm_open(path, 0, GDBM_WRCREAT, 0644, NULL);
    need(db != NULL, "open");
}

void put(const char *key, const char *value, size_t len) {
    datum name = {(char *)key, (int)strlen(key)}, bytes = {(char *)value, (int)len};
    need(gdbm_store(db, name, bytes, GDBM_REPLACE) == 0, "store");
    need(gdbm_sync(db) == 0, "sync");
}

void list(void) {
    for (datum key = gdbm_firstkey(db); key.dptr; key = gdbm_nextkey(db, key)) {
        datum value = gdbm_fetch(db, key);
        need(value.dptr != NULL, "fetch");
        show(key.dptr, (size_t)key.dsize, value.dptr, (size_t)value.dsize);
    }
    need(gdbm_errno == GDBM_ITEM_NOT_FOUND || gdbm_errno == GDBM_NO_ERROR, "next");
}

void close_store(void) { need(gdbm_close(db) == 0, "close"); }
