/* Kyoto Cabinet: a hard transaction for each key, in a hash table (kyotocabinet) or a tree (kyotocabinet-tree): "physical synchronization
 * with the device". Its databases of many files call sync(2), which doesn't reach the mount. */
#include "store.h"

#include <kclangc.h>
#include <stdio.h>
#include <string.h>

static KCDB *db;

static void need(bool done, const char *what) {
    if (!done) fail(what, kcecodename(kcdbecode(db)));
}

void open_store(const char *kind, const char *path) {
    char name[512];
    snprintf(name, sizeof name, "%s#type=%s#bnum=100", path, strstr(kind, "-tree") ? "kct" : "kch");
    db = kcdbnew();
    need(kcdbopen(db, name, KCOWRITER | KCOCREATE), "open");
}

void put(const char *key, const char *value, size_t len) {
    need(kcdbbegintran(db, 1), "begin");
    need(kcdbset(db, key, strlen(key), value, len), "set");
    need(kcdbendtran(db, 1), "commit");
}

void list(void) {
    KCCUR *at = kcdbcursor(db);
    size_t key_len, len;
    const char *value;
    char *key;
    for (kccurjump(at); (key = kccurget(at, &key_len, &value, &len, 1)) != NULL;) {
        show(key, key_len, value, len);
        kcfree(key);
    }
    need(kcdbecode(db) == KCENOREC, "next");
    kccurdel(at);
}

void close_store(void) { need(kcdbclose(db), "close"); }
