/* QDBM: Depot with dpsync after each key (qdbm), or Villa with a transaction for each (qdbm-tree). */
#include "store.h"

#include <qdbm/depot.h>
#include <qdbm/villa.h>
#include <stdlib.h>
#include <string.h>

static DEPOT *hash;
static VILLA *tree;

static void need(bool done, const char *what) {
    if (!done) fail(what, dperrmsg(dpecode));
}

void open_store(const char *kind, const char *path) {
    if (strcmp(kind, "qdbm-tree") == 0)
        tree = vlopen(path, VL_OWRITER | VL_OCREAT, VL_CMPLEX);
    else
        hash = dpopen(path, DP_OWRITER | DP_OCREAT, 100);
    need(tree || hash, "open");
}

void put(const char *key, const char *value, size_t len) {
    if (tree) need(vltranbegin(tree), "begin");
    need(hash ? dpput(hash, key, -1, value, (int)len, DP_DOVER) : vlput(tree, key, -1, value, (int)len, VL_DOVER), "put");
    need(hash ? dpsync(hash) : vltrancommit(tree), "sync");
}

void list(void) {
    int key_len, len;
    need(hash ? dpiterinit(hash) : vlcurfirst(tree) || vlrnum(tree) == 0, "first");
    for (;;) {
        char *key = hash ? dpiternext(hash, &key_len) : vlcurkey(tree, &key_len);
        if (!key) return need(dpecode == DP_ENOITEM || dpecode == DP_ENOERR, "next");
        char *value = hash ? dpget(hash, key, key_len, 0, -1, &len) : vlcurval(tree, &len);
        need(value != NULL, "get");
        show(key, (size_t)key_len, value, (size_t)len);
        free(key), free(value);
        if (tree && !vlcurnext(tree)) return;
    }
}

void close_store(void) { need(hash ? dpclose(hash) : vlclose(tree), "close"); }
