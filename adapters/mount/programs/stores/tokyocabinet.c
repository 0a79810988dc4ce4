/* Tokyo Cabinet: a transaction for each key, in a hash table (tokyocabinet) or a tree (tokyocabinet-tree), with OTSYNC: "every transaction
 * synchronizes updated contents with the device". */
#include "store.h"

#include <stdlib.h>
#include <string.h>
#include <tcbdb.h>
#include <tchdb.h>

static TCHDB *hash;
static TCBDB *tree;

static void need(bool done, const char *what) {
    if (!done) fail(what, tchdberrmsg(hash ? tchdbecode(hash) : tcbdbecode(tree)));
}

void open_store(const char *kind, const char *path) {
    if (strcmp(kind, "tokyocabinet-tree") == 0) {
        tree = tcbdbnew();
        need(tcbdbopen(tree, path, BDBOWRITER | BDBOCREAT | BDBOTSYNC), "open");
    } else {
        hash = tchdbnew();
        need(tchdbopen(hash, path, HDBOWRITER | HDBOCREAT | HDBOTSYNC), "open");
    }
}

void put(const char *key, const char *value, size_t len) {
    need(hash ? tchdbtranbegin(hash) : tcbdbtranbegin(tree), "begin");
    need(hash ? tchdbput(hash, key, (int)strlen(key), value, (int)len) : tcbdbput(tree, key, (int)strlen(key), value, (int)len), "put");
    need(hash ? tchdbtrancommit(hash) : tcbdbtrancommit(tree), "commit");
}

void list(void) {
    TCLIST *keys = hash ? tchdbfwmkeys(hash, "", 0, -1) : tcbdbfwmkeys(tree, "", 0, -1);
    for (int at = 0; at < tclistnum(keys); at++) {
        int key_len, len;
        const char *key = tclistval(keys, at, &key_len);
        char *value = hash ? tchdbget(hash, key, key_len, &len) : tcbdbget(tree, key, key_len, &len);
        need(value != NULL, "get");
        show(key, (size_t)key_len, value, (size_t)len);
        free(value);
    }
}

void close_store(void) { need(hash ? tchdbclose(hash) : tcbdbclose(tree), "close"); }
