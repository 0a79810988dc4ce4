/* tkrzw: a hash table (tkrzw) or a tree (tkrzw-tree), and a hard synchronization after each key: "physical synchronization with the hardware". */
#include "store.h"

#include <stdio.h>
#include <stdlib.h>
#include <string.h>
#include <tkrzw_langc.h>

static TkrzwDBM *dbm;

static void need(bool done, const char *what) {
    if (!done) fail(what, tkrzw_get_last_status_message());
}

/* Opens a file that wasn't closed by the default of its class: "to restore as many records as possible", or with `-sync` to the last synced
 * state, which takes the mode of updates that appends. */
void open_store(const char *kind, const char *path) {
    char options[128] = "dbm=HashDBM,num_buckets=100";
    if (strstr(kind, "-tree")) strcpy(options, "dbm=TreeDBM,num_buckets=100");
    if (strstr(kind, "-sync")) strcat(options, ",update_mode=UPDATE_APPENDING,restore_mode=RESTORE_SYNC");
    dbm = tkrzw_dbm_open(path, true, options);
    need(dbm != NULL, "open");
}

void put(const char *key, const char *value, size_t len) {
    need(tkrzw_dbm_set(dbm, key, (int)strlen(key), value, (int)len, true), "set");
    need(tkrzw_dbm_synchronize(dbm, true, NULL, NULL, ""), "synchronize");
}

void list(void) {
    TkrzwDBMIter *at = tkrzw_dbm_make_iterator(dbm);
    char *key, *value;
    int key_len, len;
    for (tkrzw_dbm_iter_first(at); tkrzw_dbm_iter_get(at, &key, &key_len, &value, &len); tkrzw_dbm_iter_next(at)) {
        show(key, (size_t)key_len, value, (size_t)len);
        free(key);
        free(value);
    }
    tkrzw_dbm_iter_free(at);
}

void close_store(void) { need(tkrzw_dbm_close(dbm), "close"); }
