/* WiredTiger: a transaction for each key, with a log that is synced at each commit. */
#include "store.h"

#include <string.h>
#include <sys/stat.h>
#include <unistd.h>
#include <wiredtiger.h>

static WT_CONNECTION *connection;
static WT_SESSION *session;

static void need(int error, const char *what) {
    if (error) fail(what, wiredtiger_strerror(error));
}

void open_store(const char *kind, const char *path) {
    const char *options = "create,cache_size=4MB,log=(enabled,file_max=100KB),transaction_sync=(enabled=true,method=fsync)";
    (void)kind;
    if (mkdir(path, 0755) && access(path, F_OK)) fail(path, "can't be made");
    need(wiredtiger_open(path, NULL, options, &connection), "open");
    need(connection->open_session(connection, NULL, NULL, &session), "session");
    need(session->create(session, "table:keys", "key_format=S,value_format=S"), "create");
}

void put(const char *key, const char *value, size_t len) {
    WT_CURSOR *at;
    static int count;
    (void)len;
    need(session->open_cursor(session, "table:keys", NULL, NULL, &at), "cursor");
    at->set_key(at, key);
    at->set_value(at, value);
    need(at->insert(at), "insert");
    need(at->close(at), "close the cursor");
    if (++count % 20 == 0) need(session->checkpoint(session, NULL), "checkpoint");
}

void list(void) {
    WT_CURSOR *at;
    const char *key, *value;
    need(session->open_cursor(session, "table:keys", NULL, NULL, &at), "cursor");
    while (at->next(at) == 0) {
        need(at->get_key(at, &key), "key");
        need(at->get_value(at, &value), "value");
        show(key, strlen(key), value, strlen(value));
    }
}

void close_store(void) { need(connection->close(connection, NULL), "close"); }
