// Xapian: a document for each key, and a commit after each.
extern "C" {
#include "store.h"
}

#include <string>
#include <xapian.h>

static Xapian::WritableDatabase *database;

// Calls `run`, and fails with what it throws.
template <typename Run> static void attempt(const char *what, Run run) {
    try {
        run();
    } catch (const Xapian::Error &error) {
        fail(what, error.get_description().c_str());
    }
}

extern "C" void open_store(const char *, const char *path) {
    attempt("open", [=] { database = new Xapian::WritableDatabase(path, Xapian::DB_CREATE_OR_OPEN); });
}

extern "C" void put(const char *key, const char *value, size_t len) {
    attempt("commit", [=] {
        Xapian::Document document;
        document.add_term(std::string("K") + key);
        document.set_data(std::string(key) + "|" + std::string(value, len));
        database->replace_document(std::string("K") + key, document);
        database->commit();
    });
}

extern "C" void list(void) {
    attempt("read", [] {
        for (auto at = database->postlist_begin(""); at != database->postlist_end(""); ++at) {
            const std::string data = database->get_document(*at).get_data();
            const size_t bar = data.find('|');
            show(data.data(), bar, data.data() + bar + 1, data.size() - bar - 1);
        }
    });
}

extern "C" void close_store(void) {
    attempt("close", [] { delete database; });
}
