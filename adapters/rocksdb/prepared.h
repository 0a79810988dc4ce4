// Transactions that are prepared, and committed or rolled back later, perhaps after a crash.
#ifndef BLOBCRASH_ROCKSDB_PREPARED_H
#define BLOBCRASH_ROCKSDB_PREPARED_H

#include "database.h"

#include <map>
#include <memory>
#include <string>

// Each transaction puts one key, `p` and its name, into the first family.
class Prepared {
  public:
    Prepared(const Mode& mode, Database* database) : mode_(mode), database_(database) {}

    // Prepares another one, or ends one that is prepared, by `draw`.
    rocksdb::Status step(uint64_t draw);
    // Before the database is closed.
    void forget_handles() { handles_.clear(); }
    // Compares what a recovery found with what was acknowledged. Takes the rows of these transactions out of `rows`, and rolls back the other
    // prepared transactions. Returns what is wrong, or an empty text.
    std::string check(Rows* rows);

  private:
    // What was called last, and whether it was acknowledged.
    enum class Step { PREPARE, COMMIT, ROLLBACK };
    struct State {
        Step step;
        bool is_acknowledged;
    };
    const Mode& mode_;
    Database* database_;
    uint64_t last_ = 0;
    std::map<std::string, State> states_;
    std::map<std::string, std::unique_ptr<rocksdb::Transaction>> handles_;

    rocksdb::Status prepare();
    rocksdb::Status end(std::string name, bool commits);
    std::string compare(const State& state, bool is_prepared, bool has_row) const;
};

#endif
