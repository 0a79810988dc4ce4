// Checkpoints and backups of a database, with the rows that each must have.
#ifndef BLOBCRASH_ROCKSDB_COPIES_H
#define BLOBCRASH_ROCKSDB_COPIES_H

#include "database.h"

#include <string>
#include <vector>

class Copies {
  public:
    Copies(const Mode& mode, CrashEnv* env) : mode_(mode), env_(env) {}

    // Makes a checkpoint or a backup, as the mode says. With OK it is remembered.
    rocksdb::Status make(const Database& database, const Rows& rows);
    // Compares the copies that were remembered. Returns what is wrong, or an empty text.
    std::string check();

  private:
    struct Copy {
        std::string path;
        uint32_t backup;
        Rows rows;
    };
    const Mode& mode_;
    CrashEnv* env_;
    uint64_t last_ = 0;
    std::vector<Copy> copies_;

    rocksdb::Status checkpoint(const Database& database, const Rows& rows);
    rocksdb::Status back_up(const Database& database, const Rows& rows);
    std::string compare(const Copy& copy);
};

#endif
