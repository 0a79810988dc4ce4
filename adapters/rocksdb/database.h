// The database of a life: opened by its mode, written and read.
#ifndef BLOBCRASH_ROCKSDB_DATABASE_H
#define BLOBCRASH_ROCKSDB_DATABASE_H

#include "env.h"
#include "mode.h"

#include <rocksdb/db.h>
#include <rocksdb/utilities/transaction_db.h>

#include <map>
#include <memory>
#include <string>
#include <vector>

// The rows of all families: the number of the family, a slash and the key.
using adapters::Rows;

class Database {
  public:
    Database(const Mode& mode, CrashEnv* env);
    ~Database() { close(); }

    // Opens the database of this path, or creates it.
    rocksdb::Status open(const std::string& path);
    // Opens one that exists, and nothing is written to it.
    rocksdb::Status open_to_read(const std::string& path);
    void close();
    rocksdb::DB* db() const { return db_.get(); }
    // NULL if the mode has no transactions.
    rocksdb::TransactionDB* transactions() const { return transactions_; }
    rocksdb::ColumnFamilyHandle* family(size_t number) const { return handles_[number % handles_.size()]; }
    size_t families() const { return handles_.size(); }
    rocksdb::WriteOptions write_options() const;

    // Acknowledges the batch as the mode says: by its write, or by a flush or sync of the log after it.
    rocksdb::Status write(rocksdb::WriteBatch* batch);
    rocksdb::Status acknowledge(const rocksdb::Status& written);
    // Schedules the flush of a family, or with atomic_flush of all.
    rocksdb::Status flush(size_t number);
    rocksdb::Status read(Rows* rows) const;

  private:
    const Mode& mode_;
    CrashEnv* env_;
    std::shared_ptr<rocksdb::Logger> log_;
    std::unique_ptr<rocksdb::DB> db_;
    rocksdb::TransactionDB* transactions_ = nullptr;
    std::vector<rocksdb::ColumnFamilyHandle*> handles_;

    rocksdb::Options options() const;
    std::vector<rocksdb::ColumnFamilyDescriptor> descriptors() const;
};

#endif
