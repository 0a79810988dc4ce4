#include "database.h"

#include <cstdio>
#include <cstdlib>

using rocksdb::Status;

namespace {

const char* const FAMILIES[] = {"one", "two"};

// RocksDB's own log of information: printed with BLOBCRASH_TRACE, and kept out of the disk.
class TracedLog : public rocksdb::Logger {
  public:
    using Logger::Logv;
    void Logv(const char* format, va_list words) override {
        if (!is_traced_) return;
        vfprintf(stderr, format, words);
        fputc('\n', stderr);
    }

  private:
    const bool is_traced_ = getenv("BLOBCRASH_TRACE") != nullptr;
};

}  // namespace

Database::Database(const Mode& mode, CrashEnv* env) : mode_(mode), env_(env), log_(std::make_shared<TracedLog>()) {}

// Small sizes, so that small databases are compacted. Writes never wait for background work: it is done after them. The memtable is never full:
// its size has a random part, of which a seed knows nothing, so Life asks for flushes.
rocksdb::Options Database::options() const {
    rocksdb::Options options;
    options.env = env_;
    options.info_log = log_;
    options.create_if_missing = options.create_missing_column_families = true;
    options.compression = rocksdb::kNoCompression;
    options.arena_block_size = 4096;
    options.max_write_buffer_number = 64;
    options.level0_file_num_compaction_trigger = 2;
    options.level0_slowdown_writes_trigger = options.level0_stop_writes_trigger = 1 << 20;
    options.soft_pending_compaction_bytes_limit = options.hard_pending_compaction_bytes_limit = 0;
    options.target_file_size_base = 32768;
    options.max_bytes_for_level_base = 65536;
    options.max_file_opening_threads = 1;
    options.stats_dump_period_sec = options.stats_persist_period_sec = 0;
    options.avoid_flush_during_shutdown = true;
    options.max_bgerror_resume_count = 0;
    options.db_host_id = "";
    options.wal_recovery_mode = mode_.recovery;
    options.manual_wal_flush = mode_.flushes_log;
    options.track_and_verify_wals_in_manifest = mode_.tracks;
    options.avoid_flush_during_recovery = mode_.keeps_logs;
    options.two_write_queues = mode_.has_two_queues;
    options.atomic_flush = mode_.flushes_atomically;
    options.enable_blob_files = mode_.has_blobs;
    options.min_blob_size = 64;
    options.blob_file_size = 32768;
    options.enable_blob_garbage_collection = mode_.has_blobs;
    return options;
}

std::vector<rocksdb::ColumnFamilyDescriptor> Database::descriptors() const {
    rocksdb::ColumnFamilyOptions family(options());
    std::vector<rocksdb::ColumnFamilyDescriptor> all{{rocksdb::kDefaultColumnFamilyName, family}};
    if (mode_.has_families)
        for (const char* name : FAMILIES) all.emplace_back(name, family);
    return all;
}

Status Database::open(const std::string& path) {
    rocksdb::DB* db = nullptr;
    Status status;
    close();
    if (mode_.has_transactions) {
        status = rocksdb::TransactionDB::Open(options(), rocksdb::TransactionDBOptions(), path, descriptors(), &handles_, &transactions_);
        db = transactions_;
    } else status = rocksdb::DB::Open(options(), path, descriptors(), &handles_, &db);
    if (status.ok()) db_.reset(db);
    else transactions_ = nullptr;
    env_->jobs.run();
    return status;
}

Status Database::open_to_read(const std::string& path) {
    rocksdb::DB* db = nullptr;
    close();
    rocksdb::Options all = options();
    all.create_if_missing = false;
    Status status = rocksdb::DB::OpenForReadOnly(all, path, descriptors(), &handles_, &db);
    if (status.ok()) db_.reset(db);
    return status;
}

void Database::close() {
    if (db_ == nullptr) return;
    env_->jobs.run();
    for (rocksdb::ColumnFamilyHandle* handle : handles_) db_->DestroyColumnFamilyHandle(handle);
    handles_.clear();
    db_.reset();
    transactions_ = nullptr;
    env_->jobs.run();
}

rocksdb::WriteOptions Database::write_options() const {
    rocksdb::WriteOptions options;
    options.sync = mode_.syncs && !mode_.flushes_log && (!mode_.has_two_queues || mode_.syncs_queued);
    return options;
}

// With two queues a write with `sync` calls SyncWAL itself, also after an error, and an assertion of Debian's library ends the program there.
Status Database::acknowledge(const Status& written) {
    if (!written.ok() || !mode_.syncs) return written;
    if (mode_.flushes_log) return db_->FlushWAL(true);
    return mode_.has_two_queues && !mode_.syncs_queued ? db_->SyncWAL() : written;
}

Status Database::write(rocksdb::WriteBatch* batch) { return acknowledge(db_->Write(write_options(), batch)); }

Status Database::flush(size_t number) {
    rocksdb::FlushOptions options;
    options.wait = false;
    options.allow_write_stall = true;
    return mode_.flushes_atomically ? db_->Flush(options, handles_) : db_->Flush(options, family(number));
}

Status Database::read(Rows* rows) const {
    rocksdb::ReadOptions options;
    options.verify_checksums = true;
    rows->clear();
    for (size_t number = 0; number < handles_.size(); number++) {
        std::unique_ptr<rocksdb::Iterator> at(db_->NewIterator(options, handles_[number]));
        for (at->SeekToFirst(); at->Valid(); at->Next()) (*rows)[std::to_string(number) + "/" + at->key().ToString()] = at->value().ToString();
        if (!at->status().ok()) return at->status();
    }
    return Status::OK();
}
