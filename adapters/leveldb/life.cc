#include "life.h"

#include "log.h"
#include "mode.h"

#include <leveldb/db.h>
#include <leveldb/write_batch.h>

#include <cinttypes>
#include <cstdio>
#include <memory>

using adapters::Rows;
using leveldb::Status;

namespace {

const int ROUNDS = 12;

class Life : adapters::BatchLife<Mode> {
  public:
    Life(const Mode& mode, uint64_t seed, uint64_t* counts)
        : BatchLife(mode, seed, counts, disk_of(mode, seed)), env_(&files_, mode.extra) {}

    // Returns what is wrong, or an empty text.
    std::string live() {
        for (int round = 0; round < ROUNDS && wrong_.empty(); round++) {
            bool cuts_recovery = round % 3 == 2;
            set_faults();
            if (cuts_recovery) files_.power_off_after(static_cast<int64_t>(below(16)));
            std::unique_ptr<leveldb::DB> db = open();
            if (db == nullptr && !files_.is_off() && (mode_.fails || mode_.fails_reads)) db = open_without_faults();
            if (files_.is_off()) counts_[Mode::RECOVERY]++;
            else if (db == nullptr) damage("it can't be opened: " + opened_.ToString());
            else use(db.get(), !cuts_recovery);
            close(&db);
            crash();
        }
        if (wrong_.empty()) {
            std::unique_ptr<leveldb::DB> db = open();
            if (db == nullptr) damage("it can't be opened: " + opened_.ToString());
            else check(db.get());
            close(&db);
        }
        return end();
    }

  private:
    CrashEnv env_;
    TracedLog log_;
    Status opened_;

    std::unique_ptr<leveldb::DB> open() {
        leveldb::Options options;
        options.env = &env_;
        options.info_log = &log_;
        options.create_if_missing = true;
        options.compression = leveldb::kNoCompression;
        // The least, so that small databases are compacted.
        options.write_buffer_size = 65536;
        options.max_file_size = 1 << 20;
        options.block_size = 1024;
        options.paranoid_checks = mode_.is_paranoid;
        options.reuse_logs = mode_.reuses;
        leveldb::DB* db = nullptr;
        opened_ = leveldb::DB::Open(options, "/d", &db);
        env_.jobs.run();
        return std::unique_ptr<leveldb::DB>(opened_.ok() ? db : nullptr);
    }

    std::unique_ptr<leveldb::DB> open_without_faults() {
        crash();
        return open();
    }

    void close(std::unique_ptr<leveldb::DB>* db) {
        env_.jobs.run();
        db->reset();
    }

    // Checks the database and writes batches until the power goes off or a call fails.
    void use(leveldb::DB* db, bool sets_power) {
        files_.set("config clear");
        check(db);
        if (!wrong_.empty()) return;
        set_faults();
        if (sets_power || below(2) == 0) files_.power_off_after(static_cast<int64_t>(below(120)));
        while (write(db)) env_.jobs.run();
    }

    bool write(leveldb::DB* db) {
        Rows next = states_.back();
        leveldb::WriteBatch batch;
        std::string number = std::to_string(states_.size());
        for (uint64_t changes = 1 + below(6); changes > 0; changes--) {
            std::string key = "k" + std::to_string(below(60));
            if (below(5) == 0) {
                batch.Delete(key);
                next.erase(key);
            } else {
                next[key] = std::string(1 + below(longest_value_), 'v') + number;
                batch.Put(key, next[key]);
            }
        }
        next["last"] = number;
        batch.Put("last", number);
        states_.push_back(next);
        leveldb::WriteOptions options;
        options.sync = mode_.syncs;
        return acknowledge(db->Write(options, &batch).ok());
    }

    void check(leveldb::DB* db) {
        Rows rows;
        leveldb::ReadOptions options;
        options.verify_checksums = true;
        std::unique_ptr<leveldb::Iterator> at(db->NewIterator(options));
        for (at->SeekToFirst(); at->Valid(); at->Next()) rows[at->key().ToString()] = at->value().ToString();
        if (!at->status().ok()) return damage("it can't be read: " + at->status().ToString());
        compare(rows, "last");
    }
};

}  // namespace

void live(const char* name, uint64_t seed, bool is_told, uint64_t* counts) {
    Mode mode;
    mode_read(name, &mode);
    std::string wrong = Life(mode, seed, counts).live();
    if (is_told && !wrong.empty()) printf("%s, seed %" PRIu64 ": %s\n", name, seed, wrong.c_str());
}
