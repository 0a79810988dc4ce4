#include "scenarios.h"

#include "batches.h"
#include "env.h"
#include "log.h"

#include <leveldb/db.h>

#include <cstdio>
#include <memory>

using adapters::scenario_key;
using adapters::scenario_value;
using leveldb::Status;

namespace {

const int ITERATIONS = 3, MOST_VALUES = 2000;

// What the crash loses: the bytes that no sync made durable, or the names.
enum class Reset { DROPS_BYTES, DROPS_NAMES };

class Scenario {
  public:
    Scenario(const char* profile, bool reuses, Reset reset)
        : files_(adapters::library_disk(preamble(profile, reset))), env_(&files_), reuses_(reuses), reset_(reset) {
        files_.make_directory("/d");
        files_.settle();
    }

    // Writes, compacts and writes again, and crashes; then opens and crashes. Returns what failed first, or an empty text.
    std::string run() {
        uint64_t draws = 0;
        open();
        for (int at = 0; at < ITERATIONS && failed_.empty(); at++) {
            int before = static_cast<int>(random_below(&draws, MOST_VALUES)), after = static_cast<int>(random_below(&draws, MOST_VALUES));
            remove_all();
            build(0, before);
            if (failed_.empty()) db_->CompactRange(nullptr, nullptr);
            build(before, after);
            crash();
            bool loses = reset_ == Reset::DROPS_BYTES;
            verify(0, loses ? before : before + after, true);
            if (loses) verify(before, after, false);
            crash();
        }
        close();
        return failed_;
    }

  private:
    adapters::CrashFiles files_;
    CrashEnv env_;
    TracedLog log_;
    bool reuses_;
    Reset reset_;
    std::unique_ptr<leveldb::DB> db_;
    std::string failed_;

    static std::string preamble(const char* profile, Reset reset) {
        return std::string("seed 1\nprofile ") + profile + (reset == Reset::DROPS_BYTES ? "\nkeep 1 1\n" : "\nkeep 0 1\n");
    }

    void expect(const Status& status, const char* what) {
        if (!status.ok() && failed_.empty()) failed_ = std::string(what) + ": " + status.ToString();
    }

    void open() {
        leveldb::Options options;
        options.env = &env_;
        options.info_log = &log_;
        options.create_if_missing = true;
        options.paranoid_checks = true;
        options.reuse_logs = reuses_;
        leveldb::DB* db = nullptr;
        files_.set(reset_ == Reset::DROPS_BYTES ? "config write 0 1 0 1 prefix" : "config write 0 1 1 1 prefix");
        env_.jobs.start();
        expect(leveldb::DB::Open(options, "/d", &db), "it can't be opened");
        db_.reset(db);
    }

    void close() {
        db_.reset();
        env_.jobs.stop();
    }

    // The power is off while the database is closed.
    void crash() {
        if (!failed_.empty()) return;
        files_.power_off_after(0);
        close();
        files_.crash();
        open();
    }

    void remove_all() {
        if (!failed_.empty()) return;
        std::unique_ptr<leveldb::Iterator> at(db_->NewIterator(leveldb::ReadOptions()));
        for (at->SeekToFirst(); at->Valid(); at->Next()) expect(db_->Delete(leveldb::WriteOptions(), at->key()), "a deletion");
        expect(at->status(), "a scan");
    }

    void build(int start, int count) {
        for (int at = start; at < start + count && failed_.empty(); at++)
            expect(db_->Put(leveldb::WriteOptions(), scenario_key(at), scenario_value(at)), "a write");
    }

    void verify(int start, int count, bool are_there) {
        std::string value;
        for (int at = start; at < start + count && failed_.empty(); at++) {
            Status status = db_->Get(leveldb::ReadOptions(), scenario_key(at), &value);
            if (status.ok() != are_there || (are_there && value != scenario_value(at)))
                failed_ = "key " + std::to_string(at) + (are_there ? " is lost" : " is there");
        }
    }
};

}  // namespace

int scenarios_run() {
    int status = 0;
    printf("| scenario    | reuse_logs | profile | result |\n|-------------|------------|---------|--------|\n");
    for (bool reuses : {false, true}) {
        for (Reset reset : {Reset::DROPS_BYTES, Reset::DROPS_NAMES}) {
            for (uint32_t number = 0; const char* profile = words_profile(number); number++) {
                std::string failed = Scenario(profile, reuses, reset).run();
                printf("| %-11s | %-10s | %-7s | %s |\n", reset == Reset::DROPS_BYTES ? "drops bytes" : "drops names", reuses ? "yes" : "no",
                       profile, failed.empty() ? "passes" : failed.c_str());
                fflush(stdout);
                if (!failed.empty()) status = 1;
            }
        }
    }
    return status;
}
