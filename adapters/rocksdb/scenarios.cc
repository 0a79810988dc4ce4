#include "scenarios.h"

#include "database.h"

#include <cstdio>
#include <cstring>

using adapters::scenario_key;
using adapters::scenario_value;
using rocksdb::Status;

namespace {

const int ITERATIONS = 3, MOST_VALUES = 2000;

// What a crash keeps of writes and of names.
struct Reset {
    const char *name, *writes, *names;
};
const Reset RESETS[] = {{"drops bytes", "config write 0 1 0 1 prefix", "keep 1 1"},
                        {"drops random bytes", "config write 0 1 127 128 prefix", "keep 1 1"},
                        {"drops names", "config write 0 1 1 1 prefix", "keep 0 1"},
                        {"drops bytes and names", "config write 0 1 0 1 prefix", "keep 0 1"}};

rocksdb::WriteOptions synced(bool syncs) {
    rocksdb::WriteOptions options;
    options.sync = syncs;
    return options;
}

class Scenario {
  public:
    Scenario(const char* profile, const Reset& reset)
        : files_(adapters::library_disk(std::string("seed 1\nprofile ") + profile + "\n" + reset.names + "\n")),
          env_(std::make_shared<CrashFileSystem>(&files_, strcmp(profile, "btrfs") == 0)), database_(mode_, &env_), reset_(reset) {
        files_.make_directory("/d");
        files_.settle();
    }

    // Each returns what failed first, or an empty text.
    // FaultTest: rows that are durable, by a compaction or by syncs, and rows that aren't.
    std::string partial(bool by_compaction) {
        uint64_t draws = 301;
        env_.jobs.start();
        open();
        for (int at = 0; at < ITERATIONS && failed_.empty(); at++) {
            int before = static_cast<int>(random_below(&draws, MOST_VALUES)), after = static_cast<int>(random_below(&draws, MOST_VALUES));
            remove_all();
            build(0, before, !by_compaction);
            if (by_compaction && failed_.empty()) expect(db()->CompactRange({}, nullptr, nullptr), "a compaction");
            build(before, after, false);
            crash();
            verify(0, before, true);
            verify(before, after, false);
            crash();
        }
        return end();
    }

    // WriteOptionSyncTest and ManualLogSyncTest: a sync also reaches the log before, of which no flush has run.
    std::string older_log(bool by_flush) {
        open();
        put(1, false);
        rocksdb::FlushOptions options;
        options.wait = false;
        if (failed_.empty()) expect(db()->Flush(options), "a flush");
        put(2, !by_flush);
        if (failed_.empty()) expect(db()->FlushWAL(by_flush), "a flush of the log");
        crash();
        verify(1, 2, true);
        return end();
    }

    // WriteBatchWalTerminationTest: the log has a batch up to its mark.
    std::string termination() {
        rocksdb::WriteBatch batch;
        std::string value;
        open();
        batch.Put("cats", "dogs");
        batch.MarkWalTerminationPoint();
        batch.Put("boys", "girls");
        if (failed_.empty()) expect(db()->Write(synced(true), &batch), "a write");
        crash();
        if (failed_.empty()) expect(db()->Get({}, "cats", &value), "a read");
        if (failed_.empty() && !db()->Get({}, "boys", &value).IsNotFound()) failed_ = "what is after the mark is found";
        return end();
    }

  private:
    const Mode mode_;
    adapters::CrashFiles files_;
    CrashEnv env_;
    Database database_;
    const Reset& reset_;
    std::string failed_;

    rocksdb::DB* db() { return database_.db(); }

    void expect(const Status& status, const char* what) {
        if (!status.ok() && failed_.empty()) failed_ = std::string(what) + ": " + status.ToString();
    }

    void open() {
        files_.set(reset_.writes);
        expect(database_.open("/d"), "it can't be opened");
    }

    std::string end() {
        database_.close();
        env_.jobs.stop();
        return failed_;
    }

    // The power is off while the database is closed.
    void crash() {
        if (!failed_.empty()) return;
        files_.power_off_after(0);
        database_.close();
        files_.crash();
        open();
    }

    void put(int number, bool syncs) {
        if (failed_.empty()) expect(db()->Put(synced(syncs), scenario_key(number), scenario_value(number)), "a write");
    }

    void build(int start, int count, bool syncs) {
        for (int at = start; at < start + count && failed_.empty(); at++) put(at, syncs);
    }

    void remove_all() {
        if (!failed_.empty()) return;
        std::unique_ptr<rocksdb::Iterator> at(db()->NewIterator({}));
        for (at->SeekToFirst(); at->Valid(); at->Next()) expect(db()->Delete({}, at->key()), "a deletion");
        expect(at->status(), "a scan");
        if (failed_.empty()) expect(db()->Flush({}), "a flush");
    }

    // A row that may be lost has its value if it is found.
    void verify(int start, int count, bool are_there) {
        std::string value;
        for (int at = start; at < start + count && failed_.empty(); at++) {
            Status status = db()->Get({}, scenario_key(at), &value);
            if (!are_there && status.IsNotFound()) continue;
            if (!status.ok() || value != scenario_value(at)) failed_ = "key " + std::to_string(at) + ": " + status.ToString();
        }
    }
};

int print(const char* scenario, const char* profile, const Reset& reset, const std::string& failed) {
    printf("| %-24s | %-21s | %-7s | %s |\n", scenario, reset.name, profile, failed.empty() ? "passes" : failed.c_str());
    fflush(stdout);
    return failed.empty() ? 0 : 1;
}

}  // namespace

int scenarios_run() {
    int status = 0;
    puts("| scenario                 | the crash             | profile | result |\n|--------------------------|-----------------------|---------|--------|");
    for (const Reset& reset : RESETS) {
        for (uint32_t number = 0; const char* profile = words_profile(number); number++) {
            status |= print("a compaction", profile, reset, Scenario(profile, reset).partial(true));
            status |= print("synced writes", profile, reset, Scenario(profile, reset).partial(false));
            status |= print("a sync after a new log", profile, reset, Scenario(profile, reset).older_log(false));
            status |= print("FlushWAL after a new log", profile, reset, Scenario(profile, reset).older_log(true));
            status |= print("a batch with a mark", profile, reset, Scenario(profile, reset).termination());
        }
    }
    return status;
}
