#include "life.h"

#include "copies.h"
#include "database.h"
#include "prepared.h"
#include "simple_disk.h"

#include <cinttypes>
#include <cstdio>
#include <cstdlib>
#include <cstring>

#include <sys/mman.h>
#include <sys/wait.h>
#include <unistd.h>

using rocksdb::Status;

namespace {

const int ROUNDS = 12;
const size_t FLUSHED_AFTER = 65536;

class Life : adapters::BatchLife<Mode> {
  public:
    Life(const Mode& mode, uint64_t seed, uint64_t* counts)
        : BatchLife(mode, seed, counts, mode.is_simple ? std::make_unique<SimpleDisk>(seed) : disk_of(mode, seed)),
          env_(std::make_shared<CrashFileSystem>(&files_, strcmp(mode.disk.profile, "btrfs") == 0)), database_(mode, &env_),
          prepared_(mode, &database_), copies_(mode, &env_) {}

    // Returns what is wrong, or an empty text.
    std::string live() {
        for (int round = 0; round <= ROUNDS && wrong_.empty(); round++) {
            bool is_last = round == ROUNDS, cuts_recovery = round % 3 == 2;
            if (!is_last) set_faults();
            if (cuts_recovery) files_.power_off_after(static_cast<int64_t>(below(48)));
            Status opened = database_.open("/d");
            if (!opened.ok() && !files_.is_off() && !is_last && (mode_.fails || mode_.fails_reads)) {
                crash();
                opened = database_.open("/d");
            }
            if (files_.is_off()) counts_[Mode::RECOVERY]++;
            else if (!opened.ok()) damage("it can't be opened: " + opened.ToString());
            else if (is_last) check();
            else use();
            prepared_.forget_handles();
            database_.close();
            if (!is_last) crash();
        }
        return end();
    }

  private:
    CrashEnv env_;
    Database database_;
    Prepared prepared_;
    Copies copies_;
    // Of batches since the last flush.
    size_t unflushed_ = 0;

    void crash() {
        env_.jobs.run();
        BatchLife::crash();
    }

    // Checks the database and writes batches until the power goes off or a call fails. Background work waits for some batches.
    void use() {
        files_.power_off_after(-1);
        files_.set("config clear");
        check();
        if (!wrong_.empty()) return;
        set_faults();
        files_.power_off_after(static_cast<int64_t>(below(160)));
        while (write() && others()) {
            if (below(4) > 0) env_.jobs.run(1);
            if (files_.is_off()) counts_[Mode::IN_WORK]++;
        }
    }

    // Makes what the mode has beside batches. Returns whether all went well.
    bool others() {
        Status status;
        bool is_due = unflushed_ > FLUSHED_AFTER || (mode_.has_families && below(12) == 0);
        if (is_due) status = database_.flush(below(3));
        if (is_due) unflushed_ = 0;
        if (status.ok() && mode_.has_transactions && below(3) == 0) status = prepared_.step(below(64));
        if (status.ok() && (mode_.has_checkpoints || mode_.has_backups) && below(16) == 0) status = copies_.make(database_, states_.back());
        if (status.ok() && mode_.flushes_log && !mode_.syncs && below(8) == 0) status = database_.db()->FlushWAL(below(2) == 0);
        return status.ok();
    }

    // Draws a batch and the rows that it leaves.
    void draw(rocksdb::WriteBatch* batch, Rows* rows) {
        std::string number = std::to_string(states_.size());
        for (uint64_t changes = 1 + below(6); changes > 0; changes--) {
            uint64_t family = below(database_.families());
            std::string key = "k" + std::to_string(below(60)), row = std::to_string(family) + "/" + key;
            if (below(5) == 0) {
                batch->Delete(database_.family(family), key);
                rows->erase(row);
            } else {
                (*rows)[row] = std::string(1 + below(longest_value_), 'v') + number;
                batch->Put(database_.family(family), key, (*rows)[row]);
            }
        }
        (*rows)["0/last"] = number;
        batch->Put(database_.family(0), "last", number);
    }

    // In two phases.
    Status transact(rocksdb::WriteBatch* batch) {
        std::unique_ptr<rocksdb::Transaction> one(database_.transactions()->BeginTransaction(database_.write_options()));
        Status status = one->SetName("b" + std::to_string(states_.size()));
        if (status.ok()) status = one->RebuildFromWriteBatch(batch);
        if (status.ok()) status = one->Prepare();
        return status.ok() ? database_.acknowledge(one->Commit()) : status;
    }

    bool write() {
        rocksdb::WriteBatch batch;
        Rows next = states_.back();
        draw(&batch, &next);
        states_.push_back(next);
        Status status = mode_.has_transactions && below(2) == 0 ? transact(&batch) : database_.write(&batch);
        unflushed_ += batch.GetDataSize();
        return acknowledge(status.ok());
    }

    void check() {
        Rows rows;
        Status status = database_.read(&rows);
        if (!status.ok()) return damage("it can't be read: " + status.ToString());
        std::string other = mode_.has_transactions ? prepared_.check(&rows) : "";
        if (other.empty()) other = copies_.check();
        compare(rows, "0/last", other);
    }
};

}  // namespace

// A process for each life, so that none finds what another left in RocksDB's variables, and an assertion of RocksDB ends no more than one.
void live(const char* name, uint64_t seed, bool is_told, uint64_t* counts) {
    size_t len = DRIVER_COUNTS * sizeof *counts;
    void* shared = mmap(nullptr, len, PROT_READ | PROT_WRITE, MAP_SHARED | MAP_ANONYMOUS, -1, 0);
    if (shared == MAP_FAILED) abort();
    fflush(nullptr);
    pid_t process = fork();
    if (process == 0) {
        Mode mode;
        mode_read(name, &mode);
        std::string wrong = Life(mode, seed, static_cast<uint64_t*>(shared)).live();
        if (is_told && !wrong.empty()) printf("%s, seed %" PRIu64 ": %s\n", name, seed, wrong.c_str());
        fflush(nullptr);
        _exit(0);
    }
    int status = 0;
    if (process < 0 || waitpid(process, &status, 0) != process) abort();
    memcpy(counts, shared, len);
    munmap(shared, len);
    if (status == 0) return;
    counts[Mode::CORRUPT]++;
    counts[Mode::BROKEN]++;
    if (is_told) printf("%s, seed %" PRIu64 ": the process was ended by signal %d\n", name, seed, WTERMSIG(status));
}
