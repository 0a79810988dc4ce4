// A RocksDB Env over a CrashFileSystem, in which a seed repeats a run: background work waits in `jobs`, each look at the clock is a
// microsecond, and identities are counted.
#ifndef BLOBCRASH_ROCKSDB_ENV_H
#define BLOBCRASH_ROCKSDB_ENV_H

#include "file_system.h"
#include "jobs.h"

#include <rocksdb/env.h>
#include <rocksdb/system_clock.h>

#include <atomic>

class CountingClock : public rocksdb::SystemClock {
  public:
    const char* Name() const override { return "CountingClock"; }
    uint64_t NowMicros() override { return ++micros_; }
    void SleepForMicroseconds(int micros) override { micros_ += static_cast<uint64_t>(micros); }
    rocksdb::Status GetCurrentTime(int64_t* seconds) override {
        *seconds = 1000000000;
        return rocksdb::Status::OK();
    }
    std::string TimeToString(uint64_t seconds) override { return std::to_string(seconds); }

  private:
    std::atomic<uint64_t> micros_{1000000000000000};
};

class CrashEnv : public rocksdb::EnvWrapper {
  public:
    explicit CrashEnv(const std::shared_ptr<CrashFileSystem>& files) : EnvWrapper(rocksdb::NewCompositeEnv(files)) {
        file_system_ = files;
        system_clock_ = std::make_shared<CountingClock>();
    }
    const char* Name() const override { return "CrashEnv"; }

    // What RocksDB has scheduled.
    adapters::Jobs jobs;

    void Schedule(void (*function)(void*), void* argument, Priority, void* tag, void (*unscheduled)(void*)) override {
        adapters::Jobs::Job dropped;
        if (unscheduled != nullptr) dropped = [=] { unscheduled(argument); };
        jobs.add([=] { function(argument); }, tag, dropped);
    }
    int UnSchedule(void* tag, Priority) override { return jobs.remove(tag); }
    // None is for the bottom level alone.
    int GetBackgroundThreads(Priority priority) override { return priority == BOTTOM ? 0 : 1; }
    void SetBackgroundThreads(int, Priority) override {}
    void IncBackgroundThreadsIfNeeded(int, Priority) override {}
    int ReserveThreads(int, Priority) override { return 0; }
    int ReleaseThreads(int, Priority) override { return 0; }
    unsigned int GetThreadPoolQueueLen(Priority) const override { return 0; }
    rocksdb::Status GetThreadList(std::vector<rocksdb::ThreadStatus>*) override { return rocksdb::Status::NotSupported("threads"); }

    uint64_t NowMicros() override { return system_clock_->NowMicros(); }
    uint64_t NowNanos() override { return system_clock_->NowNanos(); }
    void SleepForMicroseconds(int micros) override { system_clock_->SleepForMicroseconds(micros); }
    rocksdb::Status GetCurrentTime(int64_t* seconds) override { return system_clock_->GetCurrentTime(seconds); }
    std::string GenerateUniqueId() override { return "crash-" + std::to_string(1000000 + ++identities_); }

  private:
    std::atomic<uint64_t> identities_{0};
};

#endif
