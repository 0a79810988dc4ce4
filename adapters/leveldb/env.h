// A LevelDB Env over files that a crash damages. It makes the calls of LevelDB's own Env for POSIX, in the same order, with two exceptions:
// there is no log of information, and background work waits in `jobs`.
#ifndef BLOBCRASH_LEVELDB_ENV_H
#define BLOBCRASH_LEVELDB_ENV_H

#include "crash_files.h"
#include "jobs.h"

#include <leveldb/env.h>

#include <atomic>
#include <string>
#include <vector>

// Syncs of a directory that LevelDB doesn't make.
struct ExtraSyncs {
    bool after_create = false, after_rename = false;
};

class CrashEnv : public leveldb::Env {
  public:
    explicit CrashEnv(adapters::CrashFiles* files, ExtraSyncs extra = {}) : files_(files), extra_(extra) {}

    // What LevelDB has scheduled.
    adapters::Jobs jobs;

    leveldb::Status NewSequentialFile(const std::string& name, leveldb::SequentialFile** file) override;
    leveldb::Status NewRandomAccessFile(const std::string& name, leveldb::RandomAccessFile** file) override;
    leveldb::Status NewWritableFile(const std::string& name, leveldb::WritableFile** file) override;
    leveldb::Status NewAppendableFile(const std::string& name, leveldb::WritableFile** file) override;
    bool FileExists(const std::string& name) override;
    leveldb::Status GetChildren(const std::string& folder, std::vector<std::string>* children) override;
    leveldb::Status RemoveFile(const std::string& name) override;
    leveldb::Status CreateDir(const std::string& name) override;
    leveldb::Status RemoveDir(const std::string& name) override;
    leveldb::Status GetFileSize(const std::string& name, uint64_t* size) override;
    leveldb::Status RenameFile(const std::string& from, const std::string& to) override;
    leveldb::Status LockFile(const std::string& name, leveldb::FileLock** lock) override;
    leveldb::Status UnlockFile(leveldb::FileLock* lock) override;
    leveldb::Status GetTestDirectory(std::string* path) override;
    leveldb::Status NewLogger(const std::string& name, leveldb::Logger** logger) override;
    void Schedule(void (*function)(void*), void* argument) override;
    void StartThread(void (*function)(void*), void* argument) override;
    uint64_t NowMicros() override { return ++clock_; }
    void SleepForMicroseconds(int) override {}

  private:
    adapters::CrashFiles* files_;
    ExtraSyncs extra_;
    std::atomic<uint64_t> clock_{0};

    leveldb::Status created(const std::string& name);
};

#endif
