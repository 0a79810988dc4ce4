// The open files and directories of CrashFileSystem.
#ifndef BLOBCRASH_ROCKSDB_OPEN_FILES_H
#define BLOBCRASH_ROCKSDB_OPEN_FILES_H

#include "crash_files.h"

#include <rocksdb/file_system.h>

#include <string>

// A status of crash_files.h as RocksDB's. An error can't be tried again.
rocksdb::IOStatus io_status(uint32_t status, const std::string& name);

// A descriptor, which is closed at the end.
class OpenFile {
  public:
    OpenFile(adapters::CrashFiles* files, uint64_t descriptor, std::string name) : files_(files), descriptor_(descriptor), name_(std::move(name)) {}
    OpenFile(const OpenFile&) = delete;
    ~OpenFile() { close(); }
    void close();
    rocksdb::IOStatus read(uint64_t offset, size_t len, rocksdb::Slice* result, char* scratch) const;
    rocksdb::IOStatus write(uint64_t offset, const rocksdb::Slice& data);
    rocksdb::IOStatus sync(bool only_data);
    rocksdb::IOStatus truncate(uint64_t len);

  private:
    adapters::CrashFiles* files_;
    uint64_t descriptor_;
    std::string name_;
    bool is_open_ = true;
};

using IODebug = rocksdb::IODebugContext;

class OpenSequential : public rocksdb::FSSequentialFile {
  public:
    OpenSequential(adapters::CrashFiles* files, uint64_t descriptor, const std::string& name) : file_(files, descriptor, name) {}
    rocksdb::IOStatus Read(size_t len, const rocksdb::IOOptions&, rocksdb::Slice* result, char* scratch, IODebug*) override;
    rocksdb::IOStatus Skip(uint64_t len) override;

  private:
    OpenFile file_;
    uint64_t offset_ = 0;
};

class OpenRandomAccess : public rocksdb::FSRandomAccessFile {
  public:
    OpenRandomAccess(adapters::CrashFiles* files, uint64_t descriptor, const std::string& name) : file_(files, descriptor, name) {}
    rocksdb::IOStatus Read(uint64_t offset, size_t len, const rocksdb::IOOptions&, rocksdb::Slice* result, char* scratch,
                           IODebug*) const override {
        return file_.read(offset, len, result, scratch);
    }

  private:
    OpenFile file_;
};

class OpenWritable : public rocksdb::FSWritableFile {
  public:
    OpenWritable(adapters::CrashFiles* files, uint64_t descriptor, const std::string& name, uint64_t end, const rocksdb::FileOptions& options)
        : FSWritableFile(options), file_(files, descriptor, name), end_(end) {}
    using FSWritableFile::Append;
    using FSWritableFile::PositionedAppend;
    // After an error the end is as before.
    rocksdb::IOStatus Append(const rocksdb::Slice& data, const rocksdb::IOOptions&, IODebug*) override;
    rocksdb::IOStatus PositionedAppend(const rocksdb::Slice& data, uint64_t offset, const rocksdb::IOOptions&, IODebug*) override;
    rocksdb::IOStatus Truncate(uint64_t size, const rocksdb::IOOptions&, IODebug*) override;
    rocksdb::IOStatus Close(const rocksdb::IOOptions&, IODebug*) override;
    rocksdb::IOStatus Flush(const rocksdb::IOOptions&, IODebug*) override { return rocksdb::IOStatus::OK(); }
    rocksdb::IOStatus Sync(const rocksdb::IOOptions&, IODebug*) override { return file_.sync(true); }
    rocksdb::IOStatus Fsync(const rocksdb::IOOptions&, IODebug*) override { return file_.sync(false); }
    bool IsSyncThreadSafe() const override { return true; }
    uint64_t GetFileSize(const rocksdb::IOOptions&, IODebug*) override { return end_; }

  private:
    OpenFile file_;
    uint64_t end_;
};

class OpenRandomRW : public rocksdb::FSRandomRWFile {
  public:
    OpenRandomRW(adapters::CrashFiles* files, uint64_t descriptor, const std::string& name) : file_(files, descriptor, name) {}
    rocksdb::IOStatus Write(uint64_t offset, const rocksdb::Slice& data, const rocksdb::IOOptions&, IODebug*) override {
        return file_.write(offset, data);
    }
    rocksdb::IOStatus Read(uint64_t offset, size_t len, const rocksdb::IOOptions&, rocksdb::Slice* result, char* scratch,
                           IODebug*) const override {
        return file_.read(offset, len, result, scratch);
    }
    rocksdb::IOStatus Flush(const rocksdb::IOOptions&, IODebug*) override { return rocksdb::IOStatus::OK(); }
    rocksdb::IOStatus Sync(const rocksdb::IOOptions&, IODebug*) override { return file_.sync(true); }
    rocksdb::IOStatus Fsync(const rocksdb::IOOptions&, IODebug*) override { return file_.sync(false); }
    rocksdb::IOStatus Close(const rocksdb::IOOptions&, IODebug*) override;

  private:
    OpenFile file_;
};

class OpenDirectory : public rocksdb::FSDirectory {
  public:
    OpenDirectory(adapters::CrashFiles* files, std::string name, bool is_btrfs) : files_(files), name_(std::move(name)), is_btrfs_(is_btrfs) {}
    rocksdb::IOStatus Fsync(const rocksdb::IOOptions&, IODebug*) override;
    rocksdb::IOStatus FsyncWithDirOptions(const rocksdb::IOOptions&, IODebug*, const rocksdb::DirFsyncOptions& why) override;
    rocksdb::IOStatus Close(const rocksdb::IOOptions&, IODebug*) override { return rocksdb::IOStatus::OK(); }

  private:
    adapters::CrashFiles* files_;
    std::string name_;
    bool is_btrfs_;
};

#endif
