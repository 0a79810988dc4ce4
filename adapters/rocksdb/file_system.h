// A RocksDB FileSystem over files that a crash damages. It makes the calls of RocksDB's own file system for POSIX, without memory maps, direct
// I/O and preallocation.
#ifndef BLOBCRASH_ROCKSDB_FILE_SYSTEM_H
#define BLOBCRASH_ROCKSDB_FILE_SYSTEM_H

#include "crash_files.h"

#include <rocksdb/file_system.h>

#include <memory>
#include <mutex>
#include <set>
#include <string>
#include <vector>

class CrashFileSystem : public rocksdb::FileSystem {
  public:
    // With `is_btrfs` a sync of a directory does what RocksDB does on btrfs: nothing after a creation, and after a rename it syncs the file.
    CrashFileSystem(adapters::CrashFiles* files, bool is_btrfs) : files_(files), is_btrfs_(is_btrfs) {}
    const char* Name() const override { return "CrashFileSystem"; }

    using Debug = rocksdb::IODebugContext;
    using Options = rocksdb::IOOptions;
    using FileOptions = rocksdb::FileOptions;
    using Status = rocksdb::IOStatus;

    Status NewSequentialFile(const std::string& name, const FileOptions& options, std::unique_ptr<rocksdb::FSSequentialFile>* file,
                             Debug*) override;
    Status NewRandomAccessFile(const std::string& name, const FileOptions& options, std::unique_ptr<rocksdb::FSRandomAccessFile>* file,
                               Debug*) override;
    Status NewWritableFile(const std::string& name, const FileOptions& options, std::unique_ptr<rocksdb::FSWritableFile>* file,
                           Debug*) override;
    Status ReopenWritableFile(const std::string& name, const FileOptions& options, std::unique_ptr<rocksdb::FSWritableFile>* file,
                              Debug*) override;
    Status ReuseWritableFile(const std::string& name, const std::string& old, const FileOptions& options,
                             std::unique_ptr<rocksdb::FSWritableFile>* file, Debug*) override;
    Status NewRandomRWFile(const std::string& name, const FileOptions& options, std::unique_ptr<rocksdb::FSRandomRWFile>* file,
                           Debug*) override;
    Status NewDirectory(const std::string& name, const Options&, std::unique_ptr<rocksdb::FSDirectory>* directory, Debug*) override;

    Status FileExists(const std::string& name, const Options&, Debug*) override;
    Status GetChildren(const std::string& folder, const Options&, std::vector<std::string>* children, Debug*) override;
    Status DeleteFile(const std::string& name, const Options&, Debug*) override;
    Status Truncate(const std::string& name, size_t size, const Options&, Debug*) override;
    Status CreateDir(const std::string& name, const Options&, Debug*) override;
    Status CreateDirIfMissing(const std::string& name, const Options&, Debug*) override;
    Status DeleteDir(const std::string& name, const Options&, Debug*) override;
    Status GetFileSize(const std::string& name, const Options&, uint64_t* size, Debug*) override;
    Status GetFileModificationTime(const std::string& name, const Options&, uint64_t* time, Debug*) override;
    Status RenameFile(const std::string& from, const std::string& to, const Options&, Debug*) override;
    Status LinkFile(const std::string& from, const std::string& to, const Options&, Debug*) override;
    Status AreFilesSame(const std::string& first, const std::string& second, const Options&, bool* are_same, Debug*) override;
    Status LockFile(const std::string& name, const Options&, rocksdb::FileLock** lock, Debug*) override;
    Status UnlockFile(rocksdb::FileLock* lock, const Options&, Debug*) override;
    Status GetTestDirectory(const Options&, std::string* path, Debug*) override;
    Status GetAbsolutePath(const std::string& path, const Options&, std::string* absolute, Debug*) override;
    Status IsDirectory(const std::string& path, const Options&, bool* is_directory, Debug*) override;

  private:
    adapters::CrashFiles* files_;
    const bool is_btrfs_;
    std::mutex mutex_;
    std::set<std::string> locked_;

    using OpenCall = uint32_t (adapters::CrashFiles::*)(const std::string& path, uint64_t* descriptor);

    template <class Open, class File>
    Status open_as(const std::string& name, const FileOptions& options, std::unique_ptr<File>* file);
    Status open_writable(OpenCall open, const std::string& name, const FileOptions& options,
                         std::unique_ptr<rocksdb::FSWritableFile>* file);
};

#endif
