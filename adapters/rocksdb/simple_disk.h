// A disk in memory that loses what FaultInjectionTestFS of RocksDB 7.8 loses: the end of a file after its last sync, all of it or a random
// part, and the files that were made in a directory since its last sync. A removal is durable when it returns. Debian's package doesn't have the
// header of that class; this one is written after it, for comparisons.
#ifndef BLOBCRASH_ROCKSDB_SIMPLE_DISK_H
#define BLOBCRASH_ROCKSDB_SIMPLE_DISK_H

#include "crash_files.h"

#include <map>
#include <memory>
#include <string>
#include <vector>

class SimpleDisk : public adapters::Disk {
  public:
    explicit SimpleDisk(uint64_t seed) : draws_(seed) {}

    blobcrash_file_reply apply(const blobcrash_file_call& call, const std::string& path, const std::string& to) override;
    uint32_t write(uint64_t descriptor, uint64_t offset, const char* bytes, size_t len) override;
    blobcrash_ran read(uint64_t descriptor, uint64_t offset, char* into, size_t capacity) override;
    std::vector<std::string> names(size_t) override { return listed_; }
    // It has no settings.
    void set(const std::string&) override {}
    void note(const std::string&) override {}
    void power_off_after(int64_t calls) override { calls_left_ = calls; }
    bool is_off() const override { return is_off_; }
    uint64_t faults() const override { return 0; }
    void crash() override;

  private:
    struct File {
        std::string bytes;
        size_t synced = 0;
    };
    using FilePointer = std::shared_ptr<File>;
    // What a name had before it was made.
    using Before = FilePointer;

    uint64_t draws_;
    int64_t calls_left_ = -1;
    bool is_off_ = false;
    std::map<std::string, FilePointer> files_;
    std::map<std::string, bool> directories_{{"/", true}};
    // For each directory the names that were made since its last sync.
    std::map<std::string, std::map<std::string, Before>> made_;
    std::vector<FilePointer> descriptors_;
    std::vector<std::string> listed_;

    bool may_change();
    File* file_of(uint64_t descriptor);
    blobcrash_file_reply opened(const FilePointer& file);
    blobcrash_file_reply by_descriptor(const blobcrash_file_call& call);
    blobcrash_file_reply by_path(const blobcrash_file_call& call, const std::string& path, const std::string& to);
    blobcrash_file_reply find(const std::string& path) const;
    uint64_t list(const std::string& path);
    uint32_t rename(const std::string& from, const std::string& to);
    void forget_names();
};

#endif
