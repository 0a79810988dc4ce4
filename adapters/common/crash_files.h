// The calls on a disk that crashes, for adapters in C++, which threads may share. Each returns a status of blobcrash_files.h, or DISK_OFF.
#ifndef ADAPTERS_CRASH_FILES_H
#define ADAPTERS_CRASH_FILES_H

#include "disk.h"

#include <cstdint>
#include <memory>
#include <mutex>
#include <string>
#include <vector>

namespace adapters {

// What disk.h has. Another file system can take the library's place.
class Disk {
  public:
    virtual ~Disk() = default;
    virtual blobcrash_file_reply apply(const blobcrash_file_call& call, const std::string& path, const std::string& to) = 0;
    virtual uint32_t write(uint64_t descriptor, uint64_t offset, const char* bytes, size_t len) = 0;
    virtual blobcrash_ran read(uint64_t descriptor, uint64_t offset, char* into, size_t capacity) = 0;
    // The names of the last call, a LIST of this many names.
    virtual std::vector<std::string> names(size_t count) = 0;
    // Makes a setting of a preamble. Ends the program if it is none.
    virtual void set(const std::string& setting) = 0;
    // Adds a comment to the record, if there is one.
    virtual void note(const std::string& text) = 0;
    virtual void power_off_after(int64_t calls) = 0;
    virtual bool is_off() const = 0;
    virtual uint64_t faults() const = 0;
    virtual void crash() = 0;
};

// A disk of the library. Ends the program if a line of the preamble is bad.
std::unique_ptr<Disk> library_disk(const std::string& preamble);

struct Found {
    // Of a file: its size in bytes.
    bool is_directory = false;
    uint64_t inode = 0, size = 0;
};

class CrashFiles {
  public:
    explicit CrashFiles(std::unique_ptr<Disk> disk);

    // Turns the power off after this many more calls that change something; with -1 it stays on. While it is off every call fails.
    void power_off_after(int64_t calls);
    bool is_off();
    // Crashes, clears the faults and turns the power on. Descriptors are stale.
    void crash();
    void set(const std::string& setting);
    // Adds a comment to the record that BLOBCRASH_RECORD asks for.
    void note(const std::string& text);
    // Makes everything durable.
    void settle();
    // Calls that failed by injection.
    uint64_t faults();

    uint32_t create(const std::string& path, uint64_t* descriptor);
    uint32_t open(const std::string& path, uint64_t* descriptor);
    // Creates the file or makes it empty.
    uint32_t open_empty(const std::string& path, uint64_t* descriptor);
    // Opens the file, or creates it.
    uint32_t open_or_create(const std::string& path, uint64_t* descriptor);
    uint32_t close(uint64_t descriptor);
    uint32_t write(uint64_t descriptor, const std::string& path, uint64_t offset, const char* bytes, size_t len);
    // Returns in `got` how many bytes were read.
    uint32_t read(uint64_t descriptor, uint64_t offset, char* into, size_t capacity, size_t* got);
    uint32_t truncate(uint64_t descriptor, uint64_t len);
    uint32_t size(uint64_t descriptor, uint64_t* size);
    uint32_t sync(uint64_t descriptor, const std::string& path, bool only_data);

    uint32_t find(const std::string& path, Found* found);
    uint32_t list(const std::string& path, std::vector<std::string>* names);
    uint32_t rename(const std::string& from, const std::string& to);
    uint32_t link(const std::string& from, const std::string& to);
    uint32_t unlink(const std::string& path);
    uint32_t make_directory(const std::string& path);
    uint32_t remove_directory(const std::string& path);
    uint32_t sync_directory(const std::string& path);

  private:
    std::unique_ptr<Disk> disk_;
    std::recursive_mutex mutex_;
    bool is_traced_;

    blobcrash_file_reply apply(uint32_t kind, uint64_t number, uint64_t first, const std::string& path = "", const std::string& to = "");
    uint32_t seen(const char* call, const std::string& what, uint32_t status) const;
    uint32_t change(uint32_t kind, const char* call, const std::string& path, const std::string& to = "");
    uint32_t open_by(uint32_t kind, const char* call, const std::string& path, uint64_t* descriptor);
};

// A status in words.
std::string text_of(uint32_t status);
// The directory of a path.
std::string directory_of(const std::string& path);

}  // namespace adapters

#endif
