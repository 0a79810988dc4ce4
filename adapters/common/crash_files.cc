#include "crash_files.h"

#include <cstdio>
#include <cstdlib>

namespace adapters {

namespace {

class LibraryDisk : public Disk {
  public:
    explicit LibraryDisk(const std::string& preamble) {
        if (disk_start(&disk_, preamble.c_str()) == BLOBCRASH_DONE) return;
        fprintf(stderr, "this is no preamble:\n%s", preamble.c_str());
        abort();
    }
    ~LibraryDisk() override { disk_end(&disk_); }

    blobcrash_file_reply apply(const blobcrash_file_call& call, const std::string& path, const std::string& to) override {
        return disk_apply(&disk_, &call, path.c_str(), to.c_str());
    }
    uint32_t write(uint64_t descriptor, uint64_t offset, const char* bytes, size_t len) override {
        return disk_write(&disk_, descriptor, offset, bytes, len);
    }
    blobcrash_ran read(uint64_t descriptor, uint64_t offset, char* into, size_t capacity) override {
        return disk_read(&disk_, descriptor, offset, into, capacity);
    }
    std::vector<std::string> names(size_t count) override {
        std::vector<std::string> names;
        uint8_t name[256];
        for (size_t at = 0; at < count; at++) {
            struct blobcrash_file_reply reply = blobcrash_files_name(&disk_.files, at, name, sizeof name);
            if (reply.status != BLOBCRASH_DONE) abort();
            names.emplace_back(name, name + reply.size);
        }
        return names;
    }
    void set(const std::string& setting) override {
        if (disk_set(&disk_, setting.c_str()) == BLOBCRASH_DONE) return;
        fprintf(stderr, "this is no setting: %s\n", setting.c_str());
        abort();
    }
    void note(const std::string& text) override { disk_note(&disk_, text.c_str()); }
    void power_off_after(int64_t calls) override { disk_power_off_after(&disk_, calls); }
    bool is_off() const override { return !disk_.is_on; }
    uint64_t faults() const override { return disk_.faults; }
    void crash() override {
        if (disk_crash(&disk_, nullptr) != BLOBCRASH_DONE) abort();
    }

  private:
    disk disk_{};
};

// A path without empty names, as `/d/x` for `/d//x/`.
std::string plain(const std::string& path) {
    std::string plain;
    for (char at : path)
        if (at != '/' || plain.empty() || plain.back() != '/') plain += at;
    if (plain.size() > 1 && plain.back() == '/') plain.pop_back();
    return plain;
}

using Lock = std::lock_guard<std::recursive_mutex>;

}  // namespace

std::unique_ptr<Disk> library_disk(const std::string& preamble) { return std::make_unique<LibraryDisk>(preamble); }

std::string text_of(uint32_t status) {
    switch (status) {
    case BLOBCRASH_DONE: return "ok";
    case DISK_OFF: return "the power is off";
    case BLOBCRASH_E_INJECTED: return "an injected fault";
    case BLOBCRASH_F_EXISTS: return "the name is taken";
    case BLOBCRASH_F_NOT_FOUND: return "not found";
    case BLOBCRASH_F_NOT_EMPTY: return "the directory has names";
    case BLOBCRASH_F_STALE: return "the descriptor is stale";
    case BLOBCRASH_F_NO_SPACE: return "no space";
    default: return "status " + std::to_string(status);
    }
}

std::string directory_of(const std::string& path) {
    size_t slash = path.rfind('/');
    return slash == std::string::npos || slash == 0 ? "/" : path.substr(0, slash);
}

CrashFiles::CrashFiles(std::unique_ptr<Disk> disk) : disk_(std::move(disk)), is_traced_(getenv("BLOBCRASH_TRACE") != nullptr) {}

blobcrash_file_reply CrashFiles::apply(uint32_t kind, uint64_t number, uint64_t first, const std::string& path, const std::string& to) {
    return disk_->apply({kind, number, first, 0}, plain(path), plain(to));
}

// Prints a call that changes something, and any that fails.
uint32_t CrashFiles::seen(const char* call, const std::string& what, uint32_t status) const {
    if (is_traced_ && status != DISK_OFF && (*call != 0 || status != BLOBCRASH_DONE))
        disk_trace("%s %s%s%s", call, what.c_str(), status == BLOBCRASH_DONE ? "" : ": ", status == BLOBCRASH_DONE ? "" : text_of(status).c_str());
    return status;
}

// The power.

void CrashFiles::power_off_after(int64_t calls) {
    Lock lock(mutex_);
    disk_->power_off_after(calls);
}

bool CrashFiles::is_off() {
    Lock lock(mutex_);
    return disk_->is_off();
}

uint64_t CrashFiles::faults() {
    Lock lock(mutex_);
    return disk_->faults();
}

void CrashFiles::crash() {
    Lock lock(mutex_);
    disk_->crash();
    disk_->set("config clear");
}

void CrashFiles::set(const std::string& setting) {
    Lock lock(mutex_);
    disk_->set(setting);
}

void CrashFiles::note(const std::string& text) {
    Lock lock(mutex_);
    disk_->note(text);
}

void CrashFiles::settle() {
    Lock lock(mutex_);
    if (apply(BLOBCRASH_F_SETTLE, 0, 0).status != BLOBCRASH_DONE) abort();
}

// Files.

uint32_t CrashFiles::open_by(uint32_t kind, const char* call, const std::string& path, uint64_t* descriptor) {
    Lock lock(mutex_);
    blobcrash_file_reply reply = apply(kind, 0, 0, path);
    *descriptor = reply.number;
    return seen(call, path, reply.status);
}

uint32_t CrashFiles::create(const std::string& path, uint64_t* descriptor) {
    return open_by(BLOBCRASH_F_CREATE, "create", path, descriptor);
}

uint32_t CrashFiles::open(const std::string& path, uint64_t* descriptor) { return open_by(BLOBCRASH_F_OPEN, "", path, descriptor); }

uint32_t CrashFiles::open_empty(const std::string& path, uint64_t* descriptor) {
    Lock lock(mutex_);
    Found found;
    bool exists = find(path, &found) == BLOBCRASH_DONE;
    return exists ? open_by(BLOBCRASH_F_OPEN_TRUNCATED, "truncate", path, descriptor) : create(path, descriptor);
}

uint32_t CrashFiles::open_or_create(const std::string& path, uint64_t* descriptor) {
    Lock lock(mutex_);
    Found found;
    return find(path, &found) == BLOBCRASH_DONE ? open(path, descriptor) : create(path, descriptor);
}

uint32_t CrashFiles::close(uint64_t descriptor) {
    Lock lock(mutex_);
    // A profile may make bytes durable at a close. Without power nothing does.
    return disk_->is_off() ? static_cast<uint32_t>(DISK_OFF) : apply(BLOBCRASH_F_CLOSE, descriptor, 0).status;
}

uint32_t CrashFiles::write(uint64_t descriptor, const std::string& path, uint64_t offset, const char* bytes, size_t len) {
    Lock lock(mutex_);
    uint32_t status = disk_->write(descriptor, offset, bytes, len);
    return is_traced_ ? seen("write", path + ", " + std::to_string(len) + " bytes at " + std::to_string(offset), status) : status;
}

uint32_t CrashFiles::read(uint64_t descriptor, uint64_t offset, char* into, size_t capacity, size_t* got) {
    Lock lock(mutex_);
    blobcrash_ran ran = disk_->read(descriptor, offset, into, capacity);
    *got = ran.status == BLOBCRASH_DONE ? ran.len : 0;
    return seen("", "a read", ran.status);
}

uint32_t CrashFiles::truncate(uint64_t descriptor, uint64_t len) {
    Lock lock(mutex_);
    return seen("truncate to", std::to_string(len), apply(BLOBCRASH_F_TRUNCATE, descriptor, len).status);
}

uint32_t CrashFiles::size(uint64_t descriptor, uint64_t* size) {
    Lock lock(mutex_);
    blobcrash_file_reply reply = apply(BLOBCRASH_F_SIZE, descriptor, 0);
    *size = reply.size;
    return reply.status;
}

uint32_t CrashFiles::sync(uint64_t descriptor, const std::string& path, bool only_data) {
    Lock lock(mutex_);
    uint32_t kind = only_data ? BLOBCRASH_F_SYNC_DATA : BLOBCRASH_F_SYNC;
    return seen(only_data ? "fdatasync" : "fsync", path, apply(kind, descriptor, 0).status);
}

// Names.

uint32_t CrashFiles::find(const std::string& path, Found* found) {
    Lock lock(mutex_);
    blobcrash_file_reply reply = apply(BLOBCRASH_F_FIND, 0, 0, path);
    *found = {reply.kind == 1, reply.number, reply.size};
    return reply.status;
}

uint32_t CrashFiles::list(const std::string& path, std::vector<std::string>* names) {
    Lock lock(mutex_);
    names->clear();
    blobcrash_file_reply reply = apply(BLOBCRASH_F_LIST, 0, 0, path);
    if (reply.status == BLOBCRASH_DONE) *names = disk_->names(static_cast<size_t>(reply.size));
    return reply.status;
}

uint32_t CrashFiles::change(uint32_t kind, const char* call, const std::string& path, const std::string& to) {
    Lock lock(mutex_);
    return seen(call, to.empty() ? path : path + " to " + to, apply(kind, 0, 0, path, to).status);
}

uint32_t CrashFiles::rename(const std::string& from, const std::string& to) { return change(BLOBCRASH_F_RENAME, "rename", from, to); }
uint32_t CrashFiles::link(const std::string& from, const std::string& to) { return change(BLOBCRASH_F_LINK, "link", from, to); }
uint32_t CrashFiles::unlink(const std::string& path) { return change(BLOBCRASH_F_UNLINK, "unlink", path); }
uint32_t CrashFiles::make_directory(const std::string& path) { return change(BLOBCRASH_F_MAKE_DIRECTORY, "mkdir", path); }
uint32_t CrashFiles::remove_directory(const std::string& path) { return change(BLOBCRASH_F_REMOVE_DIRECTORY, "rmdir", path); }
uint32_t CrashFiles::sync_directory(const std::string& path) { return change(BLOBCRASH_F_SYNC_DIRECTORY, "fsync the directory", path); }

}  // namespace adapters
