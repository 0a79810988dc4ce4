#include "env.h"

#include <cstdlib>
#include <cstring>

using adapters::CrashFiles;
using leveldb::Slice;
using leveldb::Status;

namespace {

Status status_of(uint32_t status, const std::string& name) {
    if (status == BLOBCRASH_DONE) return Status::OK();
    if (status == BLOBCRASH_F_NOT_FOUND) return Status::NotFound(name);
    return Status::IOError(name, adapters::text_of(status));
}

// An open file, which is closed at the end.
class File {
  public:
    File(CrashFiles* files, uint64_t descriptor, std::string name) : files(files), descriptor(descriptor), name(std::move(name)) {}
    File(const File&) = delete;
    ~File() { close(); }
    void close() {
        if (is_open_) files->close(descriptor);
        is_open_ = false;
    }
    Status read(uint64_t offset, size_t len, Slice* result, char* scratch) const {
        size_t got;
        uint32_t status = files->read(descriptor, offset, scratch, len, &got);
        *result = Slice(scratch, got);
        return status_of(status, name);
    }

    CrashFiles* const files;
    const uint64_t descriptor;
    const std::string name;

  private:
    bool is_open_ = true;
};

class Sequential : public leveldb::SequentialFile {
  public:
    Sequential(CrashFiles* files, uint64_t descriptor, const std::string& name) : file_(files, descriptor, name) {}
    Status Read(size_t len, Slice* result, char* scratch) override {
        Status status = file_.read(offset_, len, result, scratch);
        offset_ += result->size();
        return status;
    }
    Status Skip(uint64_t len) override {
        offset_ += len;
        return Status::OK();
    }

  private:
    File file_;
    uint64_t offset_ = 0;
};

class RandomAccess : public leveldb::RandomAccessFile {
  public:
    RandomAccess(CrashFiles* files, uint64_t descriptor, const std::string& name) : file_(files, descriptor, name) {}
    Status Read(uint64_t offset, size_t len, Slice* result, char* scratch) const override { return file_.read(offset, len, result, scratch); }

  private:
    File file_;
};

// Bytes are gathered up to 64 KiB, as in PosixWritableFile: a record of a log is one write.
class Writable : public leveldb::WritableFile {
  public:
    Writable(CrashFiles* files, uint64_t descriptor, const std::string& name, uint64_t end) : file_(files, descriptor, name), end_(end) {}
    ~Writable() override { Close(); }

    Status Append(const Slice& data) override {
        size_t fits = std::min(data.size(), CAPACITY - buffer_.size());
        buffer_.append(data.data(), fits);
        if (fits == data.size()) return Status::OK();
        Status status = Flush();
        if (!status.ok()) return status;
        Slice rest(data.data() + fits, data.size() - fits);
        if (rest.size() >= CAPACITY) return write(rest);
        buffer_.assign(rest.data(), rest.size());
        return Status::OK();
    }
    Status Close() override {
        Status status = Flush();
        file_.close();
        return status;
    }
    Status Flush() override {
        Status status = write(buffer_);
        buffer_.clear();
        return status;
    }
    // The directory first, if this is a manifest, whose new files must have their names.
    Status Sync() override {
        std::string folder = adapters::directory_of(file_.name);
        bool is_manifest = file_.name.compare(folder.size() + 1, 8, "MANIFEST") == 0;
        Status status = is_manifest ? status_of(file_.files->sync_directory(folder), folder) : Status::OK();
        if (status.ok()) status = Flush();
        return status.ok() ? status_of(file_.files->sync(file_.descriptor, file_.name, true), file_.name) : status;
    }

  private:
    static constexpr size_t CAPACITY = 65536;
    File file_;
    uint64_t end_;
    std::string buffer_;

    // After an error the position is as before, as that of a descriptor.
    Status write(const Slice& data) {
        if (data.empty()) return Status::OK();
        uint32_t status = file_.files->write(file_.descriptor, file_.name, end_, data.data(), data.size());
        if (status == BLOBCRASH_DONE) end_ += data.size();
        return status_of(status, file_.name);
    }
};

class NoLock : public leveldb::FileLock {};

}  // namespace

Status CrashEnv::created(const std::string& name) {
    std::string folder = adapters::directory_of(name);
    return extra_.after_create ? status_of(files_->sync_directory(folder), folder) : Status::OK();
}

Status CrashEnv::NewSequentialFile(const std::string& name, leveldb::SequentialFile** file) {
    uint64_t descriptor;
    uint32_t status = files_->open(name, &descriptor);
    *file = status == BLOBCRASH_DONE ? new Sequential(files_, descriptor, name) : nullptr;
    return status_of(status, name);
}

Status CrashEnv::NewRandomAccessFile(const std::string& name, leveldb::RandomAccessFile** file) {
    uint64_t descriptor;
    uint32_t status = files_->open(name, &descriptor);
    *file = status == BLOBCRASH_DONE ? new RandomAccess(files_, descriptor, name) : nullptr;
    return status_of(status, name);
}

Status CrashEnv::NewWritableFile(const std::string& name, leveldb::WritableFile** file) {
    uint64_t descriptor;
    *file = nullptr;
    Status status = status_of(files_->open_empty(name, &descriptor), name);
    if (status.ok()) status = created(name);
    if (status.ok()) *file = new Writable(files_, descriptor, name, 0);
    return status;
}

Status CrashEnv::NewAppendableFile(const std::string& name, leveldb::WritableFile** file) {
    uint64_t descriptor, size = 0;
    *file = nullptr;
    uint32_t status = files_->open_or_create(name, &descriptor);
    if (status == BLOBCRASH_DONE) status = files_->size(descriptor, &size);
    if (status == BLOBCRASH_DONE) *file = new Writable(files_, descriptor, name, size);
    return status_of(status, name);
}

bool CrashEnv::FileExists(const std::string& name) {
    adapters::Found found;
    return files_->find(name, &found) == BLOBCRASH_DONE;
}

Status CrashEnv::GetChildren(const std::string& folder, std::vector<std::string>* children) {
    return status_of(files_->list(folder, children), folder);
}

Status CrashEnv::RemoveFile(const std::string& name) { return status_of(files_->unlink(name), name); }
Status CrashEnv::CreateDir(const std::string& name) { return status_of(files_->make_directory(name), name); }
Status CrashEnv::RemoveDir(const std::string& name) { return status_of(files_->remove_directory(name), name); }

Status CrashEnv::GetFileSize(const std::string& name, uint64_t* size) {
    adapters::Found found;
    uint32_t status = files_->find(name, &found);
    *size = found.size;
    return status_of(status, name);
}

Status CrashEnv::RenameFile(const std::string& from, const std::string& to) {
    std::string folder = adapters::directory_of(to);
    Status status = status_of(files_->rename(from, to), from);
    return status.ok() && extra_.after_rename ? status_of(files_->sync_directory(folder), folder) : status;
}

// The file of the lock is made. No other process could hold the lock.
Status CrashEnv::LockFile(const std::string& name, leveldb::FileLock** lock) {
    uint64_t descriptor;
    uint32_t status = files_->open_or_create(name, &descriptor);
    if (status == BLOBCRASH_DONE) files_->close(descriptor);
    *lock = status == BLOBCRASH_DONE ? new NoLock : nullptr;
    return status_of(status, name);
}

Status CrashEnv::UnlockFile(leveldb::FileLock* lock) {
    delete lock;
    return Status::OK();
}

void CrashEnv::Schedule(void (*function)(void*), void* argument) { jobs.add([=] { function(argument); }); }
Status CrashEnv::GetTestDirectory(std::string*) { return Status::NotSupported("there is no folder for tests"); }
Status CrashEnv::NewLogger(const std::string&, leveldb::Logger**) { return Status::NotSupported("options.info_log is set"); }
void CrashEnv::StartThread(void (*)(void*), void*) { abort(); }
