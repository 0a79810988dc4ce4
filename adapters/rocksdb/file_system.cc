#include "file_system.h"

#include "open_files.h"

using adapters::Found;
using rocksdb::IOStatus;

namespace {

class Lock : public rocksdb::FileLock {
  public:
    explicit Lock(std::string name) : name(std::move(name)) {}
    const std::string name;
};

// Whether the options ask for what isn't here.
IOStatus refuse(const rocksdb::FileOptions& options) {
    if (options.use_mmap_reads || options.use_mmap_writes) return IOStatus::NotSupported("memory maps");
    if (options.use_direct_reads || options.use_direct_writes) return IOStatus::NotSupported("direct I/O");
    return IOStatus::OK();
}

}  // namespace

// Files.

// Opens a file that exists, as a file of this class.
template <class Open, class File>
IOStatus CrashFileSystem::open_as(const std::string& name, const FileOptions& options, std::unique_ptr<File>* file) {
    uint64_t descriptor;
    IOStatus status = refuse(options);
    if (status.ok()) status = io_status(files_->open(name, &descriptor), name);
    if (status.ok()) file->reset(new Open(files_, descriptor, name));
    return status;
}

IOStatus CrashFileSystem::NewSequentialFile(const std::string& name, const FileOptions& options,
                                            std::unique_ptr<rocksdb::FSSequentialFile>* file, Debug*) {
    return open_as<OpenSequential>(name, options, file);
}

IOStatus CrashFileSystem::NewRandomAccessFile(const std::string& name, const FileOptions& options,
                                              std::unique_ptr<rocksdb::FSRandomAccessFile>* file, Debug*) {
    return open_as<OpenRandomAccess>(name, options, file);
}

IOStatus CrashFileSystem::NewRandomRWFile(const std::string& name, const FileOptions& options,
                                          std::unique_ptr<rocksdb::FSRandomRWFile>* file, Debug*) {
    return open_as<OpenRandomRW>(name, options, file);
}

IOStatus CrashFileSystem::open_writable(OpenCall open, const std::string& name, const FileOptions& options,
                                        std::unique_ptr<rocksdb::FSWritableFile>* file) {
    uint64_t descriptor = 0, size = 0;
    IOStatus refused = refuse(options);
    if (!refused.ok()) return refused;
    uint32_t status = (files_->*open)(name, &descriptor);
    if (status == BLOBCRASH_DONE) status = files_->size(descriptor, &size);
    if (status == BLOBCRASH_DONE) file->reset(new OpenWritable(files_, descriptor, name, size, options));
    return io_status(status, name);
}

IOStatus CrashFileSystem::NewWritableFile(const std::string& name, const FileOptions& options,
                                          std::unique_ptr<rocksdb::FSWritableFile>* file, Debug*) {
    return open_writable(&adapters::CrashFiles::open_empty, name, options, file);
}

IOStatus CrashFileSystem::ReopenWritableFile(const std::string& name, const FileOptions& options,
                                             std::unique_ptr<rocksdb::FSWritableFile>* file, Debug*) {
    return open_writable(&adapters::CrashFiles::open_or_create, name, options, file);
}

// An old file under a new name, which is written over from its start.
IOStatus CrashFileSystem::ReuseWritableFile(const std::string& name, const std::string& old, const FileOptions& options,
                                            std::unique_ptr<rocksdb::FSWritableFile>* file, Debug*) {
    uint64_t descriptor;
    IOStatus status = refuse(options);
    if (status.ok()) status = io_status(files_->open(old, &descriptor), old);
    if (!status.ok()) return status;
    status = io_status(files_->rename(old, name), old);
    if (status.ok()) file->reset(new OpenWritable(files_, descriptor, name, 0, options));
    else files_->close(descriptor);
    return status;
}

// Names.

IOStatus CrashFileSystem::NewDirectory(const std::string& name, const Options&, std::unique_ptr<rocksdb::FSDirectory>* directory, Debug*) {
    Found found;
    IOStatus status = io_status(files_->find(name, &found), name);
    if (status.ok() && !found.is_directory) status = IOStatus::IOError(name, "is a file");
    if (status.ok()) directory->reset(new OpenDirectory(files_, name, is_btrfs_));
    return status;
}

IOStatus CrashFileSystem::FileExists(const std::string& name, const Options&, Debug*) {
    Found found;
    uint32_t status = files_->find(name, &found);
    return status == BLOBCRASH_F_NOT_FOUND ? IOStatus::NotFound() : io_status(status, name);
}

IOStatus CrashFileSystem::GetChildren(const std::string& folder, const Options&, std::vector<std::string>* children, Debug*) {
    uint32_t status = files_->list(folder, children);
    return status == BLOBCRASH_F_NOT_FOUND ? IOStatus::NotFound(folder) : io_status(status, folder);
}

IOStatus CrashFileSystem::DeleteFile(const std::string& name, const Options&, Debug*) { return io_status(files_->unlink(name), name); }

IOStatus CrashFileSystem::Truncate(const std::string& name, size_t size, const Options&, Debug*) {
    uint64_t descriptor;
    uint32_t status = files_->open(name, &descriptor);
    return status == BLOBCRASH_DONE ? OpenFile(files_, descriptor, name).truncate(size) : io_status(status, name);
}

IOStatus CrashFileSystem::CreateDir(const std::string& name, const Options&, Debug*) { return io_status(files_->make_directory(name), name); }

IOStatus CrashFileSystem::CreateDirIfMissing(const std::string& name, const Options&, Debug*) {
    Found found;
    uint32_t status = files_->find(name, &found);
    if (status == BLOBCRASH_DONE) return found.is_directory ? IOStatus::OK() : IOStatus::IOError(name, "is a file");
    return io_status(files_->make_directory(name), name);
}

IOStatus CrashFileSystem::DeleteDir(const std::string& name, const Options&, Debug*) { return io_status(files_->remove_directory(name), name); }

IOStatus CrashFileSystem::GetFileSize(const std::string& name, const Options&, uint64_t* size, Debug*) {
    Found found;
    uint32_t status = files_->find(name, &found);
    *size = found.size;
    return io_status(status, name);
}

// Files have no times.
IOStatus CrashFileSystem::GetFileModificationTime(const std::string& name, const Options&, uint64_t* time, Debug*) {
    Found found;
    *time = 0;
    return io_status(files_->find(name, &found), name);
}

IOStatus CrashFileSystem::RenameFile(const std::string& from, const std::string& to, const Options&, Debug*) {
    return io_status(files_->rename(from, to), from);
}

IOStatus CrashFileSystem::LinkFile(const std::string& from, const std::string& to, const Options&, Debug*) {
    return io_status(files_->link(from, to), from);
}

IOStatus CrashFileSystem::AreFilesSame(const std::string& first, const std::string& second, const Options&, bool* are_same, Debug*) {
    Found one, other;
    IOStatus status = io_status(files_->find(first, &one), first);
    if (status.ok()) status = io_status(files_->find(second, &other), second);
    *are_same = status.ok() && one.inode == other.inode;
    return status;
}

IOStatus CrashFileSystem::IsDirectory(const std::string& path, const Options&, bool* is_directory, Debug*) {
    Found found;
    uint32_t status = files_->find(path, &found);
    *is_directory = found.is_directory;
    return io_status(status, path);
}

// The file of the lock is made. The lock itself is of this process.
IOStatus CrashFileSystem::LockFile(const std::string& name, const Options&, rocksdb::FileLock** lock, Debug*) {
    std::lock_guard<std::mutex> guard(mutex_);
    uint64_t descriptor;
    *lock = nullptr;
    if (locked_.count(name) > 0) return IOStatus::IOError(name, "is locked");
    IOStatus status = io_status(files_->open_or_create(name, &descriptor), name);
    if (!status.ok()) return status;
    files_->close(descriptor);
    locked_.insert(name);
    *lock = new Lock(name);
    return status;
}

IOStatus CrashFileSystem::UnlockFile(rocksdb::FileLock* lock, const Options&, Debug*) {
    std::lock_guard<std::mutex> guard(mutex_);
    locked_.erase(static_cast<Lock*>(lock)->name);
    delete lock;
    return IOStatus::OK();
}

IOStatus CrashFileSystem::GetTestDirectory(const Options&, std::string*, Debug*) {
    return IOStatus::NotSupported("there is no folder for tests");
}

IOStatus CrashFileSystem::GetAbsolutePath(const std::string& path, const Options&, std::string* absolute, Debug*) {
    *absolute = path;
    return IOStatus::OK();
}
