#include "open_files.h"

#include <algorithm>

using rocksdb::IOOptions;
using rocksdb::IOStatus;
using rocksdb::Slice;

IOStatus io_status(uint32_t status, const std::string& name) {
    if (status == BLOBCRASH_DONE) return IOStatus::OK();
    if (status == BLOBCRASH_F_NOT_FOUND) return IOStatus::PathNotFound(name);
    if (status == BLOBCRASH_F_NO_SPACE) return IOStatus::NoSpace(name);
    return IOStatus::IOError(name, adapters::text_of(status));
}

void OpenFile::close() {
    if (is_open_) files_->close(descriptor_);
    is_open_ = false;
}

IOStatus OpenFile::read(uint64_t offset, size_t len, Slice* result, char* scratch) const {
    size_t got;
    uint32_t status = files_->read(descriptor_, offset, scratch, len, &got);
    *result = Slice(scratch, got);
    return io_status(status, name_);
}

IOStatus OpenFile::write(uint64_t offset, const Slice& data) {
    return data.empty() ? IOStatus::OK() : io_status(files_->write(descriptor_, name_, offset, data.data(), data.size()), name_);
}

IOStatus OpenFile::sync(bool only_data) { return io_status(files_->sync(descriptor_, name_, only_data), name_); }
IOStatus OpenFile::truncate(uint64_t len) { return io_status(files_->truncate(descriptor_, len), name_); }

IOStatus OpenSequential::Read(size_t len, const IOOptions&, Slice* result, char* scratch, IODebug*) {
    IOStatus status = file_.read(offset_, len, result, scratch);
    offset_ += result->size();
    return status;
}

IOStatus OpenSequential::Skip(uint64_t len) {
    offset_ += len;
    return IOStatus::OK();
}

IOStatus OpenWritable::Append(const Slice& data, const IOOptions&, IODebug*) {
    IOStatus status = file_.write(end_, data);
    if (status.ok()) end_ += data.size();
    return status;
}

IOStatus OpenWritable::PositionedAppend(const Slice& data, uint64_t offset, const IOOptions&, IODebug*) {
    IOStatus status = file_.write(offset, data);
    if (status.ok()) end_ = std::max(end_, offset + data.size());
    return status;
}

IOStatus OpenWritable::Truncate(uint64_t size, const IOOptions&, IODebug*) {
    IOStatus status = file_.truncate(size);
    if (status.ok()) end_ = size;
    return status;
}

IOStatus OpenWritable::Close(const IOOptions&, IODebug*) {
    file_.close();
    return IOStatus::OK();
}

IOStatus OpenRandomRW::Close(const IOOptions&, IODebug*) {
    file_.close();
    return IOStatus::OK();
}

IOStatus OpenDirectory::Fsync(const IOOptions&, IODebug*) { return io_status(files_->sync_directory(name_), name_); }

IOStatus OpenDirectory::FsyncWithDirOptions(const IOOptions& options, IODebug* debug, const rocksdb::DirFsyncOptions& why) {
    if (!is_btrfs_ || (why.reason != rocksdb::DirFsyncOptions::kNewFileSynced && why.reason != rocksdb::DirFsyncOptions::kFileRenamed))
        return Fsync(options, debug);
    if (why.reason == rocksdb::DirFsyncOptions::kNewFileSynced) return IOStatus::OK();
    uint64_t descriptor;
    uint32_t status = files_->open(why.renamed_new_name, &descriptor);
    if (status != BLOBCRASH_DONE) return io_status(status, why.renamed_new_name);
    return OpenFile(files_, descriptor, why.renamed_new_name).sync(false);
}
