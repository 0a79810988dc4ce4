#include "simple_disk.h"

#include "random.h"

#include <algorithm>
#include <cstring>

using adapters::directory_of;

namespace {

blobcrash_file_reply status(uint32_t status) { return {status, 0, 0, 0}; }

// A file whose content was overwritten by a rename is restored if it had less than this.
const size_t MOST_RESTORED = 1024;

}  // namespace

bool SimpleDisk::may_change() {
    if (calls_left_ == 0) is_off_ = true;
    if (is_off_) return false;
    if (calls_left_ > 0) calls_left_--;
    return true;
}

SimpleDisk::File* SimpleDisk::file_of(uint64_t descriptor) {
    return descriptor < descriptors_.size() ? descriptors_[descriptor].get() : nullptr;
}

blobcrash_file_reply SimpleDisk::opened(const FilePointer& file) {
    descriptors_.push_back(file);
    return {BLOBCRASH_DONE, 0, descriptors_.size() - 1, 0};
}

blobcrash_file_reply SimpleDisk::find(const std::string& path) const {
    auto at = files_.find(path);
    if (directories_.count(path) > 0) return {BLOBCRASH_DONE, 1, std::hash<std::string>()(path), 0};
    if (at == files_.end()) return status(BLOBCRASH_F_NOT_FOUND);
    return {BLOBCRASH_DONE, 0, reinterpret_cast<uintptr_t>(at->second.get()), at->second->bytes.size()};
}

uint64_t SimpleDisk::list(const std::string& path) {
    std::string start = path == "/" ? path : path + "/";
    listed_.clear();
    for (const auto& file : files_)
        if (directory_of(file.first) == path) listed_.push_back(file.first.substr(start.size()));
    for (const auto& directory : directories_)
        if (directory.first != "/" && directory_of(directory.first) == path) listed_.push_back(directory.first.substr(start.size()));
    std::sort(listed_.begin(), listed_.end());
    return listed_.size();
}

// The new name counts as made if the old one does.
uint32_t SimpleDisk::rename(const std::string& from, const std::string& to) {
    auto at = files_.find(from);
    if (at == files_.end()) return BLOBCRASH_F_NOT_FOUND;
    FilePointer file = at->second, before;
    auto old = files_.find(to);
    if (old != files_.end() && old->second->bytes.size() < MOST_RESTORED) before = old->second;
    files_.erase(from);
    files_[to] = file;
    if (made_[directory_of(from)].erase(from) > 0) made_[directory_of(to)][to] = before;
    return BLOBCRASH_DONE;
}

blobcrash_file_reply SimpleDisk::by_path(const blobcrash_file_call& call, const std::string& path, const std::string& to) {
    auto at = files_.find(path);
    bool exists = at != files_.end();
    switch (call.kind) {
    case BLOBCRASH_F_OPEN: return exists ? opened(at->second) : status(BLOBCRASH_F_NOT_FOUND);
    case BLOBCRASH_F_CREATE:
    case BLOBCRASH_F_OPEN_TRUNCATED:
        made_[directory_of(path)][path] = nullptr;
        return opened(files_[path] = std::make_shared<File>());
    case BLOBCRASH_F_UNLINK:
        if (!exists) return status(BLOBCRASH_F_NOT_FOUND);
        files_.erase(at);
        made_[directory_of(path)].erase(path);
        return status(BLOBCRASH_DONE);
    case BLOBCRASH_F_LINK:
        if (!exists) return status(BLOBCRASH_F_NOT_FOUND);
        files_[to] = at->second;
        made_[directory_of(to)][to] = nullptr;
        return status(BLOBCRASH_DONE);
    case BLOBCRASH_F_RENAME: return status(rename(path, to));
    case BLOBCRASH_F_MAKE_DIRECTORY:
        if (find(path).status == BLOBCRASH_DONE) return status(BLOBCRASH_F_EXISTS);
        directories_[path] = true;
        return status(BLOBCRASH_DONE);
    case BLOBCRASH_F_REMOVE_DIRECTORY: return directories_.erase(path) > 0 ? status(BLOBCRASH_DONE) : status(BLOBCRASH_F_NOT_FOUND);
    case BLOBCRASH_F_SYNC_DIRECTORY: made_[path].clear(); return status(BLOBCRASH_DONE);
    case BLOBCRASH_F_FIND: return find(path);
    case BLOBCRASH_F_LIST:
        return directories_.count(path) > 0 ? blobcrash_file_reply{BLOBCRASH_DONE, 0, 0, list(path)} : status(BLOBCRASH_F_NOT_FOUND);
    default: return status(BLOBCRASH_DONE);
    }
}

blobcrash_file_reply SimpleDisk::by_descriptor(const blobcrash_file_call& call) {
    File* file = file_of(call.number);
    if (file == nullptr) return status(BLOBCRASH_F_STALE);
    switch (call.kind) {
    case BLOBCRASH_F_CLOSE: descriptors_[call.number] = nullptr; break;
    case BLOBCRASH_F_TRUNCATE:
        file->bytes.resize(static_cast<size_t>(call.first));
        file->synced = std::min(file->synced, file->bytes.size());
        break;
    case BLOBCRASH_F_SIZE: return {BLOBCRASH_DONE, 0, 0, file->bytes.size()};
    default: file->synced = file->bytes.size();
    }
    return status(BLOBCRASH_DONE);
}

blobcrash_file_reply SimpleDisk::apply(const blobcrash_file_call& call, const std::string& path, const std::string& to) {
    bool changes = blobcrash_files_effect(call.kind) & BLOBCRASH_CHANGES;
    if (changes ? !may_change() : is_off_) return status(DISK_OFF);
    if (call.kind == BLOBCRASH_F_SETTLE) {
        for (auto& file : files_) file.second->synced = file.second->bytes.size();
        made_.clear();
        return status(BLOBCRASH_DONE);
    }
    bool has_descriptor = call.kind >= BLOBCRASH_F_CLOSE && call.kind <= BLOBCRASH_F_INODE_OF;
    return has_descriptor ? by_descriptor(call) : by_path(call, path, to);
}

uint32_t SimpleDisk::write(uint64_t descriptor, uint64_t offset, const char* bytes, size_t len) {
    if (!may_change()) return DISK_OFF;
    File* file = file_of(descriptor);
    if (file == nullptr) return BLOBCRASH_F_STALE;
    size_t start = static_cast<size_t>(offset);
    if (file->bytes.size() < start + len) file->bytes.resize(start + len);
    memcpy(&file->bytes[start], bytes, len);
    return BLOBCRASH_DONE;
}

blobcrash_ran SimpleDisk::read(uint64_t descriptor, uint64_t offset, char* into, size_t capacity) {
    if (is_off_) return {DISK_OFF, 0};
    File* file = file_of(descriptor);
    if (file == nullptr) return {BLOBCRASH_F_STALE, 0};
    if (offset >= file->bytes.size()) return {BLOBCRASH_DONE, 0};
    size_t len = std::min(capacity, file->bytes.size() - static_cast<size_t>(offset));
    memcpy(into, &file->bytes[static_cast<size_t>(offset)], len);
    return {BLOBCRASH_DONE, len};
}

// Names that were made since the last sync of their directory have what they had before.
void SimpleDisk::forget_names() {
    for (auto& directory : made_) {
        for (auto& name : directory.second) {
            if (name.second == nullptr) files_.erase(name.first);
            else files_[name.first] = name.second;
        }
    }
}

// As the test of that class resets: the unsynced ends, random parts of them, the new names, or ends and names.
void SimpleDisk::crash() {
    uint64_t way = random_below(&draws_, 4);
    for (auto& file : files_) {
        size_t unsynced = file.second->bytes.size() - file.second->synced, kept = way == 1 ? random_below(&draws_, unsynced + 1) : 0;
        if (way != 2) file.second->bytes.resize(file.second->synced + kept);
    }
    if (way >= 2) forget_names();
    for (auto& file : files_) file.second->synced = file.second->bytes.size();
    made_.clear();
    descriptors_.assign(descriptors_.size(), nullptr);
    is_off_ = false;
    calls_left_ = -1;
}
