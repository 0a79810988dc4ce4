#include "copies.h"

#include <rocksdb/utilities/backup_engine.h>
#include <rocksdb/utilities/checkpoint.h>

#include <limits>

using rocksdb::Status;

namespace {

// Only the newest are compared.
const size_t MOST = 2;

// Tables aren't shared between backups: for shared ones the engine's thread and its caller change files at the same time, in no order that a
// seed repeats.
rocksdb::BackupEngineOptions backup_options(CrashEnv* env) {
    rocksdb::BackupEngineOptions options("/backups", env);
    options.max_background_operations = 1;
    options.share_table_files = false;
    return options;
}

}  // namespace

// Without a flush: the log is copied. A flush would wait for background work.
Status Copies::checkpoint(const Database& database, const Rows& rows) {
    rocksdb::Checkpoint* pointer = nullptr;
    Status status = rocksdb::Checkpoint::Create(database.db(), &pointer);
    std::unique_ptr<rocksdb::Checkpoint> maker(pointer);
    std::string path = "/checkpoint" + std::to_string(++last_);
    if (status.ok()) status = maker->CreateCheckpoint(path, std::numeric_limits<uint64_t>::max());
    if (status.ok()) copies_.push_back({path, 0, rows});
    return status;
}

Status Copies::back_up(const Database& database, const Rows& rows) {
    rocksdb::BackupEngine* pointer = nullptr;
    Status status = rocksdb::BackupEngine::Open(backup_options(env_), env_, &pointer);
    std::unique_ptr<rocksdb::BackupEngine> engine(pointer);
    uint32_t backup = 0;
    rocksdb::CreateBackupOptions options;
    if (status.ok()) status = engine->CreateNewBackup(options, database.db(), &backup);
    if (status.ok()) copies_.push_back({"", backup, rows});
    return status;
}

Status Copies::make(const Database& database, const Rows& rows) {
    env_->jobs.run();
    Status status = mode_.has_backups ? back_up(database, rows) : checkpoint(database, rows);
    if (copies_.size() > MOST) copies_.erase(copies_.begin());
    return status;
}

std::string Copies::compare(const Copy& copy) {
    Status status;
    std::string path = copy.path, what = copy.path.empty() ? "backup " + std::to_string(copy.backup) : copy.path;
    if (path.empty()) {
        rocksdb::BackupEngine* pointer = nullptr;
        path = "/restored";
        status = rocksdb::BackupEngine::Open(backup_options(env_), env_, &pointer);
        std::unique_ptr<rocksdb::BackupEngine> engine(pointer);
        if (status.ok()) status = engine->VerifyBackup(copy.backup, true);
        if (status.ok()) status = engine->RestoreDBFromBackup(rocksdb::RestoreOptions(), copy.backup, path, path);
    }
    Database opened(mode_, env_);
    Rows rows;
    if (status.ok()) status = opened.open_to_read(path);
    if (status.ok()) status = opened.read(&rows);
    if (!status.ok()) return what + " is lost: " + status.ToString();
    return rows == copy.rows ? "" : what + " has other rows";
}

std::string Copies::check() {
    std::string wrong;
    for (const Copy& copy : copies_)
        if (wrong.empty()) wrong = compare(copy);
    return wrong;
}
