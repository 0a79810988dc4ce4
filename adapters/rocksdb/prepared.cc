#include "prepared.h"

using rocksdb::Status;
using rocksdb::Transaction;

// At most so many are prepared at a time.
static const size_t MOST = 3;

Status Prepared::prepare() {
    std::string name = "t" + std::to_string(++last_);
    std::unique_ptr<Transaction> one(database_->transactions()->BeginTransaction(database_->write_options()));
    Status status = one->SetName(name);
    if (status.ok()) status = one->Put(database_->family(0), "p" + name, name);
    if (!status.ok()) return status;
    states_[name] = {Step::PREPARE, false};
    status = database_->acknowledge(one->Prepare());
    states_[name].is_acknowledged = status.ok();
    handles_[name] = std::move(one);
    return status;
}

Status Prepared::end(std::string name, bool commits) {
    std::unique_ptr<Transaction> one = std::move(handles_[name]);
    handles_.erase(name);
    states_[name] = {commits ? Step::COMMIT : Step::ROLLBACK, false};
    Status status = database_->acknowledge(commits ? one->Commit() : one->Rollback());
    states_[name].is_acknowledged = status.ok();
    return status;
}

Status Prepared::step(uint64_t draw) {
    if (handles_.size() < MOST && draw % 2 == 0) return prepare();
    if (handles_.empty()) return Status::OK();
    auto at = handles_.begin();
    std::advance(at, static_cast<long>(draw / 8 % handles_.size()));
    return end(at->first, draw / 2 % 4 != 0);
}

// With syncs each step that was acknowledged is found, and one that wasn't is found or not.
std::string Prepared::compare(const State& state, bool is_prepared, bool has_row) const {
    if (is_prepared && has_row) return "is prepared and has its row";
    if (!mode_.syncs) return "";
    if (state.step != Step::COMMIT && has_row) return "has its row, and wasn't committed";
    if (state.step == Step::COMMIT && !has_row && (state.is_acknowledged || !is_prepared)) return "is lost after its commit";
    if (state.step == Step::PREPARE && state.is_acknowledged && !is_prepared) return "is lost after it was prepared";
    if (state.step == Step::ROLLBACK && state.is_acknowledged && is_prepared) return "is prepared after it was rolled back";
    return "";
}

std::string Prepared::check(Rows* rows) {
    std::string wrong;
    std::vector<Transaction*> found;
    database_->transactions()->GetAllPreparedTransactions(&found);
    handles_.clear();
    for (Transaction* one : found) {
        if (states_.count(one->GetName()) > 0) {
            handles_[one->GetName()].reset(one);
            continue;
        }
        Status status = one->Rollback();
        if (!status.ok()) wrong = "a rollback after a crash: " + status.ToString();
        delete one;
    }
    for (auto at = states_.begin(); at != states_.end();) {
        bool is_prepared = handles_.count(at->first) > 0, has_row = rows->erase("0/p" + at->first) > 0;
        std::string what = compare(at->second, is_prepared, has_row);
        if (!what.empty() && wrong.empty()) wrong = "transaction " + at->first + " " + what;
        if (!is_prepared && !has_row) {
            at = states_.erase(at);
            continue;
        }
        at->second = {is_prepared ? Step::PREPARE : Step::COMMIT, true};
        ++at;
    }
    return wrong;
}
