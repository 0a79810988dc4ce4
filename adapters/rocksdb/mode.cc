#include "mode.h"

using rocksdb::WALRecoveryMode;

static bool read_switch(const std::string& word, Mode* mode) {
    static const struct {
        const char* word;
        bool Mode::*is_set;
    } switches[] = {{"manual", &Mode::flushes_log},      {"track", &Mode::tracks},
                    {"keep", &Mode::keeps_logs},
                    {"queues", &Mode::has_two_queues},   {"queued", &Mode::syncs_queued},   {"families", &Mode::has_families},
                    {"atomic", &Mode::flushes_atomically}, {"transactions", &Mode::has_transactions},
                    {"blobs", &Mode::has_blobs},         {"checkpoints", &Mode::has_checkpoints},
                    {"backups", &Mode::has_backups},     {"faults", &Mode::fails},
                    {"reads", &Mode::fails_reads},       {"simple", &Mode::is_simple}};
    for (const auto& one : switches)
        if (word == one.word) return mode->*one.is_set = true;
    return false;
}

static bool read_recovery(const std::string& word, Mode* mode) {
    if (word == "tolerate") mode->recovery = WALRecoveryMode::kTolerateCorruptedTailRecords;
    else if (word == "absolute") mode->recovery = WALRecoveryMode::kAbsoluteConsistency;
    else if (word == "skip") mode->recovery = WALRecoveryMode::kSkipAnyCorruptedRecords;
    else return false;
    return true;
}

static bool read_own(const std::string& word, Mode* mode) { return read_switch(word, mode) || read_recovery(word, mode); }

bool mode_read(const char* name, Mode* mode) {
    if (!adapters::read_mode(name, mode, read_own)) return false;
    mode->has_families |= mode->flushes_atomically;
    mode->has_two_queues |= mode->syncs_queued;
    return true;
}

// Absolute consistency and tolerated tails may refuse a database, and a recovery that skips records may leave other rows.
const char* mode_verdict(const char* name, const uint64_t* counts) {
    Mode mode;
    mode_read(name, &mode);
    bool may_be_refused = mode.recovery == WALRecoveryMode::kAbsoluteConsistency ||
                          mode.recovery == WALRecoveryMode::kTolerateCorruptedTailRecords;
    bool may_differ = mode.recovery == WALRecoveryMode::kSkipAnyCorruptedRecords && !mode.syncs;
    return adapters::batch_verdict(mode, counts, may_be_refused, may_differ);
}
