// A mode: how RocksDB is set up, and what the disk does. Its name is words with dashes, as `sync-families-posix`.
#ifndef BLOBCRASH_ROCKSDB_MODE_H
#define BLOBCRASH_ROCKSDB_MODE_H

#include "batches.h"

#include <rocksdb/options.h>

struct Mode : adapters::BatchMode {
    // What lives count: the columns of the table.
    enum Count { BATCHES, CRASHES, IN_WRITE, IN_WORK, RECOVERY, FAULTS, LOST, CORRUPT, WRONG, BROKEN };
    rocksdb::WALRecoveryMode recovery = rocksdb::WALRecoveryMode::kPointInTimeRecovery;
    bool is_simple = false, flushes_log = false, tracks = false, keeps_logs = false, has_two_queues = false, syncs_queued = false;
    bool has_families = false, flushes_atomically = false, has_transactions = false, has_blobs = false;
    bool has_checkpoints = false, has_backups = false;
};

// Reads a name: `sync` or `nosync`, and then words of adapters/common/words.h or
//
// - `manual`, `track`, `keep`, `queues`: manual_wal_flush, track_and_verify_wals_in_manifest, avoid_flush_during_recovery, two_write_queues; `queued`: with two queues WriteOptions::sync, in place of SyncWAL after each write;
// - `tolerate`, `absolute`, `skip`: another wal_recovery_mode;
// - `families`, `atomic`: three column families, of which one is flushed at times, or all with atomic_flush;
// - `transactions`: a TransactionDB; some transactions are prepared, and ended later; `blobs`: enable_blob_files;
// - `checkpoints`, `backups`: they are made at times, and compared after crashes;
// - `faults`: writes and syncs fail; `reads`: reads and creations fail; `simple`: the disk of simple_disk.h.
//
// Returns false if it is no name.
bool mode_read(const char* name, Mode* mode);

// What RocksDB promises, and whether it held.
const char* mode_verdict(const char* name, const uint64_t* counts);

#endif
