// Crashes RocksDB by seed: adapters/rocksdb/README.md. The arguments are those of adapters/common/driver.h, and
//
//     crash --compare SEEDS     some modes on two disks, the library's and that of simple_disk.h, with the crashes a second
//     crash --scenarios         the scenarios of RocksDB's own test of faults, in each profile
#include "compare.h"
#include "life.h"
#include "mode.h"
#include "scenarios.h"

#include <cstring>

static const char* const MODES[] = {
    "sync", "sync-xfs", "sync-btrfs", "sync-posix", "sync-bytes", "sync-faults", "sync-drops-faults", "sync-reads",
    "sync-lie", "sync-manual", "sync-track", "sync-tolerate", "sync-absolute", "sync-skip", "sync-keep",
    "sync-queues", "sync-queued", "sync-families", "sync-atomic", "sync-transactions", "sync-queues-transactions",
    "sync-blobs", "sync-checkpoints", "sync-checkpoints-posix", "sync-backups", "sync-backups-posix", "nosync",
    "nosync-posix", "nosync-manual", "nosync-track", "nosync-tolerate", "nosync-absolute", "nosync-skip",
    "nosync-keep", "nosync-families", "nosync-atomic", "nosync-transactions", "nosync-families-transactions",
    "nosync-blobs", "nosync-bytes"};
static const driver_column COLUMNS[] = {{"batches", false}, {"crashes", false}, {"in write", false}, {"in work", false}, {"recovery", false},
                                        {"faults", false},  {"lost", false},     {"corrupt", false},   {"wrong", false}, {"broken", true}};

static bool is_mode(const char* name) {
    Mode mode;
    return mode_read(name, &mode);
}

int main(int argc, char** argv) {
    if (argc == 3 && strcmp(argv[1], "--compare") == 0) return compare(argv[2]);
    if (argc == 2 && strcmp(argv[1], "--scenarios") == 0) return scenarios_run();
    driver rocksdb = adapters::driver_of(MODES, COLUMNS);
    rocksdb.is_mode = is_mode;
    rocksdb.live = live;
    rocksdb.verdict = mode_verdict;
    return driver_main(&rocksdb, argc, argv);
}
