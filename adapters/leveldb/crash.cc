// Crashes LevelDB by seed: adapters/leveldb/README.md. The arguments are those of adapters/common/driver.h, and
//
//     crash --scenarios                 the scenarios of LevelDB's own test of faults, in each profile
//     crash --record SCRIPT MODE        records a short run for tools/states
//     crash --check FOLDER FILE         checks what a crash of it left below FOLDER/d; FILE has the acknowledged batches
#include "life.h"
#include "mode.h"
#include "recorded.h"
#include "scenarios.h"

#include <cstring>

static const char* const MODES[] = {
    "sync", "sync-xfs", "sync-btrfs", "sync-posix", "sync-posix-create", "sync-posix-rename",
    "sync-posix-create-rename", "sync-bytes", "sync-bytes-xfs", "sync-paranoid", "sync-paranoid-xfs", "sync-faults",
    "sync-drops-faults", "sync-reads", "sync-reads-paranoid", "sync-reuse", "sync-reuse-xfs", "sync-lie", "nosync",
    "nosync-xfs", "nosync-posix", "nosync-none", "nosync-whole", "nosync-whole-xfs", "nosync-prefix", "nosync-bytes",
    "nosync-bytes-xfs", "nosync-paranoid", "nosync-paranoid-xfs"};
static const driver_column COLUMNS[] = {{"batches", false}, {"crashes", false}, {"in write", false}, {"recovery", false},
                                        {"faults", false},  {"lost", false},     {"corrupt", false},   {"wrong", false}, {"broken", true}};

static bool is_mode(const char* name) {
    Mode mode;
    return mode_read(name, &mode);
}

int main(int argc, char** argv) {
    if (argc == 2 && strcmp(argv[1], "--scenarios") == 0) return scenarios_run();
    if (argc == 4 && strcmp(argv[1], "--record") == 0) return recorded_run(argv[2], argv[3]);
    if (argc == 4 && strcmp(argv[1], "--check") == 0) return recorded_check(argv[2], argv[3]);
    driver leveldb = adapters::driver_of(MODES, COLUMNS);
    leveldb.is_mode = is_mode;
    leveldb.live = live;
    leveldb.verdict = mode_verdict;
    return driver_main(&leveldb, argc, argv);
}
