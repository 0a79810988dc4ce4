// A mode: how LevelDB is set up, and what the disk does. Its name is words with dashes, as `sync-posix-rename`.
#ifndef BLOBCRASH_LEVELDB_MODE_H
#define BLOBCRASH_LEVELDB_MODE_H

#include "batches.h"
#include "env.h"

struct Mode : adapters::BatchMode {
    // What lives count: the columns of the table.
    enum Count { BATCHES, CRASHES, IN_WRITE, RECOVERY, FAULTS, LOST, CORRUPT, WRONG, BROKEN };
    ExtraSyncs extra;
    bool is_paranoid = false, reuses = false;
};

// Reads a name: `sync` or `nosync`, and then words of adapters/common/words.h or
//
// - `faults`: writes and syncs fail; `reads`: reads and creations fail;
// - `paranoid`, `reuse`: paranoid_checks, reuse_logs;
// - `create`, `rename`: the Env syncs the directory after each creation, after each rename.
//
// Returns false if it is no name.
bool mode_read(const char* name, Mode* mode);

// What LevelDB promises, and whether it held.
const char* mode_verdict(const char* name, const uint64_t* counts);

#endif
