// One life of a LevelDB database: rounds of batches, each of which a crash ends.
#ifndef BLOBCRASH_LEVELDB_LIFE_H
#define BLOBCRASH_LEVELDB_LIFE_H

#include <cstdint>

// Fills in the counts of mode.h. If `is_told`, prints what was found.
void live(const char* mode, uint64_t seed, bool is_told, uint64_t* counts);

#endif
