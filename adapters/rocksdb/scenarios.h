// The scenarios of fault_injection_test.cc of RocksDB that need no more than its public headers.
#ifndef BLOBCRASH_ROCKSDB_SCENARIOS_H
#define BLOBCRASH_ROCKSDB_SCENARIOS_H

// Runs each scenario in each profile, and prints a row for each. Returns an exit status: 1 if one fails.
int scenarios_run();

#endif
