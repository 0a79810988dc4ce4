// The scenarios of fault_injection_test.cc of LevelDB.
#ifndef BLOBCRASH_LEVELDB_SCENARIOS_H
#define BLOBCRASH_LEVELDB_SCENARIOS_H

// Runs each scenario in each profile, and prints a row for each. Returns an exit status: 1 if one fails.
int scenarios_run();

#endif
