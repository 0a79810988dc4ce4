// The same modes on two disks.
#ifndef BLOBCRASH_ROCKSDB_COMPARE_H
#define BLOBCRASH_ROCKSDB_COMPARE_H

// Runs seeds of some modes on each disk, one after another, and prints a row for each, with the crashes in a second of a processor. `seeds` is
// their number. Returns an exit status: 2 if it is no number.
int compare(const char* seeds);

#endif
