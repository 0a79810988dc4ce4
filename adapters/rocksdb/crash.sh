#!/bin/sh
# Builds out/rocksdb/crash if it is older than its sources, and crashes RocksDB:
#
#     sh adapters/rocksdb/crash.sh 50                   50 seeds of each mode, and the table
#     sh adapters/rocksdb/crash.sh --seed 1 nosync      one life; BLOBCRASH_TRACE=1 shows each call
#     sh adapters/rocksdb/crash.sh --compare 20         some modes on two disks
#
# adapters/rocksdb/README.md describes the modes and the exit statuses.
set -eu

here=$(CDPATH='' cd -- "$(dirname -- "$0")" && pwd -P)
sh "$here/../common/build_cxx.sh" rocksdb rocksdb/db.h librocksdb-dev -lrocksdb
CRASH_COMMAND="sh adapters/rocksdb/crash.sh"
export CRASH_COMMAND
exec "${OUT:-$here/../../out/rocksdb}/crash" "$@"
