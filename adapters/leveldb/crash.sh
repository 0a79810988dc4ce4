#!/bin/sh
# Builds out/leveldb/crash if it is older than its sources, and crashes LevelDB:
#
#     sh adapters/leveldb/crash.sh 100                  100 seeds of each mode, and the table
#     sh adapters/leveldb/crash.sh --seed 47 sync-reads one life; BLOBCRASH_TRACE=1 shows each call
#     sh adapters/leveldb/crash.sh --scenarios          those of LevelDB's own test of faults
#
# adapters/leveldb/README.md describes the modes and the exit statuses.
set -eu

here=$(CDPATH='' cd -- "$(dirname -- "$0")" && pwd -P)
sh "$here/../common/build_cxx.sh" leveldb leveldb/db.h libleveldb-dev -lleveldb
CRASH_COMMAND="sh adapters/leveldb/crash.sh"
export CRASH_COMMAND
exec "${OUT:-$here/../../out/leveldb}/crash" "$@"
