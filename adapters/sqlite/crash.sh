#!/bin/sh
# Builds what is older than its sources, and crashes SQLite:
#
#     sh adapters/sqlite/crash.sh 1000                      1,000 seeds of each mode, and the table
#     sh adapters/sqlite/crash.sh --with xfs 200            200 seeds of each mode on the profile xfs
#     sh adapters/sqlite/crash.sh 400 wal-full-none-savepoints    of one mode, and the seeds that fail
#     sh adapters/sqlite/crash.sh --seed 7 delete-off       one life; BLOBCRASH_TRACE=1 shows each call
#     sh adapters/sqlite/crash.sh --explore                 every outcome of a crash in one small transaction
#
# adapters/sqlite/README.md describes the modes, the table and the exit statuses.
set -eu

here=$(CDPATH='' cd -- "$(dirname -- "$0")" && pwd -P)
sh "$here/build.sh"
CRASH_COMMAND="sh adapters/sqlite/crash.sh"
export CRASH_COMMAND
exec "${OUT:-$here/../../out/sqlite}/crash" "$@"
