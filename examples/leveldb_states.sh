#!/bin/sh
# LevelDB writes six batches, and every state is checked in which a crash could have left its files.
#
#   leveldb_states.sh [MODE]   a mode of adapters/leveldb/README.md (sync-posix)
#
# It needs a C++ compiler and LevelDB. Exit status: 1 if a state isn't a database with all acknowledged batches.
set -eu

mode=${1:-sync-posix}
cd "$(dirname -- "$0")/.."
sh adapters/leveldb/crash.sh --record out/leveldb/script "$mode"
# shellcheck disable=SC2016
tools/states --files --whole --jobs 2 --out out/leveldb/failed out/leveldb/script -- \
    sh -c 'out/leveldb/crash --check "$STATE" "$ACKNOWLEDGED"'
