#!/bin/sh
# SQLite's shell commits a row on a mount, and the sync is named without which a crash may undo the commit.
#
#   mount_diagnose.sh [LEVEL [PROFILE]]   `synchronous=LEVEL` (full), on files of a PROFILE (posix)
#
# The run is recorded once. After each of its calls there is a crash, with every outcome that it may have, each write as a whole. Exit
# status: 1 if a crash loses the row after its commit was acknowledged.
set -eu

level=${1:-full}
profile=${2:-posix}
cd "$(dirname -- "$0")/.."
work=$(mktemp -d)
mkdir "$work/mount"
trap 'tools/mountctl "$work/mount" umount >/dev/null 2>&1 || true; rm -rf "$work"' EXIT

tools/mount "$work/mount" --profile "$profile" --record "$work/script"
sqlite3 "$work/mount/db" 'create table t(n integer primary key, x)'
tools/mountctl "$work/mount" settle >/dev/null
sqlite3 "$work/mount/db" "pragma synchronous=$level; insert into t values(1, 'one')"
tools/mountctl "$work/mount" note acknowledged 1 >/dev/null
tools/mountctl "$work/mount" umount >/dev/null

# shellcheck disable=SC2016
./blobcrash diagnose --whole "$work/script" -- sh -c '
    found=$(sqlite3 "$STATE/db" "pragma integrity_check; select count(*) from sqlite_schema; select n from t" 2>&1 | tr "\n" " ")
    test ! -s "$ACKNOWLEDGED" || test "$found" = "ok 1 1 "'
