#!/bin/sh
# SQLite's shell commits a row on a mount, and every state is checked in which a crash could have left its files.
#
#   mount_states.sh [LEVEL [PROFILE]]   `synchronous=LEVEL` (extra), on files of a PROFILE (xfs)
#
# The run is recorded once. tools/states then makes a crash after each of its calls, and looks at each state that it may leave: the database
# has to be whole, and to have the row once the commit is acknowledged. Exit status: 1 if a state has not.
set -eu

level=${1:-extra}
profile=${2:-xfs}
cd "$(dirname -- "$0")/.."
work=$(mktemp -d)
mkdir "$work/mount"
trap 'tools/mountctl "$work/mount" umount >/dev/null 2>&1 || true; rm -rf "$work"' EXIT

database=$work/mount/db
tools/mount "$work/mount" --profile "$profile" --record "$work/script"
sqlite3 "$database" 'create table t(n integer primary key, x)'
tools/mountctl "$work/mount" settle >/dev/null
sqlite3 "$database" "pragma synchronous=$level; insert into t values(1, 'one')"
tools/mountctl "$work/mount" note acknowledged 1 >/dev/null
tools/mountctl "$work/mount" umount >/dev/null

# shellcheck disable=SC2016
tools/states --files --whole --jobs 2 --out "$work/failed" "$work/script" -- sh -c '
    found=$(sqlite3 "$STATE/db" "pragma integrity_check; select count(*) from sqlite_schema; select n from t" 2>&1 | tr "\n" " ")
    test ! -s "$ACKNOWLEDGED" || test "$found" = "ok 1 1 "'
