#!/bin/sh
# SQLite commits a row through the VFS, and every state is checked in which a crash could have left its files.
#
#   sqlite_states.sh [LEVEL [PROFILE]]   `synchronous=LEVEL` (extra), on files of a PROFILE (xfs)
#
# It needs SQLite's shell and the extension: sh adapters/sqlite/build.sh. The run is recorded once. tools/states then makes a crash after
# each of its calls, and looks at each state that it may leave: the database has to be whole, and to have the row once the commit is
# acknowledged. Exit status: 1 if a state has not.
set -eu

level=${1:-extra}
profile=${2:-xfs}
case $level$profile in *[!a-z0-9]*) echo "usage: sqlite_states.sh [LEVEL [PROFILE]]" >&2 && exit 2 ;; esac
cd "$(dirname -- "$0")/.."
work=$(mktemp -d)
trap 'rm -rf "$work"' EXIT

BLOBCRASH_RECORD=$work/script sqlite3 :memory: >/dev/null <<SQL
.load out/sqlite/blobcrash
attach 'file:bank.db?vfs=blobcrash&tear=sectors512&profile=$profile' as bank;
pragma bank.synchronous=$level;
create table bank.t(n integer primary key, x);
select blobcrash_settle();
insert into bank.t values(1, 'one');
select blobcrash_note('acknowledged 1');
SQL

# shellcheck disable=SC2016
tools/states --files --whole --jobs 2 --out "$work/failed" "$work/script" -- sh -c '
    found=$(sqlite3 "$STATE/bank.db" "pragma integrity_check; select count(*) from sqlite_schema; select n from t" 2>&1 | tr "\n" " ")
    test ! -s "$ACKNOWLEDGED" || test "$found" = "ok 1 1 "'
