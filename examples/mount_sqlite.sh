#!/bin/sh
# SQLite's shell, for tools/crash_run: at FULL a power loss may undo the last commit, at EXTRA it may not.
#
#   mount_sqlite.sh prepare          makes a database in $MOUNT
#   mount_sqlite.sh work LEVEL       commits rows at `synchronous=LEVEL`, and acknowledges each
#   mount_sqlite.sh check            whether the database is whole, and has the acknowledged rows
set -u

database=$MOUNT/db
case $1 in
prepare) sqlite3 "$database" 'create table t(n integer primary key, x)' ;;
work)
    for n in 1 2 3 4 5 6 7 8; do
        sqlite3 "$database" "pragma journal_mode=delete; pragma synchronous=$2; insert into t values($n, hex(randomblob(300)))" >/dev/null || exit
        echo "$n" >>"$ACKNOWLEDGED"
    done
    ;;
check)
    last=$(tail -n 1 "$ACKNOWLEDGED")
    found=$(sqlite3 "$database" 'pragma integrity_check; select coalesce(max(n), 0) from t' | tr '\n' ' ')
    echo "acknowledged: ${last:-0}, found: $found"
    case $found in
    'ok '*) [ "${found#ok }" -ge "${last:-0}" ] ;;
    *) false ;;
    esac
    ;;
esac
