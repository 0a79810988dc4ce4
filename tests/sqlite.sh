#!/bin/sh
# The real SQLite on the layer (adapters/sqlite): 50 seeds of each mode at FULL and EXTRA, in which nothing may be lost, and seeds of each
# profile; modes that may lose something, and a lying sync, which must be found out; the VFS from C, the extension from Python, the
# examples, and all of the C under the sanitizers. BLOBCRASH_ARCHIVE names a library that is built already; SEEDS is another number of
# seeds. The last line is `N passed, M failed`, with `, K skipped` if a tool is missing.
top=$(CDPATH='' cd -- "$(dirname -- "$0")/.." && pwd -P)
# shellcheck source=tests/counting.sh
. "$top/tests/counting.sh"
cd "$top" || exit 1
export PYTHONDONTWRITEBYTECODE=1

# check NAME CONDITION..: one test.
check() {
    name=$1
    shift
    if "$@"; then
        pass
    else
        fail "$name"
        head -n 40 "$work/out" "$work/err"
    fi
}

# run STATUS COMMAND..: whether a command ends with this status. What it prints is in $work/out and $work/err.
run() {
    wanted=$1
    shift
    "$@" >"$work/out" 2>"$work/err"
    [ $? -eq "$wanted" ]
}

# all_rows VERDICT COUNT: whether the last table has this many rows, and all end with this verdict.
all_rows() {
    rows=$(grep -cE '^\| (delete|truncate|persist|memory|wal)-' "$work/out")
    [ "$rows" -eq "$2" ] && [ "$(grep -c "| $1 *|\$" "$work/out")" -eq "$2" ]
}

compiler=${CC:-cc}
if ! echo '#include <sqlite3ext.h>' | "$compiler" -E - >/dev/null 2>&1; then
    skip "there is no $compiler with sqlite3ext.h (Debian: gcc, libsqlite3-dev)"
    finish
fi

check 'the driver and the extension are built' run 0 sh adapters/sqlite/build.sh
archive=${BLOBCRASH_ARCHIVE:-$top/out/libblobcrash.a}
mkdir -p "$work/a clone/out" "$work/a clone/tools"
cp -R adapters bindings "$work/a clone"
cp tools/building.sh "$work/a clone/tools"
cp "$archive" "$work/a clone/out"
check 'in a path with spaces too' run 0 env BLOBCRASH_ARCHIVE="$work/a clone/out/${archive##*/}" sh "$work/a clone/adapters/sqlite/build.sh"
check 'and the driver runs there' run 0 "$work/a clone/out/sqlite/crash" 1 delete-full
crash=$top/out/sqlite/crash
seeds=${SEEDS:-50}

# What SQLite promises.
modes=delete-full-names
count=1
for journal in truncate persist wal; do
    modes="$modes $journal-full"
    count=$((count + 1))
done
for journal in delete truncate persist wal; do
    modes="$modes $journal-extra"
    count=$((count + 1))
done
# shellcheck disable=SC2086
check 'nothing is lost at FULL and EXTRA' run 0 "$crash" "$seeds" $modes
check 'and each mode says so' all_rows held "$count"
check 'each mode commits' [ "$(awk -F'|' '$12 ~ /held/ && $4 > 0 && $5 > 0' "$work/out" | wc -l)" -eq "$count" ]
cat "$work/out"
check 'nothing is lost in two files and with two connections' run 0 "$crash" 10 delete-extra-attach truncate-full-attach \
    persist-full-attach delete-extra-two truncate-full-two persist-full-two wal-full-two wal-full-exclusive
check 'and each of these modes says so' all_rows held 8
for profile in xfs btrfs posix; do
    check "nothing is lost on $profile" run 0 "$crash" --with "$profile" 10 delete-extra truncate-full persist-full wal-full wal-full-two \
        delete-extra-attach
    check "and each mode says so on $profile" all_rows held 6
done
check 'a rollback to a savepoint loses nothing without a write-ahead log' run 0 "$crash" 20 delete-extra-savepoints \
    truncate-full-savepoints persist-full-savepoints
check 'WAL at NORMAL, and DELETE at FULL, may lose commits' run 0 "$crash" 20 wal-normal delete-full delete-full-posix
check 'and lose some' all_rows 'lost, as allowed' 3

# What must be found out.
modes='delete-extra-sequential truncate-full-sequential persist-full-sequential'
count=3
for journal in delete truncate persist wal; do
    modes="$modes $journal-off $journal-full-lie"
    count=$((count + 2))
done
# shellcheck disable=SC2086
check 'OFF, a lying sync and a disk that claims an order' run 0 "$crash" 50 $modes
check 'are found out in every journal mode' all_rows 'damaged, as allowed' "$count"
check 'the first seed of each is named' [ "$(grep -c '^    crash --seed ' "$work/out")" -eq "$count" ]

# One life is the same alone as among others.
check 'a life among others' run 0 "$crash" --first 13 --jobs 2 1 delete-off
grep '^| delete-off ' "$work/out" >"$work/among"
check 'a life alone' run 0 "$crash" --seed 13 delete-off
check 'has the same end' [ "$(grep '^| delete-off ' "$work/out")" = "$(cat "$work/among")" ]

check 'every outcome in a small transaction' run 0 "$crash" --explore
check 'in four modes and their recoveries, without a loss' [ "$(awk -F'|' 'NF == 11 && $6 > 1 && $9 == 0 && $10 == 0' "$work/out" | wc -l)" -eq 8 ]
check 'a lying sync is found by exploring' run 0 "$crash" --explore wal-full-lie-xfs
check 'with a loss or damage' [ "$(awk -F'|' '$2 ~ /wal-full-lie/ && $9 + $10 > 0' "$work/out" | wc -l)" -eq 2 ]
check 'so is a deletion that is not durable' run 0 "$crash" --explore delete-full-xfs
check 'with a loss, and no damage' [ "$(awk -F'|' '$2 ~ /delete-full/ && $9 > 0 && $10 == 0' "$work/out" | wc -l)" -eq 2 ]

check 'the list of modes' run 0 "$crash" --list
for arguments in '' 0 x '1 delete' '1 delete-full-foo' '--with zfs 1 delete-full' '1 wal-full-two-exclusive' '--seed 1' '--seed x delete-full' '--jobs 0 1' '--jobs 1' '--foo 1 1' \
    '--explore delete-full-bytes' '--explore foo'; do
    # shellcheck disable=SC2086
    check "these arguments are refused: $arguments" run 2 "$crash" $arguments
done

# What this version of SQLite does wrong: docs/FOUND.md.
if [ "$(sed -n 's/^#define SQLITE_VERSION  *"\(.*\)"/\1/p' "$(echo '#include <sqlite3.h>' | "$compiler" -M -E - | tr ' ' '\n' |
    grep '/sqlite3\.h$')")" = 3.40.1 ]; then
    grep -v '^#' tests/sqlite.faults >"$work/faults"
    while read -r seed mode; do
        check "a fault of SQLite 3.40.1: $mode, seed $seed" run 1 "$crash" --seed "$seed" "$mode"
    done <"$work/faults"
    for profile in ext4 xfs btrfs posix; do
        check "a header that is torn on $profile" run 0 "$crash" --seed 163 "persist-full-bytes-$profile"
        check 'damages the database' grep -q '^crash 7: corrupt' "$work/out"
        check "a deletion that is not durable on $profile" run 0 "$crash" --seed 1 "delete-full-$profile"
        check 'loses a commit' grep -q '1 acknowledged transactions are lost' "$work/out"
    done
else
    echo 'sqlite.sh: the seeds of docs/FOUND.md are of SQLite 3.40.1, which this is not'
fi

# From C.
flags="-std=c11 -D_XOPEN_SOURCE=700 -Wall -Wextra -Werror -g -DSQLITE_CORE -Ibindings/c -Iadapters/common -Iadapters/sqlite"
flags="$flags -Iadapters/sqlite/crash"
vfs='adapters/sqlite/store.c adapters/sqlite/locks.c adapters/sqlite/memory.c adapters/sqlite/parameters.c adapters/sqlite/vfs.c'
vfs="$vfs adapters/common/disk.c adapters/common/record.c adapters/common/words.c"
driver='adapters/common/driver.c adapters/common/pool.c'
sanitize='-O1 -fsanitize=address,undefined -fno-sanitize-recover=all'
# A refused allocation returns NULL, as without the sanitizer.
export ASAN_OPTIONS=allocator_may_return_null=1
# shellcheck disable=SC2086
check 'the tests of the VFS are built' run 0 $compiler $flags -o "$work/test_vfs" adapters/sqlite/test_vfs.c $vfs "$archive" -lsqlite3
check 'the tests of the VFS' run 0 "$work/test_vfs"
# shellcheck disable=SC2086
check 'the tests of locks are built' run 0 $compiler $flags -o "$work/test_locks" adapters/sqlite/test_locks.c $vfs "$archive" -lsqlite3
check "locks and shared memory are those of SQLite's own VFS" run 0 "$work/test_locks"
echo 'int main(void) { return 0; }' >"$work/empty.c"
# shellcheck disable=SC2086
if run 0 $compiler $sanitize -o "$work/empty" "$work/empty.c" && run 0 "$work/empty"; then
    check 'the tests of the VFS are built with sanitizers' run 0 $compiler $flags $sanitize -o "$work/test_vfs.sanitized" \
        adapters/sqlite/test_vfs.c $vfs "$archive" -lsqlite3
    check 'the tests of the VFS, sanitized' run 0 "$work/test_vfs.sanitized"
    check 'the driver is built with sanitizers' run 0 $compiler $flags $sanitize -o "$work/crash.sanitized" \
        adapters/sqlite/crash/*.c $driver $vfs "$archive" -lsqlite3
    # shellcheck disable=SC2046
    "$work/crash.sanitized" 1 $("$crash" --list) >"$work/out" 2>"$work/err"
    check 'every mode, sanitized' [ $? -le 1 ]
    check 'no report of a sanitizer' [ ! -s "$work/err" ]
    check 'exploring, sanitized' run 0 "$work/crash.sanitized" --explore persist-full-xfs
else
    skip "$compiler can't build or start a program with sanitizers"
fi

# From Python.
loads='import sqlite3; sqlite3.connect(":memory:").enable_load_extension(True)'
python=
for candidate in python3 /usr/bin/python3; do
    [ -n "$python" ] || ! "$candidate" -c "$loads" 2>/dev/null || python=$candidate
done
if [ -n "$python" ]; then
    check 'the extension in Python' run 0 "$python" adapters/sqlite/test_extension.py
    check 'the transfers of an application' run 0 "$python" examples/sqlite_transfers.py
    check 'in a write-ahead log' run 0 "$python" examples/sqlite_transfers.py journal_mode=WAL synchronous=FULL
    check 'and with an exclusive lock' run 0 "$python" examples/sqlite_transfers.py locking_mode=EXCLUSIVE journal_mode=WAL synchronous=FULL
    check 'and without syncs, which is found out' run 1 "$python" examples/sqlite_transfers.py synchronous=OFF
    check 'so is a directory without a sync' run 1 "$python" examples/sqlite_transfers.py synchronous=FULL
    check 'the savepoint script' run 0 "$python" examples/sqlite_savepoint.py 60
    tail -n 1 "$work/out"
    if grep -q '^SQLite 3\.40\.1: ' "$work/out"; then
        check 'shows the lost commit' grep -q '^SQLite 3\.40\.1: 6 of 60 lives lose' "$work/out"
    fi
else
    skip 'there is no Python whose sqlite3 loads extensions'
fi

# Every crash of one recorded commit.
if has sqlite3 && has_python; then
    for outcome in 'extra xfs 0' 'full xfs 1'; do
        fails=${outcome##* }
        # shellcheck disable=SC2086
        check "every crash of a commit: $outcome" run "$fails" sh examples/sqlite_states.sh ${outcome% *}
        check "fails in $fails states" grep -Eq "^[0-9]+ crashes, [0-9]+ outcomes, [0-9]+ states, all of them; $fails fail\$" "$work/out"
    done
else
    skip "there is no SQLite's shell or no Python 3.8 or later"
fi

finish
