#!/bin/sh
# The real LevelDB on the layer (adapters/leveldb): 20 seeds of each mode in which nothing may be lost; a lying sync and what
# docs/FOUND.md says of LevelDB 1.23 are found; the scenarios of its own test of faults; the driver under the sanitizers. SEEDS is another
# number of seeds.
# The last line is `N passed, M failed`, with `, K skipped` if a tool is missing.
top=$(CDPATH='' cd -- "$(dirname -- "$0")/.." && pwd -P)
# shellcheck source=tests/counting.sh
. "$top/tests/counting.sh"
cd "$top" || exit 1
database=leveldb
# shellcheck source=tests/drivers.sh
. "$top/tests/drivers.sh"

need_header leveldb/db.h libleveldb-dev
expect 'the driver is built' 0 sh adapters/leveldb/crash.sh --list
version=$(printf '#include <leveldb/db.h>\nint version = leveldb::kMajorVersion * 1000 + leveldb::kMinorVersion;\n' |
    "$cxx" -x c++ -E - | sed -n 's/.*\(kMajorVersion\|kMinorVersion\) = \([0-9]*\);.*/\2/p' | tr '\n' ' ')

expect 'with syncs nothing is lost' 0 "$crash" --jobs 2 "${SEEDS:-20}" sync sync-xfs sync-btrfs sync-posix-create-rename sync-none sync-prefix
expect 'and each mode says so' 0 [ "$(grep -c '| held  *|$' "$work/table")" -eq 6 ]
expect 'and acknowledges batches' 0 [ "$(awk -F'|' '/held/ && $4 > 0 && $6 > 0' "$work/table" | wc -l)" -eq 6 ]
expect 'without syncs the last batches are lost' 0 "$crash" --jobs 2 10 nosync-none
expect 'and no others' 0 grep -q '| lost, as allowed  *|$' "$work/table"
expect 'a lying sync' 0 "$crash" --jobs 2 10 sync-lie
expect 'is found' 0 grep -q '| damaged, as allowed  *|$' "$work/table"
expect "the scenarios of LevelDB's own test" 0 "$crash" --scenarios
expect 'pass on each profile' 0 [ "$(grep -c '| passes |$' "$work/table")" -eq 16 ]

# What this version does wrong: docs/FOUND.md.
if [ "$version" = '1 23 ' ]; then
    finds 'LevelDB 1.23' <<'ROWS'
47 sync-reads acknowledged batches are lost
3 sync-reuse the rows are those of no batch
4 sync-posix-create CURRENT points to a non-existent file
7 sync-posix-create the rows are those of no batch
1 sync-posix-rename acknowledged batches are lost
10 nosync the rows are those of no batch
1 nosync-whole-xfs the rows are those of no batch
ROWS
    for life in '11 sync-bytes-xfs' '8 sync-paranoid-xfs' '3 sync-bytes' '8 sync-paranoid'; do
        # shellcheck disable=SC2086
        expect "LevelDB 1.23: seed $life" 0 "$crash" --seed $life
        expect 'LevelDB 1.23: a torn record is an error' 0 grep -q "it can't be opened: Corruption" "$work/table"
    done
else
    echo "leveldb.sh: the seeds of docs/FOUND.md are of LevelDB 1.23, and this is $version"
fi

# leaves MODE STATUS: makes every crash of one recorded run, and checks each state.
leaves() {
    expect "every crash of $1" "$2" sh examples/leveldb_states.sh "$1"
    cp "$work/out" "$work/table"
    expect 'in all states' 0 grep -q ', all of them; ' "$work/table"
    tail -n 1 "$work/table"
}
if has_python; then
    leaves sync 0
    leaves sync-posix-create-rename 0
    leaves sync-posix 1
    expect 'a record that cannot be written' 2 "$crash" --record "$work/none/script" sync
else
    skip 'there is no Python 3.8 or later'
fi

refuses '' 0 x '1 frob' '1 sync-frob' '--seed 1' '--seed x sync' '--jobs 0 1 sync'

sanitize='-O1 -fsanitize=address,undefined -fno-sanitize-recover=all'
echo 'int main() { return 0; }' >"$work/empty.cc"
# shellcheck disable=SC2086
if "$cxx" $sanitize -o "$work/empty" "$work/empty.cc" 2>"$work/out" && "$work/empty"; then
    expect 'the driver is built with sanitizers' 0 env OUT="$work" CFLAGS="$sanitize" CXXFLAGS="$sanitize" \
        sh adapters/common/build_cxx.sh leveldb leveldb/db.h libleveldb-dev -lleveldb
    "$work/crash" --jobs 2 1 >"$work/table" 2>"$work/err"
    expect 'every mode, sanitized' 0 [ $? -le 1 ]
    expect 'no report of a sanitizer' 0 [ ! -s "$work/err" ]
else
    skip "$cxx can't build or start a program with sanitizers"
fi
finish
