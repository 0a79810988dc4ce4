#!/bin/sh
# The real RocksDB on the layer (adapters/rocksdb): seeds of modes in which nothing may be lost, what docs/FOUND.md says of RocksDB 7.8.3,
# the scenarios of its own test of faults, and the comparison of two disks. SEEDS is another number of seeds. The last line is
# `N passed, M failed`, with `, K skipped` if a tool is missing.
top=$(CDPATH='' cd -- "$(dirname -- "$0")/.." && pwd -P)
# shellcheck source=tests/counting.sh
. "$top/tests/counting.sh"
cd "$top" || exit 1
database=rocksdb
# shellcheck source=tests/drivers.sh
. "$top/tests/drivers.sh"

need_header rocksdb/db.h librocksdb-dev
expect 'the driver is built' 0 sh adapters/rocksdb/crash.sh --list

held='sync sync-xfs sync-btrfs sync-manual sync-track sync-families sync-atomic sync-transactions sync-queues-transactions sync-blobs sync-checkpoints sync-backups sync-faults'
count=$(echo "$held" | wc -w)
# shellcheck disable=SC2086
expect 'with syncs nothing is lost' 0 "$crash" --jobs 2 "${SEEDS:-3}" $held
expect 'and each mode says so' 0 [ "$(grep -c '| held  *|$' "$work/table")" -eq "$count" ]
expect 'and acknowledges batches' 0 [ "$(awk -F'|' '/held/ && $4 > 0 && $6 > 0' "$work/table" | wc -l)" -eq "$count" ]
expect 'without syncs the last batches are lost' 0 "$crash" --jobs 2 5 nosync-manual
expect 'and no others' 0 grep -q '| lost, as allowed  *|$' "$work/table"
expect 'a lying sync' 0 "$crash" --jobs 2 5 sync-lie
expect 'is found' 0 grep -q '| damaged, as allowed  *|$' "$work/table"
expect "the scenarios of RocksDB's own test" 0 "$crash" --scenarios
expect 'pass on each profile' 0 [ "$(grep -c '| passes |$' "$work/table")" -eq 80 ]
expect 'the comparison' 0 "$crash" --compare 1

version=$(printf '#include <rocksdb/version.h>\nROCKSDB_MAJOR ROCKSDB_MINOR ROCKSDB_PATCH\n' | "$cxx" -x c++ -E - | tail -n 1)
if [ "$version" = '7 8 3' ]; then
    finds 'RocksDB 7.8.3' <<'ROWS'
17 sync-xfs checksum mismatch in file /d/MANIFEST
11 sync checksum mismatch in file /d/MANIFEST
20 sync-queues-transactions ended by signal 6
35 sync-posix No such file or directory: /d/MANIFEST
5 nosync-families the rows are those of no batch
1 nosync the rows are those of no batch
1 nosync-transactions SST file is ahead of WALs
1 sync-checkpoints-posix checkpoint[0-9]* is lost
2 sync-backups-posix backup [0-9]* is lost
1 sync-queued ended by signal 6
ROWS
else
    echo "rocksdb.sh: the seeds of docs/FOUND.md are of RocksDB 7.8.3, and this is $version"
fi

for mode in nosync-families sync-transactions; do
    "$crash" --seed 4 "$mode" >"$work/first" 2>&1
    "$crash" --seed 4 "$mode" >"$work/second" 2>&1
    expect "a seed repeats: $mode" 0 cmp -s "$work/first" "$work/second"
done

refuses '' 0 x '1 frob' '1 sync-frob' '--seed 1' '--seed x sync' '--compare 0'
finish
