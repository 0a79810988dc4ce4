#!/bin/sh
# Counts the instructions of calls on files from C, by `valgrind --tool=callgrind`: those of a call on a file and of the same call on a blob,
# with their ratio; those of calls on names, and of a crash, in trees of a hundredth of FILES, a tenth and FILES (100000 if it isn't set;
# at least 1000), with the ratio of the last to the first; and those of a write and a sync on btrfs and posix next to a fiftieth, a twelfth
# and a third of FILES names that no sync has settled. Then the memory of a small file. Prints to standard error. A test runs it, and
# compares no count.
set -eu

top=$(CDPATH='' cd -- "$(dirname -- "$0")/.." && pwd -P)
work=$(mktemp -d)
trap 'rm -rf "$work"' EXIT
most=${FILES:-100000}
calls=1000

if ! echo '#include <valgrind/callgrind.h>' | "${CC:-cc}" -E - >/dev/null 2>&1 || ! command -v valgrind >/dev/null; then
    echo 'files.sh: without a C compiler and valgrind nothing is counted' >&2
    exit 0
fi
sh "$top/bindings/build.sh"
"${CC:-cc}" -std=c11 -O2 -I"$top/bindings/c" -o "$work/files" "$top/benches/files.c" "$top/out/libblobcrash.a"

# count WHAT FILES: the instructions of one call.
count() {
    valgrind --tool=callgrind --instr-atstart=no --callgrind-out-file=/dev/null "$work/files" "$1" "$2" "$calls" 2>"$work/log" >/dev/null
    sed -n 's/^.*Collected : \([0-9]*\).*$/\1/p' "$work/log" | awk -v calls="$calls" '{ printf "%d", $1 / calls }'
}

# ratio A B
ratio() {
    awk -v first="$1" -v last="$2" 'BEGIN { printf "%.2f", last / first }'
}

# compare LABEL WHAT FILES ..: the instructions of one call for each number of files, and the ratio of the last to the first.
compare() {
    label=$1
    what=$2
    shift 2
    counts=
    first=
    for files; do
        each=$(count "$what" "$files")
        first=${first:-$each}
        counts="$counts $each"
    done
    echo "$label:$counts, ratio $(ratio "$first" "$each")" >&2
}

for what in size read8 write8 write4096 writesync; do
    below=$(count "below-$what" 1)
    file=$(count "$what" 10)
    echo "$what: $file, of a blob $below, ratio $(ratio "$below" "$file")" >&2
done
for what in open rename unlink fsync fsyncdir; do
    compare "$what" "$what" $((most / 100)) $((most / 10)) "$most"
done
calls=100
for profile in btrfs posix; do
    compare "write, sync on $profile next to unsettled names" "beside-$profile" $((most / 50)) $((most / 12)) $((most / 3))
done
# A crash of many files takes long, and each finds the same files.
calls=2
compare crash crash $((most / 100)) $((most / 10)) "$most"
few=$("$work/files" memory $((most / 100)) 0)
many=$("$work/files" memory "$most" 0)
echo "memory of a file of 100 bytes: $(((many - few) * 1024 / (most - most / 100))) bytes" >&2
