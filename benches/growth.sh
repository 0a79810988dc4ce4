#!/bin/sh
# Counts the instructions of one call while P other blobs have something pending, by `valgrind --tool=callgrind`. For each kind
# of call it prints the count at P, 4P and 16P, in thousands, and the ratio of the last to the first, to standard error. P is
# $PENDING, or 1000. A count is the difference of two scripts, with and without a hundred such calls. The arguments are programs
# to count in place of ./blobcrash. A test runs it, and compares no count.
set -eu

top=$(CDPATH='' cd -- "$(dirname -- "$0")/.." && pwd -P)
work=$(mktemp -d)
trap 'rm -rf "$work"' EXIT
# Counts only the proved program.
export BLOBCRASH_PROVED=1

# script WORKLOAD PENDING CALLS: `pending` blobs of which one byte is pending each, and then the calls.
script() {
    awk -v workload="$1" -v pending="$2" -v calls="$3" 'BEGIN {
        print "config write 0 1 1 2 subset"
        for (i = 0; i < pending; i++) {
            print "open p " sprintf("%08x", i)
            print "write " i " 0 61"
        }
        for (i = 0; i < calls; i++) {
            if (workload == "open") { print "open q 61"; print "close " pending + i }
            if (workload == "removal") { print "open q 61"; print "remove q 61"; print "close " pending + i }
            if (workload == "partition") { print "open q 61"; print "remove q"; print "close " pending + i }
            if (workload == "sync") { print "write 0 0 61"; print "sync 0" }
            if (workload == "finish") { print "startsync 0"; print "finish " i }
        }
    }' >"$work/script"
}

# count PROGRAM: the instructions of a run of the script.
count() {
    valgrind --tool=callgrind --callgrind-out-file=/dev/null "$1" <"$work/script" 2>"$work/log" >/dev/null
    sed -n 's/^.*Collected : \([0-9]*\).*$/\1/p' "$work/log"
}

if ! command -v valgrind >/dev/null; then
    echo 'growth.sh: without valgrind nothing is counted' >&2
    exit 0
fi
if [ "$#" -eq 0 ]; then
    # Builds the program before anything is counted.
    "$top/blobcrash" resolve </dev/null >/dev/null
    set -- "$top/out/blobcrash"
fi
first=${PENDING:-1000}
number=0
for program; do
    number=$((number + 1))
    for pending in "$first" $((4 * first)) $((16 * first)); do
        script none "$pending" 0
        count "$program" >"$work/none.$pending"
    done
    for workload in open removal partition sync finish; do
        line=
        for pending in "$first" $((4 * first)) $((16 * first)); do
            script "$workload" "$pending" 100
            each=$((($(count "$program") - $(cat "$work/none.$pending")) / 100))
            if [ "$pending" -eq "$first" ]; then least=$each; fi
            line="$line $((each / 1000)).$(printf %02d $((each / 10 % 100)))"
        done
        echo "$workload $number:$line thousand, times $((each / least)).$(printf %02d $((100 * each / least % 100)))" >&2
    done
done
