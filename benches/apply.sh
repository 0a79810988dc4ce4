#!/bin/sh
# Counts the instructions of the calls of two workloads of benches/workloads.sh, `crash` and `live`, from C and without lines, by
# `valgrind --tool=callgrind`: those of a recorded write of 4 bytes, of the crash for each of these writes, of an unrecorded write of
# 256 bytes and of such a read, at a quarter of CALLS calls, a half and CALLS (10000 if it isn't set). Prints to standard error. The
# arguments are libraries to count in place of out/libblobcrash.a. A test runs it, and compares no count.
set -eu

top=$(CDPATH='' cd -- "$(dirname -- "$0")/.." && pwd -P)
work=$(mktemp -d)
trap 'rm -rf "$work"' EXIT
most=${CALLS:-10000}

if ! echo '#include <valgrind/callgrind.h>' | "${CC:-cc}" -E - >/dev/null 2>&1 || ! command -v valgrind >/dev/null; then
    echo 'apply.sh: without a C compiler and valgrind nothing is counted' >&2
    exit 0
fi
if [ "$#" -eq 0 ]; then
    sh "$top/bindings/build.sh"
    set -- "$top/out/libblobcrash.a"
fi

# count WHAT CALLS: the instructions of one call.
count() {
    valgrind --tool=callgrind --instr-atstart=no --callgrind-out-file=/dev/null "$work/apply" "$1" "$2" 2>"$work/log" >/dev/null
    sed -n 's/^.*Collected : \([0-9]*\).*$/\1/p' "$work/log" | awk -v calls="$2" '{ printf "%d", $1 / calls }'
}

number=0
for library; do
    number=$((number + 1))
    "${CC:-cc}" -std=c11 -O2 -I"$top/bindings/c" -o "$work/apply" "$top/benches/apply.c" "$library"
    for what in recorded crash write read; do
        counts=
        for calls in $((most / 4)) $((most / 2)) "$most"; do
            counts="$counts $(count "$what" "$calls")"
        done
        echo "$what $number:$counts" >&2
    done
done
