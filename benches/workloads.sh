#!/bin/sh
# Times scripts of one kind of call each from end to end: reading, running, printing. For each workload it prints the
# fastest of three runs in milliseconds at N, 2N and 4N calls, to standard error. N is $CALLS, or 10000. `bigsync` and `bigopen` make
# a hundred calls on a file of 1600 N bytes, and print the peak memory too if there is a /usr/bin/time. The arguments are
# programs to time in place of ./blobcrash, as those of earlier versions: each runs the same scripts, in turn, and must print the
# same. A test runs it, and compares no time.
set -eu

top=$(CDPATH='' cd -- "$(dirname -- "$0")/.." && pwd -P)
work=$(mktemp -d)
trap 'rm -rf "$work"' EXIT
# Times only the proved program.
export BLOBCRASH_PROVED=1

# script WORKLOAD CALLS: the same lines in every run.
script() {
    awk -v workload="$1" -v calls="$2" '
        # A number below n, by a multiplicative generator. Its steps are exact in double precision.
        function below(n) { state = state * 16807 % 2147483647; return state % n }
        function bytes(len,  i, text) {
            text = ""
            for (i = 0; i < len; i++) text = text sprintf("%02x", below(256))
            return text
        }
        # Plain writes, each at the end of the one before.
        function pend(handle, count, len,  i) {
            for (i = 0; i < count; i++) print "write " handle " " i * len " " bytes(len)
        }
        BEGIN {
            state = 20260
            subset = "config write 0 1 1 2 subset"
            # Names that are opened and closed, some again.
            if (workload == "opens")
                for (i = 0; i < calls / 2; i++) { print "open p " sprintf("%08x", below(calls)); print "close " i }
            # Pending writes of one file, while a hundred others have some too.
            if (workload == "others") {
                print subset
                for (i = 0; i <= 100; i++) { print "open p " sprintf("%02x", i); pend(i, 20, 4) }
                pend(0, calls, 4)
            }
            # SYNC writes after a resize that survives: each range is queued.
            if (workload == "queued") {
                print "words 0"
                print "open p 62"; print "writes 0 0 " bytes(4096); print subset
                print "config resize 1 1 1 1"; print "resize 0 0"
                for (i = 0; i < calls; i++) print "writes 0 " below(4000) " " bytes(16)
            }
            # A fifth as many SYNC writes over as many pending ones, which they cover in part or whole.
            if (workload == "synced") {
                count = calls / 5
                print subset; print "open p 62"
                pend(0, count, 16)
                for (i = 0; i < count; i++) print "writes 0 " below(16 * count) " " bytes(16)
            }
            # A crash that draws for each byte of small writes.
            if (workload == "crash") {
                printf "words"
                for (i = 0; i < 4 * calls; i++) printf below(2) ? " max" : " 0"
                print ""; print subset; print "open p 62"
                pend(0, calls, 4)
                print "crash"
            }
            # Live bytes alone: nothing is recorded.
            if (workload == "live") {
                print "open p 62"; print "resize 0 100256"
                for (i = 0; i < calls / 2; i++) {
                    print "write 0 " below(100000) " " bytes(256)
                    print "read 0 " below(100000) " 256"
                }
            }
            # A byte and a sync, or a close and an open, of a large file.
            if (workload ~ /^big/) {
                print "open p 62"; print "resize 0 " 1600 * calls; print "sync 0"
                for (i = 0; i < 100; i++) {
                    if (workload == "bigsync") { print "write 0 " below(1600 * calls) " 61"; print "sync 0" }
                    else { print "close " i; print "open p 62" }
                }
            }
        }' >"$work/script"
}

# image BYTES: a line of hex for `resolve`, of a creation that was interrupted.
image() { head -c "$1" /dev/zero | od -An -v -tx1 | tr -d ' \n'; echo; }

# fastest PROGRAM [WORD]: of three runs on standard input from the script, in nanoseconds.
fastest() {
    best=
    for _ in 1 2 3; do
        began=$(date +%s%N)
        "$@" <"$work/script" >"$work/out"
        took=$(($(date +%s%N) - began))
        if [ -z "$best" ] || [ "$took" -lt "$best" ]; then best=$took; fi
    done
}

# peak PROGRAM: prints its peak memory on the script, in MB, or nothing if there is no /usr/bin/time.
peak() {
    [ -x /usr/bin/time ] || return 0
    /usr/bin/time -f %M -o "$work/peak" "$1" <"$work/script" >/dev/null
    echo " ($(($(tail -n 1 "$work/peak") / 1024)) MB)"
}

if [ "$#" -eq 0 ]; then
    # Builds the program before anything is timed.
    "$top/blobcrash" resolve </dev/null >/dev/null
    set -- "$top/out/blobcrash"
fi
calls=${CALLS:-10000}
for workload in opens others queued synced crash live bigsync bigopen resolve; do
    number=0
    for program; do
        number=$((number + 1))
        line=
        for count in "$calls" $((2 * calls)) $((4 * calls)); do
            if [ "$workload" = resolve ]; then
                image $((100 * count)) >"$work/script"
                fastest "$program" resolve
            else
                script "$workload" "$count"
                fastest "$program"
            fi
            if [ "$number" -eq 1 ]; then
                mv "$work/out" "$work/out.$count"
            elif ! cmp -s "$work/out" "$work/out.$count"; then
                echo "workloads.sh: $program prints something else for $workload" >&2
                exit 1
            fi
            line="$line $((best / 1000000)).$(printf %02d $((best / 10000 % 100)))"
            case $workload in big*) line="$line$(peak "$program")" ;; esac
        done
        echo "$workload $number:$line ms" >&2
    done
done
