#!/bin/sh
# Counts the instructions of calls whose cost must not grow with what one blob has pending: for each workload it prints those of one
# call at 1000, 4000 and 16,000 calls, to standard error. Each figure is the difference of two runs, with and without the calls,
# counted by valgrind. The arguments are programs to measure in place of ./blobcrash, as those of earlier versions.
# `finish` finishes as many started syncs of one blob in their order, `finish_last` from the last one on; `holes` writes every second
# byte of one pending write by SYNC writes from the first one on, `holes_random` in a random order.
set -eu

top=$(CDPATH='' cd -- "$(dirname -- "$0")/.." && pwd -P)
work=$(mktemp -d)
trap 'rm -rf "$work"' EXIT
if ! command -v valgrind >/dev/null; then
    echo "growth_in_one.sh: nothing is measured, since there is no valgrind" >&2
    exit 0
fi
# Measures only the proved program.
export BLOBCRASH_PROVED=1

# script WORKLOAD COUNT CALLS: a blob with COUNT started syncs or a write of 2 COUNT bytes, and the first CALLS of the calls.
script() {
    awk -v workload="$1" -v count="$2" -v calls="$3" '
        # A number below n, by a multiplicative generator. Its steps are exact in double precision.
        function below(n) { state = state * 16807 % 2147483647; return state % n }
        BEGIN {
            state = 20260
            print "config write 0 1 1 2 subset"; print "open p 62"
            if (workload ~ /^finish/) {
                for (i = 0; i < count; i++) print "startsync 0"
                for (i = 0; i < calls; i++) print "finish " (workload == "finish" ? i : count - 1 - i)
            } else {
                for (i = 0; i < count; i++) { place[i] = i }
                if (workload == "holes_random")
                    for (i = count - 1; i > 0; i--) { j = below(i + 1); kept = place[i]; place[i] = place[j]; place[j] = kept }
                printf "write 0 0 "
                for (i = 0; i < 2 * count; i++) printf "61"
                print ""
                for (i = 0; i < calls; i++) print "writes 0 " 2 * place[i] " 62"
            }
        }' >"$work/script"
}

# counted PROGRAM: prints the instructions of a run on the script.
counted() {
    valgrind --tool=callgrind --callgrind-out-file=/dev/null "$1" <"$work/script" 2>&1 >/dev/null |
        sed -n 's/.*Collected : *\([0-9]*\).*/\1/p'
}

if [ "$#" -eq 0 ]; then
    # Builds the program before anything is measured.
    "$top/blobcrash" resolve </dev/null >/dev/null
    set -- "$top/out/blobcrash"
fi
for workload in finish finish_last holes holes_random; do
    number=0
    for program; do
        number=$((number + 1))
        line=
        for count in ${CALLS:-1000 4000 16000}; do
            script "$workload" "$count" 0
            without=$(counted "$program")
            script "$workload" "$count" "$count"
            line="$line $((($(counted "$program") - without) / count))"
        done
        echo "$workload $number:$line instructions a call" >&2
    done
done
