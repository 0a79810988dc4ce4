#!/bin/sh
# Counts the instructions of reading a number of a line, by `valgrind --tool=callgrind`: for numbers of 1, 8 and 16 digits those of one
# number, and those of each further digit, from 8 to 16, to standard error. A count is the difference of two scripts, whose line of words
# has COUNT numbers (20000 if it isn't set) or one. The arguments are programs to count in place of ./blobcrash. A test runs it, and
# compares no count.
set -eu

top=$(CDPATH='' cd -- "$(dirname -- "$0")/.." && pwd -P)
work=$(mktemp -d)
trap 'rm -rf "$work"' EXIT
if ! command -v valgrind >/dev/null; then
    echo 'numbers.sh: without valgrind nothing is counted' >&2
    exit 0
fi
# Counts only the proved program.
export BLOBCRASH_PROVED=1

# script DIGITS COUNT: a line of as many words, each a number of as many digits.
script() {
    awk -v digits="$1" -v count="$2" 'BEGIN {
        number = substr("1234567890123456", 1, digits)
        printf "words"
        for (i = 0; i < count; i++) printf " %s", number
        print ""
    }' >"$work/script"
}

# count PROGRAM: the instructions of a run of the script.
count() {
    valgrind --tool=callgrind --callgrind-out-file=/dev/null "$1" <"$work/script" 2>&1 >/dev/null |
        sed -n 's/.*Collected : *\([0-9]*\).*/\1/p'
}

if [ "$#" -eq 0 ]; then
    # Builds the program before anything is counted.
    "$top/blobcrash" resolve </dev/null >/dev/null
    set -- "$top/out/blobcrash"
fi
numbers=${COUNT:-20000}
number=0
for program; do
    number=$((number + 1))
    line=
    for digits in 1 8 16; do
        script "$digits" 1
        one=$(count "$program")
        script "$digits" $((numbers + 1))
        each=$((($(count "$program") - one) / numbers))
        line="$line $each"
        if [ "$digits" -eq 8 ]; then eight=$each; fi
    done
    more=$(((each - eight) * 100 / 8))
    echo "numbers $number:$line instructions a number, $((more / 100)).$(printf %02d $((more % 100))) a further digit" >&2
done
