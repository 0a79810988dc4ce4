#!/bin/sh
# Times scripts of mixed calls from end to end: reading, running, printing. Prints a line for each length to standard error. A test
# runs it, and compares no time. The arguments are the lengths in lines; without them 10000, 20000 and 40000.
set -eu

top=$(CDPATH='' cd -- "$(dirname -- "$0")/.." && pwd -P)
work=$(mktemp -d)
trap 'rm -rf "$work"' EXIT
# Times only the proved program.
export BLOBCRASH_PROVED=1

# script LINES: the same lines in every run. Eight blobs of up to 4096 bytes are open. Writes stay pending until a sync. Sometimes
# the store crashes or is rebuilt; after a rebuild each name is opened again.
script() {
    awk -v lines="$1" '
        # A number below n, by a multiplicative generator. Its steps are exact in double precision.
        function below(n) { state = state * 16807 % 2147483647; return state % n }
        function say(line) { if (count < lines) { print line; count++ } }
        function open_all(  i) { for (i = 0; i < 8; i++) { say("open p 0" i); handle[i] = opened++ } }
        function bytes(  i, text) {
            text = ""
            for (i = below(32); i >= 0; i--) text = text sprintf("%02x", below(256))
            return text
        }
        BEGIN {
            state = 20260
            print "words 0 max 0 0 max"; count = 1
            say("config write 0 1 1 2 subset"); say("config resize 0 1 0 1")
            open_all()
            while (count < lines) {
                h = handle[below(8)]; kind = below(100)
                if (kind < 40) say("write " h " " below(4000) " " bytes())
                else if (kind < 55) say("writes " h " " below(4000) " " bytes())
                else if (kind < 75) say("read " h " " below(1000) " " below(64))
                else if (kind < 80) say("size " h)
                else if (kind < 85) say("resize " h " " below(4096))
                else if (kind < 91) say("sync " h)
                else if (kind < 95) { say("startsync " h); say("finish " started++) }
                else if (kind < 97) say("scan p")
                else if (kind < 99) say("crash")
                else if (below(4) == 0) { say("reopen"); open_all() }
                else say("admit p 0" below(8))
            }
        }'
}

# Builds the program before anything is timed.
"$top/blobcrash" resolve </dev/null >/dev/null

[ "$#" -gt 0 ] || set -- 10000 20000 40000
for lines in "$@"; do
    script "$lines" >"$work/script"
    began=$(date +%s%N)
    "$top/blobcrash" <"$work/script" >"$work/out"
    ended=$(date +%s%N)
    # Every line but the one of words has a reply.
    if [ "$(wc -l <"$work/out")" -ne $((lines - 1)) ]; then
        echo "scripts.sh: $lines lines have $(wc -l <"$work/out") replies" >&2
        exit 1
    fi
    echo "$lines lines: $(((ended - began) / 1000000)) ms, $(((ended - began) / lines)) ns a line" >&2
done
