#!/bin/sh
# A database of the toolchain on disks that fail (crates/blob_sql): 300 seeds of each mode, of which no row may be wrong, and
# then with a sync that does nothing, of which rows have to be wrong in every mode.
# SEEDS gives another number of seeds. The last line is `N passed, M failed`.
top=$(CDPATH='' cd -- "$(dirname -- "$0")/.." && pwd -P)
# shellcheck source=tests/counting.sh
. "$top/tests/counting.sh"
program=$("$top/tools/built" blob_sql) || give_up "blob_sql can't be built"

# check NAME CONDITION..: one test.
check() {
    name=$1
    shift
    if "$@"; then
        pass
    else
        fail "$name"
        head -n 40 "$work/out"
    fi
}

"$program" 0 "${SEEDS:-300}" >"$work/out"
status=$?
cat "$work/out"
check 'no row is wrong' [ "$status" -eq 0 ]
check 'every mode has a line' [ "$(grep -c ' \(one\|two\) ' "$work/out")" -eq 18 ]
check 'every mode commits' [ "$(awk '/ (one|two) / && $3 > 0 && $6 > 0' "$work/out" | wc -l)" -eq 18 ]

"$program" --lie 0 20 >"$work/out"
status=$?
check 'a sync that does nothing is found' [ "$status" -eq 1 ]
check 'in every mode' [ "$(awk '/ (one|two) / && NF == 9 && $9 > 0' "$work/out" | wc -l)" -eq 16 ]

"$program" 1 >"$work/out" 2>&1
status=$?
check 'other arguments are refused' [ "$status" -eq 2 ]

finish
