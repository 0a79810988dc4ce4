#!/bin/sh
# Two transactions of the toolchain's database over every outcome of a power loss at each call (crates/blob_sql_explored): none is lost,
# and each mistake is found. The last line is `N passed, M failed`.
top=$(CDPATH='' cd -- "$(dirname -- "$0")/.." && pwd -P)
# shellcheck source=tests/counting.sh
. "$top/tests/counting.sh"
program=$("$top/tools/built" blob_sql_explored) || give_up "blob_sql_explored can't be built"

"$program" mistakes >"$work/mistakes" 2>&1 &
mistakes=$!
"$program" right >"$work/out" 2>&1
tell $? 'no transaction is lost'
cat "$work/out"

# outcomes NAME CALLS OUTCOMES: the outcomes of a setting.
outcomes() {
    grep -q "^$1  *$2  *$3 " "$work/out"
    tell $? "$1: $2 calls have $3 outcomes"
}
# By hand: the power fails at one of 91 calls, or at none. With n draws pending there are 2^n outcomes, which is 2^n - 1 more than one.
# The first commit by two syncs writes three times before its first sync, and once before its second: 1 + 3 + 7, and 1. The log is
# copied by three writes, a resize and a sync of the file: 1 + 3 + 7 + 7. Three writes of the log follow, each synced before the next:
# 1 + 1 + 1. The second commit writes twice before its first sync, and once before its second: 1 + 3, and 1.
outcomes 'two syncs, whole writes' 91 130
# By one sync, the first commit after the open has the same calls as above: 1 + 3 + 7 and 1. The second writes three times before its
# only sync: 1 + 3 + 7. The log isn't copied.
outcomes 'one sync, whole writes' 52 76
# Each of the three writes of the file is two sectors of 2048: 3 + 15 + 63 + 63 in place of 18.
outcomes 'two syncs, halves of pages' 91 256

wait "$mistakes"
status=$?
mv "$work/mistakes" "$work/out"
tell "$status" 'each mistake is found'
cat "$work/out"
[ "$(grep -c '^  after .* calls, at .*: [012] acknowledged, found ' "$work/out")" -eq 6 ]
tell $? 'each mistake has its loss'

"$program" >"$work/out" 2>&1
[ $? -eq 2 ]
tell $? 'other arguments are refused'
finish
