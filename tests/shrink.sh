#!/bin/sh
# Tests of tools/shrink and tools/judge, of scripts, of records of files and of any text, and of shrinking in Python (tests/shrunk.py,
# files_shrunk.py): planted bugs are reduced to the lines, or calls, that were found by hand. The last line is `N passed, M failed`.
top=$(CDPATH='' cd -- "$(dirname -- "$0")/.." && pwd -P)
# shellcheck source=tests/counting.sh
. "$top/tests/counting.sh"
if ! has_python; then
    skip 'all of it: there is no Python 3.8 or later'
    finish
fi

# expect NAME STATUS OUTPUT COMMAND..: shrinks $work/script by the command.
expect() {
    name=$1
    wanted=$2
    output=$3
    shift 3
    found=$("$top/tools/shrink" "$work/script" "$@" 2>"$work/err"; echo "status $?")
    if [ "$found" = "$output${output:+
}status $wanted" ]; then
        pass
    else
        fail "$name: '$found'"
        cat "$work/err"
    fi
}

# Twelve lines, of which the third and the ninth make a command fail together.
seq 12 | sed 's/^/line /' >"$work/script"
expect 'two lines of twelve' 0 'line 3
line 9' sh -c 'cat >"$0/in"; ! { grep -qx "line 3" "$0/in" && grep -qx "line 9" "$0/in"; }' "$work"
expect 'a path in place of standard input' 0 'line 12' sh -c '! grep -qx "line 12" "$1"' sh '{}'
expect 'each line is needed' 0 "$(cat "$work/script")" sh -c '[ "$(wc -l)" -lt 12 ]'
expect 'an even number of lines at least four' 0 'line 9
line 10
line 11
line 12' sh -c 'n=$(wc -l); [ $((n % 2)) -eq 1 ] || [ "$n" -lt 4 ]'
expect 'nothing is needed' 0 '' false
expect 'it does not fail' 1 '' true
expect 'no such command' 2 '' "$work/none"
printf 'a\nb' >"$work/script"
expect 'a last line without an end' 0 b sh -c '! grep -qx b'

# A script: something was done before a crash, and the last open after it finds an empty blob.
need_program
sh "$top/bindings/build.sh" || give_up "the library can't be built"
BLOBCRASH=$program
export BLOBCRASH
cat >"$work/script" <<'SCRIPT'
# a store with two blobs
words 0 max
open p 61
open p 62
write 0 0 6161
sync 0
write 1 0 6262
size 0
scan p
crash
reopen
open p 61
open p 62
SCRIPT
cat >"$work/check" <<'CHECK'
"$BLOBCRASH" >"$1/out" || exit 0
! awk '$1 == "ok" { done = 1 } $1 == "crashed" { after = done } END { exit !(after && /^opened [0-9]+ 0 0$/) }' "$1/out"
CHECK
"$top/tools/shrink" "$work/script" sh "$work/check" "$work" >"$work/short" 2>"$work/err"
ok 'a script with a crash still fails' sh -c '! sh "$1/check" "$1" <"$1/short"' sh "$work"
ok 'it has the five lines found by hand at most' [ "$(wc -l <"$work/short")" -le 5 ]

# Handles are renumbered, and the choices of a seed are words: the second write fails, and the crash keeps one of two bytes.
cat >"$work/script" <<'SCRIPT'
seed 2
config write 1 2 1 2 subset
open p 61
open p 62
read 0 0 0
write 1 0 6262
write 1 2 6262
write 1 4 6262
write 1 6 6262
crash
SCRIPT
"$program" <"$work/script" >"$work/replies"
cat >"$work/check" <<'CHECK'
"$BLOBCRASH" >"$1/out" || exit 0
! { grep -q Injected "$1/out" && grep -q '^crashed 0:\(01\|10\)' "$1/out"; }
CHECK
"$top/tools/shrink" "$work/script" sh "$work/check" "$work" >"$work/short" 2>"$work/err"
ok 'a seed becomes words' sh -c 'head -n 1 "$1" | grep -q "^words" && ! grep -q seed "$1"' sh "$work/short"
ok 'a handle is renumbered' sh -c '! grep -q "^write 1" "$1" && [ "$(grep -c "^open" "$1")" -eq 1 ]' sh "$work/short"
ok 'it is as short as by hand' [ "$(wc -l <"$work/short")" -eq 6 ]

# A judge for any script.
judged() {
    name=$1
    wanted=$2
    found=$("$top/tools/judge" 2>&1; echo "status $?")
    if [ "$found" = "$wanted" ]; then pass; else fail "$name: '$found'"; fi
}
judged 'content that was synced' 'status 0' <<'SCRIPT'
open p 62
write 0 0 6162
sync 0
# acknowledged p 62 0 6162
crash
reopen
SCRIPT
judged 'content that was not synced' 'line 5: acknowledged p 62 0 6162, found -
status 1' <<'SCRIPT'
open p 62
write 0 0 6162
# acknowledged p 62 0 6162
crash
reopen
open p 62
SCRIPT
judged 'content that this script has not written' 'judge: no acknowledgement counts: the script has not written or read those bytes there before
status 2' <<'SCRIPT'
open p 62
# acknowledged p 62 0 6162
crash
reopen
SCRIPT
judged 'a part of it' 'line 7: acknowledged p 62 1 6263, found 62
status 1' <<'SCRIPT'
words 0 0 max
config write 0 1 1 2 prefix
open p 62
write 0 0 616263
# acknowledged p 62 1 6263
crash
reopen
SCRIPT
judged 'content that was released' 'status 0' <<'SCRIPT'
open p 62
write 0 0 6162
# acknowledged p 62 0 6162
# released p 62
crash
reopen
SCRIPT
judged 'a slot that is used again' 'status 0' <<'SCRIPT'
open p 62
writes 0 0 61616161
# acknowledged p 62 0 61616161
# released p 62 1 2
write 0 1 6262
crash
reopen
SCRIPT
judged 'what is before and after a released slot' 'line 7: acknowledged p 62 3 61, found 63
status 1' <<'SCRIPT'
open p 62
writes 0 0 61616161
# acknowledged p 62 0 61616161
# released p 62 1 2
writes 0 1 626263
crash
reopen
SCRIPT
judged 'a release of other bytes' 'line 7: acknowledged p 62 0 6161, found 6261
status 1' <<'SCRIPT'
open p 62
writes 0 0 6161
# acknowledged p 62 0 6161
# released p 62 2 8
writes 0 0 62
crash
reopen
SCRIPT
judged 'a handle with leading zeros' 'line 5: acknowledged p 62 0 61, found -
status 1' <<'SCRIPT'
open p 62
write 00 0 61
# acknowledged p 62 0 61
crash
reopen
SCRIPT
judged 'a script without an acknowledgement' 'judge: the script acknowledges nothing: it has no comment `# acknowledged PARTITION NAME OFFSET HEX`
status 2' <<'SCRIPT'
open p 62
crash
reopen
SCRIPT
judged 'an acknowledgement without a crash' 'judge: no acknowledgement counts: no crash and reopen follow one
status 2' <<'SCRIPT'
open p 62
writes 0 0 61
crash
reopen
open p 62
writes 1 0 61
# acknowledged p 62 0 61
crash
SCRIPT
judged 'the second of two crashes' 'line 10: acknowledged p 62 0 61, found 00
status 1' <<'SCRIPT'
open p 62
writes 0 0 61
# acknowledged p 62 0 61
crash
reopen
open p 62
writes 1 0 00
# the code overwrites it, and doesn't say so
crash
reopen
SCRIPT
judged 'a bad line' 'line 2: bad call: `frob`: no such call
status 2' <<'SCRIPT'
open p 62
frob
SCRIPT

# Without the library only lines are left out.
BLOBCRASH_LIBRARY=$work/none "$top/tools/shrink" "$work/script" sh "$work/check" "$work" >"$work/short" 2>"$work/err"
ok 'without the library' sh -c 'grep -q "^seed 2" "$1" && grep -q "only lines are left out" "$2"' sh "$work/short" "$work/err"

add python3 "$top/tests/shrunk.py"
add python3 "$top/tests/files_shrunk.py"
finish
