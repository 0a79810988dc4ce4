#!/bin/sh
# The player of rows (crates/test_rows) reports a wrong row by file, line, call, expected result and result, and a missing file;
# both with status 1. For each worked script of tests/scripts `run_script` writes what the program prints, and for each line of
# tests/resolve `run_resolve` does. The last line is `N passed, M failed`.
top=$(CDPATH='' cd -- "$(dirname -- "$0")/.." && pwd -P)
# shellcheck source=tests/counting.sh
. "$top/tests/counting.sh"
program=$("$top/tools/built" test_rows) || give_up "test_rows can't be built"

for words in '' --help blob_base 'test_rows more'; do
    # shellcheck disable=SC2086
    "$top/tools/built" $words >"$work/out" 2>"$work/err"
    [ $? -eq 2 ] && [ ! -s "$work/out" ] && grep -q '^usage: ' "$work/err"
    ok "tools/built with '$words'" [ $? -eq 0 ]
done

# check NAME STATUS OUTPUT FILE..: plays files of tests/rows.
check() {
    name=$1
    wanted=$2
    output=$3
    shift 3
    (cd "$top/tests/rows" && "$program" "$@") >"$work/out" 2>"$work/err"
    status=$?
    if [ "$status" -eq "$wanted" ] && cmp -s "$work/out" "$output"; then
        pass
    else
        fail "$name: status $status, wanted $wanted"
        diff "$output" "$work/out"
    fi
}

check 'wrong rows' 1 "$top/tests/rows/wrong.out" wrong.rows
check 'no such file' 1 /dev/null none.rows
check 'right rows' 0 "$top/tests/rows/right.out" right.rows

# whole WORD NAME STATUS OUTPUT ERRORS FILE: what `run_script` or `run_resolve` writes for a file.
whole() {
    "$program" "$1" "$6" >"$work/out" 2>"$work/err"
    status=$?
    if [ "$status" -eq "$3" ] && cmp -s "$work/out" "$4" && cmp -s "$work/err" "$5"; then
        pass
    else
        fail "$1 $2: status $status, wanted $3"
        diff "$4" "$work/out"
        diff "$5" "$work/err"
    fi
}

: >"$work/none"
for worked in "$top"/tests/scripts/*.script; do
    name=${worked%.script}
    wanted=0
    [ ! -e "$name.status" ] || wanted=$(cat "$name.status")
    errors=$work/none
    [ ! -e "$name.err" ] || errors=$name.err
    whole script "${name##*/}" "$wanted" "$name.out" "$errors" "$worked"
done
while IFS='|' read -r image reply; do
    printf '%s\n' "$image" >"$work/in"
    printf '%s\n' "$reply" >"$work/reply"
    whole resolve "'$image'" 0 "$work/reply" "$work/none" "$work/in"
done <"$top/tests/resolve/replies.txt"
echo 'bad image' >"$work/bad"
while IFS= read -r image; do
    printf '%s\n' "$image" >"$work/in"
    whole resolve "'$image'" 2 "$work/none" "$work/bad" "$work/in"
done <"$top/tests/resolve/bad_images.txt"

finish
