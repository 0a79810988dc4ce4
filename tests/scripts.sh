#!/bin/sh
# Worked scripts: runs each tests/scripts/NAME.script and compares its standard output with NAME.out, its exit status with NAME.status and
# its standard error with NAME.err, all to the byte; without these two files, 0 and nothing. Then runs each line of bad_lines.txt alone,
# which is no call, and random lists, in which every fixed byte is found again (fixed_bytes.py). The last line is `N passed, M failed`.
top=$(CDPATH='' cd -- "$(dirname -- "$0")/.." && pwd -P)
scripts=$top/tests/scripts
# shellcheck source=tests/counting.sh
. "$top/tests/counting.sh"
: >"$work/none"

# expect NAME STATUS OUTPUT ERRORS: runs the script on standard input; OUTPUT and ERRORS are files.
expect() {
    "$program" >"$work/out" 2>"$work/err"
    status=$?
    if [ "$status" = "$2" ] && cmp -s "$work/out" "$3" && cmp -s "$work/err" "$4"; then
        pass
    else
        fail "$1: status $status, wanted $2"
        diff "$3" "$work/out"
        diff "$4" "$work/err"
    fi
}

need_program

for worked in "$scripts"/*.script; do
    name=${worked%.script}
    wanted=0
    [ ! -e "$name.status" ] || wanted=$(cat "$name.status")
    errors=$work/none
    [ ! -e "$name.err" ] || errors=$name.err
    expect "${name##*/}" "$wanted" "$name.out" "$errors" <"$worked"
done

echo 'line 1: bad call' >"$work/bad"
while IFS= read -r line; do
    printf '%s\n' "$line" >"$work/in"
    expect "bad line '$line'" 2 "$work/none" "$work/bad" <"$work/in"
done <"$scripts/bad_lines.txt"

if has_python; then
    add python3 "$top/tests/fixed_bytes.py" "$program" 300
else
    skip 'fixed bytes in random lists: no python3'
fi

finish
