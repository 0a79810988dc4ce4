#!/bin/sh
# Tests of the commands in Python (`python3 -m blobcrash FILE`, tools/judge, tools/shrink, tools/crash_page) with input that can't be read or
# isn't a script, numbers out of any range, and output that fails: one line on standard error, and a status. The last line is
# `N passed, M failed`.
top=$(CDPATH='' cd -- "$(dirname -- "$0")/.." && pwd -P)
# shellcheck source=tests/counting.sh
. "$top/tests/counting.sh"

if ! has_python; then
    skip 'all of it: there is no Python 3.8 or later'
    finish
fi
need_program explain
sh "$top/bindings/build.sh" || give_up "the library can't be built"
BLOBCRASH=$program
PYTHONPATH=$top/bindings/python
PYTHONDONTWRITEBYTECODE=1
export BLOBCRASH PYTHONPATH PYTHONDONTWRITEBYTECODE

# expect NAME STATUS TEXT COMMAND..: runs it with the script $work/in. Its standard error is one line with TEXT in it, or nothing.
expect() {
    name=$1
    wanted=$2
    text=$3
    shift 3
    timeout 60 "$@" <"$work/in" >"$work/out" 2>"$work/err"
    status=$?
    if [ "$status" -eq "$wanted" ] && [ "$(wc -l <"$work/err")" -eq "$(printf '%s' "$text" | grep -c '')" ] && grep -qF -- "$text" "$work/err"; then
        pass
    elif [ "$status" -eq "$wanted" ] && [ -z "$text" ] && [ ! -s "$work/err" ]; then
        pass
    else
        fail "$name: status $status, wanted $wanted"
        tail -n 3 "$work/err"
    fi
}
judge=$top/tools/judge
shrink=$top/tools/shrink
page=$top/tools/crash_page

: >"$work/in"
# Help.
for command in "$judge" "$shrink" 'python3 -m blobcrash' 'python3 -m blobcrash check' 'python3 -m blobcrash judge'; do
    # shellcheck disable=SC2086
    expect "${command##*/} --help" 0 '' $command --help
    ok "what ${command##*/} --help prints" grep -q '^  judge   prints' "$work/out"
done
expect 'crash_page --help' 0 '' "$page" --help
ok 'what crash_page --help prints' grep -q '^usage: crash_page' "$work/out"
expect 'too many arguments' 2 'usage: python -m blobcrash' python3 -m blobcrash judge --help more

# Input that can't be read.
for command in "$judge" "$shrink"; do
    expect "${command##*/}: a missing file" 2 'No such file' "$command" "$work/none"
    expect "${command##*/}: a folder" 2 'Is a directory' "$command" "$work"
done
expect 'judge: closed input' 2 'closed' sh -c 'exec "$0" <&-' "$judge"
expect 'crash_page: closed input' 2 'closed' sh -c 'exec "$0" <&-' "$page"
expect 'crash_page: a missing exploration' 2 'No such file' "$page" --explored "$work/none"
expect 'crash_page: a missing program' 2 'No such file' env BLOBCRASH="$work/none" "$page"
expect 'a run of a missing file' 1 'input failed: ' python3 -m blobcrash "$work/none"
expect 'a run of closed input' 1 'input failed: ' sh -c 'exec python3 -m blobcrash <&-'

# Lines that are no calls.
while IFS='|' read -r script text; do
    printf '%b' "$script" >"$work/in"
    expect "judge: $script" 2 "$text" "$judge"
    expect "shrink: $script" 2 "$text" "$shrink" "$work/in"
    expect "crash_page: $script" 2 "${text%% *} ${text#* }" "$page"
    expect "crash_page --picture: $script" 2 "${text%% *} ${text#* }" "$page" --picture
done <<'SCRIPTS'
open p 62\n\0377\n|line 2: bad call
open p 62\n# \0377\nopen p 63\n|line 2: bad call
image p 6 61\nopen p 62\n|line 1: bad call
image p 62 zz\nopen p 62\n|line 1: bad call
image p\n|line 1: bad call
open p 62\nimage p 62 61\n|line 2: bad call
seed 18446744073709551616\n|line 1: bad call
open p 62\nwrite 0 99999999999999999999999999 61\n|line 2: bad call
SCRIPTS
printf '\377' >"$work/in"
expect 'crash_page --chart: not UTF-8' 2 "isn't UTF-8" "$page" --chart
expect 'crash_page --explored: not UTF-8' 2 "isn't UTF-8" "$page" --explored "$work/in"
echo 'no exploration' >"$work/in"
expect 'crash_page --chart: another text' 2 'not a line of an exploration' "$page" --chart

# Numbers that are allowed, with more digits than Python's `int` takes, and blobs that are longer than a page.
zeros=$(head -c 5000 /dev/zero | tr '\0' 0)
printf 'open p 62\nwrites %s %s0 61\nresize %s0 %s1\n# acknowledged p 62 %s0 61\ncrash\nreopen\n' "$zeros" "$zeros" "$zeros" "$zeros" \
    "$zeros" >"$work/in"
expect 'judge: five thousand zeros' 0 '' "$judge"
expect 'shrink: five thousand zeros' 1 "the whole script doesn't fail" "$shrink" "$work/in"
printf 'open p 62\nresize 0 16777217\n' >"$work/in"
expect 'crash_page: a long blob' 2 'line 2 makes a blob longer than 16777216 bytes' "$page"
printf 'open p 62\nread 0 0 18446744073709551615\nwrite 0 18446744073709551615 61\n' >"$work/in"
expect 'crash_page: calls that are refused' 0 '' "$page"
printf 'open p 62\nresize 0 4097\n' >"$work/in"
expect 'crash_page --picture: a long blob' 2 'up to 4096 bytes' "$page" --picture
printf 'config write 1 1 0 1 prefix\nopen p 62\nwrite 0 18446744073709547519 61\n' >"$work/in"
expect 'crash_page --picture: a failed write far past the end' 2 'up to 4096 bytes' "$page" --picture

# Bytes that only a stale handle has, after what a crash lost.
printf 'open p 61\nwrite 0 0 61\ncrash\nwrite 0 1 62\n' >"$work/in"
expect 'crash_page --picture: a stale handle' 0 '' "$page" --picture
ok 'its picture' grep -q '>62</text>' "$work/out"

# Output that fails.
printf 'open p 62\nwrite 0 0 61\n# acknowledged p 62 0 61\ncrash\nreopen\n' >"$work/in"
for way in '/dev/full' '&-'; do
    expect "a run to $way" 1 'output failed' sh -c "exec python3 -m blobcrash >$way"
    expect "check to $way" 1 'output failed' sh -c "echo frob | exec python3 -m blobcrash check >$way"
    expect "judge to $way" 2 'output failed' sh -c "exec \"\$0\" >$way" "$judge"
    expect "shrink to $way" 2 'output failed' sh -c "exec \"\$0\" \"\$1\" >$way" "$shrink" "$work/in"
    expect "crash_page to $way" 2 'output failed' sh -c "exec \"\$0\" >$way" "$page"
done

finish
