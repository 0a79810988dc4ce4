#!/bin/sh
# Tests of `blobcrash states`, tools/states and CrashStates (tests/states.py): counts by hand, bad lines, limits. The program's states are
# those of CrashStates on 40 random scripts; those of 200 random scripts are those of brute force over words, those of 120 of files those of
# all draws; 30 edits in order have 31 states. Planted bugs of a log, of a store of two slots and of a replaced file are found from one run
# in each profile. Of one commit of SQLite on the mount the loss that SQLite documents is found, and no other. The last line is `N passed, M
# failed`.
top=$(CDPATH='' cd -- "$(dirname -- "$0")/.." && pwd -P)
# shellcheck source=tests/counting.sh
. "$top/tests/counting.sh"
if ! has_python; then
    skip 'all of it: there is no Python 3.8 or later'
    finish
fi
sh "$top/bindings/build.sh" || give_up "the library can't be built"
need_program states
export PYTHONDONTWRITEBYTECODE=1
add python3 "$top/tests/states.py"
for sync in '' --forget-sync; do
    python3 "$top/examples/log_states.py" $sync >"$work/out" 2>&1
    status=$?
    if [ -z "$sync" ]; then
        [ "$status" -eq 0 ] && [ "$(cat "$work/out")" = '11 crashes, 53 outcomes, 47 states, all of them' ]
    else
        [ "$status" -eq 1 ] && grep -q '^acknowledged 1, found 0:$' "$work/out" && [ "$(tail -n 1 "$work/out")" = crash ]
    fi
    tell $? "examples/log_states.py $sync"
done

# expect NAME STATUS LAST_LINE ERRORS ARGUMENT ..: what `blobcrash states` ends with, of $work/in.
expect() {
    name=$1 wanted=$2 last=$3 errors=$4
    shift 4
    "${program}_states" "$@" <"$work/in" >"$work/out" 2>"$work/err"
    status=$?
    [ "$status" = "$wanted" ] && [ "$(tail -n 1 "$work/out")" = "$last" ] && [ "$(cat "$work/err")" = "$errors" ]
    tell $? "blobcrash states: $name: status $status, $(tail -n 1 "$work/out")"
}
printf 'seed 7\nimage p 62 43574943000000006161\nconfig write 0 1 1 2 subset\nopen p 62\nwrite 0 0 6262\n' >"$work/in"
expect 'four outcomes of two bytes' 0 '# 1 crash, 4 outcomes, 4 states, all of them' '' --at 3
expect 'each crash' 0 '# 4 crashes, 7 outcomes, 7 states, all of them' ''
expect 'a limit' 0 '# 1 crash, 3 outcomes, 3 states, not all of them: the limit was reached' '' --limit 3 --at 3
expect 'no outcome' 0 '# 4 crashes, 0 outcomes, 0 states, not all of them: the limit was reached' '' --limit 0
expect 'too few calls' 2 '' 'the script has 3 calls' --at 4
printf 'config write 0 1 1 2 subset\nseed 7\n' >"$work/in"
expect 'a bad line' 2 '' 'line 2: bad call'
: >"$work/in"
expect 'no line' 0 '# 1 crash, 1 outcome, 1 state, all of them' ''

if ! has sqlite3 fusermount3 || [ ! -w /dev/fuse ] || ! sh "$top/adapters/mount/build.sh" >/dev/null 2>&1; then
    # A kernel can't be installed.
    leave_out 'SQLite on the mount: sqlite3, a C compiler, libfuse 3 or FUSE is missing'
    finish
fi
# committed LEVEL PROFILE STATUS FAILURES: what tools/states prints of a commit.
committed() {
    sh "$top/examples/mount_states.sh" "$1" "$2" >"$work/out" 2>&1
    [ $? -eq "$3" ] && grep -Eq "^[0-9]+ crashes, [0-9]+ outcomes, [0-9]+ states, all of them; $4 fail\$" "$work/out"
    tell $? "SQLite at $1 on $2: $(tail -n 1 "$work/out")"
}
committed extra xfs 0 0
committed full xfs 1 1
finish
