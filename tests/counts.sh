#!/bin/sh
# Tests the counts of tests/counting.sh, of ./test and of its --edits, with a toolchain that only says what passed, and the table of
# tests/times.py. The last line is `N passed, M failed`.
# shellcheck disable=SC2016,SC2317
top=$(CDPATH='' cd -- "$(dirname -- "$0")/.." && pwd -P)
# shellcheck source=tests/counting.sh
. "$top/tests/counting.sh"

# expect NAME STATUS OUTPUT COMMAND..: runs it, and compares its status and the end of what it prints.
expect() {
    what=$1
    wanted=$2
    output=$3
    shift 3
    "$@" >"$work/out" 2>&1 </dev/null
    status=$?
    if [ "$status" -eq "$wanted" ] && [ "$(tail -n "$(echo "$output" | wc -l)" "$work/out")" = "$output" ]; then
        pass
    else
        fail "$what: status $status, wanted $wanted"
        tail -n 20 "$work/out"
    fi
}

# A repository with scripts that do what this test says.
copy=$work/copy
mkdir -p "$copy/crates/blob_c/src" "$copy/tools" "$copy/tests" "$copy/bindings" "$work/tools"
cp "$top/test" "$top/HANDLES" "$copy"
cp "$top/tools/building.sh" "$copy/tools"
cp "$top/tests/counting.sh" "$top/tests/times.py" "$copy/tests"
echo 'blob_c staticlib:' >"$copy/crates.txt"
: >"$copy/crates/blob_c/src/lib.rt"
echo 'blob_c 1 0 0' >"$copy/tests/budget.txt"
echo 'exit 1' >"$copy/bindings/build.sh"
# Its gate refuses what earlier releases kept in out/libraries.
printf '#!/bin/sh\n[ ! -e out/libraries ] || exit 2\necho "3 passed, 0 failed"\n' >"$work/tools/rt"
mkdir -p "$copy/out/libraries/blob_c"
chmod +x "$work/tools/rt"

# script NAME LINE ..: writes a script of the copy, with these lines between its first and its last.
script() {
    name=$1
    shift
    {
        printf 'top=%s\n. "$top/tests/counting.sh"\n' "'$copy'"
        printf '%s\n' "$@"
        echo finish
    } >"$copy/tests/$name.sh"
}
for name in pages refusals sql bindings; do script "$name" pass; done
run_test() { (unset RT_JOBS && cd "$copy" && PATH=$work/tools:$PATH ./test "$@"); }

script own pass pass
expect 'a script' 0 '2 passed, 0 failed' sh "$copy/tests/own.sh"
expect 'all scripts' 0 '9 passed, 0 failed' run_test
cp "$work/out" "$work/all"
expect 'each script is timed' 0 '' grep -q '^tests/own.sh: [0-9]* seconds$' "$work/all"

script own pass 'skip "the other half: it needs a tool"'
expect 'a skipped test' 0 'own.sh: skipped: the other half: it needs a tool
1 passed, 0 failed, 1 skipped' env CI=false sh "$copy/tests/own.sh"
expect 'a skipped test that must run' 1 'own.sh: skipped: the other half: it needs a tool
1 passed, 1 failed' env CI=true sh "$copy/tests/own.sh"
CI=false
export CI
expect 'skipped tests are counted' 0 '8 passed, 0 failed, 1 skipped' run_test

script own pass 'fail "it is wrong"'
expect 'a failure' 1 'own.sh: it is wrong
1 passed, 1 failed' sh "$copy/tests/own.sh"
expect 'failures are counted' 1 '8 passed, 1 failed' run_test
script own pass 'give_up "there is no program"' pass
expect 'what all others need' 1 'own.sh: there is no program
1 passed, 1 failed' sh "$copy/tests/own.sh"
script own pass 'exit 0'
expect 'a script without a last line' 1 '7 passed, 1 failed' run_test

# What a script adds of another test.
while IFS='|' read -r does wanted; do
    script own pass "add sh -c '$does'"
    expect "a test that does: $does" "${wanted%% *}" "${wanted#* }" sh "$copy/tests/own.sh"
done <<'ADDED'
echo 2 passed, 0 failed|0 3 passed, 0 failed
echo 2 passed, 1 failed; exit 1|1 3 passed, 1 failed
echo 2 passed, 0 failed, 3 skipped|0 3 passed, 0 failed, 3 skipped
echo 2 passed, 0 failed; exit 1|1 3 passed, 1 failed
echo nothing|1 1 passed, 1 failed
ADDED

# Edits that the gate leaves out: one that a goal rejects, and those that count as failed.
mkdir "$copy/crates/blob_c/edits"
for name in good names cited limit kept bad untried; do echo "file: src/lib.rt" >"$copy/crates/blob_c/edits/$name.edit"; done
cp "$top/tests/edits.sh" "$copy/tests"
cat >"$work/tools/rt" <<'TOOL'
#!/bin/sh
[ "$*" = 'must-fail blob_c' ] && [ ! -e crates/blob_c/edits ] && [ -e crates/blob_c/must-fail/good.edit ] || exit 2
cat <<'SAID'
rt: must-fail blob_c/good.edit: refused, as it must be: src/lib.rt:4:14: error: goal
rt: must-fail blob_c/names.edit: refused, as it must be (only because a proof file names what the edit took away)
rt: must-fail blob_c/cited.edit: refused, as it must be: ./proofs/f/Answers.antt:3:5: error: 1 declaration that depends on `g`, which was rejected, was not checked: returns
rt: must-fail blob_c/limit.edit: refused, as it must be (only by a limit of the prover, which gave no verdict)
rt: must-fail blob_c/kept.edit: NOT REFUSED: the crate is still proved with this edit
rt: must-fail blob_c/bad.edit: BAD EDIT: src/lib.rt does not have the text
SAID
exit 1
TOOL
expect 'edits that the gate leaves out' 1 "\
edits.sh: blob_c/bad.edit isn't rejected
edits.sh: blob_c/cited.edit isn't rejected by a goal
edits.sh: blob_c/kept.edit isn't rejected
edits.sh: blob_c/limit.edit isn't rejected by a goal
edits.sh: blob_c/names.edit isn't rejected by a goal
edits.sh: blob_c/untried.edit isn't tried
edits.sh: 7 edits, 1 rejected by a goal
1 passed, 6 failed" run_test --edits
for name in names cited limit kept bad untried; do rm "$copy/crates/blob_c/edits/$name.edit"; done
expect 'an edit that a goal rejects' 0 'edits.sh: 1 edits, 1 rejected by a goal
1 passed, 0 failed' run_test --edits blob_c
expect 'edits of no crate' 1 "edits.sh: there is no crates/blob_d/edits
0 passed, 1 failed" run_test --edits blob_d
expect 'another argument' 2 'usage: ./test [--quick | --edits [CRATE ..]]' run_test --edit

# The table, with a crate more than a fifth above its budget and one without a budget.
printf 'blob_a 100 20 0\nblob_b 100 21 0\nblob_d 1 2 3\n' >"$work/times"
printf '# crate proof edits tests\nblob_a 50 50 0 # raised\nblob_b 50 50 0\n' >"$work/budget"
expect 'the table' 0 "\
processor seconds    proof   edits   tests     all  budget
blob_a                 100      20       0     120     100
blob_b                 100      21       0     121     100
blob_d                   1       2       3       6    none
all                    201      43       3     247     200
warning: blob_b took 121 processor seconds, more than a fifth above the 100 of $work/budget
warning: blob_d has no line in $work/budget" python3 "$top/tests/times.py" table "$work/times" "$work/budget"
: >"$work/times"
expect 'a run that proves nothing' 0 "\
processor seconds    proof   edits   tests     all  budget
all                      0       0       0       0     200" python3 "$top/tests/times.py" table "$work/times" "$work/budget"

finish
