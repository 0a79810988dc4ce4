#!/bin/sh
# Tests of explorations of code: in C (bindings/c/explore.c, a log with power losses in explore_log.c, and programs on files in
# explore_files.c), in Python (tests/explore_bodies.py, explore_bounds.py, explore_met.py), and the log of examples/log.py, a cell and
# records over every outcome of small runs, with planted bugs (explore_log.py, explore_clients.py). Each outcome is visited once; runs that
# end at a restart in a state met before have the same outcomes as all runs. The last line is `N passed, M failed`.
top=$(CDPATH='' cd -- "$(dirname -- "$0")/.." && pwd -P)
# shellcheck source=tests/counting.sh
. "$top/tests/counting.sh"

# with_distributed: the Python that has Dask's executor, if one has.
with_distributed() {
    for python in python3 /usr/bin/python3; do
        if "$python" -c 'import distributed' >/dev/null 2>&1; then
            echo "$python"
            return
        fi
    done
    echo python3
}

sh "$top/bindings/build.sh" || give_up "the library can't be built"
need_program files
compiler=${CC:-cc}
if ! command -v "$compiler" >/dev/null; then
    skip 'C and Python: there is no C compiler'
    finish
fi

if "$compiler" -std=c11 -Wall -Wextra -Werror -O2 -I"$top/bindings/c" -o "$work/explore" "$top/bindings/c/explore.c" \
    "$top/out/libblobcrash.a" >"$work/out" 2>&1; then
    add "$work/explore"
else
    tell 1 'bindings/c/explore.c'
fi
# The log in C. One run without a power loss; one for a loss at each of the two opens, of the two writes of two appends and of the four
# opens of two recoveries; four for each of the two syncs, since the crash then keeps 0 to 3 bytes of the record.
explore_log() {
    "$@" >"$work/out" 2>&1
    status=$?
}
for sanitize in '' '-g -fsanitize=address,undefined'; do
    # shellcheck disable=SC2086
    if ! "$compiler" -std=c11 -Wall -Wextra -Werror -pedantic -O2 $sanitize -I"$top/bindings/c" -o "$work/explore_log" \
        "$top/bindings/c/explore_log.c" "$top/out/libblobcrash.a" >"$work/out" 2>&1; then
        if [ -n "$sanitize" ]; then skip 'explore_log.c under the address sanitizer'; else tell 1 'explore_log.c'; fi
        continue
    fi
    explore_log "$work/explore_log"
    [ "$status" -eq 0 ] && [ "$(cat "$work/out")" = '19 runs, all of them' ]
    tell $? "explore_log.c $sanitize: the log loses nothing"
    explore_log "$work/explore_log" forget-sync "$work/script"
    [ "$status" -eq 1 ] && grep -q 'acknowledged is lost' "$work/out" && grep -qx crash "$work/script" && ! grep -q sync "$work/script"
    tell $? "explore_log.c $sanitize: a forgotten sync is found"
    # The head is durable before the record: only a power loss between them loses the record.
    explore_log "$work/explore_log" seeds head-first
    [ "$status" -eq 0 ]
    tell $? "explore_log.c $sanitize: a head that is written first is not found without power losses"
    explore_log "$work/explore_log" head-first "$work/script"
    [ "$status" -eq 1 ] && grep -q 'acknowledged is lost' "$work/out" && grep -qx '# power loss' "$work/script"
    tell $? "explore_log.c $sanitize: it is found with a power loss"
    # Files: bugs that lose data, and the same programs without them.
    # shellcheck disable=SC2086
    if "$compiler" -std=c11 -Wall -Wextra -Werror -pedantic -O2 $sanitize -I"$top/bindings/c" -o "$work/explore_files" \
        "$top/bindings/c/explore_files.c" "$top/out/libblobcrash.a" >"$work/out" 2>&1; then
        add "$work/explore_files" "$work/script"
        # The words of the run decide the same: of three edits the first is kept.
        "${program}_files" <"$work/script" >"$work/out" 2>"$work/err" && grep -q '^crashed 100 ' "$work/out" &&
            [ "$(tail -n 1 "$work/out")" = 'error NotFound' ]
        tell $? "explore_files.c $sanitize: blobcrash files makes the calls of its script again"
    else
        tell 1 "explore_files.c $sanitize"
    fi
done
python=$(with_distributed)
export PYTHONDONTWRITEBYTECODE=1
# On a loaded machine 5 of 96 runs of the tests of executors waited for ever with Python 3.11.2, none of 30 with 3.11.7. The cause isn't
# known. So only Dask's test runs by the Python that has Dask.
# shellcheck disable=SC2046
add python3 "$top/tests/explore_bodies.py" $(sed -n 's/^def \(test_[a-z_]*\)().*/\1/p' "$top/tests/explore_bodies.py" | grep -vx test_dask)
add "$python" "$top/tests/explore_bodies.py" test_dask
add "$python" "$top/tests/explore_bounds.py"
add "$python" "$top/tests/explore_met.py"
add "$python" "$top/tests/explore_log.py"
add "$python" "$top/tests/explore_clients.py"

# The example finds nothing in the log, and a lost record if the log forgets its sync.
"$python" "$top/examples/explore_log.py" >"$work/out" 2>&1 && grep -q '^[0-9]* runs, all of them$' "$work/out"
tell $? 'examples/explore_log.py'
"$python" "$top/examples/explore_log.py" --forget-sync >"$work/out" 2>&1
[ $? -eq 1 ] && grep -q 'acknowledged records' "$work/out" && grep -q '^    words ' "$work/out"
tell $? 'examples/explore_log.py --forget-sync'
finish
