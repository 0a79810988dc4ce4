# shellcheck shell=sh disable=SC2034,SC2154
# Sourced by the scripts of tests/: counts, and prints the last line. `top` is the top of the repository. Makes the folder $work,
# which is removed at exit. With BLOBCRASH_PROVED, ./blobcrash runs only the proved program.
set -u

own_name=${0##*/}
work=$(mktemp -d)
trap 'rm -rf "$work"' EXIT
passed=0
failed=0
skipped=0
BLOBCRASH_PROVED=1
export BLOBCRASH_PROVED

pass() { passed=$((passed + 1)); }

# fail TEXT: counts a failure.
fail() {
    failed=$((failed + 1))
    echo "$own_name: $1"
}

# ok NAME COMMAND..: counts whether the command succeeds. If it doesn't, shows what it printed.
ok() {
    what=$1
    shift
    if "$@" >"$work/shown" 2>&1 </dev/null; then
        pass
    else
        fail "$what"
        tail -n 40 "$work/shown"
    fi
}

# tell STATUS NAME: counts a test by its status. If it failed, shows the ends of $work/out and $work/err.
tell() {
    if [ "$1" -eq 0 ]; then
        pass
        return
    fi
    fail "$2"
    for printed in "$work/out" "$work/err"; do
        [ ! -s "$printed" ] || tail -n 40 "$printed" | tail -c 4000
    done
}

# skip WHAT: counts a test that isn't run because a tool is missing. With CI=true it is a failure: `.ci/run` installs the tools.
skip() {
    if [ "${CI:-}" = true ]; then
        failed=$((failed + 1))
        echo "$own_name: skipped: $1"
    else
        leave_out "$1"
    fi
}

# leave_out WHAT: counts a test that isn't run because a tool is missing that isn't one of .ci/packages, also with CI=true.
leave_out() {
    skipped=$((skipped + 1))
    echo "$own_name: skipped: $1"
}

# has TOOL ..: whether these commands exist.
has() {
    for needed; do
        command -v "$needed" >/dev/null 2>&1 || return 1
    done
}

# has_python: whether there is a Python 3.8 or later.
has_python() { python3 -c 'import sys; sys.exit(sys.version_info < (3, 8))' 2>/dev/null; }

# add COMMAND ..: runs a test that prints `N passed, M failed` last, with `, K skipped` if there is something, and adds its counts. Shows its
# other lines. Without such a line, or if its status isn't 0 and it counts no failure, that is one failure.
add() {
    "$@" >"$work/added" 2>&1
    status=$?
    last='\([0-9]*\) passed, \([0-9]*\) failed'
    sed "/^$last\$/d; /^$last, [0-9]* skipped\$/d" "$work/added"
    # shellcheck disable=SC2046
    set -- $(sed -n "s/^$last\$/\1 \2 0/p; s/^$last, \([0-9]*\) skipped\$/\1 \2 \3/p" "$work/added" | tail -n 1)
    # shellcheck disable=SC2015
    [ $# -eq 3 ] && { [ "$status" -eq 0 ] || [ "$2" -gt 0 ]; } || set -- "${1:-0}" 1 "${3:-0}"
    passed=$((passed + $1))
    failed=$((failed + $2))
    skipped=$((skipped + $3))
}

# finish: prints the last line, `N passed, M failed` with `, K skipped` after it if K isn't 0, and exits.
finish() {
    last="$passed passed, $failed failed"
    [ "$skipped" -eq 0 ] || last="$last, $skipped skipped"
    echo "$last"
    [ "$failed" -eq 0 ]
    exit
}

# give_up TEXT: counts a failure and exits, if what all other tests of the script need is missing.
give_up() {
    fail "$1"
    finish
}

# need_program [explain|explore]..: builds ./blobcrash and the programs of these words if they aren't built, so that no test sees the
# messages of a build. `program` is the path of the first; with _explain and _explore added it is that of the others.
need_program() {
    program=$top/out/blobcrash
    for word in resolve "$@"; do
        "$top/blobcrash" "$word" </dev/null >/dev/null || give_up "the program can't be built or started"
    done
}
