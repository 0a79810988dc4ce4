# shellcheck shell=sh disable=SC2034,SC2154
# Sourced by leveldb.sh and rocksdb.sh, after counting.sh, which test a driver in C++. `database` is leveldb or rocksdb.
crash=$top/out/$database/crash
cxx=${CXX:-c++}

# expect NAME STATUS COMMAND..: one test. What the command prints is in $work/out, and what the last run of
# the driver printed in $work/table.
expect() {
    name=$1
    wanted=$2
    shift 2
    "$@" >"$work/out" 2>&1
    status=$?
    [ "$1" != "$crash" ] || cp "$work/out" "$work/table"
    if [ "$status" -eq "$wanted" ]; then
        pass
    else
        fail "$name: status $status, wanted $wanted"
        head -n 40 "$work/out"
    fi
}

# need_header HEADER PACKAGE: skips the script if the compiler or the header is missing.
need_header() {
    if ! echo "#include <$1>" | "$cxx" -x c++ -E - >/dev/null 2>&1; then
        skip "there is no $cxx with $1 (Debian: g++, $2)"
        finish
    fi
}

# finds NAME: runs the lives of standard input, lines of a seed, a mode and a text that the life prints, and expects that a promise is broken.
finds() {
    while read -r seed mode what; do
        expect "$1: seed $seed of $mode" 1 "$crash" --seed "$seed" "$mode"
        expect "$1: $what" 0 grep -q "$what" "$work/table"
    done
}

# refuses ARGUMENTS ..: each text is arguments that the driver refuses.
refuses() {
    for arguments; do
        # shellcheck disable=SC2086
        expect "these arguments are refused: $arguments" 2 "$crash" $arguments
    done
}
