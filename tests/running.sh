# shellcheck shell=sh disable=SC2034,SC2154
# Sourced after tests/counting.sh by tests of commands: runs one, and compares its status and both of its streams; copies the sources.

line='
'

# copy_sources FOLDER: makes FOLDER a copy of the sources as they are here, without anything that is built.
copy_sources() {
    mkdir "$1"
    (cd "$top" && git archive HEAD 2>/dev/null | tar -x -C "$1" && cp -R HANDLES LICENSE README.md blobcrash crates.txt tools bindings adapters examples tests "$1/")
    rm -rf "$1/crates" "$1/bindings/rust/target"
    mkdir "$1/crates"
    (cd "$top/crates" && tar -c --exclude=out . | tar -x -C "$1/crates")
}

# run COMMAND..: its status, standard output and standard error, from this function's standard input.
run() {
    "$@" >"$work/out" 2>"$work/err"
    status=$?
}

# expect NAME STATUS OUTPUT ERRORS: compares what the last `run` left.
expect() {
    if [ "$status" = "$2" ] && [ "$(cat "$work/out"; echo .)" = "$3." ] && [ "$(cat "$work/err")" = "$4" ]; then
        pass
    else
        fail "$1: status $status, wanted $2"
        echo "  out: $(head -c 400 "$work/out")"
        echo "  err: $(head -c 400 "$work/err")"
    fi
}
