#!/bin/sh
# Counts the instructions of a run of `explore` from C, Rust and Python, and those of a typed write from Python, by
# `valgrind --tool=callgrind`. Each figure is the difference of two counts. Prints to standard error. A test runs it, and compares no count.
# It takes the proved library if that is current, and else one without a proof; the first line says which. TIMES is how often 64 runs are
# explored (10 if it isn't set).
set -eu

top=$(CDPATH='' cd -- "$(dirname -- "$0")/.." && pwd -P)
times=${TIMES:-10}
# shellcheck source=tools/building.sh
. "$top/tools/building.sh"

compiler=${CC:-cc}
if ! command -v valgrind >/dev/null || ! command -v "$compiler" >/dev/null; then
    echo 'explore.sh: without valgrind and a C compiler nothing is counted' >&2
    exit 0
fi
find_archive
if grep -q blobcrash_unproved "$archive"; then proved="isn't proved"; else proved='is proved'; fi
echo "explore.sh: the library $proved" >&2
work=$(mktemp -d)

# count COMMAND ..: the instructions of a whole run.
count() {
    valgrind --tool=callgrind --callgrind-out-file=/dev/null "$@" 2>&1 >/dev/null | sed -n 's/^.*Collected : \([0-9]*\).*$/\1/p'
}

# tell NAME EACH COMMAND ..: what one of the EACH things takes that COMMAND does as often as its last argument says.
tell() {
    name=$1
    each=$2
    shift 2
    first=$(count "$@" "$times")
    last=$(count "$@" $((2 * times)))
    echo "$name: $(((last - first) / (each * times))) instructions" >&2
}

"$compiler" -std=c11 -O2 -I"$top/bindings/c" -o "$work/explore" "$top/benches/explore.c" "$archive"
tell 'a run of explore, C' 64 "$work/explore"

if command -v cargo >/dev/null; then
    mkdir "$work/rust"
    printf '[package]\nname = "explored"\nedition = "2024"\n[[bin]]\nname = "explored"\npath = "%s"\n[dependencies]\nblobcrash = { path = "%s" }\n' \
        "$top/benches/explore.rs" "$top/bindings/rust" >"$work/rust/Cargo.toml"
    (cd "$work/rust" && CARGO_TARGET_DIR=$work/rust/target cargo build --release --offline --quiet)
    tell 'a run of explore, Rust' 64 "$work/rust/target/release/explored"
fi
if command -v python3 >/dev/null; then
    python=$(python3 -c 'import sys; print(sys.executable)')
    export PYTHONPATH="$top/bindings/python" PYTHONHASHSEED=0 PYTHONDONTWRITEBYTECODE=1
    export BLOBCRASH_LIBRARY="${archive%.a}.so"
    tell 'a run of explore, Python' 64 "$python" "$top/benches/explore.py"
    tell 'a typed write, Python' 100 "$python" "$top/benches/explore.py" write
fi
