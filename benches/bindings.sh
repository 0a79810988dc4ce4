#!/bin/sh
# Times calls in-process from C, Rust and Python, if the language's tools are installed, and by a pipe from Python. Prints to
# standard error. A test runs it, and compares no time. The argument is the seconds for each figure, 0.5 if none is given.
set -eu

top=$(CDPATH='' cd -- "$(dirname -- "$0")/.." && pwd -P)
work=$(mktemp -d)
trap 'rm -rf "$work"' EXIT
# Times only the proved program.
export BLOBCRASH_PROVED=1
seconds=${1:-0.5}

sh "$top/bindings/build.sh"
compiler=${CC:-cc}
if command -v "$compiler" >/dev/null; then
    "$compiler" -std=c11 -O2 -I"$top/bindings/c" -o "$work/times" "$top/bindings/c/times.c" "$top/out/libblobcrash.a"
    "$work/times" "$seconds"
fi
if command -v cargo >/dev/null && command -v "$compiler" >/dev/null; then
    (cd "$top/bindings/rust" && CARGO_TARGET_DIR=$top/out/rust cargo run --release --offline --quiet --example times -- "$seconds")
fi
if command -v python3 >/dev/null && [ -f "$top/out/libblobcrash.so" ]; then
    "$top/blobcrash" </dev/null
    export BLOBCRASH="$top/out/blobcrash"
    PYTHONDONTWRITEBYTECODE=1 python3 "$top/bindings/python/times.py" "$seconds"
fi
