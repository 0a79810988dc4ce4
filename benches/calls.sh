#!/bin/sh
# Times the calls of the script on standard input by kind, in-process, from C. Prints to standard error. A test runs it, and compares
# no time.
set -eu

top=$(CDPATH='' cd -- "$(dirname -- "$0")/.." && pwd -P)
work=$(mktemp -d)
trap 'rm -rf "$work"' EXIT

sh "$top/bindings/build.sh"
"${CC:-cc}" -std=c11 -O2 -I"$top/bindings/c" -o "$work/calls" "$top/benches/calls.c" "$top/out/libblobcrash.a"
"$work/calls"
