#!/bin/sh
# Proves and builds the library for other languages: out/libblobcrash.a for C and Rust, out/libblobcrash.so for Python. Each depends only
# on the C library, and its bytes only on the sources and the toolchain, which also links. Does nothing if they are current. `./test`
# calls it with `--over-gate FOLDER SUMS` after a gate in that folder that passed, with the checksums of its sources.
#
# `build.sh --unproved` prints the folder of a library of the current sources: `out`, if the proved one is current, or else that of one
# which is compiled without a proof, in a minute or two, and kept for all clones. With BLOBCRASH_PROVED it is refused.
set -eu

top=$(CDPATH='' cd -- "$(dirname -- "$0")/.." && pwd -P)
out=$top/out

# shellcheck source=tools/building.sh
. "$top/tools/building.sh"

are_built() {
    is_built "$out/libblobcrash.a" blob_c && is_built "$out/libblobcrash.so" blob_c && grep -qF "$(soname)" "$out/libblobcrash.so"
}

is_unproved=false
if [ "${1:-}" = --unproved ]; then
    is_unproved=true
    if [ -n "${BLOBCRASH_PROVED:-}" ]; then
        echo "build.sh: with BLOBCRASH_PROVED no library without a proof is taken" >&2
        exit 2
    fi
fi
if are_built; then
    ! $is_unproved || echo "$out"
    exit 0
fi
rt=$(command -v rt) || rt=/opt/rattle/bin/rt
if [ ! -x "$rt" ]; then
    echo "build.sh: the Rattle toolchain is missing: there is no rt on PATH, and no /opt/rattle/bin/rt" >&2
    exit 127
fi
kit=$(CDPATH='' cd -- "$(dirname -- "$(readlink -f "$rt")")/.." && pwd -P)

if $is_unproved; then
    minutes=$(about_minutes "$(crates_of "$top" blob_c | proof_seconds)")
    echo "not proved yet: sh bindings/build.sh proves and builds the library, about $minutes minutes" >&2
    folder=$(cache_folder)/unproved || exit 125
    until made=$folder/$(unproved_name "$top" blob_c "$kit") && [ -d "$made" ]; do
        run "$top/tools/unproved" --library "$folder" || exit 1
    done
    touch "$made"
    echo "$made"
    exit 0
fi

mkdir -p "$out"
lock libblobcrash
! are_built || exit 0
# The toolchain's allocator, which is linked in.
heap=$kit/c/liblibc_c.a

# The libraries of blob_c in crates.txt.
below=$(sed -n 's/^blob_c staticlib://p' "$top/crates.txt")
sum=$(sum_of "$top" blob_c)

# gate_left_all FOLDER SUMS: whether each library below blob_c is that of the last gate, and the sources are still those of that gate.
# These libraries have no stamp. One with a stamp is from another command. `./test` removes those of an earlier gate when it starts.
gate_left_all() {
    grep -qsx "blob_c $sum" "$2" || return 1
    for name in $(crates_of "$top" blob_c | names_of); do
        rlib=$1/crates/$name/out/rlib
        [ "$name" = blob_c ] || { [ -f "$rlib/$name.rlib/format" ] && [ ! -f "$rlib/stamp" ]; } || return 1
    done
}

# compile PROVED: proves and builds blob_c with the proved libraries in PROVED/crates.
compile() {
    proved=$1/crates
    set -- -L "dependency=$kit/rlibs"
    for rlib in "$proved"/*/out/rlib; do
        set -- "$@" -L "dependency=$rlib"
    done
    for dep in std $below; do
        rlib=$kit/rlibs/$dep.rlib
        [ -d "$rlib" ] || rlib=$proved/$dep/out/rlib/$dep.rlib
        set -- "$@" --extern "$dep=$rlib"
    done
    cd "$top/crates/blob_c" && exec "$kit/bin/rattle" build --crate-name blob_c src/lib.rt "$@" \
        --antt-project "$kit/rattle/logic/antt-project.json" --logic-built "$kit/logic_built" --links blob_c= \
        --jobs "$(nproc)" --crate-type staticlib --toolchain "$kit/toolchain" --backend llvm -o "$library" \
        >"$out/blob_c.log" 2>&1 9>&-
}

# build [--over-gate FOLDER SUMS]: builds the library $library.
build() {
    if [ "${1:-}" = --over-gate ] && gate_left_all "$2" "$3"; then
        proved=$2
        work=$(mktemp -d)
    else
        # shellcheck disable=SC2086
        prove_copy bindings $below || return
        proved=$work/copy
    fi
    library=$work/libblob_c.a
    run compile "$proved" </dev/null || { tail -n 60 "$out/blob_c.log" >&2; return 1; }
}

: >"$out/bindings.began"
if ! build "$@"; then
    echo "build.sh: the build failed; see out/bindings.log and out/blob_c.log" >&2
    exit 1
fi

# The commands of `llvm-ar -M` can't name a path with spaces.
ln -s "$heap" "$work/heap.a"
(cd "$work" && printf 'create whole.a\naddlib libblob_c.a\naddlib heap.a\nsave\nend\n' | "$kit/toolchain/bin/llvm-ar" -M)
cp "$work/whole.a" "$out/libblobcrash.a.new"

# The shared library exports the calls alone.
echo '{ global: blobcrash_*; local: *; };' >"$work/exports"
"$kit/toolchain/bin/ld.lld" -m elf_x86_64 -shared -soname "$(soname)" --version-script "$work/exports" -z defs -z relro -z now \
    -z noexecstack --eh-frame-hdr --gc-sections --build-id=sha1 --fatal-warnings -o "$out/libblobcrash.so.new" \
    --whole-archive "$library" --no-whole-archive "$heap" "$kit/toolchain/lib/libc.so.6"
place "$out/libblobcrash.a" "$out/libblobcrash.a.new" "$sum" "$out/bindings.began"
place "$out/libblobcrash.so" "$out/libblobcrash.so.new" "$sum" "$out/bindings.began"
