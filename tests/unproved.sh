#!/bin/sh
# Tests of what tools/unproved compiles without a proof. Two builds of the library are equal to the byte, it exports what the headers
# declare, the worked scripts have their outputs over it (tests/unproved.py), clients of a clone without a proved library take it and say so
# once, and a build that is stopped or killed leaves no process and no file. A program is compiled with and without the checks. The last
# line is `N passed, M failed`.
top=$(CDPATH='' cd -- "$(dirname -- "$0")/.." && pwd -P)
# shellcheck source=tests/counting.sh
. "$top/tests/counting.sh"
# shellcheck source=tests/running.sh
. "$top/tests/running.sh"
unset BLOBCRASH_PROVED BLOBCRASH_LIBRARY BLOBCRASH_ARCHIVE BLOBCRASH_LIB_DIR BLOBCRASH
rt=$(command -v rt) || rt=/opt/rattle/bin/rt
if [ ! -x "$rt" ]; then
    skip 'all of it: the Rattle toolchain is missing'
    finish
fi
export PYTHONDONTWRITEBYTECODE=1
unproved=$top/tools/unproved
kept=$(sh -c '. "$1/tools/building.sh" && cache_folder' sh "$top")/unproved

# A build that is stopped, by a signal that can be caught and by one that can't: nothing goes on, and no file is left.
is_left() { grep -lsa "$work/into[/]new" /proc/[0-9]*/cmdline; }
mkdir "$work/into"
for signal in TERM KILL; do
    python3 "$unproved" --library "$work/into" 2>"$work/err" &
    build=$!
    for _ in $(seq 600); do
        [ -z "$(is_left)" ] || break
        sleep 0.2
    done
    ok "a build is under way" [ -n "$(is_left)" ]
    kill -s "$signal" "$build"
    wait "$build"
    for _ in $(seq 300); do
        [ -n "$(is_left)" ] || [ "$(ls "$work/into")" != lock-blob_c ] || break
        sleep 0.2
    done
    ok "after SIG$signal no process goes on" [ -z "$(is_left)" ]
    ok "after SIG$signal no file is left" [ "$(ls "$work/into")" = lock-blob_c ]
done

# The library of these sources is kept for all clones. A new one is the same.
ok 'the library' "$unproved" --library "$kept"
library=$kept/$(sh -c 'top=$1 && . "$top/tools/building.sh" && unproved_name "$top" blob_c "$2"' sh "$top" "$(dirname -- "$(dirname -- "$(readlink -f "$rt")")")")
ok 'the library again' "$unproved" --library "$work/again"
ok 'is the same to the byte' diff -r "$library" "$work/again/${library##*/}"
if has_python; then
    PYTHONPATH=$top/bindings/python BLOBCRASH_LIBRARY=$library/libblobcrash.so add python3 "$top/tests/unproved.py" "$library"
else
    skip 'its exports: there is no Python 3.8 or later'
fi

# A clone without a proved library.
clone=$work/clone
copy_sources "$clone"
note='not proved yet: sh bindings/build.sh proves and builds the library, about N minutes'
said() { sed 's/about [0-9]* minutes/about N minutes/' "$work/err"; }
run sh "$clone/bindings/build.sh" --unproved
ok 'build.sh --unproved prints its folder' [ "$status:$(cat "$work/out"):$(said)" = "0:$library:$note" ]
run env BLOBCRASH_PROVED=1 sh "$clone/bindings/build.sh" --unproved
ok 'with BLOBCRASH_PROVED it is refused' [ "$status:$(cat "$work/out")" = 2: ]
cat >"$work/stores.py" <<'PYTHON'
from blobcrash import Library, Store

for _ in range(2):
    with Store(by=Library) as store:
        store.open("p", b"b")
PYTHON
if has_python; then
    run env PYTHONPATH="$clone/bindings/python" python3 "$work/stores.py"
    ok 'Python takes it, and says so once' [ "$status:$(said)" = "0:$note" ]
    run env PYTHONPATH="$clone/bindings/python" python3 -m blobcrash version
    ok 'its version says so' [ "$status:$(cat "$work/out")" = "0:blobcrash $(sed -n 's/^__version__ = "\(.*\)"/\1/p' "$top/bindings/python/blobcrash/__init__.py"), not proved" ]
    run env PYTHONPATH="$clone/bindings/python" python3 -m blobcrash version more
    ok 'arguments of version' [ "$status" -eq 2 ]
    run env BLOBCRASH_PROVED=1 PYTHONPATH="$clone/bindings/python" python3 "$work/stores.py"
    ok 'with BLOBCRASH_PROVED it doesn'"'"'t' grep -q 'LibraryMissing' "$work/err"
fi
if has cc; then
    cc -std=c11 "-I$clone/bindings/c" -o "$work/first" "$clone/bindings/c/first.c" "$(sh "$clone/bindings/build.sh" --unproved 2>/dev/null)/libblobcrash.a"
    ok 'C' "$work/first"
else
    skip 'C: there is no C compiler'
fi
if has cargo; then
    run env CARGO_TARGET_DIR="$work/target" cargo run --offline --manifest-path "$clone/bindings/rust/Cargo.toml" --example first
    ok 'Rust' [ "$status:$(cat "$work/out")" = '0:63 of 64 outcomes lose a part of it' ]
    ok 'it says so' grep -q 'not proved yet' "$work/err"
    mkdir -p "$work/mine/src"
    printf '[package]\nname = "mine"\nedition = "2024"\n[dependencies]\nblobcrash = { path = "%s" }\n' "$clone/bindings/rust" >"$work/mine/Cargo.toml"
    echo 'fn main() { println!("{} {}", blobcrash::version(), blobcrash::is_proved()); }' >"$work/mine/src/main.rs"
    run env CARGO_TARGET_DIR="$work/target" cargo run -q --offline --manifest-path "$work/mine/Cargo.toml"
    ok 'its version says so' grep -qx 'blobcrash [0-9.]*, not proved false' "$work/out"
else
    skip 'Rust: there is no cargo'
fi
if has cc pkg-config && pkg-config --atleast-version=3.10 fuse3; then
    run sh "$clone/adapters/mount/build.sh"
    ok 'the mount' [ "$status:$(cat "$work/out"):$(said)" = "0:$clone/out/mount/blobcrash_mount:$note" ]
    ok 'is linked with it' [ "$(cat "$clone/out/mount/blobcrash_mount.archive")" = "$library/libblobcrash.a" ]
else
    skip 'the mount: libfuse 3 is missing'
fi

# Programs.
for checked in '' --checked; do
    # shellcheck disable=SC2086
    ok "a program $checked" "$unproved" $checked blobcrash "$work/programs"
    set -- "$work/programs/${checked:+checked.}blobcrash".*
    run "$1" resolve <<'IN'
4357494300000005616263
IN
    ok "its output $checked" [ "$status:$(cat "$work/out")" = '0:valid 3 5 8' ]
    run "$1" version
    ok "its version $checked" grep -q '^blobcrash [0-9.]*, not proved yet with rattle-kit' "$work/out"
    # The sanitizer's functions are in it, or not.
    if grep -q __asan_init "$1"; then found=--checked; else found=; fi
    ok "its checks $checked" [ "$found" = "$checked" ]
done
finish
