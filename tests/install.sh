#!/bin/sh
# Tests of bindings/install.sh: what it installs, with and without DESTDIR, and programs in C, Python and Rust in folders far from the
# repository that use what it has installed. The last line is `N passed, M failed`.
top=$(CDPATH='' cd -- "$(dirname -- "$0")/.." && pwd -P)
# shellcheck source=tests/counting.sh
. "$top/tests/counting.sh"
release=$(sed -n 's/^const VERSION: &str = "blobcrash \([0-9.]*\),.*/\1/p' "$top/crates/blobcrash/src/main.rt")

need_program explain explore files states
sh "$top/bindings/build.sh" || give_up "the library can't be built"
prefix=$work/prefix
ok 'it installs' sh "$top/bindings/install.sh" "$prefix"
ok 'it installs again, over itself' sh "$top/bindings/install.sh" "$prefix/"
# expect_status N COMMAND..: whether the command ends with this status.
expect_status() {
    wanted=$1
    shift
    "$@" >"$work/shown" 2>&1
    [ $? -eq "$wanted" ]
}
ok 'without a prefix it installs nothing' expect_status 2 sh "$top/bindings/install.sh"
ok 'a relative prefix is refused' expect_status 2 sh "$top/bindings/install.sh" prefix
# shellcheck disable=SC2016
for hostile in '$(touch ran)' '`touch ran`' '"; touch ran; "' 'a b' 'a
b'; do
    ok "a prefix that a shell would read: $hostile" expect_status 2 sh "$top/bindings/install.sh" "$work/$hostile"
done

cat >"$work/files" <<FILES
bin/blobcrash
include/blobcrash/blobcrash.h
include/blobcrash/blobcrash_calls.h
include/blobcrash/blobcrash_files.h
include/blobcrash/blobcrash_files_calls.h
include/blobcrash/blobcrash_lines.h
include/blobcrash/explore.h
include/blobcrash/explore_files.h
include/blobcrash/fork.h
include/blobcrash/power.h
include/blobcrash/unkept.h
lib/libblobcrash.a
lib/libblobcrash.so
lib/libblobcrash.so.${release%.*}
lib/libblobcrash.so.$release
lib/pkgconfig/blobcrash.pc
libexec/blobcrash/blobcrash
libexec/blobcrash/blobcrash_explain
libexec/blobcrash/blobcrash_explore
libexec/blobcrash/blobcrash_files
libexec/blobcrash/blobcrash_states
share/bash-completion/completions/blobcrash
share/blobcrash/tools/check
share/blobcrash/tools/commands.txt
share/blobcrash/tools/crash_page
share/blobcrash/tools/diagnose
share/blobcrash/tools/door.sh
share/blobcrash/tools/judge
share/blobcrash/tools/shrink
share/blobcrash/tools/states
share/blobcrash/tools/watch
share/fish/vendor_completions.d/blobcrash.fish
share/man/man1/blobcrash.1
share/zsh/site-functions/_blobcrash
FILES
(cd "$top" && ls bindings/python/blobcrash/*.py bindings/python/blobcrash_page/*.py bindings/python/blobcrash_page/*.js \
    bindings/python/blobcrash_page/*.css) | sed 's|^|share/blobcrash/|' >>"$work/files"
if has pkg-config && pkg-config --atleast-version=3.10 fuse3; then
    cat >>"$work/files" <<'FILES'
libexec/blobcrash/blobcrash_mount
share/blobcrash/adapters/mount/build.sh
share/blobcrash/tools/check_program
share/blobcrash/tools/crash_run
share/blobcrash/tools/mount
share/blobcrash/tools/mountctl
FILES
    (cd "$top" && ls adapters/mount/*.py) | sed 's|^|share/blobcrash/|' >>"$work/files"
    ok 'the mount, from a folder that was moved' sh -c 'cp -R "$1" "$2" && "$2/bin/blobcrash" mountctl --help' sh "$prefix" "$work/moved"
else
    skip 'the mount: there is no libfuse 3'
fi
LC_ALL=C sort -o "$work/files" "$work/files"
list() { (cd "$1" && find . ! -type d | sed 's|^\./||' | LC_ALL=C sort); }
list "$prefix" >"$work/found"
ok 'its files' diff "$work/files" "$work/found"
DESTDIR=$work/package sh "$top/bindings/install.sh" /usr >"$work/shown" 2>&1
list "$work/package/usr" >"$work/found"
ok 'its files below DESTDIR' diff "$work/files" "$work/found"
(umask 077 && sh "$top/bindings/install.sh" "$work/strict") >"$work/shown" 2>&1
list "$work/strict" >"$work/found"
ok 'its files under umask 077' diff "$work/files" "$work/found"
find "$work/strict" ! -type l \( ! -perm -444 -o -type d ! -perm -111 \) >"$work/found"
ok 'under umask 077 others can read them' test ! -s "$work/found"
ok 'DESTDIR is not in blobcrash.pc' grep -qx 'prefix=/usr' "$work/package/usr/lib/pkgconfig/blobcrash.pc"

mkdir "$work/far"
cd "$work/far" || exit 1
unset BLOBCRASH BLOBCRASH_LIBRARY BLOBCRASH_LIB_DIR
"$prefix/bin/blobcrash" <"$top/examples/FIRST.script" >"$work/out"
ok 'the program' cmp "$work/out" "$top/examples/FIRST.out"
"$prefix/bin/blobcrash" explain <"$top/examples/torn_write_subset.script" >"$work/out"
ok 'explain' grep -q '^# ' "$work/out"
printf 'config write 0 1 1 2 prefix\nopen p 62\nwrite 0 0 61\ncrash\n' | "$prefix/bin/blobcrash" explore --limit 9 >"$work/out"
ok 'explore, with its arguments' grep -qx '# 2 leaves, all of them; 2 outcomes' "$work/out"
"$prefix/bin/blobcrash" help >"$work/shown_help"
for named in explain explore files 'files explore' check judge shrink page mount resolve help version; do
    ok "help names $named" grep -q "^  $named\( \|\$\)" "$work/shown_help"
done
ok 'help names nothing that a release lacks' [ -z "$(grep '^  build' "$work/shown_help")" ]
ok 'wrong arguments' expect_status 2 "$prefix/bin/blobcrash" explain more
"$prefix/bin/blobcrash" explian >"$work/out" 2>"$work/err"
ok 'a hint' grep -qF 'did you mean `explain`?' "$work/err"
printf 'wirte 0 0 61\n' >"$work/bad"
"$prefix/bin/blobcrash" <"$work/bad" >"$work/out" 2>"$work/err"
ok 'why a line is bad' grep -qF '`wirte`: no such call; did you mean `write`?' "$work/err"
# The tools in Python, over what is installed alone.
tooled() { env -u PYTHONPATH PYTHONDONTWRITEBYTECODE='' "$prefix/bin/blobcrash" "$@"; }
lost=$top/examples/forgotten_sync.script
if has_python; then
    printf 'open p 62\nwrite 0 0 61\n# acknowledged p 62 0 61\ncrash\nreopen\n' >"$work/lost"
    tooled judge "$work/lost" >"$work/out" 2>"$work/err"
    ok 'judge' [ "$? $(wc -l <"$work/out")" = '1 1' ]
    tooled shrink "$work/lost" >"$work/out" 2>"$work/err"
    ok 'shrink' grep -qx 'crash' "$work/out"
    tooled check "$work/bad" >"$work/out" 2>"$work/err"
    ok 'check' [ $? -eq 2 ]
    tooled page <"$lost" >"$work/out" 2>"$work/err"
    ok 'page' grep -qi '<html' "$work/out"
    tooled states --out "$work/kept" "$lost" -- false >"$work/out" 2>"$work/err"
    ok 'states of checks' grep -q ' states, all of them; ' "$work/out"
    printf 'open p 62\n' | tooled explore --json >"$work/out" 2>"$work/err"
    ok 'explore --json' grep -qxF '{"leaves": 1, "outcomes": 1, "complete": true}' "$work/out"
    for shell in bash zsh fish; do
        tooled completion "$shell" >"$work/out" 2>"$work/err"
        ok "completion $shell" sh -c '"$1/blobcrash" completion "$2" | cmp - "$3"' sh "$top" "$shell" "$work/out"
    done
    ok 'they leave no files' [ -z "$(find "$prefix" -name __pycache__)" ]
fi
if has man; then
    ok 'the manual page' sh -c 'MANROFFSEQ="" man --warnings -l "$1" 2>"$2" >/dev/null && [ ! -s "$2" ]' sh \
        "$prefix/share/man/man1/blobcrash.1" "$work/err"
else
    leave_out 'the manual page: there is no man'
fi
if has readelf; then
    readelf -d "$prefix/lib/libblobcrash.so" >"$work/dynamic"
    ok 'its SONAME' grep -qF "[libblobcrash.so.${release%.*}]" "$work/dynamic"
else
    skip 'its SONAME: there is no readelf'
fi

# A program in C, with the flags of pkg-config. The loader finds the shared library in LD_LIBRARY_PATH alone.
expected='6 of 6 bytes'
if has pkg-config; then
    cp "$top/bindings/c/first.c" .
    export PKG_CONFIG_PATH="$prefix/lib/pkgconfig"
    # shellcheck disable=SC2046
    ok 'cc with pkg-config' "${CC:-cc}" -o first first.c $(pkg-config --cflags --libs blobcrash)
    LD_LIBRARY_PATH=$prefix/lib ./first >"$work/out"
    ok 'what it prints' grep -qx "$expected" "$work/out"
    ok 'the version of pkg-config' [ "$(pkg-config --modversion blobcrash)" = "$release" ]
else
    skip 'pkg-config: it is missing'
fi
ok 'cc with the static library' "${CC:-cc}" -I"$prefix/include/blobcrash" -o static "$top/bindings/c/first.c" "$prefix/lib/libblobcrash.a"
./static >"$work/out"
ok 'what that prints' grep -qx "$expected" "$work/out"

if has_python; then
    cp -R "$top/bindings/python/blobcrash" .
    BLOBCRASH_LIBRARY=$prefix/lib/libblobcrash.so BLOBCRASH=$prefix/bin/blobcrash python3 -c '
from blobcrash import Library, Program, Store
for way in (Library, Program):
    with Store(seed=7, by=way) as store:
        store.open("p", b"b")[0].write(0, b"record", sync=True)
        store.restart()
        assert store.open("p", b"b")[1] == 6' >"$work/out" 2>&1
    ok 'the Python package over it' [ $? -eq 0 ]
else
    skip 'the Python package: there is no Python 3.8 or later'
fi

if has cargo; then
    mkdir -p rust/src
    cat >rust/Cargo.toml <<TOML
[package]
name = "far"
version = "0.1.0"
edition = "2024"

[dependencies]
blobcrash = { path = "$top/bindings/rust" }
TOML
    cat >rust/src/main.rs <<'RUST'
use blobcrash::{Store, WriteOptions};

fn main() -> Result<(), blobcrash::Error> {
    let store = Store::builder().seed(7).open()?;
    let (blob, _) = store.open("p", b"b")?;
    blob.write_at(0, b"record", WriteOptions::SYNC)?;
    store.restart()?;
    println!("{}", store.open("p", b"b")?.1);
    Ok(())
}
RUST
    (cd rust && BLOBCRASH_LIB_DIR=$prefix/lib CARGO_TARGET_DIR=$work/target cargo run --quiet --offline) >"$work/out" 2>"$work/err"
    ok 'a path dependency of cargo' [ "$(cat "$work/out")" = 6 ]
    [ "$(cat "$work/out")" = 6 ] || tail -n 20 "$work/err"
else
    skip 'a path dependency of cargo: cargo is missing'
fi
finish
