#!/bin/sh
# tests/release.sh [all [ROOT]]: tests of tools/release: what it writes is the same to the byte in another folder, on one processor and with
# other settings of the user; lintian; and that it works in a root without the toolchain and the repository (tests/released.sh), its program
# with the C library alone. With `all` the library and the programs are compiled again for the comparison, on one processor, and everything is
# tested in a new Debian too, or in ROOT, which debootstrap made; that takes minutes. The last line is `N passed, M failed`.
# shellcheck disable=SC2016,SC2317
top=$(CDPATH='' cd -- "$(dirname -- "$0")/.." && pwd -P)
# shellcheck source=tests/counting.sh
. "$top/tests/counting.sh"
all=${1:-}
made_root=${2:-}
packages=python3,python3-pip,python3-pytest,python3-venv,gcc,libc6-dev,pkg-config,fuse3,man-db,xz-utils,curl
: "${CARGO_HOME:=$HOME/.cargo}" "${RUSTUP_HOME:=$HOME/.rustup}"
released=$work/release
clean=$work/clean

# as_root COMMAND ..: runs it as root in a namespace of its own, where mounts are its own.
as_root() {
    user='--user --map-root-user'
    [ "$(id -u)" -ne 0 ] || user=
    # shellcheck disable=SC2086
    unshare $user --mount --pid --fork "$@"
}

# Enters the root $1, with the release and the tests in /shared, and runs tests/released.sh there. It is the text of a shell, since the mounts
# are in a namespace. Cargo is that of this machine, since no Debian release has one that is new enough.
# shellcheck disable=SC2016
entering='
    set -e
    root=$1
    mkdir -p "$root/proc" "$root/dev" "$root/shared" "$root/tmp" "$root/rust/cargo" "$root/rust/rustup"
    mount --rbind "$2" "$root/shared"
    mount --rbind /dev "$root/dev"
    mount -t proc proc "$root/proc" || mount --rbind /proc "$root/proc"
    if [ -d "$3/bin" ] && [ -d "$4" ]; then
        mount --bind "$3" "$root/rust/cargo"
        mount --bind "$4" "$root/rust/rustup"
    fi
    exec env -i CI="${CI:-}" PATH=/rust/cargo/bin:/usr/sbin:/usr/bin:/sbin:/bin CARGO_HOME=/rust/cargo RUSTUP_HOME=/rust/rustup \
        chroot "$root" sh /shared/released.sh /shared/release /shared/work'

# test_in ROOT [LINE]: tests the release in this root, after the commands of LINE.
test_in() {
    rm -rf "$work/shared"
    mkdir -p "$work/shared/work"
    cp -R "$released" "$work/shared/release"
    cp "$top/tests/released.sh" "$top/tests/counting.sh" "$work/shared"
    chmod -R a+rX "$work/shared"
    if ! as_root true 2>/dev/null; then
        leave_out 'a clean root: there is no right to make one'
        return
    fi
    as_root sh -c "${2:-} $entering" sh "$1" "$work/shared" "$CARGO_HOME" "$RUSTUP_HOME" >"$work/inside" 2>&1
    sed '/^[0-9]* passed, [0-9]* failed/d' "$work/inside"
    counts=$(sed -n 's/^\([0-9]*\) passed, \([0-9]*\) failed,* *\([0-9]*\).*/\1 \2 \3/p' "$work/inside" | tail -n 1)
    # shellcheck disable=SC2086
    set -- ${counts:-0 1}
    passed=$((passed + $1))
    failed=$((failed + $2))
    skipped=$((skipped + ${3:-0}))
}

if ! has git dpkg-deb xz ldd objdump; then
    leave_out 'all of it: git, dpkg-deb, xz or objdump is missing'
    finish
fi
if ! has_python || ! (cd "$top/tools" && python3 -B -c 'import releasing.wheel, sys; sys.exit(not releasing.wheel.python_with_setuptools())'); then
    skip 'all of it: there is no Python with setuptools and wheel'
    finish
fi
need_program explain explore files states
sh "$top/bindings/build.sh" || give_up "the library can't be built"
kit=$(dirname -- "$(dirname -- "$(readlink -f -- "$(command -v rt || echo /opt/rattle/bin/rt)")")")
url=https://example.org/crash/blobcrash
mode="--draft --url $url"
[ -z "$all" ] || mode="--url $url"
# shellcheck disable=SC2086
ok 'a release' "$top/tools/release" $mode --out "$released"
[ -f "$released/SHA256SUMS" ] || finish
for name in PROVED 'blobcrash-*-x86_64-linux.tar.xz' 'blobcrash-*-py3-none-manylinux_2_17_x86_64.whl' 'blobcrash_*_amd64.deb' 'blobcrash-mount_*_amd64.deb' \
    'libblobcrash*_amd64.deb' 'libblobcrash-dev_*_amd64.deb' 'blobcrash-*.spdx.json'; do
    # shellcheck disable=SC2086
    ok "it has $name" sh -c 'ls "$1"/'$name sh "$released"
done
ok 'PROVED names the commit' grep -q "^commit .*$(git -C "$top" log -1 --format=%H)" "$released/PROVED"
ok 'PROVED names each linked crate' [ "$(grep -c '^blob[a-z_]* [0-9a-f]\{64\}$' "$released/PROVED")" -ge 28 ]
ok 'the SBOM' python3 -c 'import json, sys
document = json.load(open(sys.argv[1]))
names = {it["name"]: it for it in document["packages"]}
assert names["hex"]["versionInfo"] == "0.4.3" and names["hex"]["licenseDeclared"] == "Apache-2.0 OR MIT", names["hex"]
assert names["commonware-runtime"]["versionInfo"] == "2026.10.0", names["commonware-runtime"]
assert {it["relatedSpdxElement"] for it in document["relationships"]} == {it["SPDXID"] for it in document["packages"]}' "$released"/*.spdx.json

# What it says of itself to those who pass it on: the address, the credit, the description; and what each package needs.
mkdir "$work/parts"
(cd "$work/parts" && tar -xJf "$released"/*.tar.xz --strip-components=1 && python3 -m zipfile -e "$released"/*.whl .) || fail 'unpack'
for name in blobcrash blobcrash-mount; do
    dpkg-deb -f "$released/$name"_*.deb >"$work/parts/$name.control"
    dpkg-deb --fsys-tarfile "$released/$name"_*.deb | tar -tf - >"$work/parts/$name.files"
done
dpkg-deb --fsys-tarfile "$released"/blobcrash_*.deb | tar -xOf - ./usr/share/doc/blobcrash/copyright >"$work/parts/copyright"
ok 'PROVED has the address' grep -qx "url       $url" "$released/PROVED"
ok 'the packages have it' grep -qx "Homepage: $url" "$work/parts/blobcrash.control"
ok 'the crate has it' [ "$(grep -c "= \"$url\"\$" "$work/parts/share/blobcrash/rust/Cargo.toml")" -eq 3 ]
metadata=$(ls "$work"/parts/blobcrash-*.dist-info/METADATA)
for field in 'Author: The Zofemiru developers' "Project-URL: Homepage, $url" 'Classifier: Framework :: Pytest' 'License-File: NOTICE' '# blobcrash'; do
    ok "the wheel: $field" grep -qx "$field" "$metadata"
done
ok 'no file has the placeholder' sh -c '! grep -rq "blobcrash\.invalid" "$1"/share/blobcrash "$1"/blobcrash-*.dist-info "$1"/*.control' sh "$work/parts"
for file in share/doc/blobcrash/NOTICE copyright; do
    ok "credit in $file" grep -q 'crates.io/crates/commonware-runtime' "$work/parts/$file"
done
ok 'that of the mount has the mount' grep -q '/blobcrash_mount$' "$work/parts/blobcrash-mount.files"
ok 'that of the programs has none of it' sh -c '! grep -q "_mount$\|/mount$\|/mountctl$\|/crash_run$\|/check_program$\|adapters" "$1"' sh "$work/parts/blobcrash.files"
ok 'it has the tools in Python' sh -c 'grep -q "/tools/watch$" "$1" && grep -q "/blobcrash/states\.py$" "$1"' sh "$work/parts/blobcrash.files"
ok 'and needs the library and Python' grep -qx 'Depends: libblobcrash0.3 (= .*), libc6 (>= 2\.[0-9]*), python3:any (>= 3\.8)' "$work/parts/blobcrash.control"
dpkg-deb -x "$released"/blobcrash_*.deb "$work/only"
"$work/only/usr/bin/blobcrash" mount "$work/parts" >"$work/out" 2>&1
ok 'without the mount' [ "$?:$(cat "$work/out")" = "127:blobcrash: the mount isn't installed (the package blobcrash-mount of a release)" ]
for bad in 'example.org' 'https://' 'https://a b' 'https://a"b'; do
    "$top/tools/release" --draft --url "$bad" --out "$work/none" >"$work/out" 2>&1
    ok "no address: $bad" [ $? -eq 2 ]
done

# Again, from a copy in another folder.
if [ -z "$all" ]; then
    again=$work/again
    copy="$work/another copy"
    mkdir -p "$copy/out"
    (cd "$top" && tar -cf - --exclude=./out --exclude='./crates/*/out' --exclude=target . | tar -xf - -C "$copy")
    for name in $(cd "$top/out" && ls -d blobcrash blobcrash_* libblobcrash.a libblobcrash.so); do
        [ ! -f "$top/out/$name.sum" ] || cp -p "$top/out/$name" "$top/out/$name.sum" "$copy/out"
    done
    # What the gate said is in PROVED.
    if [ -f "$top/out/gate.sums" ] && [ -f "$top/out/test/rt ci/log" ]; then
        mkdir -p "$copy/out/test/rt ci"
        cp "$top/out/gate.sums" "$copy/out/gate.sums"
        cp "$top/out/test/rt ci/log" "$copy/out/test/rt ci/log"
    fi
    one=
    ! has taskset || one='taskset -c 0'
    # shellcheck disable=SC2086,SC2016
    ok 'a release from another folder' env TZ=Asia/Tokyo LC_ALL=C sh -c 'umask 077 && exec "$@"' sh \
        $one "$copy/tools/release" $mode --out "$again"
    ok 'it is the same to the byte' diff -r "$released" "$again"
    rm -rf "$copy" "$again"
else
    # One file of the copy is changed, so that it differs and the others don't.
    cp -R "$released" "$work/changed"
    echo >>"$(ls "$work"/changed/*.spdx.json)"
    taskset -c 0 "$top/tools/release" --verify "$work/changed/SHA256SUMS" --kept >"$work/out" 2>"$work/err"
    ok 'the commit built again, on one processor: a changed file differs' [ $? -eq 1 ]
    ok 'that file alone' sh -c '[ "$(grep -c ": differs$" "$1")" = 1 ] && grep -q "\.spdx\.json: differs$" "$1"' sh "$work/out"
    ok 'the others are the same' [ "$(grep -c ': the same$' "$work/out")" -eq 8 ]
    grep -q ': the same$' "$work/out" || tail -n 20 "$work/err"
fi

"$top/tools/release" --verify "$work/none/PROVED" >"$work/out" 2>&1
ok 'nothing to verify' [ "$? $(cat "$work/out")" = "1 release: there is no $work/none/PROVED" ]
if [ -z "$all" ]; then
    "$top/tools/release" --verify "$released/PROVED" >"$work/out" 2>&1
    ok 'a draft is not verified' grep -q 'PROVED names no commit' "$work/out"
fi
if has lintian; then
    ok 'lintian' lintian --allow-root --fail-on error,warning "$released"/*.deb
else
    leave_out 'lintian is missing'
fi

# The start of a program that tools/link gives it: with the C library of 2.17, and the arguments arrive.
echo 'extern long rattle_arg_count(void);
int main(int count, char **words) { return words[count - 1][0] == 98 ? (int)rattle_arg_count() : 1; }' >"$work/words.c"
ok 'a program' "$kit/toolchain/bin/clang" -O2 -fPIC -c -o "$work/words.o" "$work/words.c"
ok 'tools/link' "$top/tools/link" "$kit" "$work/words.o" "$work/words"
"$work/words" a b
ok 'its arguments' [ $? -eq 3 ]
needs_old() { ! objdump -T "$1" | grep -E 'GLIBC_2\.(1[89]|[2-9][0-9])'; }
ok 'the C library that it needs' needs_old "$work/words"

if objdump -T "$program" | grep -q '(GLIBC_2\.34)'; then
    leave_out 'the C library that the program needs: the gate took it from an earlier run'
else
    ok 'the C library that the program needs' needs_old "$program"
    ok 'its package needs no newer one' grep -Eq 'libc6 \(>= 2\.([0-9]|1[0-7])\)' "$work/parts/blobcrash.control"
fi
if has qemu-x86_64; then
    for processor in Nehalem:0 Conroe:127; do
        qemu-x86_64 -cpu "${processor%:*}" "$program" </dev/null >"$work/out" 2>&1
        ok "on the processor ${processor%:*}" [ $? -eq "${processor#*:}" ]
    done
else
    leave_out 'processors without its instructions: there is no qemu-x86_64'
fi

# The program in a root that has the C library alone.
bare=$work/bare
mkdir -p "$bare"
tar -xJf "$released"/*.tar.xz -C "$bare" --strip-components=1
for file in $(ldd "$bare/libexec/blobcrash/blobcrash" | sed -n 's/.*[[:space:]]\(\/[^ ]*\) (.*/\1/p'); do
    mkdir -p "$bare${file%/*}"
    cp -L "$file" "$bare$file"
done
ok 'it needs the C library alone' [ "$(find "$bare" -path "$bare/lib*" -name '*.so*' ! -name 'libblobcrash*' | wc -l)" -eq 2 ]
as_root chroot "$bare" /libexec/blobcrash/blobcrash <"$top/examples/FIRST.script" >"$work/out" 2>&1
ok 'it runs with the C library alone' cmp "$work/out" "$top/examples/FIRST.out"
rm -rf "$bare"

# A root with the packages of this machine, without its toolchain, home and repository.
mkdir -p "$clean"
# shellcheck disable=SC2016
test_in "$clean" '
    set -e
    for name in usr etc bin sbin lib lib64; do
        if [ -L "/$name" ]; then
            ln -s "$(readlink "/$name")" "$1/$name"
        elif [ -d "/$name" ]; then
            mkdir "$1/$name"
            mount --bind "/$name" "$1/$name"
            mount -o remount,bind,ro "$1/$name" || true
        fi
    done'

# A new Debian, with the packages installed.
if [ -n "$all" ]; then
    root=${made_root:-$work/root}
    if [ -z "$made_root" ]; then
        ok 'debootstrap' debootstrap --variant=minbase --include="$packages" bookworm "$root"
    fi
    ok 'the packages install' sh -c 'mkdir -p "$1/packages" && cp "$2"/*.deb "$1/packages" && chroot "$1" sh -c "dpkg -i /packages/*.deb && ldconfig"' \
        sh "$root" "$released"
    test_in "$root"
fi
finish
