#!/bin/sh
# tests/released.sh FOLDER WORK: tests that what tools/release wrote to FOLDER works without anything else of the project: tests/release.sh
# runs it in a clean root, with counting.sh beside it. WORK is an empty folder. The packages for Debian are tested if they are installed. The
# last line is `N passed, M failed`.
# shellcheck disable=SC2016,SC2317
folder=$1
shared=$2
# shellcheck source=tests/counting.sh
. "$(dirname -- "$0")/counting.sh"
unset BLOBCRASH BLOBCRASH_LIBRARY BLOBCRASH_LIB_DIR BLOBCRASH_PROVED PYTHONPATH PKG_CONFIG_PATH LD_LIBRARY_PATH
export PYTHONDONTWRITEBYTECODE=1 HOME="$shared"

# The programs, from the prefix of an installation.
test_programs() {
    run=$1/bin/blobcrash
    examples=$1/share/doc/blobcrash/examples
    for script in "$examples"/*.script; do
        "$run" <"$script" >"$work/out"
        ok "$2: ${script##*/}" cmp "$work/out" "${script%.script}.out"
    done
    "$run" explain <"$examples/torn_write_subset.script" >"$work/out"
    ok "$2: explain" grep -qx '#     after    62 61 62 61 62 62 61 61' "$work/out"
    printf 'config write 0 1 1 2 prefix\nopen p 62\nwrite 0 0 61\ncrash\n' | "$run" explore --limit 9 >"$work/out"
    ok "$2: explore" grep -qx '# 2 leaves, all of them; 2 outcomes' "$work/out"
    for script in "$examples"/files/*.script; do
        "$run" files explore --last <"$script" >"$work/out"
        ok "$2: files explore, ${script##*/}" cmp "$work/out" "${script%.script}.out"
    done
    "$run" version >"$work/out"
    ok "$2: version" grep -q '^blobcrash [0-9]' "$work/out"
    "$run" help >"$work/out"
    ok "$2: help" grep -q '^  explain ' "$work/out"
    "$run" frob >"$work/out" 2>&1
    ok "$2: a word that is no command" [ $? -eq 2 ]
    if has_python; then
        printf 'open p 62\nwrite 0 0 61\n# acknowledged p 62 0 61\ncrash\nreopen\n' >"$work/lost"
        "$run" judge "$work/lost" >"$work/out" 2>&1
        ok "$2: judge" [ $? -eq 1 ]
        "$run" page <"$examples/torn_write_subset.script" >"$work/out"
        ok "$2: page" grep -qi '<html' "$work/out"
    fi
    if has man; then
        ok "$2: the manual page" sh -c 'man --warnings -l "$1" 2>&1 >/dev/null | grep .; [ $? -eq 1 ]' sh "$1"/share/man/man1/blobcrash.1*
    fi
    if has bash; then
        # shellcheck disable=SC2016
        bash -c '. "$1" && COMP_WORDS=(blobcrash expl) COMP_CWORD=1 && _blobcrash && echo "${COMPREPLY[*]}"' bash \
            "$1/share/bash-completion/completions/blobcrash" >"$work/out"
        ok "$2: completion" grep -qx 'explain explore' "$work/out"
    else
        skip "$2: completion: there is no bash"
    fi
}

# A program in C, with the flags of pkg-config and the further words; the library is in the folder $1.
test_c() {
    libraries=$1
    title=$2
    shift 2
    if ! has "${CC:-cc}" pkg-config; then
        skip "$title: there is no cc or no pkg-config"
        return
    fi
    # shellcheck disable=SC2046
    ok "$title: compile" "${CC:-cc}" -o "$work/first" "$@" $(pkg-config --cflags --libs blobcrash)
    LD_LIBRARY_PATH=$libraries "$work/first" >"$work/out"
    ok "$title: run" grep -qx '6 of 6 bytes' "$work/out"
}

# A Rust crate over that in the folder $1.
test_rust() {
    if ! has cargo; then
        skip "$2: there is no cargo"
        return
    fi
    rm -rf "$work/rust"
    mkdir -p "$work/rust/src"
    printf '[package]\nname = "far"\nversion = "0.1.0"\nedition = "2024"\n\n[dependencies]\nblobcrash = { path = "%s" }\n' "$1" \
        >"$work/rust/Cargo.toml"
    cp "$1/examples/first.rs" "$work/rust/src/main.rs"
    ok "$2: cargo build --offline" sh -c 'cd "$1" && cargo build --quiet --offline' sh "$work/rust"
    "$work/rust/target/debug/far" >"$work/out"
    ok "$2: run" grep -qx '63 of 64 outcomes lose a part of it' "$work/out"
}

# The wheel, by pip and pytest, with the examples in the folder $1.
test_python() {
    if ! python3 -c 'import pip' 2>/dev/null; then
        skip 'the wheel: there is no Python with pip'
        return
    fi
    ok 'the wheel: pip install' env PIP_ROOT_USER_ACTION=ignore python3 -m pip install --quiet --no-index --no-deps \
        --disable-pip-version-check --target "$work/site" "$folder"/*.whl
    export PYTHONPATH="$work/site"
    ok 'the wheel: a script' sh -c 'python3 -m blobcrash "$1.script" | cmp - "$1.out"' sh "$1/FIRST"
    if ! python3 -c 'import pytest' 2>/dev/null; then
        skip 'the wheel: there is no pytest'
        return
    fi
    mkdir -p "$work/tests"
    cp "$1/log.py" "$1/test_log_pytest.py" "$work/tests"
    cd "$work/tests" || exit 1
    PYTHONPATH=$work/site:$work/tests
    python3 -m pytest -q -p no:cacheprovider test_log_pytest.py >"$work/out" 2>&1
    ok 'the wheel: pytest' grep -q '^50 passed' "$work/out"
    LOG_FORGETS_SYNC=1 python3 -m pytest -q -p no:cacheprovider --blobcrash-shrink 1 --blobcrash-report pages test_log_pytest.py >"$work/out" 2>&1
    ok 'the wheel: pytest shows a picture of a failure' grep -q '^#     before' "$work/out"
    page=$(sed -n 's/^the page of this failure: //p' "$work/out" | head -n 1)
    ok 'the wheel: and a page' grep -q 'length [0-9]* before, [0-9]* after' "$page"
    cd / || exit 1
    unset PYTHONPATH
}

# The commands of the workflow of examples/ci_use.yml that takes the release, in a virtual environment, with the wheel alone.
test_workflow() {
    if ! has curl || ! python3 -c 'import pip, pytest' 2>/dev/null || ! python3 -m venv --without-pip --system-site-packages "$work/venv" 2>/dev/null; then
        leave_out 'the workflow: there is no curl, pip, pytest or venv'
        return
    fi
    printf '#!/bin/sh\nexec "%s/venv/bin/python3" -m pip "$@"\n' "$work" >"$work/venv/bin/pip"
    printf '#!/bin/sh\nexec "%s/venv/bin/python3" -m pytest "$@"\n' "$work" >"$work/venv/bin/pytest"
    chmod +x "$work/venv/bin/pip" "$work/venv/bin/pytest"
    release=${prefix##*/}
    mkdir -p "$work/repository" "$work/temporary"
    cp "$folder/SHA256SUMS" "$1/log.py" "$1/test_log_pytest.py" "$work/repository"
    sed -n '/run: |/,/- run:/{/run: |/d; s/^ *- run: //; p;}' "$1/ci_use.yml" >"$work/steps"
    (cd "$work/repository" && PATH=$work/venv/bin:$PATH STORE=file://$folder RELEASE=$release RUNNER_TEMP=$work/temporary \
        PIP_NO_INDEX=1 sh -eu "$work/steps") >"$work/out" 2>&1
    ok 'the workflow' grep -q '50 passed' "$work/out"
    grep -q '50 passed' "$work/out" || cat "$work/out"
}

# The mount, by the command $1.
test_mount() {
    if [ ! -c /dev/fuse ]; then
        leave_out "$2: there is no /dev/fuse"
        return
    fi
    if [ ! -e "${1%/bin/blobcrash}/libexec/blobcrash/blobcrash_mount" ]; then
        skip "$2: it was made without libfuse 3"
        return
    fi
    at=$work/mounted
    mkdir -p "$at"
    "$1" mount "$at" --seed 3 >"$work/shown" 2>&1
    status=$?
    if [ "$status" -eq 3 ]; then
        leave_out "$2: $(tail -n 1 "$work/shown")"
        return
    fi
    ok "$2: mount" [ "$status" -eq 0 ]
    echo one >"$at/synced"
    sync "$at/synced"
    echo two >"$at/unsynced"
    ok "$2: crash" "$1" mountctl "$at" crash
    ok "$2: what was synced is kept" [ "$(cat "$at/synced")" = one ]
    ok "$2: umount" "$1" mountctl "$at" umount
}

ok 'the checksums' sh -c 'cd "$1" && sha256sum --quiet -c SHA256SUMS' sh "$folder"
ok 'the archive' tar -xJf "$folder"/blobcrash-*-x86_64-linux.tar.xz -C "$shared"
prefix=$(echo "$shared"/blobcrash-*-x86_64-linux)
test_programs "$prefix" 'the archive'
PKG_CONFIG_PATH=$prefix/lib/pkgconfig
export PKG_CONFIG_PATH
test_c "$prefix/lib" 'the archive, in C' "$prefix/share/doc/blobcrash/examples/c/first.c"
unset PKG_CONFIG_PATH
test_rust "$prefix/share/blobcrash/rust" 'the archive, in Rust'
test_python "$prefix/share/doc/blobcrash/examples"
test_workflow "$prefix/share/doc/blobcrash/examples"
test_mount "$prefix/bin/blobcrash" 'the archive, the mount'
if [ -x /usr/bin/blobcrash ]; then
    test_programs /usr 'the packages'
    test_c /none 'the packages, in C' /usr/share/doc/libblobcrash-dev/examples/c/first.c
    test_rust /usr/share/blobcrash/rust 'the packages, in Rust'
    test_mount /usr/bin/blobcrash 'the packages, the mount'
fi
finish
