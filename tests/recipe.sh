#!/bin/sh
# That each file which docs/ARCHITECTURE.md names in a recipe has the word of what is added, and that the recipe leaves no such file out: a
# partial write mode, a profile, a call and a fault of files. The last line is `N passed, M failed`.
top=$(CDPATH='' cd -- "$(dirname -- "$0")/.." && pwd -P)
# shellcheck source=tests/counting.sh
. "$top/tests/counting.sh"
cd "$top" || exit 1

# names SECTION WORD: writes the paths of the section's table to $work/named, and looks for the word in each. A path without its folder is
# one of crates.
names() {
    sed -n "/^## $1\$/,/^## /s/^| \(\`[^|]*\) |.*/\1/p" docs/ARCHITECTURE.md | tr -d '` ' | tr ',' '\n' | while read -r path; do
        [ ! -e "crates/$path" ] || path=crates/$path
        echo "$path"
    done >"$work/named"
    ok "$1: the table names files" test "$(wc -l <"$work/named")" -gt 10
    while read -r path; do
        ok "$1: $path has no $2" grep -riq -- "$2" "$path"
    done <"$work/named"
}

# has_all SECTION PATTERN PATH ..: the table names each file below the paths that has a line of the pattern which is no comment.
has_all() {
    section=$1
    pattern=$2
    shift 2
    find "$@" \( -name '*.rt' -o -name '*.antt' -o -name '*.py' -o -name '*.rs' -o -name '*.c' \) ! -name 'test_*' | while read -r path; do
        ! sed '/^ *\(\/\/\|#\)/d' "$path" | grep -qE -- "$pattern" || echo "$path"
    done >"$work/telling"
    ok "$section: files have the word" test "$(wc -l <"$work/telling")" -gt 3
    while read -r path; do
        ok "$section: the table leaves out $path" grep -qxF "$path" "$work/named"
    done <"$work/telling"
}

names 'Adding a profile of files' btrfs
has_all 'Adding a profile of files' '"btrfs"|\bBtrfs\b|btrfs *=' crates/blob_*/src crates/blob_*/specs bindings/python/blobcrash bindings/rust/src adapters/common \
    adapters/sqlite adapters/leveldb/scenarios.cc adapters/mount/crash_swarm.py
names 'Adding a call on files' commit
has_all 'Adding a call on files' 'COMMIT|Commit\b' crates/blob_fs/src crates/blob_fs/specs crates/blob_file_*/src crates/blob_file_*/specs bindings/rust/src
names 'Adding a fault of files' 'failed_\?sync'
has_all 'Adding a fault of files' 'failed_sync|FailedSync' crates/blob_fs/src crates/blob_file_sessions/src bindings/rust/src adapters/sqlite

names 'Adding a partial write mode' sectors
# Lines of a match or of a definition by cases.
find crates/blob_*/src crates/blob_*/specs crates/blob_*/proofs -name '*.rt' -o -name '*.antt' | while read -r path; do
    for mode in Prefix Subset Sectors; do
        grep -qE "^ *(PartialWriteMode::)?[^-/]*\b$mode\b.*(=>|=)" "$path" || continue 2
    done
    echo "$path"
done >"$work/telling"
ok 'files have a line for each mode' test "$(wc -l <"$work/telling")" -gt 5
while read -r path; do
    ok "the table leaves out $path" grep -qxF "$path" "$work/named"
done <"$work/telling"

finish
