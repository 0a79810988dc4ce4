#!/bin/sh
# Builds out/sqlite/crash, which crashes SQLite, and out/sqlite/blobcrash.so, the extension, where they are older than a source.
# They need a C compiler and sqlite3.h (Debian: libsqlite3-dev). BLOBCRASH_ARCHIVE names the library for C; without it
# that is the proved one, or one without a proof. OUT is another folder than out/sqlite, CFLAGS are further flags.
set -eu

here=$(CDPATH='' cd -- "$(dirname -- "$0")" && pwd -P)
top=$(CDPATH='' cd -- "$here/../.." && pwd -P)
common=$top/adapters/common
out=${OUT:-$top/out/sqlite}
compiler=${CC:-cc}

if ! echo '#include <sqlite3ext.h>' | "$compiler" -E - >/dev/null 2>&1; then
    echo "build.sh: there is no $compiler with sqlite3ext.h (Debian: gcc, libsqlite3-dev)" >&2
    exit 127
fi
# shellcheck source=tools/building.sh
. "$top/tools/building.sh"
find_archive

# is_current FILE: whether it is newer than the library and every source.
is_current() { is_linked "$1" "$archive" "$here" "$common" "$top"/bindings/c/blobcrash*.h; }

mkdir -p "$out" "$top/out"
lock sqlite

# compile FILE ARGUMENT ..: compiles the VFS and further sources to FILE, in one step.
compile() {
    file=$1
    shift
    # shellcheck disable=SC2086
    "$compiler" -std=c11 -D_XOPEN_SOURCE=700 -O2 -g -Wall -Wextra -Werror "-I$top/bindings/c" "-I$common" "-I$here" "-I$here/crash" \
        ${CFLAGS:-} -o "$file.new" "$here/store.c" "$here/locks.c" "$here/memory.c" "$here/parameters.c" "$here/vfs.c" "$common/disk.c" "$common/record.c" "$common/words.c" "$@"
    mv -f "$file.new" "$file"
    echo "$archive" >"$file.archive"
}

if ! is_current "$out/crash"; then
    compile "$out/crash" -DSQLITE_CORE "$here"/crash/*.c "$common/driver.c" "$common/pool.c" "$archive" -lsqlite3
fi
if ! is_current "$out/blobcrash.so"; then
    # Only the entry point is visible, so that the names of the library don't meet those of a program that loads it.
    echo '{ global: sqlite3_blobcrash_init; local: *; };' >"$out/blobcrash.map"
    compile "$out/blobcrash.so" -fPIC -shared "-Wl,--version-script=$out/blobcrash.map" "$here/extension.c" "$archive"
fi
