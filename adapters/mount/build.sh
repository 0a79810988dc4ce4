#!/bin/sh
# Builds out/mount/blobcrash_mount, which mounts the layer's files, if it is older than a source, and prints its path. It needs a C
# compiler and libfuse 3 (Debian: gcc, pkg-config, libfuse3-dev). BLOBCRASH_ARCHIVE names the library for C; without it that is the
# proved one, or one without a proof. OUT is another folder than out/mount, CFLAGS are further flags, FUSE_LIBS links another libfuse.
# Exit status: 3 if a tool is missing.
set -eu

here=$(CDPATH='' cd -- "$(dirname -- "$0")" && pwd -P)
top=$(CDPATH='' cd -- "$here/../.." && pwd -P)
out=${OUT:-$top/out/mount}
compiler=${CC:-cc}
program=$out/blobcrash_mount

command -v "$compiler" >/dev/null || { echo "mount: there is no C compiler (Debian: apt-get install gcc libc6-dev)" >&2; exit 3; }
if ! pkg-config --atleast-version=3.10 fuse3 2>/dev/null; then
    echo "mount: libfuse 3 is missing (Debian: apt-get install pkg-config libfuse3-dev fuse3)" >&2
    exit 3
fi
# shellcheck source=tools/building.sh
. "$top/tools/building.sh"
find_archive

is_current() { is_linked "$program" "$archive" "$here" "$here/../common" "$top/bindings/c"; }

mkdir -p "$out" "$top/out"
lock mount
if ! is_current; then
    : >"$out/began"
    # A compiler that is stopped may leave its files, which go with this folder.
    work=$(mktemp -d)
    # shellcheck disable=SC2046,SC2086
    run env "TMPDIR=$work" "$compiler" -std=c11 -D_XOPEN_SOURCE=700 -O2 -g -Wall -Wextra -Werror "-I$top/bindings/c" "-I$here/../common" ${CFLAGS:-} \
        $(pkg-config --cflags fuse3) -o "$program.new" "$here"/*.c "$here/../common/disk.c" "$here/../common/record.c" "$archive" ${FUSE_LIBS:-$(pkg-config --libs fuse3)} >&2 9>&-
    touch -r "$out/began" "$program.new" # a source may have changed since
    mv -f "$program.new" "$program"
    echo "$archive" >"$program.archive"
fi
echo "$program"
