#!/bin/sh
# build_cxx.sh NAME HEADER PACKAGE LIBRARY: builds out/NAME/crash of adapters/NAME/*.cc and of this folder, if it is older than a source. It
# needs compilers for C and C++ with HEADER (Debian: g++, gcc and PACKAGE), and links LIBRARY. BLOBCRASH_ARCHIVE names the library for C;
# without it that is the proved one, or one without a proof. OUT is another folder than out/NAME, CFLAGS and CXXFLAGS are further flags.
set -eu

name=$1
library=$4
common=$(CDPATH='' cd -- "$(dirname -- "$0")" && pwd -P)
top=$(CDPATH='' cd -- "$common/../.." && pwd -P)
here=$top/adapters/$name
out=${OUT:-$top/out/$name}

if ! echo "#include <$2>" | "${CXX:-c++}" -x c++ -E - >/dev/null 2>&1; then
    echo "build_cxx.sh: there is no ${CXX:-c++} with $2 (Debian: g++, $3)" >&2
    exit 127
fi
# shellcheck source=tools/building.sh
. "$top/tools/building.sh"
find_archive
mkdir -p "$out" "$top/out"
lock "$name"
program=$out/crash
if is_linked "$program" "$archive" "$here" "$common" "$top"/bindings/c/blobcrash*.h; then
    exit 0
fi
work=$(mktemp -d)
for source in "$common"/*.c; do
    # shellcheck disable=SC2086
    "${CC:-cc}" -std=c11 -D_XOPEN_SOURCE=700 -O2 -g -Wall -Wextra -Werror "-I$top/bindings/c" ${CFLAGS:-} -c -o "$work/$(basename "$source").o" "$source"
done
# Most of the time goes into the headers of the database, so the files are compiled at -O1, several side by side.
# shellcheck disable=SC2016
printf '%s\0' "$here"/*.cc "$common"/*.cc | top=$top common=$common work=$work xargs -0 -n 1 -P "$(nproc)" sh -c \
    '${CXX:-c++} -std=c++17 -O1 -Wall -Wextra -Werror "-I$top/bindings/c" "-I$common" ${CXXFLAGS:-} -c -o "$work/$(basename "$1").o" "$1"' sh
# shellcheck disable=SC2086
"${CXX:-c++}" ${CXXFLAGS:-} -o "$work/crash" "$work"/*.o "$archive" "$library" -pthread
mv -f "$work/crash" "$program"
echo "$archive" >"$program.archive"
