#!/bin/sh
# The version of the program is that of the packages, of the newest release in CHANGELOG.md and of the archive that the
# pages unpack, and the SONAME on the pages is that of the library. The last line is `N passed, M failed`.
top=$(CDPATH='' cd -- "$(dirname -- "$0")/.." && pwd -P)
# shellcheck source=tests/counting.sh
. "$top/tests/counting.sh"
cd "$top" || exit 1

# built NAME: what tools/building.sh says.
built() { top=$top sh -c '. "$top/tools/building.sh" && "$1"' sh "$1"; }
release=$(built version | sed -n 's/^blobcrash \([0-9]*\.[0-9]*\.[0-9]*\), proved with .*/\1/p')
ok 'the program has a version of three numbers' [ -n "$release" ]

# same FILE EXPRESSION WANTED: whether the first line of FILE that `sed` prints by EXPRESSION is WANTED.
same() {
    found=$(sed -n "$2" "$1" | head -n 1)
    ok "$1: '$found' in place of $3" [ "$found" = "$3" ]
}
same CHANGELOG.md 's/^## \([0-9.]*\),.*/\1/p' "$release"
same bindings/python/pyproject.toml 's/^version = "\(.*\)"/\1/p' "$release"
same bindings/python/blobcrash/__init__.py 's/^__version__ = "\(.*\)"/\1/p' "$release"
same bindings/rust/Cargo.toml 's/^version = "\(.*\)"/\1/p' "$release"
same bindings/rust/proptest/Cargo.toml 's/^version = "\(.*\)"/\1/p' "$release"
same bindings/rust/Cargo.lock '/^name = "blobcrash"$/ { n; s/^version = "\(.*\)"/\1/p; }' "$release"
for page in README.md docs/BINDINGS.md; do
    same "$page" 's/.*blobcrash-\([0-9.]*\)-x86_64-linux.*/\1/p' "$release"
done
ok 'the SONAME has its first two numbers' [ "$(built soname)" = "libblobcrash.so.${release%.*}" ]
# shellcheck disable=SC2016
same docs/BINDINGS.md 's/.* SONAME `\([^`]*\)`.*/\1/p' "$(built soname)"

finish
