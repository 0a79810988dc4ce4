#!/bin/sh
# `mypy --strict` of the package for Python, also as of its oldest Python, and of bodies as users write them (tests/typed.py). The last
# line is `N passed, M failed`.
top=$(CDPATH='' cd -- "$(dirname -- "$0")/.." && pwd -P)
# shellcheck source=tests/counting.sh
. "$top/tests/counting.sh"
if ! has mypy; then
    skip 'types in Python: there is no mypy'
    finish
fi
export MYPYPATH="$top/bindings/python" MYPY_CACHE_DIR="$work/cache"
ok 'the package' mypy --strict "$top/bindings/python/blobcrash"
ok 'the package, for Python 3.8' mypy --strict --python-version 3.8 "$top/bindings/python/blobcrash"
ok 'bodies of users' mypy --strict "$top/tests/typed.py"
finish
