#!/bin/sh
# Tests how far ./test says that it is on a terminal, and what ./test --quick leaves out, with a toolchain and scripts that only count
# (tests/runs.py). The last line is `N passed, M failed`.
top=$(CDPATH='' cd -- "$(dirname -- "$0")/.." && pwd -P)
# shellcheck source=tests/counting.sh
. "$top/tests/counting.sh"

if python3 -c 'import sys; sys.exit(sys.version_info < (3, 9))' 2>/dev/null; then
    add python3 "$top/tests/runs.py" "$work"
else
    skip 'it needs Python 3.9 or later'
fi
finish
