#!/bin/sh
# Tests of tools/verdict (tests/verdict.py): what it says of changed bodies, contracts, definitions, lemmas and edits, with a kept
# library, a library that ./test left, and none, with a prover that only reads its sources. The last line is `N passed, M failed`.
top=$(CDPATH='' cd -- "$(dirname -- "$0")/.." && pwd -P)
# shellcheck source=tests/counting.sh
. "$top/tests/counting.sh"

if has_python && has git; then
    add python3 "$top/tests/verdict.py" "$work"
else
    skip 'it needs Python 3.8 or later, and git'
fi
finish
