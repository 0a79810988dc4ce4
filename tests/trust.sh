#!/bin/sh
# That docs/PROOFS.md lists the trusted definitions of the program and of files, and that no two files of one crate's specs/ define a name.
# `trust.sh text` and `trust.sh text files` print these definitions, `trust.sh write` updates the page. The last line is `N passed,
# M failed`.
top=$(CDPATH='' cd -- "$(dirname -- "$0")/.." && pwd -P)
# shellcheck source=tests/counting.sh
. "$top/tests/counting.sh"
if ! has_python; then
    skip 'the list of trusted files: it needs Python 3.8 or later'
    finish
fi
python3 "$top/tests/trust.py" "$@"
