#!/bin/sh
# Files of the package for Python: calls and refusals (tests/files.py), switches (files_switches.py), hostile arguments (files_hostile.py),
# 2,000 random calls of each of 20 seeds against the kernel (files_calls.py), the numbers of the C header (files_header.py), explorations
# (files_explored.py), what searches begin with and say (searches.py), the table of docs/FILES.md with what real file systems left
# (files_litmus.py), classic bugs (files_bugs.py), random programs against the rules in Python (files_random.py, files_model.py), and
# unmodified code (patched.py). The last line is `N passed, M failed`.
top=$(CDPATH='' cd -- "$(dirname -- "$0")/.." && pwd -P)
# shellcheck source=tests/counting.sh
. "$top/tests/counting.sh"
if ! has_python; then
    skip 'files in Python: there is no Python 3.8 or later'
    finish
fi
sh "$top/bindings/build.sh" || give_up "the library can't be built"
export PYTHONDONTWRITEBYTECODE=1
for part in files files_switches files_hostile files_calls files_header files_explored searches files_litmus files_bugs files_random patched; do
    add python3 "$top/tests/$part.py"
done
finish
