#!/bin/sh
# Tests of `python3 -m blobcrash check`, which says why lines of a script, or of one of files, are bad. The last line is
# `N passed, M failed`.
top=$(CDPATH='' cd -- "$(dirname -- "$0")/.." && pwd -P)
# shellcheck source=tests/counting.sh
. "$top/tests/counting.sh"

if ! has_python; then
    skip 'all of it: there is no Python 3.8 or later'
    finish
fi
need_program files
BLOBCRASH=$program
PYTHONPATH=$top/bindings/python
export BLOBCRASH PYTHONPATH

for script in "$top"/examples/*.script; do
    python3 -m blobcrash check "$script" >"$work/out" 2>&1
    ok "${script##*/} has no bad line" [ "$? $(cat "$work/out")" = '0 ' ]
done
echo frob >"$work/bad"
python3 -m blobcrash check "$work/bad" >"$work/out" 2>"$work/err"
ok 'a bad line' [ "$? $(cat "$work/out") $(cat "$work/err")" = '2 line 1: bad call: `frob`: no such call line 1: bad call' ]
python3 -m blobcrash check "$work/none" >"$work/out" 2>&1
ok 'a script that is missing' [ $? -eq 1 ]
# A module beside a test comes before those that the test imports.
hiding='import os, sys
names = {name[:-3] for folder in sys.argv[1:] for name in os.listdir(folder) if name.endswith(".py")}
print(*sorted(names & set(getattr(sys, "stdlib_module_names", ()))))'
ok 'no module of the tests hides one of the standard library' \
    [ -z "$(python3 -c "$hiding" "$top/tests" "$top/bindings/python")" ]
for script in "$top"/examples/files/*.script; do
    ok "${script##*/} has no bad line" "$top/tools/check" --files "$script"
done
add python3 "$top/tests/check.py"
add python3 "$top/tests/file_check.py"
finish
