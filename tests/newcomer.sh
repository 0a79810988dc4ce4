#!/bin/sh
# The path of a new user: what README shows first, in a clone of its own in which nothing is built, with an empty cache (tests/newcomer.py).
# Prints how long each step takes, and fails at three times what is wanted when nothing else runs: a minute for the first answer, four for
# the others. The last line is `N passed, M failed`.
top=$(CDPATH='' cd -- "$(dirname -- "$0")/.." && pwd -P)
# shellcheck source=tests/counting.sh
. "$top/tests/counting.sh"
# shellcheck source=tests/running.sh
. "$top/tests/running.sh"
rt=$(command -v rt) || rt=/opt/rattle/bin/rt
if [ ! -x "$rt" ]; then
    skip 'all of it: the Rattle toolchain is missing'
    finish
fi
if ! has_python; then
    skip 'all of it: there is no Python 3.8 or later'
    finish
fi
copy_sources "$work/clone"
add env PYTHONDONTWRITEBYTECODE=1 python3 "$top/tests/newcomer.py" "$work/clone"
finish
