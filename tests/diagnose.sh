#!/bin/sh
# Tests of `blobcrash diagnose`: of the record of each classic bug, of two bugs in one run and of a script of a store the missing sync is
# named and no other (tests/diagnose.py); so it is of the findings of docs/FOUND.md that have records in tests/diagnosed
# (diagnose_findings.py), of records of bindings and adapters (diagnose_records.py), and of programs on the mount (diagnose_mount.py). A
# correct program has no cause. diagnose_page.py looks at the page in a browser; its pictures go to $PAGE_PICTURES, if that is set. The last
# line is `N passed, M failed`.
top=$(CDPATH='' cd -- "$(dirname -- "$0")/.." && pwd -P)
# shellcheck source=tests/counting.sh
. "$top/tests/counting.sh"
if ! has_python; then
    skip 'all of it: there is no Python 3.8 or later'
    finish
fi
sh "$top/bindings/build.sh" || give_up "the library can't be built"
export PYTHONDONTWRITEBYTECODE=1
PYTHONPATH=$top/bindings/python${PYTHONPATH:+:$PYTHONPATH}
export PYTHONPATH
add python3 "$top/tests/diagnose.py"
add python3 "$top/tests/diagnose_findings.py"
add python3 "$top/tests/diagnose_records.py" test_rust test_explore
python=
for each in python3 /usr/bin/python3; do
    if [ -z "$python" ] && "$each" -c 'import pytest' 2>/dev/null; then python=$each; fi
done
if [ -n "$python" ]; then
    add "$python" "$top/tests/diagnose_records.py" test_pytest
else
    skip 'a failure under pytest: there is no pytest'
fi
if has sqlite3 && sh "$top/adapters/sqlite/build.sh" >/dev/null 2>&1; then
    add python3 "$top/tests/diagnose_records.py" test_sqlite
else
    skip "SQLite's VFS: a C compiler, sqlite3.h or sqlite3 is missing"
fi
if sh "$top/adapters/leveldb/crash.sh" --list >/dev/null 2>&1; then
    add python3 "$top/tests/diagnose_records.py" test_leveldb
else
    skip "LevelDB's Env: a C++ compiler or LevelDB is missing"
fi
if has chromium || has chromium-browser || has google-chrome; then
    add python3 "$top/tests/diagnose_page.py" "${PAGE_PICTURES:-$work/pictures}"
else
    skip 'the page in a browser: it needs Chromium'
fi
if [ ! -w /dev/fuse ] || ! has fusermount3 || ! sh "$top/adapters/mount/build.sh" >/dev/null 2>&1; then
    # A kernel can't be installed.
    leave_out 'programs on the mount: a C compiler, libfuse 3 or FUSE is missing'
    finish
fi
if has sqlite3; then
    add python3 "$top/tests/diagnose_mount.py" test_sqlite3
else
    skip 'SQLite: there is no sqlite3'
fi
if has git; then
    add python3 "$top/tests/diagnose_mount.py" test_git
else
    skip 'git: it isn'"'"'t installed'
fi
if python3 -c 'import ctypes; ctypes.CDLL("libleveldb.so")' 2>/dev/null; then
    add python3 "$top/tests/diagnose_mount.py" test_leveldb
else
    skip 'LevelDB: there is no libleveldb.so'
fi
if has strace addr2line; then
    add python3 "$top/tests/diagnose_mount.py" test_stacks
else
    skip 'stacks of calls: there is no strace or no addr2line'
fi
add python3 "$top/tests/diagnose_mount.py" test_processes test_crash_run
finish
