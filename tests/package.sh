#!/bin/sh
# Tests of the package for Python: it is installed by pip, without a network, from a copy of bindings/python and the library; a
# program far from the repository uses it; pytest finds its plugin, and Hypothesis chooses the draws of a store. It wants a Python
# that has pip and setuptools, and for the last two pytest and hypothesis. The last line is `N passed, M failed`.
top=$(CDPATH='' cd -- "$(dirname -- "$0")/.." && pwd -P)
# shellcheck source=tests/counting.sh
. "$top/tests/counting.sh"

# can_import PYTHON MODULE..: whether it can import these, each by itself, since setuptools wants to come before pip.
can_import() {
    importer=$1
    shift
    for module; do
        "$importer" -c "import $module" >/dev/null 2>&1 || return 1
    done
}

# python_with MODULE..: the first Python that can import these.
python_with() {
    for candidate in python3 /usr/bin/python3; do
        if can_import "$candidate" "$@"; then
            "$candidate" -c 'import sys; print(sys.executable)'
            return
        fi
    done
}

sh "$top/bindings/build.sh" || give_up "the library can't be built"
python=$(python_with pip setuptools wheel)
[ -n "$python" ] || python=$(python_with pip setuptools.command.bdist_wheel)
if [ -z "$python" ]; then
    skip 'all of it: there is no Python with pip and setuptools that can make a wheel'
    finish
fi

mkdir -p "$work/copy/bindings" "$work/copy/out" "$work/far"
cp -R "$top/bindings/python" "$work/copy/bindings/"
cp "$top/out/libblobcrash.so" "$work/copy/out/"
(cd "$work/copy" && "$python" -m pip install --quiet --no-build-isolation --no-index --no-deps --disable-pip-version-check \
    --target "$work/site" ./bindings/python) >"$work/out" 2>"$work/err"
tell $? 'pip install'
rm -rf "$work/copy"
unset BLOBCRASH BLOBCRASH_LIBRARY
export PYTHONPATH="$work/site" PYTHONDONTWRITEBYTECODE=1

# run COMMAND..: in a folder far from the repository.
run() { (cd "$work/far" && "$@") >"$work/out" 2>"$work/err"; }

run "$python" -c '
import os, blobcrash
assert blobcrash.library().startswith(os.environ["PYTHONPATH"]), blobcrash.library()
with blobcrash.Store(seed=7) as store:
    blob, _ = store.open("p", b"b")
    blob.write(0, b"record", sync=True)
    store.restart()
    assert store.open("p", b"b")[1] == 6'
tell $? 'a store of the installed package'
run "$python" -c '
import re
from importlib.metadata import metadata
page = metadata("blobcrash").get_payload()
block = re.search(r"(?m)(^    from .*\n)((    .*)?\n)*", page)[0]
exec("".join(line[4:] or "\n" for line in block.splitlines(keepends=True)))' && grep -qx 'fails on ext4 xfs btrfs posix' "$work/out"
tell $? 'its description prints what it says'
[ -f "$work/site/blobcrash/py.typed" ]
tell $? 'it has type hints'
run "$python" -m blobcrash "$top/examples/FIRST.script" && cmp -s "$work/out" "$top/examples/FIRST.out"
tell $? 'python -m blobcrash, with a script'
printf 'size 0\nfrob\n' >"$work/bad"
run "$python" -m blobcrash <"$work/bad"
[ $? -eq 2 ] && [ "$(cat "$work/out")" = 'error NoHandle' ] && [ "$(cat "$work/err")" = 'line 2: bad call' ]
tell $? 'python -m blobcrash, with a bad line'
run "$python" -m blobcrash "$work/none"
[ $? -eq 1 ]
tell $? 'python -m blobcrash, without its file'

run "$python" -m blobcrash_page --title 'by the library' <"$top/examples/forgotten_sync.script" &&
    grep -q '<title>by the library</title>' "$work/out" && ! grep -q '<p class="problem">' "$work/out"
tell $? 'python -m blobcrash_page, without the program'

# Tests with the store of the plugin: pytest finds it by itself, names the seed, and shows the script of a failure.
python=$(python_with pytest)
if [ -n "$python" ]; then
    cp "$top/examples/log.py" "$top/examples/test_log_pytest.py" "$work/far/"
    export PYTHONPATH="$work/site:$work/far"
    run_pytest() { run "$python" -m pytest -p no:cacheprovider --color=no "$@"; }
    run_pytest test_log_pytest.py && grep -q '50 passed' "$work/out"
    tell $? 'pytest: the log keeps its promise'
    LOG_FORGETS_SYNC=1 run_pytest test_log_pytest.py
    [ $? -eq 1 ] && grep -q 'the script of this failure:' "$work/out"
    tell $? 'pytest: a log that forgets its sync is caught'
    script=$(sed -n 's/^the script of this failure: //p' "$work/out" | head -n 1)
    seed=$(sed -n 's/^seed //p' "$script")
    grep -q "test_acknowledged_records_survive_a_crash\[seed=$seed\]" "$work/out"
    tell $? 'pytest: the seed is in the name of the test'
    (cd "$work/far" && "$python" -m blobcrash "$script" | grep -q '^crashed') >"$work/out" 2>"$work/err"
    tell $? 'pytest: the script runs'
    # There is no program: the library makes the picture. It is cut after 200 lines.
    need_program explain
    LOG_FORGETS_SYNC=1 run_pytest --blobcrash-seed "$seed" --blobcrash-shrink 0 test_log_pytest.py
    "${program}_explain" <"$script" | head -n 200 >"$work/picture"
    grep -q '1 failed' "$work/out" && grep -q '^#     before' "$work/picture" &&
        "$python" -c 'import sys; picture, out = (open(name).read() for name in sys.argv[1:]); sys.exit(picture not in out)' \
            "$work/picture" "$work/out"
    tell $? 'pytest: the picture of the crash that the program prints, without the program'
    LOG_FORGETS_SYNC=1 run_pytest --blobcrash-seed "$seed" --blobcrash-report pages test_log_pytest.py
    page=$(sed -n 's/^the page of this failure: //p' "$work/out")
    [ "${page%/*}" = "$work/far/pages" ] && grep -q "<title>.*\[seed=$seed\]: log.Broken" "$page" && grep -q "seed $seed" "$page"
    tell $? 'pytest: a page of the crash, without the program'
    grep -q 'length [0-9]* before, [0-9]* after' "$page"
    tell $? 'pytest: the page has the remarks of explain, without the program'
    BLOBCRASH=$program LOG_FORGETS_SYNC=1 run_pytest --blobcrash-report pages test_log_pytest.py
    [ "$(ls "$work/far/pages")" = "$(sed -n 's/^the page of this failure: .*\///p' "$work/out" | LC_ALL=C sort)" ] &&
        ! grep -l '<p class="problem">' "$work/far/pages"/*
    tell $? 'pytest: a page for each failure'
    rm -rf "$work/far/pages"
    run_pytest --blobcrash-report pages test_log_pytest.py && [ ! -e "$work/far/pages" ]
    tell $? 'pytest: no page without a failure'
    add "$python" "$top/tests/plugin.py"
    run_pytest "$top/tests/patched.py" && grep -q '^=* 16 passed' "$work/out"
    tell $? 'pytest: unmodified code on files'
    mkdir "$work/no_page"
    echo 'raise ImportError("as if it were missing")' >"$work/no_page/blobcrash_page.py"
    PYTHONPATH=$work/no_page:$PYTHONPATH run_pytest --blobcrash-report pages test_log_pytest.py
    [ $? -eq 4 ] && grep -q 'needs the package .blobcrash_page.' "$work/err"
    tell $? 'pytest: pages without their package'
else
    skip 'the plugin: there is no pytest'
fi

python=$(python_with hypothesis)
pushes='import blobcrash, ctypes; ctypes.CDLL(blobcrash.library()).blobcrash_push_words'
if [ -z "$python" ]; then
    skip 'the recipe: there is no hypothesis'
elif ! "$python" -c "$pushes" >/dev/null 2>&1; then
    skip 'the recipe: the library has no blobcrash_push_words'
else
    cp "$top/examples/test_log_hypothesis.py" "$top/tests/two_copies.py" "$work/far/"
    run "$python" -m unittest test_log_hypothesis
    tell $? 'hypothesis: the log keeps its promise'
    LOG_FORGETS_SYNC=1 run "$python" -m unittest test_log_hypothesis
    [ $? -eq 1 ] && grep -q 'acknowledged records 0 are found' "$work/err"
    tell $? 'hypothesis: a log that forgets its sync is caught'
    run "$python" two_copies.py
    tell $? 'hypothesis: two copies that are written before one sync are caught'
fi
finish
