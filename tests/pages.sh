#!/bin/sh
# The pages: each command on them prints what is below it, their Python runs, their tables of lines have these replies, the steps in Rattle
# make a repository with passing tests, each command that a page names in its text is in tests/pages.list and runs, and the table of
# tests/README.md has each script's first comment. The last line is `N passed, M failed`.
top=$(CDPATH='' cd -- "$(dirname -- "$0")/.." && pwd -P)
# shellcheck source=tests/counting.sh
. "$top/tests/counting.sh"
cd "$top" || exit 1
if ! has_python; then
    skip 'the commands of the pages: they need Python 3.8 or later'
    finish
fi
export work
PATH=$PATH:/opt/rattle/bin
export PATH PYTHONDONTWRITEBYTECODE=1

need_program explain explore states
BLOBCRASH=$program
export BLOBCRASH
# Python on the pages and some commands use the library. Its build may be under way: then this waits for it.
sh bindings/build.sh || give_up "the library can't be built"

# only_crates FILE: whether each name in the picture FILE that is monospaced is a crate of crates.txt.
# shellcheck disable=SC2317
only_crates() {
    sed -n '/ui-monospace/ { s/<[^>]*>//g; s/, /\n/g; p; }' "$1" | sort -u >"$work/named"
    sed -n 's/^\([a-z_]*\)[ :].*/\1/p' crates.txt | sort -u >"$work/crates"
    comm -23 "$work/named" "$work/crates" >"$work/others"
    cat "$work/others"
    [ -s "$work/named" ] && [ ! -s "$work/others" ]
}
ok 'the picture of the layers names crates' only_crates docs/layers.svg
ok 'every command and block of the pages is run' python3 tests/pages.py --listed README.md CONTRIBUTING.md docs/*.md adapters/*/README.md
ok 'the table of tests/README.md is that of the first comments' python3 tests/pages.py --scripts
for page in README.md CONTRIBUTING.md docs/*.md bindings/python/blobcrash/__init__.py; do
    ok "the commands and examples of $page" python3 tests/pages.py "$page"
done
ok "the steps in Rattle of docs/CLIENTS.md" python3 tests/pages.py --scratch "$work/scratch"
python3 tests/pages.py --ways >"$work/ways"
while read -r way; do
    lacking=
    for tool in cc cargo; do
        case $way in "$tool "* | *" $tool "*) has "$tool" || lacking=$tool ;; esac
    done
    if [ -n "$lacking" ]; then skip "$way: it needs $lacking"; else ok "$way" sh -c "$way"; fi
done <"$work/ways"

finish
