#!/bin/sh
# The page of a run (tools/crash_page): its model against the program's replies, and the page in a headless Chromium against them. Then the
# pages of failing seeds in Python, C and Rust. The browser's pictures go to $PAGE_PICTURES, if that is set. The last line is `N passed, M
# failed`, followed by `, K skipped` if something was skipped.
top=$(CDPATH='' cd -- "$(dirname -- "$0")/.." && pwd -P)
# shellcheck source=tests/counting.sh
. "$top/tests/counting.sh"

# ok NAME COMMAND..: counts whether the command succeeds; if it doesn't, shows what it printed.
ok() {
    what=$1
    shift
    if "$@" >"$work/shown" 2>&1; then
        pass
    else
        fail "$what"
        head -n 20 "$work/shown"
    fi
}

if ! has_python; then
    skip 'the page of a run: it needs Python 3.8 or later'
    finish
fi
if [ -z "${BLOBCRASH:-}" ]; then
    need_program explain
    BLOBCRASH=$program
fi
export BLOBCRASH
worked=$top/examples/forgotten_sync.script

"$top/tools/crash_page" <"$worked" >"$work/page.html"
grep -q '<title>' "$work/page.html" && ! grep -q -E '(src|href)=|url\(|@import' "$work/page.html"
ok 'a page is one file without another address' [ $? -eq 0 ]
"$top/tools/crash_page" --picture <"$worked" >"$work/crash.svg"
ok 'the picture is docs/crash.svg' cmp "$top/docs/crash.svg" "$work/crash.svg"
printf 'open p 62\nno call\n' | "$top/tools/crash_page" >"$work/page.html" 2>"$work/err"
ok 'a bad line has a page up to it' [ $? -eq 2 ]
ok 'a bad line is told' grep -qx 'line 2: bad call' "$work/err"
"$top/tools/crash_page" --no-such 2>"$work/err"
ok 'other arguments are refused' [ $? -eq 2 ]
ok 'the chart of an exploration' python3 "$top/tests/crash_page_chart.py"
printf '# 1 leaf, first: words 0\nok\nbytes 62\n# 1 leaf, first: words max\nok\nbytes 61\n# 2 leaves, all of them; 2 outcomes\n' >"$work/explored"
"$top/tools/crash_page" --chart --fails 'bytes 61' <"$work/explored" >"$work/chart"
ok 'a chart in the terminal' grep -qx ' *0 *0 of 1 (0%) *1 of 1 (100%)' "$work/chart"
"$top/tools/crash_page" --explored "$work/explored" --fails 'bytes 61' <"$worked" >"$work/page.html"
ok 'a chart in the page' grep -q '<td>draw 0</td>' "$work/page.html"
add python3 "$top/tests/crash_page_model.py" "$BLOBCRASH" 200

if has chromium || has chromium-browser || has google-chrome; then
    add python3 "$top/tests/crash_page_browser.py" "$BLOBCRASH" "${PAGE_PICTURES:-$work/pictures}"
else
    skip 'the page in a browser: it needs Chromium'
fi

# page_of LANGUAGE COMMAND..: a command writes the script of a failing seed to $work/failing.script, with status 1, and its page shows
# the bytes that the crash lost.
page_of() {
    language=$1
    shift
    rm -f "$work/failing.script"
    (cd "$top" && "$@") >"$work/told" 2>&1
    ok "$language: a seed that fails" [ $? -eq 1 ]
    ok "$language: its script" grep -q '^seed [0-9]*$' "$work/failing.script"
    "$BLOBCRASH" <"$work/failing.script" >"$work/replies"
    ok "$language: the crash loses bytes" grep -q '^crashed .*:[01]*0' "$work/replies"
    ok "$language: its page" "$top/tools/crash_page" --title "by $language" <"$work/failing.script"
    cp "$work/shown" "$work/page.html"
    ok "$language: the title of the page" grep -q "<title>by $language</title>" "$work/page.html"
    ok "$language: the page agrees with the replies" [ "$(grep -c '<p class="problem">' "$work/page.html")" -eq 0 ]
}

page_of Python sh -c 'python3 examples/log.py 2 --forget-sync >"$0"' "$work/failing.script"
sh "$top/bindings/build.sh" || give_up "the library can't be built"
compiler=${CC:-cc}
if has "$compiler"; then
    ok 'C: explore_log.c' "$compiler" -Wall -Wextra -Werror -I"$top/bindings/c" -o "$work/explore_log" "$top/bindings/c/explore_log.c" \
        "$top/out/libblobcrash.a"
    page_of C "$work/explore_log" seeds forget-sync "$work/failing.script"
else
    skip "C: there is no $compiler"
fi
if has cargo "$compiler"; then
    page_of Rust env CARGO_TARGET_DIR=out/rust CARGO_NET_OFFLINE=true cargo run --quiet --manifest-path bindings/rust/Cargo.toml \
        --example failing_seed "$work/failing.script"
else
    skip "Rust: there is no cargo or no $compiler"
fi
finish
