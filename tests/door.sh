#!/bin/sh
# Tests of the commands of `blobcrash`: the table of them agrees with the help of each, wrong words are named, the manual page and the
# completions made from it work in bash, fish and zsh, and searches show how far they are on a terminal alone, and go on after Ctrl-C
# (tests/door.py). The last line is `N passed, M failed`.
# shellcheck disable=SC2016
top=$(CDPATH='' cd -- "$(dirname -- "$0")/.." && pwd -P)
# shellcheck source=tests/counting.sh
. "$top/tests/counting.sh"
# shellcheck source=tests/running.sh
. "$top/tests/running.sh"

if ! has_python; then
    skip 'all of it: there is no Python 3.8 or later'
    finish
fi
export PYTHONDONTWRITEBYTECODE=1

# The options and words below a usage in the table, and those of a help: at the start of a line, or in a line `--a, --b   as for`.
in_table() {
    sed -n "/^$1\( \|\$\)/,/^[a-z]/ { s/^  *\(--[a-z-]*\|[a-z][a-z_-]*\) .*/\1/p; }" "$top/tools/commands.txt" | grep -v '^--json$' | LC_ALL=C sort -u
}
in_help() {
    {
        sed -n 's/^  *\(--[a-z-]*\)[ ,].*/\1/p; s/^  \([a-z][a-z_-]*\)  *[A-Za-z].*/\1/p' "$1"
        grep -e ' as for tools/' "$1" | grep -o -e '--[a-z-]*'
        grep -e '`profile NAME' -e '`syncs honest' "$1" | grep -o '`[a-z_][a-z_]* ' | tr -d '` '
    } | grep -vx -e '--json' -e '--help' -e blobcrash | LC_ALL=C sort -u
}
# same NAME USAGE COMMAND ..: the table has what the help of the command has.
same() {
    in_table "$2" >"$work/table"
    name=$1
    shift 2
    "$@" --help >"$work/help"
    in_help "$work/help" >"$work/found"
    ok "$name: its options" diff "$work/table" "$work/found"
}
same explore explore "$top/blobcrash" explore
same states 'states \[--at' "$top/blobcrash" states
same 'states of checks' 'states \[options\]' "$top/tools/states"
same diagnose diagnose "$top/tools/diagnose"
same 'files explore' 'files explore' "$top/blobcrash" files
same mount mount "$top/blobcrash" mount
same mountctl mountctl "$top/blobcrash" mountctl
same crash-run crash-run "$top/blobcrash" crash-run
same check-program check-program "$top/blobcrash" check-program
ok 'no line of the help is longer than 120 columns' sh -c '! "$1/blobcrash" help | grep ".\{121\}"' sh "$top"

# Commands that are tools, by both of their names.
for row in 'check:check' 'judge:judge' 'shrink:shrink' 'page:crash_page' 'diagnose:diagnose' 'mountctl:mountctl' 'mount:mount' 'crash-run:crash_run' 'crash_run:crash_run' 'check-program:check_program'; do
    "$top/tools/${row#*:}" --help >"$work/wanted"
    for word in --help -h; do
        run "$top/blobcrash" "${row%:*}" "$word" </dev/null
        ok "${row%:*} $word" cmp "$work/out" "$work/wanted"
    done
done
echo frob >"$work/in"
run "$top/blobcrash" check "$work/in"
expect 'check' 2 'line 1: bad call: `frob`: no such call
' 'line 1: bad call'

# Wrong words of the tools are named.
while IFS='|' read -r words wanted; do
    # shellcheck disable=SC2086
    "$top"/blobcrash $words </dev/null >"$work/out" 2>"$work/err"
    ok "$words: $wanted" [ "$? $(grep -cF -- "$wanted" "$work/err")" = '2 1' ]
done <<'ROWS'
mount --sede 3 /tmp|there is no option `--sede`: did you mean `--seed`?
mount|no folder is named
mount /a /b|`/b` is a second folder
mount --seed|`--seed` needs an argument
mountctl /a chrash|there is no command `chrash`: did you mean `crash`?
mountctl /a record|`record` needs an argument
mountctl /a status x|`status` doesn't take `x`
mountctl /a|it needs a folder and a command
crash-run --sedes 3 --work w --check c|--sedes 3
crash-run --seeds x --work w --check c|argument --seeds: invalid int value: 'x'
page --titel x|there is no option `--titel`: did you mean `--title`?
page --title|`--title` needs an argument
check --fiels|`--fiels` is no option
judge a b|`b` is an argument too many
states --filse x -- y|--filse
states --limit x y -- z|argument --limit: invalid int value: 'x'
diagnose --wohle x -- y|--wohle
diagnose --jobs 0 x -- y|wants a CHECK after --, and numbers from 1 on
ROWS

mkdir "$work/shells"
for kind in bash fish zsh man; do
    case $kind in zsh) made=_blobcrash ;; *) made=$kind ;; esac
    ok "$kind is made" sh -c 'python3 "$1" "$2" >"$3"' sh "$top/tools/commands.py" "$kind" "$work/shells/$made"
done
ok 'completion bash prints it' sh -c '"$1/blobcrash" completion bash | cmp - "$2/bash"' sh "$top" "$work/shells"
if has man; then
    ok 'the manual page has no warning' sh -c 'MANROFFSEQ="" man --warnings -l "$1/man" 2>&1 >"$2" | grep .; [ $? -eq 1 ]' sh "$work/shells" "$work/page"
    for command in explain explore states diagnose files check judge shrink page resolve mount mountctl crash-run build completion help version; do
        ok "it has $command" grep -q "^       $command\( \|\$\)" "$work/page"
    done
else
    leave_out 'the manual page: there is no man'
fi
add python3 "$top/tests/completion.py" "$work/shells"

need_program explore states files explain
sh "$top/bindings/build.sh" || give_up "the library can't be built"
unset NO_COLOR
add python3 "$top/tests/door.py"
finish
