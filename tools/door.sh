# shellcheck shell=sh disable=SC2016,SC2154
# Sourced by ./blobcrash and by the launcher of a release: the commands of `blobcrash`, by the table commands.txt in this folder. The
# launcher sets `own` to the name by which its messages call it, `tools` to the folder of this file and `leaves_out` to a command that its
# help doesn't list. It has these functions:
#
#   find_program CRATE     sets `program` to the path of the crate's program, or ends
#   find_tool NAME         sets `program` to the path of a tool, or ends
#   show_version           prints the version
#   help_of NAME           prints the help of the program NAME
#   build_program CRATE    builds it, or refuses to
#   completion SHELL       prints the completion for a shell

# refuse TEXT [USAGE]: ends with status 2, the text and the usage.
refuse() {
    echo "$own: $1" >&2
    [ $# -eq 1 ] || echo "usage: $own $2" >&2
    exit 2
}

table() { grep -v '^#' "$tools/commands.txt"; }

# usages: the usage of each command, a line each.
usages() { table | awk '/^[a-z]/ { split($0, columns, /   */); print columns[1] }'; }

# usage_of WORD ..: the first usage that begins with these words.
usage_of() { usages | grep -m 1 -e "^$*\( \|\$\)"; }

# rows_of USAGE: the rows below a usage, each as its option or word with its argument.
rows_of() {
    table | awk -v wanted="$1" '
        /^[a-z]/ { split($0, columns, /   */); is_in = columns[1] == wanted; next }
        is_in { sub(/^ +/, ""); split($0, columns, /   */); print columns[1] }'
}

# near WORD: reads words, and prints the nearest one by edits of a character and swaps of two, if it is near enough.
near() {
    command -v awk >/dev/null || return 0
    given=$1 LC_ALL=C awk '
        function least(a, b) { return a < b ? a : b }
        function distance(a, b,   i, j, cost) {
            for (i = 0; i <= length(a); i++) d[i, 0] = i
            for (j = 0; j <= length(b); j++) d[0, j] = j
            for (i = 1; i <= length(a); i++) for (j = 1; j <= length(b); j++) {
                cost = substr(a, i, 1) != substr(b, j, 1)
                d[i, j] = least(least(d[i - 1, j] + 1, d[i, j - 1] + 1), d[i - 1, j - 1] + cost)
                if (i > 1 && j > 1 && substr(a, i, 1) == substr(b, j - 1, 1) && substr(a, i - 1, 1) == substr(b, j, 1))
                    d[i, j] = least(d[i, j], d[i - 2, j - 2] + 1)
            }
            return d[length(a), length(b)]
        }
        BEGIN { word = ENVIRON["given"]; best = 3; if (length(word) > 40) exit }
        { now = distance(word, $1); if (now < best && now * 2 < length($1)) { best = now; found = $1 } }
        END { if (found != "") print found }'
}

# shown WORD: a word for a message. Bytes that a terminal may act on are left out.
shown() { printf %s "$1" | LC_ALL=C tr -cd ' -~' | cut -c 1-60; }

# no_such TEXT WORD: the reason to refuse a word that is none of those on standard input, with the nearest one.
no_such() {
    found=$(near "$2")
    echo "$1 \`$(shown "$2")\`${found:+: did you mean \`$found\`?}"
}

# is_number WORD: whether it is a number up to 2^64 - 1, which leading zeros don't change.
is_number() {
    case $1 in '' | *[!0-9]*) return 1 ;; esac
    digits=$(printf %s "$1" | sed 's/^0*//')
    case ${#digits} in
    ?|1?) ;;
    20) [ "$(printf '%s\n' "$digits" 18446744073709551615 | LC_ALL=C sort | head -n 1)" = "$digits" ] ;;
    *) return 1 ;;
    esac
}

# check_options COMMAND [WORD ..]: refuses words that aren't options of this command, each at most once, and numbers that are none. Sets
# `is_json`.
check_options() {
    is_json=false
    [ $# -gt 1 ] || return 0
    of_command=$1
    of_usage=$(usage_of "$1")
    shift
    rows=$(rows_of "$of_usage")
    given=' '
    while [ $# -gt 0 ]; do
        row=$(echo "$rows" | grep -m 1 -e "^$(echo "$1" | sed 's/[^a-zA-Z-]/./g')\( \|\$\)" || true)
        if [ -z "$1" ] || [ "${row%% *}" != "$1" ]; then row=; fi
        [ -n "$row" ] || refuse "$(echo "$rows" | no_such "\`$of_command\` has no option" "$1")" "$of_usage"
        case $given in *" $1 "*) refuse "\`$1\` is given twice" "$of_usage" ;; esac
        given="$given$1 "
        [ "$1" != --json ] || is_json=true
        if [ "$row" != "$1" ]; then
            [ $# -gt 1 ] || refuse "\`$1\` needs a number" "$of_usage"
            is_number "$2" || refuse "\`$1\` needs a number from 0 to 2^64 - 1, not \`$(shown "$2")\`" "$of_usage"
            shift
        fi
        shift
    done
}

# need_python WHAT: ends unless there is a Python 3.8 or later.
need_python() {
    python3 -c 'import sys; sys.exit(sys.version_info < (3, 8))' 2>/dev/null && return
    echo "$own: $1 needs Python 3.8 or later, and there is no such python3" >&2
    exit 127
}

# run_tool NAME [WORD ..]: becomes a tool. `-h` is --help.
run_tool() {
    find_tool "$1"
    shift
    if [ "$*" = -h ]; then set -- --help; fi
    exec "$program" "$@"
}

# search COMMAND [WORD ..]: becomes a program whose run may be long. At a terminal it shows how far it is, and with --json it prints JSON:
# tools/watch does both.
search() {
    searched=$1
    shift
    check_options "$searched" "$@"
    if $is_json; then need_python --json; fi
    find_program "blobcrash_${searched%% *}"
    if [ "$searched" = 'files explore' ]; then set -- explore "$@"; fi
    if $is_json || { [ -t 2 ] && command -v python3 >/dev/null; }; then exec "$tools/watch" "$program" "$searched" "$@"; fi
    case $searched in
    states) tell_why '' "$program" "$@" ;;
    explore) tell_why --explored "$program" "$@" ;;
    *) tell_why '--files --explored' "$program" "$@" ;;
    esac
}

# is_at_start FD: whether a file is read from its start.
is_at_start() {
    while read -r key value; do
        [ "$key" != pos: ] || [ "$value" != 0 ] || return 0
    done <"/proc/$$/fdinfo/$1"
    return 1
} 2>/dev/null

# tell_why KIND PROGRAM [WORD ..]: becomes the program. If its script is a file, it isn't replaced, so that after a bad line a line more says
# why it is bad. KIND are the options of tools/check for the script.
tell_why() {
    kind=$1
    shift
    if [ ! -f /dev/stdin ] || ! command -v python3 >/dev/null; then exec "$@"; fi
    exec 3<&0
    if ! is_at_start 3; then exec "$@" 3<&-; fi
    for signal in HUP:129 INT:130 TERM:143; do
        # shellcheck disable=SC2064
        trap "kill \${!:-} 2>/dev/null; wait 2>/dev/null || true; exit ${signal#*:}" "${signal%:*}"
    done
    "$@" <&3 3<&- &
    status=0
    wait "$!" || status=$?
    trap - HUP INT TERM
    if [ "$status" -eq 2 ]; then
        # shellcheck disable=SC2086
        why=$("$tools/check" $kind /dev/fd/3 2>/dev/null | sed -n '1s/^\(line [0-9]*\): bad call: /\1: /p') || true
        [ -z "$why" ] || echo "$own: $why" >&2
    fi
    exit "$status"
}

# show_help: prints what each command does.
show_help() {
    echo "usage: $own [COMMAND ..]; without a command it runs the script on standard input"
    echo
    table | awk -v without="${leaves_out:-}" '/^[a-z]/ && $1 != without { split($0, columns, /   */); print columns[1] "\t" columns[2] }' |
        while IFS="$(printf '\t')" read -r usage does; do
            if [ ${#usage} -lt 30 ]; then
                printf '  %-30s %s\n' "$usage" "$does"
            else
                printf '  %s\n  %-30s %s\n' "$usage" '' "$does"
            fi
        done
    echo
    echo "\`$own COMMAND --help\` has more. docs/FORMATS.md has the lines of scripts, the replies and the exit statuses."
}

# is_help WORD ..: whether these words ask for help.
is_help() { case $#:${1:-} in 1:help | 1:--help | 1:-h) ;; *) return 1 ;; esac }

# door_of_program CRATE [WORD ..]: a command that is a program, with the words after it.
door_of_program() {
    crate=$1
    shift
    if is_help "$@"; then
        help_of "$crate"
        [ "$crate" = blobcrash_explain ] || printf '\n--json, in any of these, prints JSON, an object a line.\n'
        exit
    fi
    case ${crate#blobcrash_}:$#:${1:-} in
    explain:*)
        check_options explain "$@"
        find_program "$crate" && tell_why '' "$program" "$@"
        ;;
    files:0:) find_program "$crate" && tell_why --files "$program" ;;
    files:*:explain)
        shift
        check_options 'files explain' "$@"
        find_program "$crate" && tell_why --files "$program" explain "$@"
        ;;
    files:*:explore)
        shift
        search 'files explore' "$@"
        ;;
    files:*) refuse "$(printf '%s\n' explain explore | no_such '`files` has no command' "$1")" 'files [explain [--json] | explore [--limit N] [--last] [--json]]' ;;
    *) search "${crate#blobcrash_}" "$@" ;;
    esac
}

# door [WORD ..]: does what `blobcrash WORD ..` says. Doesn't return.
door() {
    command=${1:-}
    case $#:$command in
    0:) find_program blobcrash && tell_why '' "$program" ;;
    1:help | 1:--help | 1:-h) show_help && exit ;;
    1:version | 1:--version) show_version && exit ;;
    1:resolve) find_program blobcrash && exec "$program" resolve ;;
    2:help) set -- "$2" --help && command=$1 ;;
    esac
    [ $# -eq 0 ] || shift
    case $command in
    explain | explore | files) door_of_program "blobcrash_$command" "$@" ;;
    states)
        for word; do
            [ "$word" != -- ] || run_tool states "$@"
        done
        door_of_program blobcrash_states "$@"
        ;;
    page) run_tool crash_page "$@" ;;
    crash-run) run_tool crash_run "$@" ;;
    check-program) run_tool check_program "$@" ;;
    diagnose | mount | mountctl | crash_run | check_program | judge | shrink | check) run_tool "$command" "$@" ;;
    build) door_of_build "$@" ;;
    completion)
        case $#:${1:-} in 1:bash | 1:zsh | 1:fish) completion "$1" && exit ;; *) refuse '`completion` needs the name of a shell' 'completion bash|zsh|fish' ;; esac
        ;;
    help | --help | -h | version | --version | resolve)
        if is_help "$@"; then show_help && exit; fi
        refuse "\`$command\` takes no such argument: \`$(shown "$1")\`" "$(usage_of "${command#--}" || echo help)"
        ;;
    *) refuse "$({ usages && printf '%s\n' --help --version; } | no_such 'there is no command' "$command")" '[COMMAND ..]; `blobcrash help` lists the commands' ;;
    esac
}

# door_of_build [WORD ..]: builds a program.
door_of_build() {
    case $#:${1:-} in
    0:) build_program blobcrash ;;
    1:explain | 1:explore | 1:files | 1:states) build_program "blobcrash_$1" ;;
    1:*) refuse "$(printf '%s\n' explain explore files states | no_such 'there is no program' "$1")" "$(usage_of build)" ;;
    *) refuse '`build` takes one program at a time' "$(usage_of build)" ;;
    esac
    exit
}
