#!/bin/sh
# Takes real programs through power losses on the mount: adapters/mount/programs.sh [options] [PROGRAM ..], all of them if none is
# named. Prints the rows of the table in adapters/mount/README.md, and keeps what tools/crash_run printed, with a command for each
# failure, in out/mount/programs.
#   --seeds N        how many seeds of each program in each profile (20)
#   --profiles LIST  the profiles (ext4 xfs btrfs posix)
#   --first N        the first of them (1)
#   --jobs N         how many seeds run at once (2)
#   --keep, --tear, --stop-after   as for tools/crash_run
#   --syncs LIST     adds syncs to the programs, as adapters/mount/programs/syncs.c says, such as 'file folder'
#   --list           prints the programs
# A program that isn't installed is skipped. They are Debian's; as root the servers run as the user of their package. Exit statuses: 0
# also if a program loses something; 2 for bad options; 3 without FUSE.
set -eu

top=$(CDPATH='' cd -- "$(dirname -- "$0")/../.." && pwd -P)
cd "$top"
table=adapters/mount/programs/table.txt
all=$(sed -n 's/^\([a-z][^ ]*\) |.*/\1/p' "$table")
seeds=20
profiles='ext4 xfs btrfs posix'
jobs=2
first=1
passed=
syncs=

help() { sed -n '2,/^# also/s/^# \{0,1\}//p' "$0"; }

usage() {
    help >&2
    exit 2
}

# has WHAT: whether a program, a header or a file is installed.
has() {
    case $1 in
    *.h)
        for language in c c++; do
            echo "#include <$1>" | "${CC:-cc}" -x "$language" -E - >/dev/null 2>&1 && return
        done
        return 1
        ;;
    /*) set -- "" "$1" ;;
    *) set -- "$(command -v "$1")" /usr/lib/postgresql/*/bin/"$1" /usr/sbin/"$1" ;;
    esac
    for place; do
        [ ! -e "$place" ] || return 0
    done
    return 1
}

# choose NAME: sets the commands and options of a program. Fails if something that it needs isn't installed.
choose() {
    name=$1
    found=$(grep "^$name |" "$table") || {
        echo "programs.sh: no such program: $name" >&2
        exit 2
    }
    IFS='|' read -r _ needs words how options <<EOF
$found
EOF
    for need in $needs; do
        has "${need%:*}" && continue
        echo "programs.sh: skipped: $name: there is no ${need%:*} (Debian: ${need##*:})" >&2
        return 1
    done
    # shellcheck disable=SC2086
    set -- $words
    driver="$python adapters/mount/programs/$1.py"
    [ -z "$syncs" ] || driver="LD_PRELOAD=$top/out/mount/syncs.so SYNCS='$syncs' $driver"
    shift
    prepare="$driver prepare $*"
    start=
    work="$driver work $*"
    check="$driver check $*"
    for word in $how; do
        case $word in
        start) start="$driver start $*" ;;
        new) prepare= ;;
        folder) prepare="$driver folder $*" ;;
        cluster)
            prepare=''
            work="$driver initdb"
            check="$driver check-initdb"
            ;;
        esac
    done
}

# row PROFILE: runs a program in a profile, and prints its row.
row() {
    log=out/mount/programs/$name${syncs:+-syncs}-$1.log
    status=0
    # shellcheck disable=SC2086
    tools/crash_run --seeds "$seeds" --first "$first" --jobs "$jobs" --timeout 300 --profile "$1" \
        --out "out/mount/programs/$name${syncs:+-syncs}-$1" $options $passed ${prepare:+--prepare "$prepare"} ${start:+--start "$start"} \
        --work "$work" --check "$check" >"$log" 2>"$log.err" </dev/null || status=$?
    if [ "$status" -gt 1 ] && ! tail -n 1 "$log" | grep -q '^| '; then
        tail -n 3 "$log.err" >&2
        [ "$status" -ne 3 ] || exit 3
        echo "| $name | $1 | did not run |"
        return
    fi
    # | profile | seeds | calls | crashes | acknowledged | held | lost | damaged | not started | too slow | untested |
    tail -n 1 "$log" | while IFS='|' read -r _ profile count calls rest; do
        echo "| $name |$profile|$count|$rest"
    done
}

while [ $# -gt 0 ]; do
    case $1 in
    --help)
        help
        exit 0
        ;;
    --list)
        # shellcheck disable=SC2086
        echo $all
        exit 0
        ;;
    --seeds | --profiles | --first | --jobs | --syncs | --keep | --tear | --stop-after)
        [ $# -gt 1 ] || usage
        case $1 in
        --keep | --tear | --stop-after) passed="$passed $1 $2" ;;
        --seeds) seeds=$2 ;;
        --profiles) profiles=$2 ;;
        --first) first=$2 ;;
        --syncs) syncs=$2 ;;
        *) jobs=$2 ;;
        esac
        shift 2
        ;;
    -*) usage ;;
    *) break ;;
    esac
done
# shellcheck disable=SC2086
[ $# -gt 0 ] || set -- $all
export PYTHONDONTWRITEBYTECODE=1
# The program itself: on some machines python3 is a script that looks for it. No driver needs a package.
python="$(python3 -c 'import shlex, sys; print(shlex.quote(sys.executable))') -S"
mkdir -p out/mount/programs
if [ -n "$syncs" ]; then
    "${CC:-cc}" -std=c11 -O2 -Wall -Wextra -shared -fPIC -o out/mount/syncs.so adapters/mount/programs/syncs.c -ldl
fi
echo '| program | profile | seeds | crashes | acknowledged | held | lost | damaged | not started | too slow | untested |'
echo '|---|---|---|---|---|---|---|---|---|---|'
for name; do
    if choose "$name"; then
        for profile in $profiles; do row "$profile"; done
    fi
done
