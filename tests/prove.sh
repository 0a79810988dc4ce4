#!/bin/sh
# Tests that tools/prove leaves no process running when it is stopped or killed, with a toolchain whose checks start another process and
# last for ever. The last line is `N passed, M failed`.
top=$(CDPATH='' cd -- "$(dirname -- "$0")/.." && pwd -P)
# shellcheck source=tests/counting.sh
. "$top/tests/counting.sh"

if ! has_python; then
    skip 'a killed build: it needs Python 3.8 or later'
    finish
fi

copy=$work/copy
kit=$work/kit
mkdir -p "$copy/tools" "$copy/crates/low/src" "$copy/crates/high/src" "$kit/bin"
cp "$top/HANDLES" "$copy"
cp "$top/tools/building.sh" "$top/tools/crates.py" "$top/tools/checks.py" "$top/tools/libraries.py" "$top/tools/prove" "$copy/tools"
for name in low high; do
    : >"$copy/crates/$name/src/lib.rt"
    echo "$name:"
done >"$copy/crates.txt"
echo kit >"$kit/KIT-ID"
echo 'exit 2' >"$kit/bin/rt"
# Each check notes its process and the one that it starts.
cat >"$kit/bin/rattle" <<TOOL
#!/bin/sh
sleep 1000 &
echo "\$\$ \$!" >>"$work/checks"
wait
TOOL
chmod +x "$kit/bin"/*

# is_running NUMBER: whether that process exists and hasn't ended.
is_running() { grep -q '^State:.[^ZX]' "/proc/$1/status" 2>/dev/null; }
# are_running WANTED: whether this many processes of the checks are running, within ten seconds.
are_running() {
    for _ in $(seq 100); do
        count=0
        # shellcheck disable=SC2013
        for number in $(cat "$work/checks" 2>/dev/null); do
            ! is_running "$number" || count=$((count + 1))
        done
        [ "$count" -ne "$1" ] || return 0
        sleep 0.1
    done
    return 1
}

for signal in HUP INT TERM KILL; do
    : >"$work/checks"
    XDG_CACHE_HOME=$work/cache PATH=$kit/bin:$PATH python3 -c '
import os, signal, sys
for number in (signal.SIGHUP, signal.SIGINT):
    signal.signal(number, signal.SIG_DFL)
os.execv(sys.argv[1], sys.argv[1:])' "$copy/tools/prove" "$work/$signal" low high >"$work/out" 2>"$work/err" &
    build=$!
    are_running 4
    tell $? "$signal: the checks run"
    kill -s "$signal" "$build"
    wait "$build" 2>/dev/null
    are_running 0
    tell $? "$signal: no check is left"
done
# What this test itself has left, if it failed.
# shellcheck disable=SC2046
kill -s KILL $(cat "$work/checks") 2>/dev/null

finish
