#!/bin/sh
# Times calls on the mount, on passthrough_ll of libfuse's examples (one thread, over tmpfs), and on tmpfs itself, in turn in one run.
# Prints microseconds an operation by the clock, the fastest of three rounds, and of the processor, the least of them, of the program and
# the daemon together, each also as a multiple of passthrough_ll's; transactions a second of pgbench, if there is a PostgreSQL; what a
# crash takes; with valgrind, the instructions of the daemon for an operation. Goes to standard error. A test runs it, and compares no
# time. The argument is the seconds of a round, 0.5 if none is given; MEGABYTES and FILES are what a crash finds unsynced, 512 and 20000.
# Below 0.1 seconds there is no pgbench and no count. On a busy machine compare the instructions.
set -eu

top=$(CDPATH='' cd -- "$(dirname -- "$0")/.." && pwd -P)
seconds=${1:-0.5}
megabytes=${MEGABYTES:-512}
files=${FILES:-20000}
memory=/dev/shm
[ -w "$memory" ] || memory=/tmp
work=$(mktemp -d)
plain=$(mktemp -d "$memory/blobcrash.XXXXXX")
chmod 711 "$work" "$plain"
example=/usr/share/doc/libfuse3-dev/examples/passthrough_ll.c

finish() {
    for at in passthrough ours counted; do umount "$work/$at" 2>/dev/null || true; done
    rm -rf "$work" "$plain"
}
trap finish EXIT
exec 1>&2

program=$(sh "$top/adapters/mount/build.sh")
cc -std=c11 -O2 -DWITH_SQLITE -o "$work/times" "$top/benches/mount_times.c" -lsqlite3 2>/dev/null ||
    cc -std=c11 -O2 -o "$work/times" "$top/benches/mount_times.c"
mkdir "$plain/below" "$plain/tmpfs" "$work/passthrough" "$work/ours" "$work/counted"
# serve FOLDER COMMAND ..: starts a daemon, and waits for its mount.
serve() {
    folder=$1
    shift
    "$@" &
    until mountpoint -q "$folder"; do
        kill -0 $! 2>/dev/null || exit 1
        sleep 0.1
    done
}
serve "$work/ours" "$top/tools/mount" "$work/ours" --size 4G --allow-other --control "$work/socket" --foreground
ours=$!
set -- "$plain/tmpfs" 0 "$work/ours" "$ours"
if [ -f "$example" ]; then
    # shellcheck disable=SC2046
    cc -O2 $(pkg-config --cflags fuse3) -o "$work/passthrough_ll" "$example" $(pkg-config --libs fuse3)
    serve "$work/passthrough" "$work/passthrough_ll" -f -s -o "source=$plain/below,cache=always,allow_other" "$work/passthrough"
    set -- "$plain/tmpfs" 0 "$work/passthrough" $! "$work/ours" "$ours"
else
    echo "there is no $example (Debian: libfuse3-dev)"
fi
echo '| us, by the clock; of the processor | tmpfs | passthrough_ll | mount | mount / passthrough_ll |'
echo '|---|---|---|---|---|'
"$work/times" "$seconds" "$@" | awk -F '\t' '
    NF == 7 { printf "| %s | %s; %s | %s; %s | %s; %s | %.2f; %.2f |\n", $1, $2, $3, $4, $5, $6, $7, $6 / $4, $7 / $5 }
    NF == 5 { printf "| %s | %s; %s | none | %s; %s | |\n", $1, $2, $3, $4, $5 }'

# pgbench's own transactions, one client, with the cluster in a folder.
transactions() {
    driver="python3 $top/adapters/mount/programs/postgres.py"
    mkdir "$1/cluster-of"
    chmod 755 "$1/cluster-of"
    export MOUNT="$1/cluster-of" ACKNOWLEDGED="$work/acknowledged"
    { $driver prepare && $driver start; } >"$work/log" 2>&1 || return 0
    $driver pgbench "$seconds"
}

is_short=$(awk -v seconds="$seconds" 'BEGIN { print seconds < 0.1 }')
if [ "$is_short" -eq 0 ] && ls /usr/lib/postgresql/*/bin/postgres >/dev/null 2>&1; then
    for folder; do
        case $folder in
        /*) echo "pgbench on $(stat -f -c %T "$folder") ${folder##*/}: $(transactions "$folder") transactions a second" ;;
        esac
    done
fi

# crash: prints what a crash kept, and how long it took.
crash() {
    began=$(date +%s%N)
    "$top/tools/mountctl" "$work/socket" crash
    echo "  $((($(date +%s%N) - began) / 1000000)) ms"
}
settle() { "$top/tools/mountctl" "$work/socket" settle; }

settle
echo "a crash with $megabytes MB unsynced:"
dd if=/dev/zero of="$work/ours/big" bs=1M count="$megabytes" status=none
crash
rm -f "$work/ours/big"
echo "a crash with $files files of 1,000 bytes, settled and written again:"
fill() { python3 -c 'import sys
for number in range(int(sys.argv[2])):
    with open(f"{sys.argv[1]}/{number}", sys.argv[3]) as file: file.write("x" * 1000)' "$work/ours" "$files" "$1"; }
fill w
settle
fill r+
crash

[ "$is_short" -eq 0 ] && command -v valgrind >/dev/null || exit 0
echo 'instructions of the daemon for an operation:'
# instructions NAME COUNT: prints those of a daemon that serves so many operations, from its start to its end.
instructions() {
    rm -f "$work"/counts*
    valgrind --tool=callgrind --callgrind-out-file="$work/counts" "$program" "$work/counted" --control "$work/counted-socket" \
        --foreground >/dev/null 2>&1 &
    until mountpoint -q "$work/counted"; do sleep 0.1; done
    "$work/times" "$1" "$2" "$work/counted"
    umount "$work/counted"
    wait $!
    awk '/^totals:/ { print $2 }' "$work/counts"
}
for name in '4 KB write, fdatasync' '4 KB write' '100 bytes appended, fsync' '1 MB write, in sequence' \
    'create, write, fsync, rename, fsync of the folder'; do
    less=$(instructions "$name" 1)
    more=$(instructions "$name" 257)
    echo "  $name: $(((more - less) / 256))"
done
