#!/bin/sh
# Tests of the mount (adapters/mount, tools/mount, tools/mountctl) and of crash runs (tools/crash_run): the commands, tests/mount.py and
# others, with the daemon under the sanitizers; docs/MOUNT.md says what was compared. Skipped where FUSE or the right to mount is missing,
# with CI=true too, since no package brings them. BLOBCRASH_ARCHIVE names a library that is built already. The last line is `N passed, M
# failed`.
top=$(CDPATH='' cd -- "$(dirname -- "$0")/.." && pwd -P)
# shellcheck source=tests/counting.sh
. "$top/tests/counting.sh"
# shellcheck source=tests/running.sh
. "$top/tests/running.sh"
export PYTHONDONTWRITEBYTECODE=1
need_program files
files=${program}_files

at="$work/a mount"
mkdir "$at"
unmount() { [ ! -d "$at" ] || "$top/tools/mountctl" "$at" umount >/dev/null 2>&1; }
trap 'unmount; rm -rf "$work"' EXIT

if ! has "${CC:-cc}" pkg-config || ! pkg-config --exists fuse3; then
    skip 'there is no C compiler with libfuse 3 (Debian: gcc, pkg-config, libfuse3-dev)'
    finish
fi
if ! has_python; then
    skip 'there is no Python 3.8 or later'
    finish
fi
# What is said without FUSE, and without the right.
run "$top/tools/mount" "$work/none"
expect 'no folder' 1 '' "mount: $work/none: no such folder"
run "$top/tools/mount"
ok 'no words' [ "$status" -eq 2 ]
for tool in mount mountctl crash_run check_program; do
    run "$top/tools/$tool" --help
    ok "$tool --help" [ "$status" -eq 0 -a -s "$work/out" -a ! -s "$work/err" ]
done
run "$top/tools/mount" "$at" --frob
ok 'no such option' [ "$status" -eq 2 ]

# In a namespace of its own: without /dev/fuse, and as a user without a right to it.
if [ "$(id -u)" -eq 0 ] && unshare -m true 2>/dev/null && has setpriv; then
    run unshare -m sh -c 'mount -t tmpfs none /dev && exec "$0" "$1"' "$top/tools/mount" "$at"
    docker='in a container: docker run --device /dev/fuse --cap-add SYS_ADMIN'
    expect 'no /dev/fuse' 3 '' "mount: there is no /dev/fuse: load the kernel's module fuse; $docker"
    run unshare -m sh -c 'mount -t tmpfs none /dev && mknod -m 600 /dev/fuse c 10 229 && exec setpriv --reuid=65534 --clear-groups "$0" /' \
        "$top/tools/mount"
    expect 'no right' 3 '' "mount: no right to open /dev/fuse; $docker"
    mkdir "$work/few"
    ln -s "$(command -v dirname)" "$(command -v id)" "$work/few"
    chmod a+x "$work"
    run unshare -m sh -c 'mount -t tmpfs none /dev && mknod -m 666 /dev/fuse c 10 229 && PATH=$1 &&
        exec "$2" --reuid=65534 --clear-groups "$0" /' "$top/tools/mount" "$work/few" "$(command -v setpriv)"
    expect 'no fusermount3' 3 '' 'mount: fusermount3 is missing (Debian: apt-get install fuse3)'
else
    leave_out 'a mount without /dev/fuse: this is not root, or there is no unshare or setpriv'
fi
if ! program=$(sh "$top/adapters/mount/build.sh" 2>"$work/err"); then
    cat "$work/err"
    give_up "the daemon can't be built"
fi
if [ "$(id -u)" -eq 0 ] && unshare -m true 2>/dev/null && has setpriv; then
    run setpriv --bounding-set=-sys_admin "$top/tools/mount" "$at"
    sed -i '/^fusermount3: /d' "$work/err"
    expect 'no right to mount' 3 '' "mount: no right to mount: CAP_SYS_ADMIN is missing, or a rule of the system forbids it. In a \
container: docker run --device /dev/fuse --cap-add SYS_ADMIN"
    # The daemon, as tools/crash_run starts it.
    run unshare -m sh -c 'mount -t tmpfs none /dev && exec "$0" "$1" --control "$1.socket"' "$program" "$at"
    expect 'the daemon without /dev/fuse' 3 '' "mount: there is no /dev/fuse: load the kernel's module fuse; $docker"
    run unshare -m sh -c 'mount -t tmpfs none /dev && mknod -m 600 /dev/fuse c 10 229 && cd / &&
        exec setpriv --reuid=65534 --clear-groups /proc/self/fd/3 / --control /tmp/none' 3<"$program"
    expect 'the daemon without a right' 3 '' "mount: no right to open /dev/fuse; $docker"
    # As another user, by fusermount3.
    home=$(mktemp -d /tmp/blobcrash-user.XXXXXX)
    mkdir "$home/m"
    cp "$program" "$home/daemon"
    chown -R 65534:65534 "$home"
    # shellcheck disable=SC2016
    run unshare -m sh -c 'mount -t tmpfs none /dev && mknod -m 666 /dev/fuse c 10 229 && mknod -m 666 /dev/null c 1 3 && cd "$0" &&
        exec setpriv --reuid=65534 --regid=65534 --clear-groups sh -c \
            "./daemon m --control s && echo hi >m/a && cat m/a && fusermount3 -u m"' \
        "$home"
    expect 'a mount without root' 0 "hi$line" ''
    rm -rf "$home"
fi
run "$top/tools/mount" "$at"
if [ "$status" -eq 3 ]; then
    leave_out "$(tail -n 1 "$work/err")"
    finish
fi
expect 'a mount' 0 '' ''
run "$top/tools/mount" "$at"
ok 'a second one' [ "$status" -eq 1 ]
printf 'durable' >"$at/a file"
run "$top/tools/mountctl" "$at" settle
expect settle 0 '' ''
run "$top/tools/mountctl" "$at" keep 0 1
expect keep 0 '' ''
run "$top/tools/mountctl" "$at" config write 0 1 0 1 prefix
expect config 0 '' ''
printf 'lost' >"$at/lost"
run "$top/tools/mountctl" "$at" crash
ok 'a crash' grep -q '^life 2 writes [0-9]* kept-bytes 0 lost-bytes [0-9]* edits 1 kept-edits 0$' "$work/out"
run ls "$at"
expect 'the tree is what was durable' 0 "a file$line" ''
run "$top/tools/mountctl" "$at" export "$work/copy"
expect export 0 "$work/copy$line" ''
ok 'the copy' [ "$(cat "$work/copy/a file")" = durable ]
run "$top/tools/mountctl" "$at" off
run "$top/tools/mountctl" "$at" export "$work/copy2"
expect 'no export while the power is off' 1 '' 'mountctl: the power is off: crash first, or switch it on'
run "$top/tools/mountctl" "$at" on
run "$top/tools/mountctl" "$at" frob
ok 'no such command' [ "$status" -eq 2 ]
run "$top/tools/mountctl" "$at" crash-after x
expect 'a bad number' 1 '' 'mountctl: Invalid argument'
socket=$("$top/tools/mountctl" "$at" socket)
ok 'the socket is its owner'"'"'s alone' [ "$(stat -c %a "$socket") $(stat -c %a "${socket%/*}")" = '600 700' ]
run "$top/tools/mountctl" "$at" umount
expect umount 0 '' ''
ok 'nothing is left' [ "$(ls -A "$at") $(ls "$socket" 2>/dev/null)" = ' ' ]
run "$top/tools/mountctl" "$at" status
ok 'no daemon' [ "$status" -eq 1 ]

run "$top/tools/mount" "$at" --from "$work/copy" --seed 7 --profile posix --tear prefix --keep 1/3 --size 64M --control "$work/socket"
expect 'a mount with options' 0 '' ''
run "$top/tools/mountctl" "$work/socket" crash
ok 'what was copied in is durable' [ "$(cat "$at/a file")" = durable ]
run umount "$at"
ok 'the daemon ends with the mount' timeout 60 sh -c 'while [ -e "$1" ]; do sleep 0.05; done' sh "$work/socket"
"$top/tools/mount" "$at" --foreground &
daemon=$!
timeout 60 sh -c 'until "$1/tools/mountctl" "$2" status >/dev/null 2>&1; do sleep 0.05; done' sh "$top" "$at"
kill -9 "$daemon"
wait "$daemon" 2>/dev/null
run "$top/tools/mountctl" "$at" umount
expect 'umount after the daemon was killed' 0 '' ''
ok 'the folder' ls "$at"
# The fifo of LazyFS.
"$top/tools/mount" "$at" --keep 0/1 --fifo "$work/fifo" --fifo-completed "$work/completed" --log "$work/fifo.log"
# fifo COMMAND: writes it to the fifo, and waits until it is completed.
fifo() {
    echo "lazyfs::$1" >"$work/fifo"
    run timeout 60 head -n 1 "$work/completed"
    expect "fifo: $1" 0 "finished::$1$line" ''
}
ok 'the fifos are their owner'"'"'s alone' [ "$(stat -c '%a %F' "$work/fifo" "$work/completed" | sort -u)" = '600 fifo' ]
echo kept >"$at/kept"
fifo cache-checkpoint
echo lost >"$at/lost"
fifo unsynced-data-report
ok 'what is unsynced' grep -qx 'unsynced: inode [0-9]* /lost 5 bytes' "$work/fifo.log"
fifo clear-cache
run ls "$at"
expect 'a crash by the fifo' 0 "kept$line" ''
mkdir "$work/other"
run "$top/tools/mount" "$work/other" --fifo "$work/fifo"
expect 'a fifo of another daemon' 1 '' 'mount: --fifo: Address already in use'
fifo frob
ok 'no such command of the fifo' grep -qx 'lazyfs::frob: error: no such command' "$work/fifo.log"
run "$top/tools/mountctl" "$at" umount
ok 'the fifos are removed' [ ! -e "$work/fifo" -a ! -e "$work/completed" ]
run "$top/tools/mount" "$at" --fifo "$work/fifo.log"
ok 'another file is no fifo' [ "$status" -eq 1 -a -f "$work/fifo.log" ]
for bad in '--seed x' '--profile zfs' '--tear sectors' '--keep 3/2' '--keep 1' '--size 1X'; do
    # shellcheck disable=SC2086
    run "$top/tools/mount" "$at" $bad
    ok "bad: $bad" [ "$status" -eq 2 ]
done

# Crash runs of a log: what it forgets is found, in the profiles in which a crash may show it, and a seed repeats.
cd "$top" || exit 1
log=examples/mount_log.py
crash_run() {
    options=$1
    shift
    # shellcheck disable=SC2086
    run tools/crash_run $options --out "$work/failed" --work "$log append $*" --check "$log check"
}
crash_run '--seeds 4 --profile posix'
ok 'a log that loses nothing' [ "$status" -eq 0 ]
crash_run '--seeds 4 --profile ext4' --forget-directory
ok 'ext4 makes a name durable with its file' [ "$status" -eq 0 ]
crash_run '--seeds 4 --profile posix --keep 1/8' --forget-directory
ok 'POSIX need not' grep -q '^seed .*: lost$' "$work/out"
crash_run '--seeds 3 --jobs 2' --forget-sync
ok 'a forgotten sync' [ "$status" -eq 1 ]
ok 'the durable tree and the acknowledgements' [ -d "$work/failed/seed-3/tree" -a -s "$work/failed/seed-3/acknowledged" ]
again=$(sed -n 's/^  again: //p' "$work/out" | tail -n 1)
cp -R "$work/failed/seed-3/tree" "$work/tree"
ok 'the command that repeats a seed' [ -n "$again" ]
(eval "$again") >"$work/again" 2>&1
ok 'fails again' grep -q '^seed 3: lost$' "$work/again"
ok 'with the same tree' diff -r "$work/tree" "$work/failed/seed-3/tree"
replay=$(sed -n 's/^  replay: //p' "$work/again")
ok 'the command that replays its record' [ -n "$replay" ]
(eval "$replay") >"$work/out" 2>"$work/err"
[ "$(cat "$work/out")" = "tree /log=$(od -An -v -tx1 "$work/tree/log" | tr -d ' \n')" ]
tell $? 'a record replays to the same tree'
# Seeds by an executor, as of a cluster.
# shellcheck disable=SC2016
run examples/mount_cluster.py --seeds 3 --work "$log append" --check 'test "$(wc -l <"$ACKNOWLEDGED")" -eq 12 || exit 2' --out "$work/failed" \
    --stop-after 9
ok 'an executor' grep -q '^| ext4 | 3 | 9 | [0-9]* | [0-9]* | 0 | 0 | 3 | 0 | 0 | 0 |$' "$work/out"
# After a write that fails the log acknowledges nothing.
run tools/crash_run --seeds 4 --fault 'failed_write prefix' --fault 'config write 1 4 1 2 subset' --work "$log append" --check "$log check"
ok 'writes that fail' [ "$status" -eq 0 ]
run tools/crash_run --seeds 2 --stop-after 1000 --fault 'syncs lie' --out "$work/failed" --work "$log append" --check "$log check"
ok 'syncs that lie' [ "$status" -eq 1 ]
# A program that doesn't quote the folder.
# shellcheck disable=SC2016
run tools/crash_run --seeds 1 --stop-after 1000 --work 'mkdir $MOUNT/d' --check 'test -d $MOUNT'
ok 'the folder has no space' [ "$status" -eq 0 ]
# The workflow of a user runs a program on the mount.
step=$(sed -n 's/^ *- run: $RUNNER_TEMP.$RELEASE.bin.\(blobcrash crash-run .*\)/\1/p' examples/ci_use.yml)
run sh -c "cd examples && ../$step --seeds 1"
ok 'the step of the workflow' [ "$status" -eq 0 -a "$(grep -c '^| [a-z0-9]* | 1 |' "$work/out")" -eq 4 ]
# A third of the seeds fail before their second crash: these have the tree and the record of the first one.
# shellcheck disable=SC2016
run tools/crash_run --seeds 12 --jobs 2 --stop-after 2 --out "$work/all" --work 'echo 1 >$MOUNT/a; sync $MOUNT/a; echo 1 >>$ACKNOWLEDGED' \
    --check 'test -s $ACKNOWLEDGED'
ok 'each failure has what it names' [ "$(ls -d "$work"/all/seed-*/tree "$work"/all/seed-*/run.script | wc -l)" -eq 24 ]
run tools/crash_run --seeds 1 --work true --check false
ok 'a check that fails without a crash' [ "$status" -eq 2 ]
run tools/crash_run --seeds 1 --work true --check true
ok 'a workload that changes nothing' [ "$status" -eq 2 ]
ok 'says so' grep -q '^crash_run: --start and --work change nothing' "$work/err"
run tools/crash_run --seeds 1 --stop-after 0 --work true --check true
ok 'no call to stop after' [ "$status" -eq 2 ]
# Of some of these seeds the check fails in a recovery in which the power was to go off too.
# shellcheck disable=SC2016
run tools/crash_run --seeds 5 --out "$work/recovery" --work 'for i in 1 2 3; do echo $i >"$MOUNT/f$i"; done; sync' \
    --check 'touch "$MOUNT/checked"; test -e "$MOUNT/f3"'
for kept in "$work/recovery"/seed-*; do
    tree=$(cd "$kept/tree" && for name in *; do [ ! -e "$name" ] || printf ' /%s' "$name"; done)
    replayed=$( (cat "$kept/run.script"; echo tree) | ./blobcrash files | tail -n 1 | sed 's/=[^ ]*//g')
    ok "the tree of ${kept##*/} is that of its record" [ "$replayed" = "tree$tree" ]
done

add python3 "$top/tests/mount_runs.py"
add python3 "$top/tests/mount_signals.py"
add python3 "$top/tests/mount_drivers.py"

# SQLite deletes its journal after a commit, and syncs the folder only at EXTRA.
crash_sqlite() {
    run tools/crash_run --seeds "$2" --profile posix --out "$work/failed" --prepare "sh examples/mount_sqlite.sh prepare" \
        --work "sh examples/mount_sqlite.sh work $1" --check "sh examples/mount_sqlite.sh check"
}
if has sqlite3; then
    crash_sqlite EXTRA 6
    ok 'SQLite at EXTRA loses nothing' [ "$status" -eq 0 ]
    crash_sqlite FULL 12
    ok 'at FULL it loses a commit' grep -q '^seed .*: lost$' "$work/out"
else
    skip 'SQLite: there is no sqlite3'
fi
# Real programs. PostgreSQL may refuse to start after a crash in its start, which is no loss (docs/FOUND.md).
# program NAME PROFILE SEEDS PATTERN: whether what programs.sh prints of held, lost, damaged and not started matches. A seed may be untested.
program() {
    run sh adapters/mount/programs.sh --profiles "$2" --seeds "$3" --jobs 1 "$1"
    if grep -q '^programs.sh: skipped' "$work/err"; then
        leave_out "$(tail -n 1 "$work/err")"
        return
    fi
    ok "$1 on $2: $(tail -n 1 "$work/out")" grep -Eq "^\\| $1 \\| $2 \\| $3 \\| [0-9]+ \\| [0-9]+ \\| $4 \\| 0 \\| [0-9]+ \\|\$" "$work/out"
}
program postgres ext4 3 '[0-3] \| 0 \| 0 \| [0-3]'
program postgres posix 2 '[0-2] \| 0 \| 0 \| [0-2]'
# It may not start, and has lost nothing then: docs/FOUND.md. On the other profiles its log may also be damaged.
program redis xfs 4 '[0-4] \| 0 \| 0 \| [0-4]'
program sqlite-wal posix 2 '[12] \| 0 \| 0 \| 0'
program git-fsync ext4 3 '[0-3] \| 0 \| 0 \| 0'
program git ext4 4 '[0-3] \| [0-9] \| [0-9] \| 0'
program python-sqlite3 xfs 1 '[01] \| [01] \| 0 \| 0'
program rsync ext4 1 '[01] \| [01] \| 0 \| 0'
program tarantool xfs 1 '[01] \| [01] \| [01] \| 0'
if has redis-server redis-cli; then
    run sh examples/mount_redis.sh
    ok "examples/mount_redis.sh: $(head -c 200 "$work/out")" [ "$(cat "$work/out")" = value ]
    run sh examples/mount_redis.sh posix
    ok "and on posix: $(head -c 200 "$work/out")" [ "$(cat "$work/out")" = '' ]
else
    skip 'Redis: there is no redis-server'
fi
MEGABYTES=4 FILES=50 run sh benches/mount.sh 0.01
ok 'benches/mount.sh' [ "$status" -eq 0 ]
run sh examples/mount.sh
ok 'examples/mount.sh' grep -q '^ *4 .*/synced$' "$work/out"

sanitized=
if OUT="$work/sanitized" CFLAGS="${CFLAGS:-} -fsanitize=address,undefined -fno-sanitize-recover=all" \
    sh "$top/adapters/mount/build.sh" >"$work/path" 2>"$work/err"; then
    sanitized=$(cat "$work/path")
else
    skip 'the daemon under the address sanitizer, and random bytes for it'
fi
add python3 "$top/tests/mount.py" "$program" ${sanitized:+"$sanitized"}
add python3 "$top/tests/mount_acknowledged.py" "${sanitized:-$program}"
add python3 "$top/tests/mount_extra.py" "${sanitized:-$program}"
add python3 "$top/tests/mount_clients.py" "${sanitized:-$program}"
add python3 "$top/tests/mount_limits.py" "${sanitized:-$program}"
add python3 "$top/tests/mount_records.py" "${sanitized:-$program}" "$files"
[ -z "$sanitized" ] || add python3 "$top/tests/mount_fuzz.py" "$sanitized" "$files"
finish
