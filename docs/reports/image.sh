#!/bin/sh
# Copies a file system while a program works on it, and checks each copy: what the disk has at that moment, as after a power loss.
#   image.sh FS WORK CHECK [COPIES]   FS is ext4, xfs or btrfs; as root, with loop devices
# WORK and CHECK are commands of sh. They find the folder as $MOUNT, and $ACKNOWLEDGED, a file outside of it: WORK adds a line to it for
# each operation that the program says is durable; CHECK fails if one of these is missing. WORK is stopped while a copy is made.
set -eu
fs=$1 work=$2 check=$3 copies=${4:-10}
at=$(mktemp -d)
MOUNT=$at/mount ACKNOWLEDGED=$at/acknowledged
export MOUNT ACKNOWLEDGED
mkdir "$MOUNT"
: >"$ACKNOWLEDGED"
truncate -s 400M "$at/disk"
"mkfs.$fs" -q "$at/disk"
mount -o loop "$at/disk" "$MOUNT"
trap 'umount "$MOUNT"; rm -rf "$at"' EXIT
sync
setsid sh -c "$work" >"$at/output" 2>&1 &
group=$!
copy=0
while [ "$copy" -lt "$copies" ]; do
    sleep 0.1
    [ -s "$ACKNOWLEDGED" ] || continue
    copy=$((copy + 1))
    kill -STOP "-$group" 2>/dev/null || copies=$copy
    # A process that waits for the disk stops only after that.
    for _ in 1 2 3 4 5 6 7 8 9 10; do
        pgrep -s "$group" -r R,S,D >/dev/null || break
        sleep 0.05
    done
    cp "$ACKNOWLEDGED" "$at/acknowledged.$copy"
    cp --sparse=always "$at/disk" "$at/disk.$copy"
    kill -CONT "-$group" 2>/dev/null || :
done
kill -KILL "-$group" 2>/dev/null || :
wait "$group" 2>/dev/null || :
until umount "$MOUNT" 2>/dev/null; do sleep 0.2; done
trap 'rm -rf "$at"' EXIT
number=0
while [ "$number" -lt "$copy" ]; do
    number=$((number + 1))
    mount -o loop "$at/disk.$number" "$MOUNT"
    cp "$at/acknowledged.$number" "$ACKNOWLEDGED"
    if (sh -c "$check") >"$at/check" 2>&1; then found=held; else found="fails: $(tail -n 1 "$at/check")"; fi
    echo "copy $number, $(wc -l <"$ACKNOWLEDGED") acknowledged: $found"
    umount "$MOUNT"
    rm "$at/disk.$number"
done
