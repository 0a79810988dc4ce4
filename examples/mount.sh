#!/bin/sh
# A power loss after two writes, one of which is synced: sh examples/mount.sh, at the top of the repository.
set -eu

folder=$(mktemp -d)
tools/mount "$folder" --profile ext4 --seed 3
echo one >"$folder/synced"
sync "$folder/synced"
echo two >"$folder/unsynced"
tools/mountctl "$folder" crash
wc -c "$folder"/*
tools/mountctl "$folder" umount
rmdir "$folder"
