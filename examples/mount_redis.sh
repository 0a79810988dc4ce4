#!/bin/sh
# Redis through a power loss: sh examples/mount_redis.sh [PROFILE], at the top of the repository. Prints the value of a key that Redis
# acknowledged, or an empty line if it is lost.
set -eu

folder=$(mktemp -d)
profile=${1:-ext4}
trap 'redis-cli -s "$folder.socket" shutdown nosave; tools/mountctl "$folder" umount; rmdir "$folder"' EXIT

serve() {
    redis-server --dir "$folder" --appendonly yes --appendfsync always --save '' --port 0 --unixsocket "$folder.socket" \
        --pidfile "$folder.pid" --daemonize yes >/dev/null
    # While it reads its log it returns LOADING, with status 0.
    until [ "$(redis-cli -s "$folder.socket" ping 2>/dev/null)" = PONG ]; do sleep 0.1; done
}

tools/mount "$folder" --profile "$profile" --keep 0/1
serve
redis-cli -s "$folder.socket" set key value >/dev/null
tools/mountctl "$folder" off            # the power goes off: all calls wait
kill -9 "$(cat "$folder.pid")"
tools/mountctl "$folder" crash >&2      # the folder has what was durable
serve
redis-cli -s "$folder.socket" get key
