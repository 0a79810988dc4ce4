#!/usr/bin/env python3
"""InfluxDB with wal-fsync-delay = "0s", its default, by HTTP: influxdb.py prepare|start|work|check. An operation writes a point of a series."""

import hashlib
import json
import os
import urllib.parse
import urllib.request

from driver import KEYS, MOUNT, SCRATCH, judge, main, serve, value, work

PORT = 20000 + int(hashlib.sha256(MOUNT.encode()).hexdigest()[:8], 16) % 10000  # of this mount's own
CONFIG = f"""reporting-disabled = true
bind-address = "127.0.0.1:{PORT + 10000}"
[meta]
dir = "{MOUNT}/meta"
[data]
dir = "{MOUNT}/data"
wal-dir = "{MOUNT}/wal"
wal-fsync-delay = "0s"
[http]
bind-address = "127.0.0.1:{PORT}"
log-enabled = false
[monitor]
store-enabled = false
"""


def ask(path, body=None, **words):
    """Returns the reply, or None if there is none."""
    try:
        with urllib.request.urlopen(f"http://127.0.0.1:{PORT}/{path}?{urllib.parse.urlencode({'db': 'd', **words})}", body, timeout=40) as reply:
            return reply.read().decode()
    except OSError as error:
        print(path, error)
        return None


def start():
    with open(os.path.join(SCRATCH, "influxdb.conf"), "w", encoding="utf-8") as file:
        file.write(CONFIG)
    with open(os.path.join(SCRATCH, "output"), "ab") as output:
        command = ["influxd", "-config", file.name]
        return 0 if serve(command, lambda: ask("ping") is not None, 20, stdout=output, stderr=output, env={**os.environ, "GOMAXPROCS": "1"}) else 1


def write_points():
    """A series for each key."""
    if ask("query", b"", q="CREATE DATABASE d") is None:
        return 1
    return work(lambda number: ask("write", f'm,k={number % KEYS} v="{value(number)}" {number}'.encode()) is not None)


def check():
    series = json.loads(ask("query", q="SELECT last(v) FROM m GROUP BY k") or "{}").get("results", [{}])[0].get("series", [])
    return judge({int(each["tags"]["k"]): each["values"][0][1] for each in series})


if __name__ == "__main__":
    main({"start": start, "work": write_points, "check": check})
