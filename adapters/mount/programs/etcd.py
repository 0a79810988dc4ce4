#!/usr/bin/env python3
"""etcd, one member, by its HTTP interface: etcd.py prepare|start|work|check."""

import base64
import hashlib
import json
import os
import signal
import subprocess
import time
import urllib.request

from driver import KEYS, MOUNT, judge, main, serve, value, work

# Two ports of this mount's own.
PORT = 20000 + int(hashlib.sha256(MOUNT.encode()).hexdigest()[:8], 16) % 10000
URL, PEERS = f"http://127.0.0.1:{PORT}", f"http://127.0.0.1:{PORT + 10000}"


def encoded(text):
    """Returns base64."""
    return base64.b64encode(text.encode()).decode()


def ask(what, **body):
    """Returns the reply to a call."""
    call = urllib.request.Request(f"{URL}/v3/kv/{what}", json.dumps(body).encode(), {"Content-Type": "application/json"})
    with urllib.request.urlopen(call, timeout=40) as reply:
        return json.load(reply)


def serves():
    """Whether the server answers."""
    try:
        return "header" in ask("range", key=encoded("k"))
    except OSError:
        return False


def start():
    """Starts the server."""
    command = ["etcd", "--data-dir", f"{MOUNT}/data", "--listen-client-urls", URL, "--advertise-client-urls", URL,
               "--listen-peer-urls", PEERS, "--initial-advertise-peer-urls", PEERS, "--initial-cluster", f"default={PEERS}",
               "--snapshot-count", "40"]
    return 0 if serve(command, serves, env={**os.environ, "GOMAXPROCS": "1"}) else 1


def prepare():
    """Makes the first files, which are durable then."""
    if start():
        return 1
    server = int(subprocess.run(["pgrep", "-f", f"^etcd --data-dir {MOUNT}/data"], stdout=subprocess.PIPE).stdout.split()[0])
    os.kill(server, signal.SIGTERM)
    while serves():
        time.sleep(0.05)
    time.sleep(0.3)
    return 0


def make_keys():
    """A put an operation."""

    def put(number):
        try:
            return "header" in ask("put", key=encoded(f"k{number % KEYS}"), value=encoded(value(number)))
        except OSError as error:
            print(error)
            return False

    return work(put)


def check():
    """All acknowledged keys are there."""
    rows = ask("range", key=encoded("k"), range_end=encoded("l")).get("kvs", [])
    return judge({int(base64.b64decode(row["key"])[1:]): base64.b64decode(row["value"]).decode() for row in rows})


if __name__ == "__main__":
    main({"prepare": prepare, "start": start, "work": make_keys, "check": check})
