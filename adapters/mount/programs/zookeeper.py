#!/usr/bin/env python3
"""ZooKeeper, one server, with forceSync, its default: zookeeper.py prepare|start|work|check. An operation makes a node or sets its data."""

import hashlib
import os
import socket
import struct
import subprocess

from driver import KEYS, MOUNT, SCRATCH, judge, main, serve, value, work

PORT = 20000 + int(hashlib.sha256(MOUNT.encode()).hexdigest()[:8], 16) % 20000  # of this mount's own
CREATE, GET, SET = 1, 4, 5


def text(data):
    return struct.pack(">i", len(data)) + data


def ask(session, body):
    """Returns the reply to a request."""
    session.sendall(text(body))
    with session.makefile("rb") as stream:
        return stream.read(struct.unpack(">i", stream.read(4))[0])


def call(session, kind, key, rest):
    """Returns the error of a call on the node of a key, and what comes after it."""
    reply = ask(session, struct.pack(">ii", 1, kind) + text(b"/k%d" % key) + rest)
    return struct.unpack(">i", reply[12:16])[0], reply[16:]


def connect(timeout=40):
    session = socket.create_connection(("127.0.0.1", PORT), timeout=timeout)
    ask(session, struct.pack(">iqiq", 0, 0, 30000, 0) + text(bytes(16)))
    return session


def serves():
    try:
        connect(3).close()
        return True
    except (OSError, struct.error):
        return False


def start():
    """Starts the server."""
    command = ["java", "-Xmx64m", "-XX:TieredStopAtLevel=1", "-XX:+UseSerialGC", "-Dzookeeper.admin.enableServer=false", "-cp", "/usr/share/java/zookeeper.jar",
               "org.apache.zookeeper.server.ZooKeeperServerMain", str(PORT), f"{MOUNT}/data"]
    with open(os.path.join(SCRATCH, "output"), "ab") as output:
        return 0 if serve(command, serves, stdout=output, stderr=output, cwd=SCRATCH) else 1


def prepare():
    """Makes the first files, which are durable then."""
    if start():
        return 1
    found = subprocess.run(["pgrep", "-f", f"ZooKeeperServerMain {PORT} "], stdout=subprocess.PIPE).stdout
    subprocess.run(["kill", *found.decode().split()])
    while serves():
        pass
    return 0


def make_nodes():
    session = connect()

    def put(number):
        data = text(value(number).encode())
        if number <= KEYS:
            acl = struct.pack(">ii", 1, 31) + text(b"world") + text(b"anyone") + struct.pack(">i", 0)
            return call(session, CREATE, number % KEYS, data + acl)[0] == 0
        return call(session, SET, number % KEYS, data + struct.pack(">i", -1))[0] == 0

    return work(put)


def check():
    """All acknowledged nodes are there."""
    session, found = connect(), {}
    for key in range(KEYS):
        error, rest = call(session, GET, key, b"\0")
        if error == 0:
            found[key] = rest[4 : 4 + struct.unpack(">i", rest[:4])[0]].decode()
    return judge(found)


if __name__ == "__main__":
    main({"prepare": prepare, "start": start, "work": make_nodes, "check": check})
