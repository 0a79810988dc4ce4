#!/usr/bin/env python3
"""
Redis with an append-only file that is synced at each command (appendfsync always) and rewritten often: redis.py
prepare|start|work|check.
"""

import os
import socket

from driver import KEYS, MOUNT, SCRATCH, judge, main, serve, value, work

SOCKET = os.path.join(SCRATCH, "redis.socket")


class Client:
    """A connection."""

    def __init__(self):
        self.socket = socket.socket(socket.AF_UNIX)
        self.socket.settimeout(40)
        self.socket.connect(SOCKET)
        self.replies = self.socket.makefile("rb")

    def ask(self, *words):
        """Returns the reply to a command: a line, or bytes, or None for nothing."""
        encoded = [word.encode() for word in words]
        self.socket.sendall(b"*%d\r\n" % len(words) + b"".join(b"$%d\r\n%s\r\n" % (len(word), word) for word in encoded))
        line = self.replies.readline().decode().strip()
        if not line.startswith("$"):
            return line
        return None if int(line[1:]) < 0 else self.replies.read(int(line[1:]) + 2)[:-2].decode()


def serves():
    """Whether the server answers."""
    try:
        return Client().ask("PING") == "+PONG"
    except OSError:
        return False


def start():
    """Starts the server."""
    if os.path.exists(SOCKET):
        os.unlink(SOCKET)
    options = {"dir": MOUNT, "appendonly": "yes", "appendfsync": "always", "save": "", "port": "0", "unixsocket": SOCKET,
               "auto-aof-rewrite-min-size": "6kb", "auto-aof-rewrite-percentage": "50"}
    words = [word for name, setting in options.items() for word in ("--" + name, setting)]
    return 0 if serve(["redis-server", *words], serves) else 1


def prepare():
    """Makes the first files, which are durable then."""
    if start():
        return 1
    try:
        Client().ask("SHUTDOWN", "NOSAVE")
    except OSError:
        pass
    return 0


def make_keys():
    """A SET an operation."""
    client = Client()
    return work(lambda number: client.ask("SET", f"k{number % KEYS}", value(number)) == "+OK")


def check():
    """All acknowledged keys are there."""
    client = Client()
    found = {key: client.ask("GET", f"k{key}") for key in range(KEYS)}
    return judge({key: text for key, text in found.items() if text is not None})


if __name__ == "__main__":
    main({"prepare": prepare, "start": start, "work": make_keys, "check": check})
