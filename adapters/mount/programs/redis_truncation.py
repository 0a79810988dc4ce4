#!/usr/bin/env python3
"""
Redis refuses to start after two power losses: redis_truncation.py [PROFILE], posix if none is given.

The first tears the last record of the append-only file. Redis truncates the file at its next start, and doesn't sync that. A rewrite
then begins a new file: its manifest is durable before the old file is synced. If the second power loss comes between these, the
truncation is lost, and the old file, which isn't the last one any more, is torn again. Exits with 1 if Redis refuses.
"""

import os
import subprocess
import sys
import tempfile
import time

sys.dont_write_bytecode = True
HERE = os.path.dirname(os.path.realpath(__file__))
TOP = os.path.join(HERE, "..", "..", "..")
sys.path.insert(0, os.path.join(HERE, ".."))
from mounting import Mount  # noqa: E402

# This seed keeps a part of the torn record.
SEED = "3"
# The calls of a rewrite up to the sync of the folder that has the new manifest.
REWRITE_CALLS = 6


class Redis:
    """A server on a mount."""

    def __init__(self, mount, scratch):
        self.mount = mount
        self.socket = os.path.join(scratch, "socket")
        self.log = os.path.join(scratch, "log")

    def start(self):
        """Starts the server. Returns whether it serves."""
        words = ["redis-server", "--dir", self.mount.at, "--appendonly", "yes", "--appendfsync", "always", "--save", "", "--port", "0",
                 "--unixsocket", self.socket]
        with open(self.log, "wb") as log:
            self.server = subprocess.Popen(words, stdin=subprocess.DEVNULL, stdout=log, stderr=log)
        while self.server.poll() is None:
            if self.ask("ping") == "PONG":
                return True
            time.sleep(0.05)
        return False

    def ask(self, *words):
        """Returns the reply to a command, or None if the power went off before it."""
        client = subprocess.Popen(["redis-cli", "-s", self.socket, *words], stdout=subprocess.PIPE, stderr=subprocess.DEVNULL,
                                  universal_newlines=True)
        while client.poll() is None:
            if self.mount.control.is_off():
                client.kill()
            time.sleep(0.01)
        return None if client.returncode else client.communicate()[0].strip()

    def lose_power(self):
        """Waits until the power is off, kills the server, and crashes."""
        while not self.mount.control.is_off():
            time.sleep(0.01)
        self.server.kill()
        self.mount.ask("crash")
        self.server.wait()

    def said(self):
        """Returns the log."""
        with open(self.log, encoding="utf-8", errors="replace") as log:
            return log.read()


def run(redis, mount):
    """Returns whether Redis starts after both power losses."""
    redis.start()
    mount.ask("settle")
    redis.ask("set", "durable", "v" * 300)
    mount.ask("crash-after 1")
    redis.ask("set", "torn", "w" * 300)
    redis.lose_power()
    mount.ask("keep 0 1")  # the second one loses the truncation
    redis.start()
    if "Truncating the AOF" not in redis.said():
        raise SystemExit("the first power loss tore nothing")
    mount.ask("keep 1 1")  # and no change of names
    mount.ask(f"crash-after {REWRITE_CALLS}")
    redis.ask("bgrewriteaof")
    redis.lose_power()
    starts = redis.start()
    print("\n".join(redis.said().splitlines()[-5:]))
    return starts


def main(profile="posix"):
    """Returns the exit status."""
    built = subprocess.run(["sh", os.path.join(TOP, "adapters/mount/build.sh")], stdout=subprocess.PIPE, check=True)
    program = built.stdout.decode().strip()
    with tempfile.TemporaryDirectory() as scratch, Mount(program, "--seed", SEED, "--profile", profile, "--tear", "prefix") as mount:
        redis = Redis(mount, scratch)
        try:
            return 0 if run(redis, mount) else 1
        finally:
            redis.server.kill()
            redis.server.wait()


if __name__ == "__main__":
    sys.exit(main(*sys.argv[1:]))
