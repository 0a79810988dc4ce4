"""
Random bytes for the mount's daemon and for what reads its records: mount_fuzz.py PROGRAM FILES [SEED ..]. PROGRAM is the daemon under the
sanitizers, FILES the program of `blobcrash files`. Clients send whole lines and parts of them, and go away at any byte, while programs make
calls through crashes. The daemon must end well, without a report, and its record must replay. A failure repeats by its seed, if not always:
the daemon and its clients run side by side. The last line is `N passed, M failed`.
"""

import contextlib
import os
import random
import select
import signal
import socket
import subprocess
import sys
import tempfile
import time

sys.dont_write_bytecode = True
from mount import SURVIVES, program  # noqa: E402
from mount_calls import Mount, check, comes, refused, run_tests  # noqa: E402

PROGRAM, FILES = sys.argv[1:3]
SEEDS = [int(word) for word in sys.argv[3:]] or [1, 2, 3]
STEPS, SECONDS, SCRIPTS = 800, 15, 40
COMMANDS = [b"status", b"settle", b"off", b"on", b"crash", b"crash-after 3", b"crash-after 0", b"crash-after 99999999999999999999", b"frob", b"",
            b"config write 0 1 1 2 prefix", b"config write 1 9 1 2 subset", b"config sync 1 5", b"config clear", b"config read 1 9 # \xff",
            b"config open 1 0", b"profile posix", b"profile ext4", b"profile zfs", b"edits any", b"edits logged", b"edits none", b"keep 1 3", b"keep 3 1",
            b"failed_sync drops", b"syncs lie", b"syncs honest", b"failed_write prefix", b"note acknowledged 1", b"note \xff", b"note " + b"n" * 480, b"record stop now",
            b"record /", b"x" * 511, b"x" * 600]
FIFO = [b"lazyfs::clear-cache", b"lazyfs::cache-checkpoint", b"lazyfs::unsynced-data-report", b"lazyfs::display-cache-usage", b"lazyfs::help",
        b"lazyfs::", b"lazyfs::crash::timing=after", b"y" * 511, b"y" * 700]


def spoiled(draw, data):
    """Returns bytes with some of them changed, cut off, repeated or added."""
    data = bytearray(data)
    for _ in range(draw.choice([0, 0, 0, 1, 2, 9])):
        at, kind = draw.randrange(len(data) + 1), draw.randrange(5)
        if kind == 0:
            data[at:at + 1] = bytes([draw.randrange(256)])
        elif kind == 1:
            data[at:at] = draw.choice([b"\n", b"\0", b"\r\n", b" ", b"\xff"])
        elif kind == 2:
            del data[at:at + draw.choice([1, 1, 20])]
        elif kind == 3:
            data[at:at] = data[:draw.randrange(40)]
        else:
            del data[at:]
    return bytes(data)


def lines(draw, commands):
    """Returns some lines, spoiled. None of them ends the mount, or its record."""
    data = spoiled(draw, b"".join(draw.choice(commands) + b"\n" for _ in range(draw.choice([1, 1, 2, 5, 30]))))
    return b"" if b"umount" in data or b"record stop\n" in data or b"record /" in data.replace(b"record /\n", b"") else data


class Clients:
    """Connections to the control socket, of which some stay idle."""

    def __init__(self, draw, path):
        self.draw, self.path, self.held = draw, path, []

    def send(self, data):
        """Sends bytes in pieces on a new or an old connection. Then it may read a reply, and stays, goes, or says that it sends no more."""
        if not self.held or self.draw.random() < 0.7:
            client = socket.socket(socket.AF_UNIX)
            client.connect(self.path)
            client.setblocking(False)
            self.held.append(client)
        client = self.draw.choice(self.held)
        with contextlib.suppress(OSError):
            while data:
                count = self.draw.choice([1, 7, 100, len(data)])
                client.send(data[:count])
                data = data[count:]
            if self.draw.random() < 0.3 and select.select([client], [], [], 0.01)[0]:
                client.recv(self.draw.choice([1, 5000]))
            if self.draw.random() < 0.1:
                client.shutdown(self.draw.choice([socket.SHUT_RD, socket.SHUT_WR]))
        if len(self.held) > 20 or self.draw.random() < 0.6:
            self.held.remove(client)
            client.close()

    def close(self):
        """Closes all."""
        for client in self.held:
            client.close()


def send_all(draw, mount, fifo):
    """Sends random lines to the socket and the fifo, while programs make calls. Returns how many steps were made in time."""
    clients, until = Clients(draw, os.path.join(mount.folder, "socket")), time.monotonic() + SECONDS
    programs = [program(SURVIVES, mount.at, str(draw.randrange(99)), stderr=subprocess.DEVNULL) for _ in range(2)]
    steps = 0
    while steps < STEPS and time.monotonic() < until and mount.daemon.poll() is None:
        steps += 1
        with contextlib.suppress(OSError):
            if draw.random() < 0.2:
                os.write(fifo, lines(draw, FIFO))
            else:
                clients.send(lines(draw, COMMANDS))
    clients.close()
    for one in programs:
        one.kill()
    comes(lambda: mount.daemon.poll() is not None or refused(mount, "crash").startswith("life"))
    check("the programs end", [one.wait(60) for one in programs] == [-signal.SIGKILL] * 2)
    for one in programs:
        one.stdout.close()
    return steps


def replayed(record):
    """Runs a script of files. Returns its status, and what it says on standard error."""
    ran = subprocess.run([FILES], input=record, stdout=subprocess.DEVNULL, stderr=subprocess.PIPE)
    return ran.returncode, ran.stderr


def fuzz(seed):
    """One daemon, and its record."""
    draw = random.Random(seed)
    with tempfile.TemporaryDirectory() as folder:
        fifo, record, options = f"{folder}/fifo", f"{folder}/record", ["--size", "4M", "--changes", "30", "--seed", str(seed)]
        with Mount(PROGRAM, "--fifo", fifo, "--log", f"{folder}/log", "--record", record, *options) as mount:
            opened = os.open(fifo, os.O_WRONLY | os.O_NONBLOCK)
            steps = send_all(draw, mount, opened)
            os.close(opened)
            check(f"seed {seed}: {steps} steps, and the daemon serves", "life" in refused(mount, "status"), mount.messages())
            check(f"seed {seed}: the record", refused(mount, "record stop") == "")
            refused(mount, "umount")
            check(f"seed {seed}: the daemon ends well", mount.daemon.wait(60) == 0 and not mount.messages(), mount.messages())
        with open(record, "rb") as file:
            script = file.read()
        check(f"seed {seed}: the record of {script.count(10)} lines replays", replayed(script) == (0, b""), replayed(script))
        read_spoiled(draw, seed, script)


def read_spoiled(draw, seed, script):
    """Records that are cut or changed at any byte: a whole run, or one line that says which is bad."""
    start = b"".join(script.splitlines(keepends=True)[:300])
    bad, met = [], set()
    for _ in range(SCRIPTS):
        status, said = replayed(spoiled(draw, start[:draw.randrange(len(start) + 1)]))
        met.add(status)
        if status not in (0, 2) or (status == 2) != (said.count(b"\n") == 1):
            bad.append((status, said[-500:]))
    check(f"seed {seed}: spoiled records, with statuses {met}", not bad, bad[:3])


if __name__ == "__main__":
    run_tests([lambda seed=seed: fuzz(seed) for seed in SEEDS])
