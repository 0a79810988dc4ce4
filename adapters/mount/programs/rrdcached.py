#!/usr/bin/env python3
"""rrdcached with a journal: rrdcached.py prepare|start|work|check. An update is an operation; the database has a row for each second."""

import os

from driver import MOUNT, SCRATCH, judge_numbers, main, run, serve, work

SOCKET, BEGIN = f"unix:{os.path.join(SCRATCH, 'rrdcached.socket')}", 1500000000


def prepare():
    """Makes the database and the folder of the journal."""
    os.mkdir(f"{MOUNT}/journal")
    made = run("rrdtool", "create", f"{MOUNT}/d.rrd", "--start", str(BEGIN), "--step", "1", "DS:v:GAUGE:2:U:U", "RRA:LAST:0.5:1:1000")
    return int(made is None)


def start():
    """Starts the server."""
    for path in (SOCKET[5:], os.path.join(SCRATCH, "rrdcached.pid")):
        if os.path.exists(path):
            os.unlink(path)
    words = ["rrdcached", "-g", "-l", SOCKET, "-b", MOUNT, "-j", f"{MOUNT}/journal", "-w", "1000", "-f", "2000", "-p", os.path.join(SCRATCH, "rrdcached.pid")]
    return 0 if serve(words, lambda: os.path.exists(SOCKET[5:])) else 1


def update(number):
    """Sets the value of a second."""
    return run("rrdtool", "update", "--daemon", SOCKET, f"{MOUNT}/d.rrd", f"{BEGIN + number}:{number}") is not None


def check():
    """All acknowledged values are there."""
    said = run("rrdtool", "fetch", "--daemon", SOCKET, f"{MOUNT}/d.rrd", "LAST", "-s", str(BEGIN), "-e", str(BEGIN + 200)) or ""
    rows = [line.split(": ") for line in said.splitlines() if ": " in line]
    return judge_numbers([int(time) - BEGIN for time, text in rows if "nan" not in text and round(float(text)) == int(time) - BEGIN])


if __name__ == "__main__":
    main({"prepare": prepare, "start": start, "work": lambda: work(update, 60), "check": check})
