#!/usr/bin/env python3
"""Programs that replace a file: files.py prepare|work|check sed|vim|rsync|dd. An operation changes one of the files."""

import os

from driver import KEYS, MOUNT, SCRATCH, judge, last_acknowledged, main, run, value, work

NEW = os.path.join(SCRATCH, "new")
COMMANDS = {
    "sed": ["sed", "-i", "s/.*/TEXT/", "PATH"],
    # Without `backupskip` it makes no backup below /tmp.
    "vim": ["vim", "-es", "-u", "NONE", "--cmd", "set backupskip=", "-c", "%s/.*/TEXT/", "-c", "wq", "PATH"],
    "rsync": ["rsync", "--fsync", "--ignore-times", NEW, "PATH"],
    "dd": ["dd", "if=" + NEW, "of=PATH", "conv=fsync", "status=none"],
}


def write(path, text):
    """Writes a file with one line."""
    with open(path, "w", encoding="ascii") as file:
        file.write(f"{text}\n")


def prepare(_):
    """Makes the files, each with a value of no operation."""
    for key in range(KEYS):
        write(f"{MOUNT}/{key}", "none")


def change(kind, number):
    """Gives a file its next value. Returns whether the program succeeds."""
    path, text = f"{MOUNT}/{number % KEYS}", value(number)
    write(NEW, text)
    return run(*(word.replace("TEXT", text).replace("PATH", path) for word in COMMANDS[kind])) is not None


def read(name):
    """Returns the line of a file."""
    with open(f"{MOUNT}/{name}", encoding="ascii", errors="replace") as file:
        return file.read().rstrip("\n")


def check(kind):
    """
    Checks that all files exist, with their values. Of vim the backup counts too, which it removes after the write, if the file has neither
    the old value nor the new one: a backup of an earlier write may be back. dd may be at the next file.
    """
    found = {key: read(f"{key}") if os.path.exists(f"{MOUNT}/{key}") else "" for key in range(KEYS)}
    following = last_acknowledged() + 1
    values = (value(following), value(following - KEYS) if following > KEYS else "none")
    if kind == "vim" and found[following % KEYS] not in values and os.path.exists(f"{MOUNT}/{following % KEYS}~"):
        found[following % KEYS] = read(f"{following % KEYS}~")
    if kind == "dd":
        found[following % KEYS] = value(following)
    return judge({key: text for key, text in found.items() if text != "none"})


if __name__ == "__main__":
    main({"prepare": prepare, "work": lambda kind: work(lambda number: change(kind, number), 50), "check": check})
