#!/usr/bin/env python3
"""Unmodified code over every outcome of a power loss, as on four file systems: a JSON file that is replaced, with and without an fsync,
and the standard library's dbm.dumb.

    patched_save.py
"""

import dbm.dumb
import json
import os
import sys

sys.path.insert(0, os.path.join(os.path.dirname(os.path.abspath(__file__)), "..", "bindings", "python"))

from blobcrash import Failed, explore, patched


def save(path, value, syncs):
    """Code under test: it knows nothing of blobcrash."""
    with open(path + ".new", "w") as file:
        json.dump(value, file)
        if syncs:
            file.flush()
            os.fsync(file.fileno())
    os.replace(path + ".new", path)


def replaces(files, syncs=False):
    with patched(files, "/disk"):
        save("/disk/settings.json", "old", syncs)
    files.settle()                              # all of this is durable
    with patched(files, "/disk"):
        save("/disk/settings.json", "new", syncs)
    files.restart()                             # the power goes off
    with patched(files, "/disk"), open("/disk/settings.json") as file:
        assert json.load(file) in ("old", "new")


def replaces_synced(files):
    replaces(files, syncs=True)


def adds_a_key(files):
    with patched(files, "/disk"), dbm.dumb.open("/disk/db", "c") as db:
        db[b"first"] = b"1"
    files.settle()
    with patched(files, "/disk"), dbm.dumb.open("/disk/db", "w") as db:
        db[b"second"] = b"2"
    files.restart()
    with patched(files, "/disk"), dbm.dumb.open("/disk/db", "r") as db:
        assert b"first" in db.keys(), "a durable key is lost"


def main():
    for body in (replaces, replaces_synced, adds_a_key):
        for profile in ("ext4", "xfs", "btrfs", "posix"):
            try:
                found = explore(body, files=profile, settings=["write 0 1 1 2 sectors 512"])
            except Failed as failed:
                found = f"run {failed.run} fails: {failed.reason}"
            print(f"{body.__name__}, {profile}: {found}")


if __name__ == "__main__":
    main()
