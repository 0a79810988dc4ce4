#!/usr/bin/env python3
"""A log of records over a store that crashes, and what must hold of its recovery: docs/GUIDE.md.

A record is stored in a frame: four bytes of length, four of checksum, then the record. `append` writes a frame after the others and
syncs it. Once it has returned, the record is acknowledged. Recovery reads frames up to one that isn't whole, and truncates the blob there.

    log.py SEED [--forget-sync]    one run; if it breaks the promise, prints its script, with status 1
"""

import os
import random
import struct
import sys
import zlib

sys.path.append(os.path.join(os.path.dirname(os.path.abspath(__file__)), "..", "bindings", "python"))
from blobcrash import Injected, Store, acknowledgement

HEAD = struct.Struct(">II")


def framed(record):
    return HEAD.pack(len(record), zlib.crc32(record)) + record


def records_in(data):
    """The records of the whole frames that some bytes start with, and where they end."""
    records, end = [], 0
    while end + HEAD.size <= len(data):
        length, checksum = HEAD.unpack_from(data, end)
        record = data[end + HEAD.size : end + HEAD.size + length]
        if length == 0 or len(record) < length or zlib.crc32(record) != checksum:
            break
        records.append(record)
        end += HEAD.size + length
    return records, end


class Log:
    """Records that survive a crash once `append` has returned."""

    def __init__(self, store, forgets_sync):
        self._store, self._forgets_sync = store, forgets_sync
        self._blob, size = store.open("wal", b"0")
        self.records, self._end = records_in(self._blob.read(0, size))
        if self._end < size:
            self._blob.resize(self._end)
            self._blob.sync()

    def append(self, record):
        """Appends a record. If this raises `Injected`, the record may survive a crash, or not."""
        frame = framed(record)
        self._blob.write(self._end, frame)
        if not self._forgets_sync:
            self._blob.sync()
        self._store.note(acknowledgement("wal", b"0", self._end, frame))
        self._end += len(frame)


class Broken(Exception):
    """The log lost an acknowledged record, or has one that was never appended."""


def check(acknowledged, unsure, found):
    """Checks that the acknowledged records are found in order, and after them at most the one for which `append` raised."""
    if found[: len(acknowledged)] != acknowledged:
        raise Broken(f"of {len(acknowledged)} acknowledged records {len(found)} are found")
    if found[len(acknowledged) :] not in ([], [unsure]):
        raise Broken("a record is found that was never appended")


def run(store, seed, forgets_sync):
    """Makes three rounds over one store. Each appends records until an append fails or there are enough, and then crashes."""
    chance = random.Random(seed)
    store.configure("write 1 8 1 2 " + chance.choice(["prefix", "subset", "sectors 16"]))
    acknowledged = []
    for _ in range(3):
        log, unsure = Log(store, forgets_sync), None
        store.configure("sync 1 8")
        try:
            for _ in range(chance.randrange(1, 6)):
                unsure = bytes(chance.randrange(256) for _ in range(chance.randrange(1, 24)))
                log.append(unsure)
                acknowledged.append(unsure)
                unsure = None
        except Injected:
            pass
        store.configure("sync 0 1")
        store.restart()
        found = Log(store, forgets_sync).records
        check(acknowledged, unsure, found)
        acknowledged = found
        store.reopen()


def broken_script(seed, forgets_sync, by=None):
    """Returns how a run breaks the promise, and its script; `None` if it keeps it."""
    with Store(seed, by=by) as store:
        try:
            run(store, seed, forgets_sync)
        except Broken as broken:
            return str(broken), store.script
    return None


def main(arguments):
    broken = broken_script(int(arguments[0]), "--forget-sync" in arguments)
    if broken is not None:
        print(f"# seed {arguments[0]}: {broken[0]}")
        print("\n".join(broken[1]))
    return int(broken is not None)


if __name__ == "__main__":
    sys.exit(main(sys.argv[1:]))
