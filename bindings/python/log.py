"""A log with recovery, tested over crashes: a file to copy and to change.

The log acknowledges a record once it is synced. Whatever fails and wherever it crashes, recovery has to find each
acknowledged record, in order, and may find one more: the record that was being appended.

    log.py [forget-sync]

lives through 200 logs, one a seed. With `forget-sync` a record is acknowledged before it is durable,
which has to be found: the first life that loses a record is told, with status 1.
"""

import struct
import sys

from blobcrash import Library, StorageError, Store

HEAD = struct.Struct("<IQ")


def checksum(offset, payload):
    """FNV-1a of the offset and the payload, so that zeros, and a record written at another offset, don't match."""
    total = 0xCBF29CE484222325
    for byte in struct.pack("<Q", offset) + payload:
        total = (total ^ byte) * 0x100000001B3 % 2**64
    return total


def record_at(data, offset):
    """The payload of a whole record at this offset."""
    if len(data) - offset < HEAD.size:
        return None
    length, total = HEAD.unpack_from(data, offset)
    payload = data[offset + HEAD.size :][:length]
    return payload if len(payload) == length and total == checksum(offset, payload) else None


class Log:
    """Records one after another: the length of the payload, a checksum, and the payload."""

    def __init__(self, store, forgets_sync):
        """Opens the log, and cuts off what no append finished. `records` are those that it found."""
        self.blob, size = store.open("wal", b"log")
        self.forgets_sync = forgets_sync
        self.records, self.end = [], 0
        data = self.blob.read(0, size)
        while (payload := record_at(data, self.end)) is not None:
            self.records.append(payload)
            self.end += HEAD.size + len(payload)
        if self.end < len(data):
            self.blob.resize(self.end)
            self.blob.sync()

    def append(self, payload):
        """Appends a record. Once this returns it must never be lost."""
        record = HEAD.pack(len(payload), checksum(self.end, payload)) + payload
        self.blob.write(self.end, record)
        if not self.forgets_sync:
            self.blob.sync()
        self.end += len(record)


class Lost(Exception):
    pass


SETTINGS = ["write 1 16 1 2 subset", "sync 1 16", "resize 1 16 1 2"]


def live(seed, forgets_sync):
    """Runs a log through sixteen crashes. Returns how many records were acknowledged."""
    acknowledged, unanswered = [], None
    with Store(seed, settings=SETTINGS, by=Library) as store:
        for crash in range(16):
            try:
                log = Log(store, forgets_sync)
            except StorageError:
                log = None  # a recovery that a fault cuts short is one more crash
            if log is not None:
                left, more = log.records[: len(acknowledged)], log.records[len(acknowledged) :]
                if left != acknowledged:
                    known = next((n for n, (a, b) in enumerate(zip(left, acknowledged)) if a != b), len(left))
                    lost = f"{len(acknowledged)} records were acknowledged, and {known} are left of them"
                    raise Lost(f"seed {seed}, crash {crash}: {lost}")
                if more and more != [unanswered]:
                    raise Lost(f"seed {seed}, crash {crash}: a record that nobody wrote")
                acknowledged, unanswered = log.records, None
                for number in range(8):
                    payload = bytes([16 * crash + number]) * ((seed + 5 * crash + 3 * number) % 40)
                    try:
                        log.append(payload)
                    except StorageError:
                        unanswered = payload
                        break
                    acknowledged.append(payload)
            store.restart()
    return len(acknowledged)


def main():
    try:
        records = sum(live(seed, "forget-sync" in sys.argv) for seed in range(200))
    except Lost as lost:
        print(lost)
        return 1
    print(f"{records} records in 200 lives, none was lost")
    return 0


if __name__ == "__main__":
    sys.exit(main())
