"""The cell and the records of docs/CLIENTS.md, written in Python, over every outcome of small runs: which draws fail, what each crash
keeps, and at which calls the power fails, also while they recover. They keep their promises, and each planted bug is found. Records in
modes that tear a slot show why a sector must be one slot or several. The last line is `N passed, M failed`.

    explore_clients.py [--count]    with `--count` the number of runs of each case
"""

import os
import sys

TOP = os.path.dirname(os.path.dirname(os.path.abspath(__file__)))
sys.path[:0] = [os.path.join(TOP, "bindings", "python")]

from blobcrash import Failed, Injected, PowerLoss, explore
from explored_cases import run_cases

EMPTY, NEXT = b"\x03", {1: 2, 2: 3, 3: 1}


class Broken(Exception):
    """A promise that doesn't hold."""


class Cell:
    """One value in two blobs. The first byte of each is its version, which goes 1, 2, 3, 1; the value follows."""

    def __init__(self, store):
        """Opens both blobs and syncs them, so that what is read is what the next crash leaves."""
        opened = [store.open_loose("cell", name) for name in (b"a", b"b")]
        blobs = [blob for blob, _ in opened]
        self.sync_found(blobs)
        contents = [blob.read(0, size) for blob, size in opened]
        if not all(contents):
            raise Broken("a version is lost")
        newer = 0 if contents[0][0] == NEXT.get(contents[1][0]) else 1
        if contents[newer][0] != NEXT.get(contents[1 - newer][0]):
            raise Broken("the versions don't follow one another")
        self.newer, self.older = blobs[newer], blobs[1 - newer]
        self.version, self.value = contents[newer][0], contents[newer][1:]

    def sync_found(self, blobs):
        for blob in blobs:
            blob.sync()

    def set(self, value):
        """Writes the value into the older blob and syncs it, and then its version, which a crash leaves old or new."""
        self.write_value(value)
        self.older.sync()
        self.write_version()
        self.older.sync()
        self.newer, self.older, self.version = self.older, self.newer, NEXT[self.version]

    def write_value(self, value):
        self.older.write(1, value)
        self.older.resize(1 + len(value))

    def write_version(self):
        self.older.write(0, bytes([NEXT[self.version]]))


class OneSync(Cell):
    """Writes value and version without a sync between."""

    def set(self, value):
        self.write_value(value)
        self.write_version()
        self.older.sync()
        self.newer, self.older, self.version = self.older, self.newer, NEXT[self.version]


class VersionFirst(Cell):
    """Writes the version before the value."""

    def set(self, value):
        self.write_version()
        self.older.sync()
        self.write_value(value)
        self.older.sync()
        self.newer, self.older, self.version = self.older, self.newer, NEXT[self.version]


class VersionUnsynced(Cell):
    """Acknowledges a value before its version is durable."""

    def set(self, value):
        self.write_value(value)
        self.older.sync()
        self.write_version()
        self.newer, self.older, self.version = self.older, self.newer, NEXT[self.version]


class FoundUnsynced(Cell):
    """Doesn't sync what a recovery reads."""

    def sync_found(self, blobs):
        pass


def make_cell(store):
    """A cell that has a value, before any fault."""
    for name, content in ((b"a", b"\x01" + OLD), (b"b", EMPTY)):
        blob, _ = store.open("cell", name)
        blob.write(0, content)
        blob.sync()
        blob.close()


def cell_life(store, kind, settings):
    """A cell: sets values until a set fails, and then a crash, or only the process dies. What a recovery found is found again."""
    last, tried, is_off = OLD, None, False
    try:
        make_cell(store)
    except PowerLoss:
        # there is no cell yet
        return
    try:
        for setting in settings:
            store.configure(setting)
        cell = kind(store)
        for tried in VALUES:
            cell.set(tried)
            last, tried = tried, None
    except Injected:
        pass
    except PowerLoss:
        is_off = True
    found = recovered(store, kind, is_off or store.choose(2) == 0, lambda cell: cell.value)
    if found not in (last, tried):
        raise Broken(f"{found} is found, and neither the last value nor one that was tried after it")
    if recovered(store, kind, True, lambda cell: cell.value) != found:
        raise Broken("a second recovery finds another value")


def recovered(store, kind, crashes, see):
    """What is seen of a store that is opened after a crash, or after its process has died. If a fault cuts that short, the next one
    meets none."""
    try:
        return store.recover(lambda: see(kind(store))) if crashes else see(kind(store))
    except (Injected, PowerLoss):
        store.configure("clear")
        return store.recover(lambda: see(kind(store)))


class Records:
    """Records of one length by index, each in its slot. One that was never put is zeros."""

    def __init__(self, store):
        self.blob, self.end = store.open_loose("records", b"0")
        self.sync_found()

    def sync_found(self):
        self.blob.sync()

    def put(self, index, record):
        self.blob.write(index * len(record), record)

    def sync(self):
        self.blob.sync()

    def get(self, index):
        offset = index * LENGTH
        there = max(0, min(LENGTH, self.blob.size() - offset))
        return (self.blob.read(offset, there) if there else b"").ljust(LENGTH, b"\0")

    def all(self):
        return [self.get(index) for index in range(COUNT)]


class SyncsNothing(Records):
    """Acknowledges a sync that it doesn't make."""

    def sync(self):
        pass


class PutsAtNeighbour(Records):
    """Writes one byte into the next slot."""

    def put(self, index, record):
        self.blob.write(index * len(record) + 1, record)


class PutsHalves(Records):
    """Writes a record in two parts, which a crash keeps or loses each on its own."""

    def put(self, index, record):
        half = LENGTH // 2
        self.blob.write(index * LENGTH, record[:half])
        self.blob.write(index * LENGTH + half, record[half:])


class GetsUnsynced(Records):
    """Doesn't sync what a recovery reads."""

    def sync_found(self):
        pass


def records_life(store, kind, settings):
    """Records: puts and a sync, puts without one until a call fails, and then a crash, or only the process dies. What a recovery found
    is found again."""
    may = [{bytes(LENGTH)} for _ in range(COUNT)]
    is_off = False
    try:
        for setting in settings:
            store.configure(setting)
        records = kind(store)
        for index, record in SYNCED:
            may[index].add(record)
            records.put(index, record)
        records.sync()
        for index, record in SYNCED:
            may[index] = {record}
        for index, record in LATER:
            may[index].add(record)
            records.put(index, record)
    except Injected:
        pass
    except PowerLoss:
        is_off = True
    found = recovered(store, kind, is_off or store.choose(2) == 0, Records.all)
    for index, record in enumerate(found):
        if record not in may[index]:
            raise Broken(f"record {index} is {record}, and neither the synced one nor one that was put since")
    if recovered(store, kind, True, Records.all) != found:
        raise Broken("a second recovery finds other records")


OLD, VALUES = b"o", [b"ab", b"c"]
LENGTH, COUNT = 2, 3
SYNCED, LATER = [(0, b"aa"), (1, b"bb")], [(0, b"cc"), (2, b"dd"), (0, b"ee")]
PREFIX, SUBSET, SLOTS, PAIRS = (f"write 0 1 1 2 {mode}" for mode in ("prefix", "subset", "sectors 2", "sectors 4"))
FAILING = "write 1 2 1 2 "
# Names, the life, the store, the settings, and how often the power fails at most.
CASES = [
    ("cell, prefix, power fails twice", cell_life, Cell, [PREFIX], 2),
    ("cell, subset, syncs fail, power fails once", cell_life, Cell, [SUBSET, "sync 1 2"], 1),
    ("cell, sectors, writes and syncs fail", cell_life, Cell, [FAILING + "sectors 2", "sync 1 2"], 0),
    ("records, a slot a sector, power fails twice", records_life, Records, [SLOTS], 2),
    ("records, two slots a sector, syncs fail, power fails once", records_life, Records, [PAIRS, "sync 1 2"], 1),
    ("records, writes and syncs fail", records_life, Records, [FAILING + "sectors 2", "sync 1 2"], 0),
]
MIXED, AGAIN = "neither the", "a second recovery finds"
BUGS = [
    (cell_life, OneSync, [PREFIX], 1, MIXED),
    (cell_life, VersionFirst, [PREFIX], 1, MIXED),
    (cell_life, VersionUnsynced, [PREFIX], 0, MIXED),
    (cell_life, FoundUnsynced, [PREFIX, "sync 1 2"], 0, AGAIN),
    (records_life, SyncsNothing, [SLOTS], 0, MIXED),
    (records_life, PutsAtNeighbour, [SLOTS], 0, MIXED),
    (records_life, PutsHalves, [SLOTS], 0, MIXED),
    (records_life, GetsUnsynced, [SLOTS], 0, AGAIN),
    # modes that tear a slot
    (records_life, Records, [PREFIX], 0, MIXED),
    (records_life, Records, [SUBSET], 0, MIXED),
]


def test_case(life, kind, settings, power_losses):
    visited = explore(lambda store: life(store, kind, settings), power_losses=power_losses)
    assert visited.complete
    return f"{visited.runs} runs, all of them"


def test_bug(life, kind, settings, power_losses, reason):
    try:
        visited = explore(lambda store: life(store, kind, settings), power_losses=power_losses)
    except Failed as failed:
        assert isinstance(failed.cause, Broken) and reason in failed.reason, failed
        return f"found by run {failed.run}"
    raise AssertionError(f"not found in {visited}")


def main():
    tests = [(name, test_case, arguments) for name, *arguments in CASES]
    tests += [(f"{arguments[1].__name__}, {', '.join(arguments[2])}", test_bug, arguments) for arguments in BUGS]
    return run_cases("explore_clients.py", tests)


if __name__ == "__main__":
    sys.exit(main())
