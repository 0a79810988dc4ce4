"""The log of examples/log.py over every outcome of small runs: which draws fail, what each crash keeps, and at which calls the power fails,
also while the log recovers. The log loses nothing, and each planted bug is found. The last line is `N passed, M failed`.

    explore_log.py [--count]    with `--count` the number of runs of each case
"""

import os
import sys

TOP = os.path.dirname(os.path.dirname(os.path.abspath(__file__)))
sys.path[:0] = [os.path.join(TOP, "examples"), os.path.join(TOP, "bindings", "python")]

import log as example
from blobcrash import Failed, Injected, PowerLoss, explore, run
from explored_cases import run_cases
from log import HEAD, Broken, Log, check, framed, records_in


class Checked(Log):
    """The log, which keeps what it acknowledged, and what it can't say of."""

    forgets_sync = False

    def __init__(self, store):
        super().__init__(store, self.forgets_sync)
        self.acknowledged, self.unsure = list(self.records), None

    def append(self, record):
        self.unsure = record
        super().append(record)
        self.acknowledge(record)

    def acknowledge(self, record):
        self.acknowledged.append(record)
        self.unsure = None


class ForgetsSync(Checked):
    """Acknowledges records that aren't synced."""

    forgets_sync = True


class AcknowledgesFirst(Checked):
    """Acknowledges a record before it is synced."""

    def append(self, record):
        frame = framed(record)
        self.unsure = record
        self._blob.write(self._end, frame)
        self.acknowledge(record)
        self._blob.sync()
        self._end += len(frame)


class TakesZeros(Checked):
    """Takes a frame of zeros for an empty record, of which the checksum is zero."""

    def __init__(self, store):
        example.records_in = records_or_zeros
        try:
            super().__init__(store)
        finally:
            example.records_in = records_in


def records_or_zeros(data):
    records, end = records_in(data)
    while data[end : end + HEAD.size] == bytes(HEAD.size):
        end += HEAD.size
        more, length = records_in(data[end:])
        records, end = [*records, b"", *more], end + length
    return records, end


def life(store, kind, records, expects=False):
    """One log: appends until one fails, a crash, and a recovery. What a recovery found is found again. Returns it. With `expects` the
    restarts say what is expected."""
    log = None
    try:
        log = kind(store)
        for record in records:
            log.append(record)
    except (Injected, PowerLoss):
        pass
    acknowledged, unsure = ([], None) if log is None else (log.acknowledged, log.unsure)
    found = store.recover(recovered, store, kind, expecting=(acknowledged, unsure) if expects else None)
    check(acknowledged, unsure, found)
    if store.recover(recovered, store, kind, expecting=found if expects else None) != found:
        raise Broken("a second recovery finds other records")
    return tuple(found)


def recovered(store, kind):
    """The records of a recovery. If a fault cuts it short, the next one meets none."""
    try:
        return kind(store).records
    except Injected:
        store.configure("clear")
        return store.recover(kind, store).records


PREFIX, SECTORS, FAILING = "write 0 1 1 2 prefix", "write 0 1 1 2 sectors 8", "write 1 2 1 2 sectors 8"
# Names, the arguments of `explore`, and the records. Together they have each mode, failing writes, syncs and resizes, and power that
# fails at each call of the log and of its recovery.
RECORDS = [b"first", b"2", b"thirdrec"]
CASES = [
    ("prefix, three appends, power fails twice", [PREFIX], 2, RECORDS),
    ("prefix, three appends, syncs fail, power fails once", [PREFIX, "sync 1 2"], 1, RECORDS),
    ("sectors, three appends, syncs fail, power fails twice", [SECTORS, "sync 1 2"], 2, RECORDS),
    ("prefix, writes, syncs and resizes fail, power fails twice", ["write 1 2 1 2 prefix", "sync 1 2", "resize 1 2 0 1"], 2, RECORDS[:1]),
    ("sectors, writes, syncs and resizes fail, power fails twice", [FAILING, "sync 1 2", "resize 1 2 0 1"], 2, RECORDS[:1]),
]
BUGS = [
    (ForgetsSync, [PREFIX], 0, "acknowledged records"),
    (AcknowledgesFirst, [PREFIX], 1, "acknowledged records"),
    (AcknowledgesFirst, [PREFIX, "sync 1 2"], 0, "acknowledged records"),
    (TakesZeros, [SECTORS], 1, "a record is found that was never appended"),
]


def test_case(settings, power_losses, records):
    visited = explore(lambda store: life(store, Checked, records), settings=settings, power_losses=power_losses)
    assert visited.complete
    return f"{visited.runs} runs"


def test_bug(kind, settings, power_losses, reason):
    try:
        visited = explore(lambda store: life(store, kind, RECORDS), settings=settings, power_losses=power_losses)
    except Failed as failed:
        assert isinstance(failed.cause, Broken) and reason in failed.reason, failed
        assert run("".join(line + "\n" for line in failed.script).encode()), failed
        return f"found by run {failed.run}"
    raise AssertionError(f"not found in {visited}")


def main():
    tests = [(name, test_case, arguments) for name, *arguments in CASES]
    tests += [(f"{arguments[0].__name__}, {', '.join(arguments[1])}", test_bug, arguments) for arguments in BUGS]
    return run_cases("explore_log.py", tests)


if __name__ == "__main__":
    sys.exit(main())
