#!/usr/bin/env python3
"""Every outcome of a small run of `log.py`: which syncs fail, what each crash keeps, and at which calls the power fails, twice at most,
so that the recovery is cut short too.

    explore_log.py [--forget-sync]

If a run breaks the promise: what it lost, and its script, with status 1.
"""

import os
import sys

HERE = os.path.dirname(os.path.abspath(__file__))
sys.path[:0] = [HERE, os.path.join(HERE, "..", "bindings", "python")]

from blobcrash import Failed, Injected, PowerLoss, explore
from log import Log, check

FORGETS_SYNC = "--forget-sync" in sys.argv


def body(store):
    """Appends two records, crashes, recovers and checks."""
    acknowledged, unsure = [], None
    try:
        log = Log(store, FORGETS_SYNC)
        for unsure in (b"one", b"second"):
            log.append(unsure)
            acknowledged.append(unsure)
            unsure = None
    except (Injected, PowerLoss):
        pass
    store.configure("sync 0 1")
    check(acknowledged, unsure, store.recover(Log, store, FORGETS_SYNC).records)


def main():
    try:
        print(explore(body, settings=["write 0 1 1 2 prefix", "sync 1 2"], power_losses=2))
    except Failed as failed:
        print(failed)
        return 1
    return 0


if __name__ == "__main__":
    sys.exit(main())
