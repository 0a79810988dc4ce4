#!/usr/bin/env python3
"""Every state in which a crash could have left one run of `log.py`.

    log_states.py [--forget-sync]

Records a run that appends three records. Then a crash is put after each of its calls, and the log is recovered from each state that it may
leave. If an acknowledged record is missing: the script that ends with this crash, with status 1.
"""

import os
import sys

HERE = os.path.dirname(os.path.abspath(__file__))
sys.path[:0] = [HERE, os.path.join(HERE, "..", "bindings", "python")]

from blobcrash import CrashStates, Library, Store
from log import Log

RECORDS = [b"one", b"second", b"the third"]


def recorded(forgets_sync):
    """The script of a run. Each acknowledgement is a comment in it."""
    with Store(7, settings=["write 0 1 1 2 prefix"], by=Library) as store:
        log = Log(store, forgets_sync)
        for record in RECORDS:
            log.append(record)
        return "\n".join(store.script)


def main():
    states = CrashStates(recorded("--forget-sync" in sys.argv))
    for state in states:
        with state.store() as store:
            found = Log(store, False).records
        # All acknowledged records, in order, and at most one more.
        if found not in (RECORDS[:count] for count in (len(state.acknowledged), len(state.acknowledged) + 1)):
            print(f"acknowledged {len(state.acknowledged)}, found {len(found)}:\n{state.script}", end="")
            return 1
    print(states)
    return 0


if __name__ == "__main__":
    sys.exit(main())
