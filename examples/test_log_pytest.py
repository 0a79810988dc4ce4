"""The log of log.py under pytest, by the fixture `blobcrash`: a store for each of fifty seeds.

With the package installed (`pip install ./bindings/python`) it is `pytest examples/test_log_pytest.py`; without, it is
`PYTHONPATH=bindings/python pytest -p blobcrash.pytest_plugin examples/test_log_pytest.py`. With `LOG_FORGETS_SYNC=1` the log
forgets its sync: then tests fail, and the report has the script of each and a picture of its crash.
"""

import os

import pytest
from blobcrash import Injected, Library
from log import Log, check

FORGETS_SYNC = "LOG_FORGETS_SYNC" in os.environ


@pytest.mark.blobcrash(seeds=50, settings=["write 1 8 1 2 subset", "sync 1 8"], by=Library)
def test_acknowledged_records_survive_a_crash(blobcrash):
    log, acknowledged, unsure = Log(blobcrash, FORGETS_SYNC), [], None
    try:
        for length in range(1, 6):
            unsure = bytes(range(length))
            log.append(unsure)
            acknowledged.append(unsure)
            unsure = None
    except Injected:
        pass
    blobcrash.configure("clear")
    blobcrash.restart()
    check(acknowledged, unsure, Log(blobcrash, FORGETS_SYNC).records)
