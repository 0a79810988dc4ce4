"""The log of log.py under Hypothesis, which chooses what is appended, what fails and what each crash keeps, and shrinks a failure.

Each draw of the store is a choice of Hypothesis, pushed right before the call that takes it, so that a step which shrinks or goes away
doesn't shift the draws of the others. It is run as examples/test_log_pytest.py is, and with `LOG_FORGETS_SYNC=1` it has to fail.
"""

import os

from blobcrash import Injected, Store
from hypothesis import note, settings
from hypothesis import strategies as st
from hypothesis.stateful import RuleBasedStateMachine, precondition, rule
from log import Broken, Log, check, framed

FORGETS_SYNC = "LOG_FORGETS_SYNC" in os.environ
# The words of a draw of 1/2 that is false, and of one that is true. The first is what Hypothesis shrinks to: nothing fails or is kept.
WORDS = {False: 2**64 - 1, True: 0}


class LogMachine(RuleBasedStateMachine):
    def __init__(self):
        super().__init__()
        self.store = Store(pushed=True, settings=["write 1 2 1 2 subset"])
        self.acknowledged, self.unsure, self.pending = [], None, 0
        self.recover()

    def push(self, data, count):
        """The choices of the next call, which draws for `count` rates and bytes at most."""
        choices = data.draw(st.lists(st.booleans(), min_size=count, max_size=count))
        self.store.push_words(WORDS[choice] for choice in choices)

    def recover(self):
        self.store.configure("sync 0 1")
        self.log = Log(self.store, FORGETS_SYNC)
        check(self.acknowledged, self.unsure, self.log.records)
        self.acknowledged, self.unsure, self.pending = self.log.records, None, 0
        self.store.configure("sync 1 2")

    @precondition(lambda self: self.unsure is None)
    @rule(data=st.data(), record=st.binary(min_size=1, max_size=6))
    def append(self, data, record):
        self.unsure = record
        self.pending += len(framed(record))
        self.push(data, 1 + len(framed(record)) + 1)
        try:
            self.log.append(record)
        except Injected:
            return
        self.acknowledged.append(record)
        self.unsure = None

    @rule(data=st.data())
    def crash(self, data):
        self.push(data, self.pending)
        self.store.restart()
        try:
            self.recover()
        except Broken:
            note("the script of this failure:\n" + "\n".join(self.store.script))
            raise

    def teardown(self):
        self.store.close()


LogMachine.TestCase.settings = settings(max_examples=200, stateful_step_count=12, deadline=None)
TestLog = LogMachine.TestCase
