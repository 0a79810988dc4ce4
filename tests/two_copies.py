"""A store that writes both copies of a value before one sync, so that one crash tears both: the recipe of examples/test_log_hypothesis.py
has to find it, and has to find nothing if there is a sync between the copies. Status 1 if it doesn't."""

import sys
import zlib

from blobcrash import Injected, Store
from hypothesis import HealthCheck, Phase, settings
from hypothesis import strategies as st
from hypothesis.stateful import RuleBasedStateMachine, precondition, rule, run_state_machine_as_test

WORDS = {False: 2**64 - 1, True: 0}
SIZE = 8


def copy_of(value):
    return value + zlib.crc32(value).to_bytes(4, "big")


class Copies:
    """One value in two copies with checksums, of which a reader takes the first whole one. The other one is written first."""

    def __init__(self, store, syncs_between):
        self.blob, size = store.open("p", b"two")
        self.syncs_between = syncs_between
        self.value, self.first = None, 0
        for at in (SIZE, 0):
            found = self.blob.read(at, SIZE) if size >= at + SIZE else b""
            if found and found == copy_of(found[:4]):
                self.value, self.first = found[:4], SIZE - at

    def put(self, value):
        self.blob.write(self.first, copy_of(value))
        if self.syncs_between:
            self.blob.sync()
        self.blob.write(SIZE - self.first, copy_of(value))
        self.blob.sync()


def machine(syncs_between):
    class Machine(RuleBasedStateMachine):
        def __init__(self):
            super().__init__()
            self.store = Store(pushed=True, settings=["write 1 4 1 2 subset"])
            self.copies, self.values = Copies(self.store, syncs_between), [None]

        def push(self, data, count):
            choices = data.draw(st.lists(st.booleans(), min_size=count, max_size=count))
            self.store.push_words(WORDS[choice] for choice in choices)

        # After a put that failed both copies may be pending, and the store has to be opened again.
        @precondition(lambda self: len(self.values) == 1)
        @rule(data=st.data(), value=st.binary(min_size=4, max_size=4))
        def put(self, data, value):
            self.push(data, 2 * (1 + SIZE) + 2)
            self.store.configure("sync 1 4")
            try:
                self.copies.put(value)
                self.values = [value]
            except Injected:
                self.values.append(value)
            self.store.configure("sync 0 1")

        @rule(data=st.data())
        def crash(self, data):
            self.push(data, 2 * SIZE)
            self.store.restart()
            self.copies = Copies(self.store, syncs_between)
            assert self.copies.value in self.values, self.store.script
            self.values = [self.copies.value]

        def teardown(self):
            self.store.close()

    return Machine


def finds(syncs_between):
    """Whether the recipe finds a lost value."""
    limits = settings(
        max_examples=1000,
        stateful_step_count=8,
        deadline=None,
        database=None,
        derandomize=True,
        phases=[Phase.generate],
        suppress_health_check=list(HealthCheck),
    )
    try:
        run_state_machine_as_test(machine(syncs_between), settings=limits)
    except AssertionError:
        return True
    return False


if __name__ == "__main__":
    sys.exit(int(not finds(False) or finds(True)))
