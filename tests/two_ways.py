"""The two ways of the module for Python, by a pipe and in this process: the same calls have the same replies, errors and script, and the
log of examples/ goes the same way. In this process, over 200 seeds, it keeps its promise; where it forgets a sync, that is found."""

import os
import sys

TOP = os.path.dirname(os.path.dirname(os.path.abspath(__file__)))
sys.path.insert(0, os.path.join(TOP, "examples"))

import log  # which finds the module
from blobcrash import Library, Program, StaleHandle, StorageError, Store

LINES = [
    "remove p",
    "scan p",
    "sync 0",
    "open p. 62",
    "open p 63 2 1",
    "open p 62",
    "open p 62",
    "frob",
    "write 0 18446744073709551615 6162",
    "write 0 0 616263",
    "read 0 1 2",
    "read 0 1 3",
    "scan p",
    "config write 0 1 1 2 subset",
    "write 0 0 646566",
    "# a comment",
    "crash",
    "reopen",
    "open p 62",
    "config read 1 1",
    "read 1 0 0",
]


def told(by):
    """What the calls of all kinds answer, by this way."""
    answers = []
    with Store(7, words=[0], images=[("q", b"i", b"none")], settings=["resize 1 2 1 2"], by=by) as store:

        def ask(call, *arguments):
            try:
                answers.append(call(*arguments))
            except StorageError as error:
                answers.append((type(error).__name__, error.reply, error.fields))
            except (StaleHandle, ValueError) as error:
                answers.append((type(error).__name__, str(error)))

        for line in LINES:
            ask(store.call, line)
        ask(store.configure, "clear")
        blob, size = store.open("wal", b"")
        answers.append(size)
        ask(blob.write, 0, b"record", True)
        ask(blob.write, 3, b"")
        ask(blob.read, 0, 6)
        ask(blob.read, 0, 7)
        ask(blob.size)
        ask(store.finish, blob.start_sync())
        ask(store.finish, 0)
        ask(blob.resize, 2)
        ask(store.crash)
        store.note("a note")
        ask(blob.read, 0, 1)
        ask(blob.close)
        ask(blob.close)
        ask(blob.read, 0, 1)
        store.open("wal", b"")
        ask(store.restart)
        answers.append(store.script)
    return answers


def main():
    assert told(Library) == told(Program)
    assert [log.broken_script(seed, False, Library) for seed in range(200)] == 200 * [None]
    found = [log.broken_script(seed, True, Library) for seed in range(20)]
    assert any(found)
    assert found == [log.broken_script(seed, True, Program) for seed in range(20)]


if __name__ == "__main__":
    main()
