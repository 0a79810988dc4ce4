"""Forks of a store for Python: the same state, independence, the record, handles by their numbers, hostile uses, and forks that another
thread collects. Expected values are those of a second store that makes the calls again, or by hand."""

import gc
import os
import sys
import threading

TOP = os.path.dirname(os.path.dirname(os.path.abspath(__file__)))
sys.path.insert(0, os.path.join(TOP, "bindings", "python"))

from blobcrash import BlobAlreadyOpen, Library, PowerLoss, Program, Store, StorageError, WrongThread, explore, run

HALVES = "write 1 8 1 2 subset"
# The calls after a fork, by lines.
LATER = ["read 0 0 9", "finish 0", "sync 0", "write 0 2 6363", "crash", "reopen", "finish 0", "open p 62", "read 1 0 9", "scan p", "remove p"]


def raises(error, call, *arguments):
    """Whether a call raises this error."""
    try:
        call(*arguments)
    except error:
        return True
    return False


def said(store, line):
    """The words of the reply to a line, of a refused call too."""
    try:
        return store.call(line)
    except StorageError as error:
        return error.reply


def begun():
    """A store with a handle, a started sync and pending writes, and the handle."""
    store = Store(7, images=[("q", b"i", b"none")], settings=[HALVES], by=Library)
    blob, _ = store.open("p", b"b")
    for at, data in enumerate([b"abcdefgh", b"ij", b"kl"]):
        while True:
            try:
                blob.write(at, data)
                break
            except StorageError:
                pass
    blob.start_sync()
    blob.resize(12)
    store.note("a note")
    return store, blob


def test_same_state():
    store, _ = begun()
    fork = store.fork()
    assert fork.script == store.script and type(fork) is Store
    for line in LATER:
        replies = [said(each, line) for each in (fork.fork(), store, fork)]
        assert replies[0] == replies[1] == replies[2], (line, replies)
    assert fork.script == store.script
    # The record makes the same calls again.
    replies = run("".join(f"{line}\n" for line in fork.script).encode()).decode().splitlines()
    assert replies[-1] == "ok" and len(replies) == sum(not line.startswith(("#", "seed", "image")) for line in fork.script)


def test_independence():
    store, blob = begun()
    fork = store.fork()
    blob.write(0, b"!", True)
    assert fork.call("read 0 0 1") != store.call("read 0 0 1")
    fork.restart()
    assert not blob.is_stale and blob.size() == 12
    assert store.script != fork.script and fork.script[-2:] == ["crash", "reopen"]
    # Writes of the fork's own handles are in its record, and after a second fork in both.
    opened, _ = fork.open("p", b"c")
    opened.write(0, b"own", True)
    second = fork.fork()
    assert second.script == fork.script and second.script[-1] == "writes 1 0 6f776e"
    store.close()
    assert opened.read(0, 3) == b"own" and second.call("read 1 0 3") == ["bytes", "6f776e"]
    opened.close()
    assert second.call("size 1") == ["size", "3"]


def test_handles():
    store, blob = begun()
    fork = store.fork()
    fork.finish(0)
    assert raises(StorageError, fork.finish, 0)
    assert raises(BlobAlreadyOpen, fork.open, "p", b"b")
    fork.restart()
    assert fork.open("p", b"b")[0].handle == 1
    blob.close()
    assert store.open("p", b"b")[0].handle == 1


def test_words_and_power():
    store = Store(settings=["write 0 1 1 2 subset"], pushed=True)
    blob, _ = store.open("p", b"b")
    blob.write(0, b"ab")
    store.push_words([0, 2**64 - 1, 5])
    store.crash_after(1)
    fork = store.fork()
    assert fork.script == store.script
    assert store.crash() == fork.crash() == [(0, "10")]
    fork.push_words([1, 2])
    assert fork.script[0].split()[1:] == ["0", str(2**64 - 1), "1", "2", "5", "1"] and store.script[0] != fork.script[0]
    for each in (store, fork):
        each.reopen()
        each.open("p", b"b")
        assert raises(PowerLoss, each.scan, "p")
        assert raises(PowerLoss, each.fork().scan, "p")
    store.restart()
    assert raises(PowerLoss, fork.scan, "p") and store.scan("p") == [b"b"]


def test_large():
    """A blob that shares pages with its forks."""
    store = Store(7, settings=[HALVES], by=Library)
    blob, _ = store.open("p", b"b")
    while raises(StorageError, blob.write, 0, b"a" * 400_000):
        pass
    blob.sync()
    forks = [store.fork() for _ in range(20)]
    for at, fork in enumerate(forks):
        said(fork, f"writes 0 {at * 20_000} 62")
    assert blob.read(0, 400_000) == b"a" * 400_000
    for at, fork in enumerate(forks):
        assert fork.call("read 0 0 400000")[1].replace("61", "") in ("", "62")


def test_collected_elsewhere():
    """Forks are collected by another thread while this one makes calls of the store."""
    store = Store(7, by=Library)
    blob, _ = store.open("p", b"b")
    blob.write(0, b"a" * 400_000)
    blob.sync()
    left = [store.fork() for _ in range(300)]

    def collect():
        while left:
            left.pop()
            gc.collect(0)

    thread = threading.Thread(target=collect)
    thread.start()
    while left:
        store.open_loose("p", b"b")[0].close()
        store.fork().close()
    thread.join()
    assert blob.read(0, 400_000) == b"a" * 400_000


def test_refusals():
    with Store(by=Program) as store:
        assert raises(ValueError, store.fork)
    store, blob = begun()
    seen = []
    thread = threading.Thread(target=lambda: seen.append(raises(WrongThread, store.fork)))
    thread.start()
    thread.join()
    assert seen == [True]
    fork = store.fork()
    store.close()
    assert raises(ValueError, store.fork) and raises(ValueError, blob.size)
    assert fork.fork().scan("p") == [b"b"]
    assert set(explore(lambda each: raises(ValueError, each.fork)).outcomes) == {True}


def main():
    for name, test in list(globals().items()):
        if name.startswith("test_"):
            test()


if __name__ == "__main__":
    main()
