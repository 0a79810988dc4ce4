"""Forks of files for Python: the same state, independence, the record, crashes by other words, hostile uses, and forks that another thread
collects. Expected values are those of files that make the calls again, or by hand."""

import gc
import os
import sys
import threading

TOP = os.path.dirname(os.path.dirname(os.path.abspath(__file__)))
sys.path.insert(0, os.path.join(TOP, "bindings", "python"))

from passing import raises, run_tests

from blobcrash import Files, Injected, PowerLoss, WrongThread, explore, patched

HALVES = "write 0 1 1 2 subset"


def read(files, path):
    """The bytes of a file."""
    with files.open(path) as file:
        return file.read()


def tree(files):
    """All paths with what they lead to, and the bytes of files."""
    found, left = {}, ["/"]
    while left:
        path = left.pop()
        status = found[path] = files.stat(path)
        if status.kind == "directory":
            left += [f"{path.rstrip('/')}/{name}" for name in files.listdir(path)]
        else:
            found[path] = status, read(files, path)
    return found


def begun():
    """Files with an open file, unsynced writes, a truncation and unsettled edits, and the open file."""
    files = Files(7, profile="xfs", settings=[HALVES])
    files.mkdir("/d")
    file = files.open("/d/f", "w+b")
    file.write(b"a" * 64)
    files.settle()
    file.seek(32)
    file.write(b"b" * 64)
    file.truncate(90)
    files.link("/d/f", "/linked")
    files.rename("/d", "/e")
    files.note("a note")
    return files, file


def test_same_state():
    files, _ = begun()
    fork = files.fork()
    assert fork.script == files.script and type(fork) is Files
    assert tree(fork) == tree(files)
    second = fork.fork()
    kept = [each.crash() for each in (files, fork, second)]
    assert kept[0] == kept[1] == kept[2] and len(kept[0].edits) == 3, kept
    assert fork.script == files.script == second.script
    assert tree(fork) == tree(files) == tree(second)
    # A fork of files that have crashed, and another crash finds the same.
    third = files.fork()
    third.crash()
    assert tree(third) == tree(files)


def test_independence():
    files, file = begun()
    fork = files.fork()
    file.seek(0)
    file.write(b"!")
    assert read(files, "/linked")[:1] == b"!" and read(fork, "/linked")[:1] == b"a"
    fork.unlink("/linked")
    assert files.exists("/linked") and files.script != fork.script
    fork.restart()
    assert file.tell() == 1 and file.seek(0, os.SEEK_END) == 90
    # The fork's own files, and after a second fork in both.
    with fork.open("/own", "wb") as own:
        own.write(b"own")
        second = fork.fork()
        own.write(b"!")
    assert read(fork, "/own") == b"own!" and read(second, "/own") == b"own"
    files.close()
    raises(ValueError, file.read)
    assert second.exists("/own")


def test_own_words():
    """Of two bytes over `aaaa` each takes a word, and 0 keeps it. A call that draws takes the word that keeps one."""
    files = Files(words=[0, 2**64 - 1, 2**64 - 1], settings=[HALVES])
    with files.open("/f", "wb") as file:
        file.write(b"aaaa")
    files.settle()
    file = files.open("/f", "r+b")
    file.write(b"bb")
    fork = files.fork()
    fork.configure("open 1 2")
    raises(Injected, fork.open, "/g", "xb")
    fork.configure("open 0 1")
    files.crash()
    fork.crash()
    assert read(files, "/f") == b"baaa" and read(fork, "/f") == b"aaaa"
    raises(OSError, file.read)
    assert fork.script[0] == files.script[0]


def test_open_files():
    files, file = begun()
    fork = files.fork()
    # Descriptors go on from the same number, and a file is that of the files that opened it.
    with fork.open("/linked") as opened:
        assert fork.script[-1] == "open /linked # is 1" and files.script == fork.script[:-1]
        raises(TypeError, files.fsync, opened)
        raises(TypeError, fork.fsync, file)
    # A name may be removed of which the other has the open file.
    fork.unlink("/linked")
    fork.unlink("/e/f")
    fork.restart()
    file.seek(0)
    assert file.read() == b"a" * 32 + b"b" * 58


def test_settings_and_power():
    files = Files(7, settings=["space 4 9", "syncs lie"])
    files.crash_after(3)
    fork = files.fork()
    for each in (files, fork):
        file = each.open("/f", "wb")
        raises(OSError, file.write, b"12345")
        each.sync()
        raises(PowerLoss, each.sync)
        raises(PowerLoss, each.fork().sync)
    fork.restart()
    raises(PowerLoss, files.sync)
    fork.sync()


def test_patched():
    files, _ = begun()
    with patched(files.fork(), "/disk"):
        os.unlink("/disk/linked")
        assert not os.path.exists("/disk/linked")
    assert files.exists("/linked")


def test_large():
    """A file that shares pages with its forks."""
    files = Files(7)
    with files.open("/f", "wb") as file:
        file.write(b"a" * 400_000)
    files.settle()
    forks = [files.fork() for _ in range(20)]
    for at, fork in enumerate(forks):
        with fork.open("/f", "r+b") as file:
            file.seek(at * 20_000)
            file.write(b"b")
    assert read(files, "/f") == b"a" * 400_000
    for at, fork in enumerate(forks):
        assert read(fork, "/f") == b"a" * (at * 20_000) + b"b" + b"a" * (399_999 - at * 20_000)


def test_collected_elsewhere():
    """Forks are collected by another thread while this one makes calls of the files."""
    files, _ = begun()
    left = [files.fork() for _ in range(300)]

    def collect():
        while left:
            left.pop()
            gc.collect(0)

    thread = threading.Thread(target=collect)
    thread.start()
    while left:
        files.stat("/linked")
        files.fork().close()
    thread.join()
    assert files.stat("/linked").size == 90


def test_refusals():
    files, _ = begun()
    seen = []
    thread = threading.Thread(target=lambda: seen.append(raises(WrongThread, files.fork)))
    thread.start()
    thread.join()
    assert len(seen) == 1
    fork = files.fork()
    files.close()
    raises(ValueError, files.fork)
    assert fork.fork().exists("/linked")
    assert set(explore(lambda each: str(raises(ValueError, each.fork)), profile="xfs").outcomes) == {
        "the files of a search's run can't be forked"
    }


if __name__ == "__main__":
    sys.exit(run_tests(globals(), sys.argv[1:]))
