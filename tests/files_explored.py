"""`explore`, `seeds` and `shrink` of files in Python: outcomes, choices, power losses, failures, bodies that go wrong, and a process pool. The
last line is `N passed, M failed`. With the name of a test only that one is run."""

import os
import pickle
import sys
from concurrent.futures import ProcessPoolExecutor

TOP = os.path.dirname(os.path.dirname(os.path.abspath(__file__)))
sys.path.insert(0, os.path.join(TOP, "bindings", "python"))

from passing import raises, run_tests

from blobcrash import BadLine, Failed, Files, Injected, NoRuns, NotDeterministic, PowerLoss, TooLong, explore, seeds, shrink
from files import get, put

HALF = ["write 0 1 1 2 sectors 4"]


def torn(files):
    """Overwrites a file, and crashes. Returns what is left."""
    put(files, "/f", b"aaaabbbb")
    files.settle()
    put(files, "/f", b"ccccdddd", "r+b")
    files.restart()
    return get(files, "/f")


def forgets(files):
    """Fails if a name is lost."""
    put(files, "/f", b"new")
    if files.choose(2):
        files.mkdir("/d")
    files.restart()
    assert files.exists("/f"), "the name is lost"


def appended(files):
    """What is left of an append."""
    put(files, "/f", b"aaaa")
    files.settle()
    put(files, "/f", b"bbbbcccc", "ab")
    files.restart()
    return get(files, "/f")


APPENDED = {b"aaaa", b"aaaabbbb", b"aaaa\0\0\0\0cccc", b"aaaabbbbcccc"}
# Where a file grew there may be zeros.
ZEROS = {b"aaaa\0\0\0\0", b"aaaabbbb\0\0\0\0", b"aaaa\0\0\0\0\0\0\0\0"}


def test_each_outcome():
    visited = explore(torn, files=True, settings=["keep 1 1", *HALF])
    assert set(visited.outcomes) == {a + b for a in (b"aaaa", b"cccc") for b in (b"bbbb", b"dddd")} and visited.complete
    assert str(visited).endswith("all of them")
    for files in (True, "ext4", "btrfs", "posix"):
        assert set(explore(appended, files=files, settings=HALF).outcomes) == APPENDED | ZEROS
    assert set(explore(appended, files="xfs", settings=HALF).outcomes) == APPENDED
    for files, name in (("xfs", "ExploredFiles"), (None, "ExploredStore"), (False, "ExploredStore")):
        assert explore(lambda store: type(store).__name__, files=files).outcomes == {name: 1}


def cut(files):
    """Truncates a file of four bytes. Returns whether that was done, and the size."""
    put(files, "/f", b"abcd")
    try:
        files.truncate("/f", 0)
    except Injected:
        return False, files.stat("/f").size
    return True, files.stat("/f").size


def test_each_length_of_a_partial_truncation():
    found = explore(cut, files=True, settings=["resize 1 2 1 2"]).outcomes
    assert set(found) == {(True, 0), (False, 1), (False, 2), (False, 3), (False, 4)}, found


def test_choices_and_paths():
    failed = raises(Failed, explore, forgets, files="xfs")
    # The edit is lost, and then the sector of the write is kept.
    assert failed.path == "0/2 max 0" and failed.reason == "AssertionError: the name is lost", (failed.path, failed.reason)
    assert "its calls:" in str(failed) and "    create /f # is 0" in str(failed), failed
    assert failed.script[:2] == ["words max 0", "profile xfs"], failed.script
    again = raises(Failed, explore, forgets, files="xfs", under=[failed.path])
    assert again.script == failed.script and again.run == 1
    copy = pickle.loads(pickle.dumps(failed))
    assert (copy.path, copy.script, str(copy)) == (failed.path, failed.script, str(failed))
    limited = explore(torn, files="xfs", settings=HALF, runs=1)
    assert limited.runs == 1 and not limited.complete
    rest = explore(torn, files="xfs", settings=HALF, under=limited.rest)
    whole = explore(torn, files="xfs", settings=HALF)
    assert rest.runs + 1 == whole.runs and rest.complete


def two_names(files):
    """Makes two names durable, at any loss of power. Returns those that are found."""
    try:
        for name in ("/a", "/b"):
            files.mkdir(name)
            files.fsync_directory("/")
    except PowerLoss:
        pass
    return tuple(files.recover(files.listdir))


def is_lost(seed):
    """Whether a seed loses the only unsettled edit."""
    with Files(seed) as files:
        files.mkdir("/d")
        return files.crash().edits == [False]


def test_explored_power_losses():
    visited = explore(two_names, files="posix", power_losses=1)
    assert set(visited.outcomes) == {(), ("a",), ("a", "b")} and visited.complete, visited
    # With a seed only the losses of power are chosen.
    by_seed = explore(two_names, files="posix", power_losses=1, seed=3)
    assert by_seed.runs == 5 and set(by_seed.outcomes) <= set(visited.outcomes), by_seed
    failed = raises(Failed, explore, forgets, files="xfs", under="0/2", seed=next(seed for seed in range(9) if is_lost(seed)))
    assert failed.script[0].startswith("seed ") and failed.script[1] == "profile xfs", failed.script
    failed = raises(Failed, explore, lambda files: files.mkdir("/d"), files="xfs", power_losses=1)
    assert failed.path == "off" and "PowerLoss" in failed.reason and "# power loss" in failed.script


_changing = []


def differs(files):
    _changing.append(0)
    files.mkdir("/" + "d" * len(_changing))
    files.restart()


def endless(files):
    while True:
        files.exists("/f")


def test_bodies_that_go_wrong():
    error = raises(NotDeterministic, explore, differs, files="xfs")
    assert "mkdir /d" in str(error), error
    error = raises(TooLong, explore, endless, files="xfs", calls_per_run=50)
    assert error.script == ["profile xfs", "config write 0 1 1 2 sectors 512"], error.script
    assert raises(NoRuns, explore, endless, files="xfs", seconds=0.01, calls_per_run=10**9).rest == ("",)
    kept = []
    explore(kept.append, files=True)
    assert "the store's run has ended" in str(raises(ValueError, kept[0].mkdir, "/d"))
    for named in ({"files": "ext3"}, {"files": "xfs", "report": "x.html"}):
        raises(ValueError, explore, torn, **named)
        raises(ValueError, seeds, torn, 1, **named)
    raises(TypeError, explore, torn, files=1)
    raises(TypeError, explore, torn, files=True, images=[("p", b"b", b"")])
    raises(TypeError, explore, torn, files=True, allow_stale=True)
    raises(BadLine, explore, torn, files=True, settings=["keep 2 1"])


def test_seeds():
    made = seeds(torn, 5, files="xfs", settings=HALF)
    assert made == (5, ())
    failed = raises(Failed, seeds, forgets, 100, files="xfs")
    assert failed.path.startswith("seed ") and failed.script[1] == "profile xfs" and "its calls:" in str(failed)
    raises(Failed, seeds, forgets, [int(failed.path.split()[1])], files="xfs")
    assert raises(NoRuns, seeds, endless, 3, files="xfs", seconds=0.05).rest == (0, 1, 2)


def test_shrinks():
    def body(files):
        for _ in range(files.choose(5) + 1):
            put(files, "/f", b"new", "ab")
        files.mkdir("/d")
        files.restart()
        assert files.exists("/f"), "lost"

    failed = raises(Failed, seeds, body, 100, files="xfs")
    smaller = shrink(body, failed, files="xfs")
    assert smaller.reason == failed.reason and smaller.path == "0/5 max" or smaller.path.startswith("0/5"), smaller.path
    assert len(smaller.script) <= len(failed.script)
    raises(Failed, explore, body, files="xfs", under=[smaller.path])


def test_a_process_pool():
    with ProcessPoolExecutor(2) as executor:
        visited = explore(appended, files="xfs", settings=HALF, executor=executor)
        assert set(visited.outcomes) == APPENDED and visited.complete
        failed = raises(Failed, explore, forgets, files="xfs", executor=executor)
        assert failed.script[1] == "profile xfs"
        failed = raises(Failed, seeds, forgets, 50, files="xfs", executor=executor)
        assert failed.path.startswith("seed ")
        assert seeds(torn, 8, files="xfs", settings=HALF, executor=executor).runs == 8


if __name__ == "__main__":
    sys.exit(run_tests(globals(), sys.argv[1:]))
