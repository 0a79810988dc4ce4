"""What `explore` and `seeds` in Python begin with and say: torn writes of files unless a setting says otherwise, unsynced writes that no
crash could keep, and a search in each profile. The last line is `N passed, M failed`. With the name of a test only that one is run."""

import functools
import itertools
import os
import pickle
import sys
from concurrent.futures import ProcessPoolExecutor

TOP = os.path.dirname(os.path.dirname(os.path.abspath(__file__)))
sys.path.insert(0, os.path.join(TOP, "bindings", "python"))

from passing import raises, run_tests

from blobcrash import Explored, Failed, Files, Injected, NoRuns, PowerLoss, Seeded, explore, seeds, shrink
from files import get, put

# By hand: what every note ends with.
NONE = "; no unsynced write could be kept: set `write 0 1 1 2 sectors 512`"
SOME = "; some unsynced writes could not be kept: set `write 0 1 1 2 sectors 512`"
LOST = ["write 0 1 0 1 prefix"]
HALF = ["write 0 1 1 2 prefix"]


def overwrites(files):
    """Overwrites a file of two sectors of 512 bytes. Returns the first byte of each."""
    put(files, "/f", b"a" * 1024)
    files.settle()
    put(files, "/f", b"b" * 1024, "r+b")
    files.restart()
    return get(files, "/f")[::512]


def replaces(files, syncs=False):
    """Replaces a file by a rename. Fails if the new one is empty."""
    put(files, "/f", b"old")
    files.settle()
    with files.open("/new", "wb") as new:
        new.write(b"new")
        if syncs:
            files.fsync(new)
    files.rename("/new", "/f")
    files.restart()
    assert get(files, "/f"), "damaged"


def writes(store, how="write"):
    """Writes a byte to a store. Returns how many are left."""
    blob, _ = store.open("p", b"b")
    if how == "line":
        store.call(f"write {blob.handle} 0 61")
    elif how == "none":
        blob.write(0, b"")
    else:
        blob.write(0, b"a", sync=how == "SYNC")
    if how == "sync":
        blob.sync()
    elif how == "line sync":
        store.call(f"sync {blob.handle}")
    elif how == "started":
        blob.start_sync()
    elif how == "finished":
        store.finish(blob.start_sync())
    elif how == "removed":
        store.remove("p", b"b")
    elif how == "opened":
        blob.close()
        store.open("p", b"b")
    elif how == "injected":
        store.configure("sync 1 1")
        raises(Injected, blob.sync)
    store.restart()
    return store.open("p", b"b")[1]


def note(result):
    """What a result says beyond how many runs there were."""
    assert bool(result.unkept) == ("; " in str(result)), result
    return str(result).partition(" all of them")[2]


def test_files_are_torn():
    """By hand: each of the two sectors is kept or lost. The name and the size are durable."""
    every = {one + other for one, other in itertools.product((b"a", b"b"), repeat=2)}
    for profile in ("ext4", "xfs", "btrfs", "posix"):
        found = explore(overwrites, profile=profile)
        assert (found.runs, set(found.outcomes), str(found)) == (4, every, "4 runs, all of them"), (profile, found)
    left = set()
    made = seeds(lambda files: left.add(overwrites(files)), 50, profile="xfs")
    assert left == every and str(made) == "50 runs, all of them", (left, made)
    with ProcessPoolExecutor(2) as executor:
        assert set(explore(overwrites, profile="ext4", executor=executor).outcomes) == every


def test_a_setting_says_otherwise():
    lost = explore(overwrites, profile="ext4", settings=LOST)
    assert (set(lost.outcomes), str(lost)) == ({b"aa"}, "1 run, all of them" + NONE), lost
    kept = explore(overwrites, profile="ext4", settings=["keep 1 1", "write 0 1 1 1 prefix"])
    assert (set(kept.outcomes), str(kept)) == ({b"bb"}, "1 run, all of them"), kept
    # Other settings leave the writes as they are at first.
    assert len(explore(overwrites, profile="ext4", settings=["keep 1 1"]).outcomes) == 4
    made = seeds(overwrites, 3, profile="ext4", settings=iter(LOST))
    assert str(made) == "3 runs, all of them" + NONE, made
    # Files of their own, and scripts, have no such setting.
    with Files(1) as files:
        assert overwrites(files) == b"aa" and files.script[1:3] == ["profile ext4", "create /f # is 0"], files.script


def test_stores_say_what_could_not_be_kept():
    for how in ("write", "line", "injected"):
        body = functools.partial(writes, how=how)
        found = explore(body)
        assert (found.outcomes, note(found)) == ({0: 1}, NONE), (how, found)
        assert note(seeds(body, 2)) == NONE, how
        assert note(explore(body, settings=HALF)) == "", how
    for how in ("SYNC", "sync", "started", "finished", "line sync", "removed", "opened", "none"):
        assert note(explore(functools.partial(writes, how=how))) == "", how


def test_a_rate_that_is_set_later():
    def later(store, first, then):
        for setting in (first, then):
            store.configure(setting)
            store.open("p", b"b")[0].write(0, b"a")
            store.restart()

    for first, then, wanted in ((LOST[0], HALF[0], SOME), (HALF[0], "clear", SOME), (HALF[0], HALF[0], ""), (LOST[0], LOST[0], NONE)):
        found = explore(functools.partial(later, first=first, then=then), settings=HALF)
        assert note(found) == wanted, (first, then, found)


def test_notes_of_power_losses_and_workers():
    def body(store):
        try:
            writes(store)
        except PowerLoss:
            store.restart()

    assert note(explore(body, power_losses=1)) == NONE
    with ProcessPoolExecutor(2) as executor:
        assert note(explore(writes, executor=executor)) == NONE
        assert note(seeds(writes, 9, executor=executor)) == NONE
        assert note(seeds(functools.partial(writes, how="SYNC"), 9, executor=executor)) == ""


def synced_by_another(files):
    with files.open("/f", "wb") as file:
        file.write(b"a")
    with files.open("/f", "rb") as file:
        files.fsync(file)
    files.restart()


def test_files_say_what_could_not_be_kept():
    def unsynced(files):
        put(files, "/f", b"a")
        files.restart()

    def settled(files, by):
        put(files, "/f", b"a")
        getattr(files, by)()
        files.restart()

    def other(files):
        put(files, "/f", b"a")
        with files.open("/g", "wb") as file:
            files.fsync(file)
        files.restart()

    assert note(explore(unsynced, profile="ext4")) == ""
    for body, wanted in (
        (unsynced, NONE),
        (other, NONE),
        (synced_by_another, ""),
        (functools.partial(settled, by="sync"), ""),
        (functools.partial(settled, by="settle"), ""),
        (functools.partial(settled, by="commit"), NONE),
    ):
        assert note(explore(body, profile="posix", settings=LOST)) == wanted, (body, wanted)
    for body in (synced_by_another, functools.partial(settled, by="sync")):
        assert note(explore(body, profile="posix", settings=[*LOST, "syncs lie"])) == NONE, body


def test_all_profiles():
    """By hand, from docs/FILES.md: only on ext4 a file that replaces another is as long as it was at the rename."""
    failed = raises(Failed, explore, replaces, profile="all")
    assert [name for name, each in failed.profiles.items() if isinstance(each, Failed)] == ["xfs", "btrfs", "posix"], failed
    assert list(failed.profiles) == ["ext4", "xfs", "btrfs", "posix"] and "profile xfs" in failed.script, failed.script
    text = str(failed).split("\n")
    assert text[1] == "it failed in 3 of 4 profiles; this run is one of xfs:" and text[3] == "    xfs: AssertionError: damaged", text
    assert text[2] == f"    ext4: {explore(replaces, profile='ext4')}", text
    assert isinstance(failed.cause, AssertionError)
    again = raises(Failed, explore, replaces, profile="xfs", under=[failed.path])
    assert again.script == failed.script
    copy = pickle.loads(pickle.dumps(failed))
    assert str(copy) == str(failed) and list(copy.profiles) == list(failed.profiles)
    smaller = shrink(replaces, failed, profile="all")
    assert "profile xfs" in smaller.script and smaller.reason == failed.reason
    raises(ValueError, shrink, replaces, failed.path, profile="all")
    failed = raises(Failed, seeds, replaces, 100, profile="all")
    assert isinstance(failed.profiles["ext4"], Seeded) and failed.path.startswith("seed "), failed
    assert "    ext4: 100 runs, all of them" in str(failed).split("\n"), failed


def test_all_profiles_that_pass():
    body = functools.partial(replaces, syncs=True)
    found = explore(body, profile="all")
    each = {name: explore(body, profile=name) for name in ("ext4", "xfs", "btrfs", "posix")}
    assert found.runs == sum(one.runs for one in each.values()) and found.complete and found.profiles == each, found
    assert str(found).split("\n") == [f"{name}: {one}" for name, one in each.items()], found
    left = set(explore(overwrites, profile="all").outcomes.items())
    assert left == {(one + other, 4) for one, other in itertools.product((b"a", b"b"), repeat=2)}, left
    made = seeds(overwrites, 5, profile="all")
    assert made == (20, ()) and str(made).split("\n")[3] == "posix: 5 runs, all of them", made
    lost = explore(overwrites, profile="all", settings=iter(LOST))
    assert lost.unkept and str(lost).count(NONE) == 4, lost


def test_limits_of_all_profiles():
    found = explore(overwrites, profile="all", runs=1)
    assert found.runs == 4 and not found.complete and {path.partition(":")[0] for path in found.rest} == {"ext4", "xfs", "btrfs", "posix"}, found
    rest = explore(overwrites, profile="all", under=found.rest)
    assert rest.runs == 12 and rest.complete, rest
    assert explore(overwrites, profile="all", under="xfs:").runs == 4
    for under in ("0", "ext3:0", []):
        raises(ValueError, explore, overwrites, profile="all", under=under)

    def endless(files):
        while True:
            files.exists("/f")

    none = raises(NoRuns, explore, endless, profile="all", seconds=0.01, calls_per_run=10**9)
    assert none.rest == ("ext4:", "xfs:", "btrfs:", "posix:"), none.rest


def test_names_of_the_argument():
    for named in ({"profile": "xfs"}, {"files": "xfs"}, {"profile": "xfs", "files": False}):
        assert explore(overwrites, **named).runs == 4
        assert seeds(overwrites, 2, **named).runs == 2
    assert explore(overwrites, files="all").runs == 16
    for search in (explore, functools.partial(seeds, which=1)):
        assert "another name" in str(raises(TypeError, search, overwrites, profile="xfs", files="xfs"))
        assert "ext4, xfs" in str(raises(ValueError, search, overwrites, profile="ext3"))
    assert "a search" in str(raises(ValueError, Files, profile="all"))
    # What users have taken apart stays as it was.
    runs, outcomes, rest, met = explore(overwrites, profile="xfs")
    assert (runs, len(outcomes), rest, met) == (4, 4, (), 0)
    assert Explored(1, {}, ()) == (1, {}, (), 0) and Seeded(1, ()) == (1, ())


if __name__ == "__main__":
    sys.exit(run_tests(globals(), sys.argv[1:]))
