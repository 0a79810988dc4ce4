"""`explore` and `seeds` of the package for Python: each outcome once, choices, power losses, failures, limits, executors, and what is no
argument. The last line is `N passed, M failed`, with `, K skipped` for what needs a package that is missing. With the name of a test
only that one is run."""

import collections
import itertools
import os
import pickle
import random
import re
import sys
import tempfile
import traceback
from concurrent.futures import ProcessPoolExecutor, ThreadPoolExecutor

TOP = os.path.dirname(os.path.dirname(os.path.abspath(__file__)))
sys.path.insert(0, os.path.join(TOP, "bindings", "python"))

from passing import raises

import blobcrash
from blobcrash import Failed, Library, LostWork, NotDeterministic, PowerLoss, Program, StorageError, Store, explore, seeds, shrink

PREFIX = ["write 0 1 1 2 prefix"]


class Skipped(Exception):
    """A test needs a package that is missing."""


def content(store):
    """All bytes of the blob."""
    blob, size = store.open("p", b"b")
    found = blob.read(0, size)
    blob.close()
    return found


def torn(store, length=8):
    """Overwrites synced bytes, and crashes. Returns what is left."""
    blob, _ = store.open("p", b"b")
    blob.write(0, b"a" * length, sync=True)
    blob.write(0, b"b" * length)
    store.restart()
    return content(store)


def forgets(store):
    """Fails if the last of its writes is lost."""
    blob, _ = store.open("p", b"b")
    blob.write(0, b"abc")
    store.restart()
    assert content(store) == b"abc", "bytes are lost"


def differs(store):
    """Never makes the same calls twice."""
    differs.length = getattr(differs, "length", 0) % 9 + 1
    torn(store, differs.length)


def dies(store):
    """Ends its process at one outcome, as long as a file exists."""
    if torn(store) == b"b" * 5 + b"a" * 3 and os.path.exists(os.environ["DIES"]):
        os._exit(1)


def test_each_outcome_of_a_torn_write():
    visited = explore(torn, settings=PREFIX)
    assert visited.outcomes == {b"b" * kept + b"a" * (8 - kept): 1 for kept in range(9)}, visited
    assert visited.complete and str(visited) == "9 runs, all of them"
    visited = explore(torn, settings=["write 0 1 1 2 sectors 4"])
    assert visited.outcomes == {left + right: 1 for left in (b"aaaa", b"bbbb") for right in (b"aaaa", b"bbbb")}
    visited = explore(lambda store: torn(store, 4), settings=["write 0 1 1 2 subset"])
    assert visited.outcomes == {bytes(each): 1 for each in itertools.product(b"ab", repeat=4)}


def test_a_run_takes_more_words_than_it_is_given_at_first():
    visited = explore(lambda store: torn(store, 100), settings=PREFIX)
    assert visited.runs == 101 and set(visited.outcomes.values()) == {1} and len(visited.outcomes) == 101


def replies(store, lines):
    """What some calls return, all in one value."""
    found = []
    for line in lines:
        try:
            found.append(tuple(store.call(line)))
        except StorageError as error:
            found.append(error.reply)
    return tuple(found)


def test_outcomes_are_those_of_all_words():
    chance = random.Random(39)
    for _ in range(12):
        mode = chance.choice(["prefix", "subset", "sectors 2"])
        settings = [f"write {chance.randrange(2)} 3 1 2 {mode}", f"sync {chance.randrange(2)} 2", "resize 1 2 0 1"]
        lines = ["open p 62"]
        for _ in range(2):
            data = "61" * chance.randrange(1, 3)
            lines.append(chance.choice([f"write 0 {chance.randrange(3)} {data}", f"resize 0 {chance.randrange(3)}", "sync 0"]))
        lines += ["crash", "reopen", "loose p 62", "size 1"]
        brute = set()
        for words in itertools.product((0, 2**64 - 1), repeat=6):
            with Store(words=[*words, 1], settings=settings, by=Library) as store:
                brute.add(replies(store, lines))
        visited = explore(lambda store: replies(store, lines), settings=settings)
        assert set(visited.outcomes) == brute, (settings, lines)


def test_choices_are_enumerated_with_the_draws():
    visited = explore(lambda store: (store.choose(3), store.choose(1), store.choose(2)))
    assert visited.outcomes == {(first, 0, last): 1 for first in range(3) for last in range(2)}

    def body(store):
        length = store.choose(3) + 1
        found = torn(store, length)
        return found, store.choose(2)

    visited = explore(body, settings=PREFIX)
    assert visited.runs == (2 + 3 + 4) * 2 == len(visited.outcomes)
    assert explore(lambda store: None).runs == 1


def synced(store):
    """Writes twice and syncs, as far as there is power. Returns what is left, and whether the sync returned."""
    done = False
    try:
        blob, _ = store.open("p", b"b")
        blob.write(0, b"a")
        blob.write(1, b"b")
        blob.sync()
        done = True
    except PowerLoss:
        raises(PowerLoss, store.scan, "p")
        raises(PowerLoss, store.reopen)
        raises(ValueError, store.crash_after, 1)
        store.configure("sync 0 1")
    return store.recover(content, store), done


def test_the_power_fails_at_each_call():
    # The four calls, the open of the recovery, and no loss.
    visited = explore(synced, settings=["write 0 1 0 1 prefix"], power_losses=1)
    assert visited.runs == 6 and visited.outcomes == {(b"ab", True): 2, (b"", False): 4}, visited
    # Each of the first four losses again, followed by one during the recovery; and two losses during the recovery of the whole run.
    visited = explore(synced, settings=["write 0 1 0 1 prefix"], power_losses=2)
    assert visited.runs == 6 + 4 + 1, visited
    # With the draws of the crash: nothing, one write or two are pending, of a byte each.
    visited = explore(synced, settings=PREFIX, power_losses=1)
    assert visited.runs == 1 + 1 + 2 + 4 + 2, visited
    assert set(visited.outcomes) == {(b"ab", True), (b"", False), (b"a", False), (b"\0b", False), (b"ab", False)}


def test_the_power_fails_after_some_calls():
    assert not issubclass(PowerLoss, Exception)
    found = []
    for calls in range(6):
        with Store(7, settings=["write 0 1 0 1 prefix"], by=Library) as store:
            store.crash_after(calls)
            found.append(synced(store))
            made = [line.split()[0] for line in store.script[2:]]
            assert made[: min(calls, 4)] == ["open", "write", "write", "sync"][:calls], store.script
            assert ("# power loss" in store.script) == (calls != 4), store.script
    assert found == [(b"", False)] * 4 + [(b"ab", True)] * 2
    visited = explore(lambda store: (store.crash_after(store.choose(6)), synced(store))[1], settings=["write 0 1 0 1 prefix"])
    assert visited.outcomes == {(b"ab", True): 2, (b"", False): 4}


def test_a_refused_crash_has_not_crashed():
    class Refuses(Library):
        refused = ""

        def apply(self, asked):
            return blobcrash.Reply("error Memory") if asked.word == self.refused else super().apply(asked)

    with Store(7, by=Refuses) as store:
        store.open("p", b"b")[0].write(0, b"kept", sync=True)
        store.crash_after(0)
        raises(PowerLoss, store.scan, "p")
        for refused in ("crash", "reopen"):
            Refuses.refused = refused
            raises(blobcrash.Memory, store.restart)
            raises(PowerLoss, store.scan, "p")
            if refused == "crash":
                raises(PowerLoss, store.reopen)
        Refuses.refused = ""
        store.restart()
        assert store.open("p", b"b")[1] == 4


def test_with_a_seed_only_choices_are_enumerated():
    visited = explore(lambda store: (store.choose(4), torn(store)), settings=["write 0 1 1 2 subset"], seed=5)
    with Store(5, settings=["write 0 1 1 2 subset"], by=Library) as store:
        found = torn(store)
    assert visited.outcomes == {(branch, found): 1 for branch in range(4)}


def loses(store):
    store.open("p", b"b")[0].write(0, b"x")
    store.restart()
    raise KeyError("lost")


def chains(store):
    try:
        loses(store)
    except KeyError as error:
        raise ValueError("chained") from error


def opens_nothing(files):
    files.open("/nothing")


def trace_of(search, body, *arguments, **named):
    """The frames that Python prints of a failure, by their functions: a list for each traceback."""
    failed = raises(Failed, search, body, *arguments, **named)
    printed = "".join(traceback.format_exception(type(failed), failed, failed.__traceback__))
    return [re.findall(r'line \d+, in (\w+)', part) for part in printed.split("Traceback (most recent call last):")[1:]]


def test_a_failure_has_one_traceback():
    by_seed = {"settings": ["write 0 1 1 2 subset"]}
    for search, *rest in ((explore,), (seeds, 3)):
        assert trace_of(search, loses, *rest, **by_seed) == [["raises", "searched", "loses"]]
        # What a body chained itself is shown too.
        assert trace_of(search, chains, *rest, **by_seed) == [["chains", "loses"], ["raises", "searched", "chains"]]
    assert trace_of(explore, opens_nothing, profile="all")[0][:3] == ["raises", "searched", "opens_nothing"]
    failed = raises(Failed, explore, loses)
    assert isinstance(failed.cause, KeyError) and failed.__cause__ is None


def test_a_failure_has_its_script_and_path():
    failed = raises(Failed, explore, forgets, settings=PREFIX)
    assert isinstance(failed.cause, AssertionError) and "bytes are lost" in failed.reason
    assert failed.path == "0 0 max" and failed.run == 2, failed
    assert failed.script[0] == "words 0 0 max" and "crashed 0:110" in blobcrash.run("\n".join(failed.script).encode()).decode()
    assert all(line in str(failed) for line in failed.script), failed
    again = raises(Failed, explore, forgets, settings=PREFIX, under=failed.path)
    assert again.script == failed.script and again.run == 1
    assert explore(torn, settings=PREFIX, under="0 0 max").outcomes == {b"bbaaaaaa": 1}
    copy = pickle.loads(pickle.dumps(failed))
    assert (copy.script, copy.path, copy.reason, str(copy)) == (failed.script, failed.path, failed.reason, str(failed))
    failed = raises(Failed, explore, synced_without_care, power_losses=1)
    assert "PowerLoss" in failed.reason and "recover" in failed.reason, failed


def synced_without_care(store):
    store.open("p", b"b")


def test_a_body_that_is_not_deterministic():
    count = itertools.count()
    error = raises(NotDeterministic, explore, lambda store: torn(store, 4 + next(count)), settings=PREFIX)
    assert "write" in str(error) and "store.choose" in str(error), error
    count = itertools.count()
    error = raises(NotDeterministic, explore, lambda store: torn(store, 8) if next(count) else store.choose(3), settings=PREFIX)
    count = itertools.count()
    error = raises(NotDeterministic, explore, lambda store: torn(store, 8 - 7 * (next(count) % 2)), settings=PREFIX)
    # A failure that doesn't occur when the run is repeated.
    count = itertools.count()

    def flaky(store):
        assert next(count) != 3

    error = raises(NotDeterministic, explore, lambda store: (torn(store), flaky(store)), settings=PREFIX)
    assert "again" in str(error), error


def test_limits_leave_subtrees():
    visited = explore(torn, settings=PREFIX, runs=4)
    assert not visited.complete and visited.runs == 4 and "not all of them" in str(visited)
    rest = explore(torn, settings=PREFIX, under=visited.rest)
    assert rest.runs == 5 and rest.complete
    assert {**visited.outcomes, **rest.outcomes} == explore(torn, settings=PREFIX).outcomes
    assert explore(torn, settings=PREFIX, runs=9).complete
    visited = explore(torn, settings=PREFIX, seconds=0)
    assert visited.runs == 1 and visited.rest[0] == "0 0 0 0 0 0 0 max" and not visited.complete
    for nothing in ({"runs": 0}, {"under": ()}):
        assert "nothing to explore" in str(raises(ValueError, explore, torn, settings=PREFIX, **nothing))
    for no_seeds in (0, [], range(3, 3)):
        assert "no seeds" in str(raises(ValueError, seeds, torn, no_seeds, settings=PREFIX))


def test_what_is_no_argument():
    for wrong in (None, 7, "torn", object()):
        raises(TypeError, explore, wrong)
        raises(TypeError, seeds, wrong, 3)
    never = unreached
    for name, error, values in (
        ("runs", ValueError, [-1, 2**64]),
        ("runs", TypeError, [1.5, "3", True]),
        ("seconds", ValueError, [-1, -0.5, float("nan")]),
        ("seconds", TypeError, ["3", True]),
        ("power_losses", ValueError, [-1]),
        ("power_losses", TypeError, [None, "1", True]),
        ("seed", ValueError, [-1, 2**64]),
        ("seed", TypeError, ["7", 1.5]),
        ("settings", TypeError, ["write 0 1 1 2 prefix", [7]]),
        ("settings", ValueError, [["write 0 1 1 2"], ["write 0 1 1 2 prefix\nsync 1 2"]]),
        ("images", ValueError, [[("p p", b"", b"")]]),
        ("under", ValueError, ["1", "0 maximum", "3/3", "4/3", ["0", "-1/2"]]),
        ("under", TypeError, [[7]]),
        ("by", ValueError, [Program]),
        ("executor", TypeError, [7, "pool"]),
    ):
        for value in values:
            raises(error, explore, never, **{name: value})
    raises(ValueError, seeds, never, -1)
    raises(ValueError, seeds, never, [2**64])
    raises(TypeError, seeds, never, 3, seed=7)
    assert "another body" in str(raises(NotDeterministic, explore, torn, settings=PREFIX, under="0/3"))
    error = raises(TypeError, explore, lambda store: [torn(store)], settings=PREFIX)
    assert "hashed" in str(error)


def unreached(store):
    raise AssertionError("the body is called")


def resized(store):
    """Two resizes, to 6 bytes and to 1. Returns the sizes after them."""
    (blob, _), sizes = store.open("p", b"a"), []
    blob.resize(2)
    store.configure("resize 1 2 1 2")
    for ask in (lambda: blob.resize(6), lambda: store.call("  resize  0  1")):
        try:
            ask()
        except StorageError:
            pass
        sizes.append(blob.size())
    return tuple(sizes)


def test_each_drawn_size_is_tried_once():
    """By hand: from 2 to 6 it is done, and then survives a crash or not, or it stays, or it stops at 3, 4 or 5; from each of these to 1 alike.
    Between 2 and 1 there is no size, so that the two draws of a failure have the same result."""
    wanted = collections.Counter()
    for between in (6, 6, 2, 3, 4, 5):
        wanted.update([(between, 1), (between, 1), (between, between), *[(between, end) for end in range(2, between)]])
    wanted[2, 2] += 1
    found = explore(resized)
    assert found.runs == sum(wanted.values()) and found.complete
    assert found.outcomes == wanted


def test_a_failure_at_a_drawn_size_repeats_and_shrinks():
    def body(store):
        assert resized(store) != (4, 2)

    found = raises(Failed, explore, body)
    assert found.path == "0 0 1:3 0 0 0:2"
    again = raises(Failed, explore, body, under=found.path)
    assert again.script == found.script and "resize 0 6" in found.script
    assert shrink(body, found).path == found.path


def test_what_a_store_of_a_run_refuses():
    kept = []

    def body(store):
        for wrong, error in ((0, ValueError), (-1, ValueError), (2.0, TypeError), (True, TypeError), ("2", TypeError), (10**9, ValueError)):
            raises(error, store.choose, wrong)
        raises(ValueError, store.crash_after, -1)
        raises(TypeError, store.crash_after, None)
        raises(ValueError, store.push_words, [0])
        error = raises(RuntimeError, explore, torn, settings=PREFIX)
        assert "store.choose" in str(error)
        kept.extend([store, store.open("p", b"b")[0]])
        store.choose(2)

    explore(body)
    for use, *arguments in ((kept[0].scan, "p"), (kept[0].choose, 2), (kept[1].sync,), (kept[3].size,), (kept[2].crash_after, 1)):
        error = raises(ValueError, use, *arguments)
        assert "run has ended" in str(error), error
    # What a body raises does not leave the thread in an exploration.
    raises(Failed, explore, forgets, settings=PREFIX)
    assert explore(torn, settings=PREFIX).runs == 9


def test_executors_visit_the_same():
    for pool in (ThreadPoolExecutor(2), ProcessPoolExecutor(2)):
        with pool:
            here = explore(torn, settings=["write 0 1 1 2 subset"])
            there = explore(torn, settings=["write 0 1 1 2 subset"], executor=pool)
            assert (there.runs, there.outcomes, there.complete) == (256, here.outcomes, True)
            some = explore(torn, settings=["write 0 1 1 2 subset"], executor=pool, runs=50)
            rest = explore(torn, settings=["write 0 1 1 2 subset"], executor=pool, under=some.rest)
            assert 0 < some.runs <= 50 and some.runs + rest.runs == 256 and rest.complete
            failed = raises(Failed, explore, forgets, settings=PREFIX, executor=pool)
            assert "bytes are lost" in failed.reason and "bytes are lost" in str(failed.cause), failed.cause
            assert raises(Failed, explore, forgets, settings=PREFIX, under=failed.path).script == failed.script
            raises(NotDeterministic, explore, differs, settings=PREFIX, executor=pool)
            assert seeds(torn, 20, settings=PREFIX, by=Library, executor=pool) == (20, ())
            failed = raises(Failed, seeds, forgets, 20, settings=PREFIX, by=Library, executor=pool)
            assert failed.script[0] == failed.path and failed.path.startswith("seed ")


def test_a_body_that_cannot_be_sent():
    with ProcessPoolExecutor(1) as pool:
        error = raises(LostWork, explore, lambda store: None, executor=pool)
        assert "`def`" in str(error) and error.rest == [""], error


def test_a_worker_that_dies_loses_only_its_own():
    with tempfile.NamedTemporaryFile() as file:
        os.environ["DIES"] = file.name
        with ProcessPoolExecutor(1) as pool:
            lost = raises(LostWork, explore, dies, settings=PREFIX, executor=pool)
        assert lost.rest, lost
        os.environ["DIES"] = "/nowhere"
        assert explore(dies, settings=PREFIX, under=lost.rest).complete


def test_dask():
    try:
        import dask
        from distributed import Client, LocalCluster
    except ImportError as error:
        raise Skipped(f"there is no Python package distributed: {error}") from None
    # Two workers, each a process. On a loaded machine they take long to begin.
    dask.config.set({"distributed.comm.timeouts.connect": "600s", "distributed.comm.timeouts.tcp": "600s"})
    workers = LocalCluster(n_workers=2, threads_per_worker=1, processes=True, dashboard_address=None)
    with workers, Client(workers, timeout=600) as client:
        pool = client.get_executor()
        visited = explore(torn, settings=["write 0 1 1 2 sectors 2"], executor=pool)
        assert visited.runs == 16 == len(visited.outcomes) and visited.complete
        failed = raises(Failed, explore, forgets, settings=PREFIX, executor=pool)
        assert "bytes are lost" in failed.reason
        assert seeds(torn, 10, settings=PREFIX, by=Library, executor=pool).runs == 10


def test_seeds():
    chosen = []
    assert seeds(lambda store: chosen.append(store.choose(1000)), 5, by=Library) == (5, ())
    again, chosen = chosen, []
    seeds(lambda store: chosen.append(store.choose(1000)), range(5), by=Library)
    assert chosen == again and len(set(chosen)) > 1
    # As in Rust. The first numbers of SplitMix64 for this seed, as Rosetta Code lists them, end in these digits.
    for named in ({"by": Library}, {"profile": "xfs"}):
        chosen = []
        seeds(lambda store: chosen.extend(store.choose(1000) for _ in range(5)), [1234567], **named)
        assert chosen == [317, 973, 423, 431, 821], chosen
    failed = raises(Failed, seeds, forgets, range(100), settings=PREFIX, by=Library)
    assert failed.path == f"seed {failed.run - 1}" == failed.script[0]
    raises(Failed, seeds, forgets, [failed.run - 1], settings=PREFIX, by=Library)
    assert seeds(torn, 3, seconds=0, by=Library) == (1, (1, 2))
    raises(TypeError, seeds, unreached, 3, words=[0])


def test_a_page_of_a_failure():
    with tempfile.TemporaryDirectory() as folder:
        path = os.path.join(folder, "crash.html")
        try:
            import blobcrash_page
        except ImportError:
            error = raises(ImportError, explore, unreached, report=path)
            assert "blobcrash_page" in str(error)
            raise Skipped("there is no package blobcrash_page") from None
        raises(Failed, explore, forgets, settings=PREFIX, report=path)
        with open(path, encoding="utf-8") as file:
            assert "<html" in file.read().lower()


def main():
    passed = failed = skipped = 0
    for name, test in list(globals().items()):
        if not name.startswith("test_") or (sys.argv[1:] and name not in sys.argv[1:]):
            continue
        try:
            test()
            passed += 1
        except Skipped as why:
            print(f"explore_bodies.py: skipped: {name}: {why}")
            skipped += 1
        except Exception:
            failed += 1
            print(f"explore_bodies.py: FAILED: {name}")
            traceback.print_exc(file=sys.stdout)
    if skipped and os.environ.get("CI") == "true":
        failed += skipped
    print(f"{passed} passed, {failed} failed" + (f", {skipped} skipped" if skipped else ""))
    return int(failed > 0)


if __name__ == "__main__":
    sys.exit(main())
