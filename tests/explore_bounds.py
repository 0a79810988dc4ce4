"""What `explore`, `seeds` and `shrink` refuse of a body, what ends a run, and what reports say of paths and calls. explore_bodies.sh runs
it. The last line is `N passed, M failed`. With the name of a test only that one is run."""

import functools
import gc
import itertools
import pickle
import sys
import time
import warnings
from concurrent.futures import ProcessPoolExecutor, ThreadPoolExecutor

from explore_bodies import PREFIX, forgets, raises, synced, torn, unreached
from passing import run_tests

import blobcrash
from blobcrash import Failed, Library, NoRuns, NotDeterministic, PowerLoss, StorageError, TooLong, explore, seeds, shrink


class Caller:
    """An object that is called as a body."""

    async def __call__(self, store):
        store.crash()

    async def method(self, store):
        store.crash()

    def yielding(self, store):
        yield store.crash()


class Later:
    """What a body may return that is yet to run."""

    def __await__(self):
        yield


def test_bodies_that_have_not_run():
    async def coroutine(store, *_):
        raise AssertionError("it has run")

    async def stream(store):
        yield store.crash()

    def generator(store, *_):
        raise AssertionError("it has run")
        yield

    calling, partial = Caller(), functools.partial
    named = [coroutine, stream, generator, calling, calling.method, calling.yielding, partial(coroutine), partial(calling)]
    named += [partial(calling.method), partial(partial(generator), extra=1), partial(Caller.yielding, None)]
    returned = [lambda store: coroutine(store), lambda store: generator(store), lambda store: stream(store), lambda store: Later()]
    returned += [functools.lru_cache(coroutine), functools.wraps(unreached)(lambda store: (store.crash(), coroutine(store))[1])]
    with warnings.catch_warnings():
        warnings.simplefilter("error")
        for at, body in enumerate(named + returned):
            for visit in (explore, lambda body: seeds(body, 3, by=Library), lambda body: shrink(body, "seed 1")):
                error = raises(TypeError, visit, body)
                assert "run" in str(error) and "asyncio.run" in str(error), (at, error)
        gc.collect()
    with ThreadPoolExecutor(2) as pool:
        for visit in (explore, lambda body, **named: seeds(body, 3, by=Library, **named)):
            raises(TypeError, visit, returned[0], executor=pool)
    # A body that runs what it has is one.
    assert explore(lambda store: list(Caller().yielding(store)) == [[]]).outcomes == {True: 1}
    assert explore(partial(torn, length=2), settings=PREFIX).runs == 3 and explore(Plain(), settings=PREFIX).runs == 4


class Plain:
    def __call__(self, store):
        return torn(store, 3)


def retries(store):
    """Tries a sync until it succeeds."""
    blob, _ = store.open("p", b"b")
    while True:
        try:
            blob.sync()
            return
        except Exception:
            pass


WORDS = "a loop that retries until it succeeds never ends when every try fails; bound it"


def test_a_body_that_retries_for_ever():
    error = raises(TooLong, explore, retries, settings=["sync 1 2"])
    assert WORDS in str(error) and "10000" in str(error) and "calls_per_run" in str(error), error
    assert error.script[:3] == ["words " + " ".join(["0"] * 9999), "config sync 1 2", "open p 62"] and set(error.script[3:]) == {"sync 0"}
    assert (len(error.script), error.run, len(str(error)) < 10000) == (3 + 9999, 1, True)
    assert blobcrash.run("\n".join(error.script).encode()).count(b"error Injected\n") == 9999
    copy = pickle.loads(pickle.dumps(error))
    assert (copy.script, copy.path, copy.run, str(copy)) == (error.script, error.path, 1, str(error))
    # With a limit of its own: it is reached by the eleventh call.
    error = raises(TooLong, explore, retries, settings=["sync 1 2"], calls_per_run=10)
    assert error.script == ["words" + 9 * " 0", "config sync 1 2", "open p 62"] + 9 * ["sync 0"] and error.path == " ".join(9 * ["0"])
    assert "0, max: a draw" in str(error), error
    # What needs no draw, or has no power, or a stale handle, or is a choice.
    raises(TooLong, explore, retries, settings=["sync 1 1"])
    raises(TooLong, explore, retries, settings=["sync 1 2"], seed=3, calls_per_run=0)
    raises(TooLong, explore, lambda store: (retries(store), store.crash(), retries(store)), settings=["sync 1 2"])
    raises(TooLong, explore, stale, calls_per_run=100)
    raises(TooLong, explore, dark, power_losses=1, calls_per_run=100)
    error = raises(TooLong, explore, lambda store: [None for _ in iter(lambda: store.choose(2), 1)], calls_per_run=5)
    assert error.path == "0/2 0/2 0/2 0/2 0/2" and "K/N" in str(error), error
    raises(TooLong, explore, lambda store: [None for _ in iter(lambda: store.choose(1), 1)], calls_per_run=5)
    # By workers too, of which none is lost.
    with ProcessPoolExecutor(1) as pool:
        error = raises(TooLong, explore, retries, settings=["sync 1 2"], executor=pool, calls_per_run=10)
        assert len(error.script) == 12, error


def stale(store):
    """Tries to read through a stale handle until it succeeds."""
    blob, _ = store.open("p", b"b")
    store.restart()
    while True:
        try:
            return blob.read(0, 0)
        except RuntimeError:
            pass


def dark(store):
    """Tries to open a blob until it succeeds, also while the power is off."""
    while True:
        try:
            return store.open("p", b"b")[1]
        except (PowerLoss, StorageError):
            pass


def test_how_long_a_run_may_be():
    # Calls, and draws: a crash may take as many as the bytes it draws for.
    assert explore(lambda store: [store.crash() for _ in range(10)] and None, calls_per_run=10).runs == 1
    raises(TooLong, explore, lambda store: [store.crash() for _ in range(11)], calls_per_run=10)
    assert explore(lambda store: torn(store, 20), settings=PREFIX, calls_per_run=20).runs == 21
    error = raises(TooLong, explore, lambda store: torn(store, 21), settings=PREFIX, calls_per_run=20)
    assert error.script[-1] == "crash", error
    # More draws than words that were given.
    error = raises(TooLong, explore, lambda store: torn(store, 12000), settings=PREFIX)
    assert b"crashed 0:1" in blobcrash.run("\n".join(error.script).encode()) and len(str(error)) < 20000
    assert explore(lambda store: torn(store, 12000), settings=PREFIX, runs=2, calls_per_run=12000).runs == 2
    for wrong, kind in ((-1, ValueError), (2**64, ValueError), (None, TypeError), ("9", TypeError), (True, TypeError), (9.0, TypeError)):
        raises(kind, explore, unreached, calls_per_run=wrong)


def test_a_run_that_is_under_way_ends_with_the_time():
    def slow(store):
        store.choose(2)
        while True:
            time.sleep(0.01)
            retried = store.open("p", b"b")[0]
            retried.close()

    def slow_after_one(store):
        if store.choose(2):
            slow(store)

    with ThreadPoolExecutor(2) as pool:
        for executor in (None, pool):
            began = time.monotonic()
            visited = explore(slow_after_one, seconds=0.5, executor=executor)
            assert 0.4 < time.monotonic() - began < 5, executor
            assert (visited.runs, visited.rest) == (1, ("1/2",)), visited
            # Nothing was checked.
            began = time.monotonic()
            none = raises(NoRuns, explore, slow, seconds=0.5, executor=executor)
            assert 0.4 < time.monotonic() - began < 5, executor
            assert pickle.loads(pickle.dumps(none)).rest == ("",) and "nothing was checked" in str(none)
    began = time.monotonic()
    found = seeds(lambda store: slow(store) if store.seed == 2 else None, 5, seconds=0.5, by=Library)
    assert found == (2, (2, 3, 4)) and time.monotonic() - began < 5, found
    assert raises(NoRuns, seeds, slow, 5, seconds=0, by=Library).rest == (0, 1, 2, 3, 4)
    with ThreadPoolExecutor(2) as pool:
        assert raises(NoRuns, seeds, slow, [7], seconds=0.5, executor=pool, by=Library).rest == (7,)
    # The first run is given a second: a search that is continued gets on.
    assert explore(lambda store: (time.sleep(0.2), store.crash()) and None, seconds=0).complete


def test_a_store_that_outlives_its_run():
    """Its bounds don't end what comes after the run."""
    kept = []

    def keeps(store):
        blob, _ = store.open("p", b"b")
        other, _ = store.open("p", b"c")
        store.remove("p", b"c")
        kept.extend([store, blob, other])

    explore(keeps, seconds=0, calls_per_run=3)
    seeds(keeps, 1, seconds=0, by=Library)
    time.sleep(1)
    for store, blob, removed in (kept[:3], kept[3:]):
        uses = [(store.crash,), (store.choose, 2), (store.call, "crash"), (blob.write, 0, b""), (blob.read, 0, 0), (removed.read, 0, 0)]
        for use, *arguments in uses:
            text = str(raises(ValueError, use, *arguments))
            assert "ended" in text or "closed" in text, text


def test_calls_that_differ_only_in_bytes():
    for length in (1, 8, 5000):
        count = itertools.count()

        def body(store):
            data = bytearray(length)
            data[length // 2] = next(count)
            blob, _ = store.open("p", b"b")
            blob.write(0, bytes(data))
            store.choose(2)

        text = str(raises(NotDeterministic, explore, body))
        assert "00` and" not in text and "01" in text and len(text) < 600, text
        first, second = text.split(" of a run was ")[1].split(", and of the next one, which had made the same choices, ")
        assert first != second.split(". Along")[0], text
    # The same calls, and a choice that comes later.
    count = itertools.count()

    def later(store):
        if next(count) == 0:
            store.choose(2)
            store.crash()
        else:
            store.crash()
            store.choose(2)

    text = str(raises(NotDeterministic, explore, later))
    assert "after 0 calls" in text and "after 1" in text, text


def test_paths_have_a_legend():
    failed = raises(Failed, explore, lambda store: (store.choose(2), synced(store), forgets(store)), settings=PREFIX, power_losses=1)
    assert "K/N: `choose(N)` is K" in str(failed) and "on, off: the power" in str(failed) and "0, max: a draw" in str(failed), failed
    failed = raises(Failed, explore, forgets, settings=PREFIX)
    assert "0, max: a draw" in str(failed) and "K/N" not in str(failed) and "on, off" not in str(failed), failed
    assert "a draw" not in str(raises(Failed, seeds, forgets, 9, settings=PREFIX, by=Library))


if __name__ == "__main__":
    sys.exit(run_tests(globals(), sys.argv[1:]))
