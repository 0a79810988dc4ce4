"""Restarts of an exploration that name what the body expects: the same outcomes in fewer runs. explore_bodies.sh runs it. The last line is
`N passed, M failed`. With the name of a test only that one is run."""

import random
import sys
from concurrent.futures import ProcessPoolExecutor

from explore_bodies import PREFIX, raises
from explore_log import BUGS, RECORDS, Broken, Checked, life
from passing import run_tests

from blobcrash import Failed, Library, Store, explore

FAULTS = [*PREFIX, "sync 1 2"]


def two_records(store):
    return life(store, Checked, RECORDS[:2])


def two_records_expected(store):
    return life(store, Checked, RECORDS[:2], True)


def final(store):
    """The bytes of the blob."""
    blob, size = store.open("p", b"b")
    return blob.read(0, size)


def steps(store, moves, expects):
    """Writes, syncs and restarts as the moves say, and returns the bytes that are left."""
    blob, size = store.open("p", b"b")
    for word, offset, data in moves:
        if word == "restart":
            store.restart(expecting=() if expects else None)
            blob, size = store.open("p", b"b")
        elif word == "sync":
            blob.sync()
        elif word == "resize":
            blob.resize(offset)
        else:
            blob.write(offset, data)
    return final_of(store)


def final_of(store):
    store.restart()
    return final(store)


def test_the_log_has_the_same_outcomes():
    whole = explore(two_records, settings=FAULTS, power_losses=2)
    fewer = explore(two_records_expected, settings=FAULTS, power_losses=2)
    assert set(fewer.outcomes) == set(whole.outcomes), (fewer, whole)
    assert whole.met == 0 and fewer.met > 0 and 4 * fewer.runs < whole.runs, (str(fewer), str(whole))
    assert fewer.complete and str(fewer) == f"{fewer.runs} runs, and {fewer.met} up to a restart in a state met before, all of them"


def test_the_figures_of_the_guide():
    visited = [explore(lambda store: life(store, Checked, RECORDS, expects), settings=PREFIX, power_losses=3) for expects in (False, True)]
    assert [(each.runs, each.met) for each in visited] == [(700, 0), (16, 268)], visited
    assert set(visited[0].outcomes) == set(visited[1].outcomes)


def test_bugs_of_the_log_are_found():
    for kind, settings, losses, reason in BUGS:
        failed = raises(Failed, explore, lambda store: life(store, kind, RECORDS, True), settings=settings, power_losses=losses)
        assert isinstance(failed.cause, Broken) and reason in failed.reason, failed


def test_random_bodies_have_the_same_outcomes():
    chance = random.Random(57)
    left_out = 0
    for _ in range(60):
        mode = chance.choice(["prefix", "subset", "sectors 2"])
        moves = []
        for _ in range(chance.randrange(4, 8)):
            data = bytes(chance.choice(b"abc") for _ in range(chance.randrange(1, 4)))
            moves.append((chance.choice(["write", "write", "write", "sync", "resize", "restart", "restart"]), chance.randrange(4), data))
        settings = [f"write 0 1 1 2 {mode}"]
        whole = explore(lambda store: steps(store, moves, False), settings=settings)
        fewer = explore(lambda store: steps(store, moves, True), settings=settings)
        assert set(fewer.outcomes) == set(whole.outcomes), (moves, mode)
        assert fewer.runs <= whole.runs
        left_out += fewer.met
    assert left_out > 100, left_out


def test_a_bug_after_the_second_restart_is_found():
    def body(store):
        blob, _ = store.open("p", b"b")
        blob.write(0, b"abcd", sync=True)
        store.restart(expecting=b"abcd")
        blob, _ = store.open("p", b"b")
        blob.write(0, b"xy")
        store.restart(expecting=b"abcd")
        assert final(store) == b"abcd"

    failed = raises(Failed, explore, body, settings=PREFIX)
    assert failed.script.count("crash") == 2
    again = raises(Failed, explore, body, settings=PREFIX, under=failed.path)
    assert again.script == failed.script


def test_a_state_is_met_at_its_own_place_alone():
    def looped(store):
        seen = []
        for _ in range(3):
            store.open("p", b"b")[0].write(0, b"a")
            store.restart(expecting=())
            seen.append(store.open("p", b"b")[1])
            store.restart()
        return tuple(seen)

    def straight(store):
        if store.choose(2):
            store.restart(expecting=())
            return "first"
        store.restart(expecting=())
        return "second"

    # What was seen before a restart isn't among what the body expects, so one of its values is left.
    visited = explore(looped, settings=PREFIX)
    assert {seen[2] for seen in visited.outcomes} == {0, 1} and visited.met > 0
    assert set(explore(straight).outcomes) == {"first", "second"}


def test_other_expectations_are_other_states():
    def body(store):
        chosen = store.choose(3)
        store.restart(expecting={"chosen": [chosen % 2, {chosen % 2}]})
        return chosen

    visited = explore(body)
    assert set(visited.outcomes) == {0, 1} and visited.met == 1, visited


def test_other_settings_are_other_states():
    def body(store):
        rate = store.choose(2)
        store.configure(f"write 0 1 {rate} 1 prefix")
        store.restart(expecting=())
        store.open("p", b"b")[0].write(0, b"a")
        store.restart()
        return final(store)

    assert set(explore(body, settings=PREFIX).outcomes) == {b"", b"a"}


def test_a_limit_and_what_it_leaves():
    whole = explore(two_records, settings=FAULTS, power_losses=1)
    found, rest, runs = set(), [""], 0
    while rest:
        part = explore(two_records_expected, settings=FAULTS, power_losses=1, runs=3, under=rest)
        found |= set(part.outcomes)
        rest, runs = part.rest, runs + part.runs
    assert found == set(whole.outcomes) and runs <= whole.runs


def test_workers():
    whole = explore(two_records, settings=FAULTS, power_losses=2)
    with ProcessPoolExecutor(2) as executor:
        fewer = explore(two_records_expected, settings=FAULTS, power_losses=2, executor=executor)
    assert set(fewer.outcomes) == set(whole.outcomes) and fewer.met > 0 and fewer.complete


def test_with_a_seed_and_without_a_search():
    visited = explore(lambda store: store.choose(3) + len(store.restart(expecting=())), settings=PREFIX, seed=5)
    assert visited.runs == 3 and visited.met == 0
    with Store(5, settings=PREFIX, by=Library) as store:
        store.open("p", b"b")[0].write(0, b"a")
        assert store.restart(expecting=[1]) == []


def test_a_value_without_a_hash():
    failed = raises(Failed, explore, lambda store: store.restart(expecting=bytearray(1)))
    assert "bytearray has no hash" in str(failed), failed


if __name__ == "__main__":
    sys.exit(run_tests(globals(), sys.argv[1:]))
