"""Shrinking: scripts of planted bugs with much around them, and bodies. Each is reduced to the lines, or the calls, that were found by hand.
The last line is `N passed, M failed`. With the name of a test only that one is run."""

import os
import pickle
import sys
import traceback

TOP = os.path.dirname(os.path.dirname(os.path.abspath(__file__)))
sys.path.insert(0, os.path.join(TOP, "bindings", "python"))

from blobcrash import Failed, Injected, Library, PowerLoss, Program, Store, acknowledgement, cut, explore, judge, run, seeds, shrink


def noise(store, number):
    """Calls that have nothing to do with a bug: a blob of their own, with a crash, and settings."""
    store.note(f"noise {number}")
    other, _ = store.open("noise", b"n%d" % number)
    store.configure("read 1 16")
    for at in range(6):
        other.write(at * 7, bytes([at] * 9))
        try:
            other.sync()
            other.read(0, 5)
        except Injected:
            pass
    other.start_sync()
    store.scan("noise")
    other.resize(20)
    store.configure("read 0 1")
    other.close()


def acknowledge(store, name, offset, data):
    store.note(acknowledgement("p", name, offset, data))


def shortened(script, lines):
    """Cuts a script, and checks what every short script has. `lines` is how many it takes, by hand."""
    text = "\n".join(script) + "\n"
    assert judge(text) is not None, "the whole script loses nothing"
    short = cut(text)
    assert judge(short, Library) is not None and judge(short, Program) is not None, short
    assert "seed" not in short, short
    assert len(short.splitlines()) == lines, short
    for at in range(lines):
        rest = short.splitlines()
        del rest[at]
        try:
            assert judge("\n".join(rest)) is None or short.splitlines()[at].startswith(("words", "config", "sync")), (at, short)
        except ValueError:
            pass
    return short


def test_forgotten_sync():
    """An acknowledged write that was never synced: an open, the write, its acknowledgement, a crash and a reopen."""
    with Store(3, by=Library, settings=["write 0 1 1 2 prefix"]) as store:
        noise(store, 0)
        blob, _ = store.open("p", b"b")
        for at in range(5):
            blob.write(at * 8, bytes([65 + at] * 8))
            if at != 3:
                blob.sync()
                acknowledge(store, b"b", at * 8, bytes([65 + at] * 8))
        blob.write(40, b"lost")
        acknowledge(store, b"b", 40, b"lost")
        store.restart()
        noise(store, 1)
    short = shortened(store.script, 5)
    assert short == "open p 62\nwrite 0 40 6c\n# acknowledged p 62 40 6c\ncrash\nreopen\n", short


def test_the_program_cannot_shrink():
    """It can't tell how many words it has left. The body isn't called."""
    called = []
    for by in (Program, None):
        try:
            shrink(called.append, "0", by=by)
        except ValueError as error:
            assert "by=Library" in str(error) and not called, error
        else:
            raise AssertionError(by)


def test_a_slot_that_is_used_again():
    """An acknowledgement isn't left without what releases it. Three lines that are tried together have the loss and the release."""
    script = ["open p 62", "open p 63", "writes 1 0 6f6c64", "# acknowledged p 63 0 6f6c64", "write 0 0 6c", "size 0", "size 0"]
    script += ["# acknowledged p 62 0 6c", "# released p 63 0 3", "writes 1 0 6e6577", "crash", "reopen"]
    short = shortened(script, 5)
    assert short == "open p 62\nwrite 0 0 6c\n# acknowledged p 62 0 6c\ncrash\nreopen\n", short


def test_ignored_error():
    """A sync that fails, and content that is acknowledged all the same. It takes the rate, and a word by which the sync fails."""
    with Store(5, by=Library, settings=["sync 1 2", "write 1 8 1 3 subset"]) as store:
        for number in range(3):
            try:
                noise(store, number)
            except Injected:
                pass
        blob, _ = store.open("p", b"b")
        for at in range(12):
            try:
                blob.write(at * 4, b"data")
                blob.sync()
            except Injected:
                pass
            acknowledge(store, b"b", at * 4, b"data")
        store.restart()
    short = shortened(store.script, 8)
    assert short.splitlines()[:2] == ["words 0", "config sync 1 2"], short


def test_torn_overwrite():
    """Acknowledged content that is overwritten in place: the crash keeps a byte of the new content."""
    with Store(7, by=Library, settings=["write 0 1 1 2 sectors 4"]) as store:
        noise(store, 0)
        blob, _ = store.open("p", b"b")
        blob.write(0, b"before--" * 4)
        blob.sync()
        acknowledge(store, b"b", 0, b"before--" * 4)
        noise(store, 1)
        blob.write(0, b"AFTER---" * 4)
        noise(store, 2)
        store.restart()
        noise(store, 3)
    short = shortened(store.script, 9)
    assert short.splitlines()[0] == "words 0", short


def test_second_handle():
    """A second handle that overwrites acknowledged bytes when it is synced, here with none. No draw remains."""
    with Store(9, by=Library, settings=["write 0 1 1 2 subset"]) as store:
        noise(store, 0)
        first, _ = store.open("p", b"b")
        first.write(0, b"old content")
        noise(store, 1)
        second, _ = store.open_loose("p", b"b")
        second.write(0, b"new content", sync=True)
        acknowledge(store, b"b", 0, b"new content")
        noise(store, 2)
        first.sync()
        store.restart()
    short = shortened(store.script, 7)
    assert "words" not in short and "config" not in short, short


def test_sound_script():
    """Synced content survives: nothing is lost, and there is nothing to cut."""
    with Store(11, by=Library, settings=["write 0 1 1 2 subset"]) as store:
        blob, _ = store.open("p", b"b")
        blob.write(0, b"kept")
        blob.sync()
        acknowledge(store, b"b", 0, b"kept")
        store.restart()
    text = "\n".join(store.script)
    assert judge(text) is None
    assert judge(text.replace("sync 0\n", "")) is not None
    try:
        cut(text)
    except ValueError:
        return
    raise AssertionError("a script that doesn't fail was cut")


def test_choices_are_those_of_the_seed():
    """With its choices as words a script has the same replies."""
    for seed in (0, 1, 2**64 - 1):
        with Store(seed, by=Library, settings=["write 1 8 1 2 subset", "sync 1 4", "resize 1 2 1 2"]) as store:
            blob, _ = store.open("p", b"b")
            for at in range(20):
                try:
                    blob.write(at * 3, b"bytes", sync=at % 3 == 0)
                    blob.resize(at * 2)
                    blob.sync()
                except Injected:
                    pass
            store.restart()
        script = "".join(line + "\n" for line in store.script)
        fixed = cut(script, lambda text: text.count("\n") >= len(store.script))
        assert "seed" not in fixed and fixed.startswith("words "), fixed
        assert run(fixed.encode()) == run(script.encode()), fixed


def records(store):
    """Writes records, syncs some, and checks after a crash that all are found."""
    blob, _ = store.open("p", b"b")
    end = 0
    for _ in range(store.choose(9)):
        length = 1 + store.choose(30)
        blob.write(end, b"r" * length)
        end += length
        if store.choose(3):
            blob.sync()
    store.restart()
    assert store.open("p", b"b")[1] >= end, "records are lost"


def failure(call, *arguments, **named):
    try:
        call(*arguments, **named)
    except Failed as failed:
        return failed
    raise AssertionError("nothing failed")


def test_body_by_seeds():
    """One record of one byte that isn't synced: an open, a write, a crash and a reopen, with the close of the handle and another open."""
    settings = ["write 0 1 1 2 subset"]
    failed = failure(seeds, records, 500, settings=settings, by=Library)
    short = shrink(records, failed, settings=settings)
    calls = [line for line in short.script if not line.startswith(("#", "words", "config"))]
    assert calls == ["open p 62", "write 0 0 72", "crash", "close 0", "reopen", "open p 62"], short
    notes = [line for line in short.script if line.startswith("# choose")]
    assert notes == ["# choose(9) is 1", "# choose(30) is 0", "# choose(3) is 0"], short
    again = failure(explore, records, settings=settings, under=[short.path])
    assert again.script == short.script, again


def test_body_by_explore():
    """The path of an exploration, with a power loss: the shortest run has one power loss, right after the write."""

    def body(store):
        blob, _ = store.open("p", b"b")
        count = 1 + store.choose(4)
        try:
            for at in range(count):
                blob.write(at, b"x", sync=True)
        except PowerLoss:
            pass
        size = store.recover(lambda: store.open("p", b"b")[1])
        assert size in (0, count), "a part of the records is found"

    failed = failure(explore, body, power_losses=1)
    short = shrink(body, failed)
    assert [line for line in short.script if line.startswith("# choose")] == ["# choose(4) is 1"], short
    assert short.path.split().count("off") == 1, short
    assert failure(explore, body, under=[short.path], power_losses=1).script == short.script


def test_a_search_that_stops_at_a_limit_says_so():
    settings = ["write 0 1 1 2 subset"]
    failed = failure(seeds, records, 500, settings=settings, by=Library)
    assert failed.stopped == "" and shrink(records, failed, settings=settings).stopped == ""
    short = shrink(records, failed, settings=settings, runs=20)
    assert short.run <= 21 and "limit of 20 runs" in short.stopped and short.stopped in str(short), short
    copy = pickle.loads(pickle.dumps(short))
    assert (copy.stopped, str(copy)) == (short.stopped, str(short))
    short = shrink(records, failed, settings=settings, seconds=0)
    assert "time was over" in short.stopped and short.stopped in str(short), short


def test_a_smaller_run_that_would_never_end():
    """With other choices a body may retry for ever, which is no smaller run."""

    def body(store):
        while store.choose(3) != 2:
            pass
        blob, _ = store.open("p", b"b")
        blob.write(0, b"lost")
        store.restart()
        assert store.open("p", b"b")[1] == 4

    failed = failure(seeds, body, 50, by=Library)
    short = shrink(body, failed)
    assert short.script.count("# choose(3) is 2") == 1 and "open p 62" in short.script and short.stopped == "", short


def test_choices_without_draws():
    """Each list of smaller choices is tried once: after the run itself no choice, 0 and 1."""

    def body(store):
        assert store.choose(3) != 2

    assert shrink(body, failure(explore, body)).run == 4


def test_body_that_does_not_fail():
    try:
        shrink(lambda store: None, "0 max")
    except ValueError:
        return
    raise AssertionError("a body that doesn't fail was shrunk")


def main(arguments):
    tests = {name[5:]: test for name, test in globals().items() if name.startswith("test_")}
    passed = failed = 0
    for name in arguments or tests:
        try:
            tests[name]()
            passed += 1
        except Exception:
            failed += 1
            print(f"shrunk.py: {name}")
            traceback.print_exc(file=sys.stdout)
    print(f"{passed} passed, {failed} failed")
    return int(failed > 0)


if __name__ == "__main__":
    sys.exit(main(sys.argv[1:]))
