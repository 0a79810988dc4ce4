"""The module for Python, by the library or a pipe: `traps.py library` or `traps.py pipe`. What would let a test pass although the code
under test is wrong is refused, a lost reply ends a store, and the script has what was called. The last line is `N passed, M failed`."""

import io
import os
import pickle
import signal
import subprocess
import sys
import threading
import traceback

TOP = os.path.dirname(os.path.dirname(os.path.abspath(__file__)))
sys.path.insert(0, os.path.join(TOP, "bindings", "python"))

from passing import raises

import blobcrash
from blobcrash import BadLine, Injected, Interrupted, Library, NeedsSeed, NoHandle, Program, ProgramEnded, StaleHandle, Store, WrongThread

BY = Program if sys.argv[1:] == ["pipe"] else Library


def printed(script):
    """What a whole script prints."""
    if BY is Library:
        return blobcrash.run(script.encode()).decode()
    return subprocess.run([blobcrash.program()], input=script.encode(), stdout=subprocess.PIPE, check=True).stdout.decode()


def seeded(**named):
    return Store(7, by=BY, **named)


def is_refused(blob):
    """Whether each use of a handle is refused, except its close."""
    uses = [(blob.read, 0, 0), (blob.write, 0, b"a"), (blob.write, 0, b"a", True), (blob.resize, 0), (blob.size,), (blob.sync,)]
    for call, *arguments in [*uses, (blob.start_sync,)]:
        try:
            call(*arguments)
            return False
        except StaleHandle:
            pass
    return True


def test_rates_that_draw_need_a_seed_or_words():
    draws = ["write 0 1 1 2 subset", "write 1 3 0 1 prefix", "resize 1 2 0 1", "resize 1 1 1 1", "resize 0 1 1 2"]
    for setting in [*draws, "open 1 2", "read 1 2", "sync 1 2", "remove 1 2", "scan 1 2", "write 0 1 1 2 sectors 512"]:
        error = raises(NeedsSeed, Store, settings=[setting], by=BY)
        assert "seed=7" in str(error) and "words=[" in str(error), error
        with Store(by=BY) as store:
            raises(NeedsSeed, store.configure, setting)
            assert store.script == []
            store.call("config " + setting)
        for given in ({"seed": 0}, {"words": [0]}):
            Store(settings=[setting], by=BY, **given).close()
    for setting in ["write 0 1 1 1 subset", "write 1 1 0 1 prefix", "resize 1 1 0 1", "resize 0 1 1 1", "sync 1 1", "clear"]:
        Store(settings=[setting], by=BY).close()


def test_a_restart_closes_every_handle():
    with seeded() as store:
        blob, _ = store.open("wal", b"0")
        blob.write(0, b"lost")
        assert store.restart() == []
        assert is_refused(blob)
        again, size = store.open("wal", b"0")
        assert size == 0
        blob.close()
        assert store.script[-5:] == ["write 0 0 6c6f7374", "crash", "close 0", "reopen", "open wal 30"]
        assert again.handle == 1


def test_a_handle_that_a_line_closes():
    for line in ("close 0", " close  00 "):
        with seeded() as store:
            blob, _ = store.open("p", b"b")
            blob.write(0, b"kept", sync=True)
            assert store.call(line) == ["ok"]
            raises(NoHandle, store.call, line)
            assert store.restart() == []
            assert store.script[-2:] == ["crash", "reopen"]
            assert store.open("p", b"b")[1] == 4
            with blob:
                pass
            raises(NoHandle, blob.close)


def test_only_a_line_feed_ends_a_line():
    """Other characters that Python takes for the end of a line are a part of a token, which is then no name."""
    for end in ("\r", "\v", "\f", "\x1c", "\x85", "\u2028"):
        with seeded() as store:
            store.open("p", b"b")[0].write(0, b"kept", sync=True)
            assert raises(blobcrash.PartitionNameInvalid, store.call, "remove p" + end).fields == ("p" + end,)
            store.note("one" + end + "remove p")
            assert store.script[-2:] == ["remove p" + end, "# one" + end + "remove p"]
            assert store.restart() == [] and store.open("p", b"b")[1] == 4
            assert printed("\n".join(store.script) + "\n").split("\n")[2:4] == ["error PartitionNameInvalid p" + end, "crashed"]


def test_a_crash_that_keeps_bytes_tells_them():
    with Store(words=[0, 2**64 - 1], settings=["write 0 1 1 2 subset"], by=BY) as store:
        store.open("p", b"b")[0].write(0, b"ab")
        assert store.restart() == [(0, "10")]


def test_stale_handles_are_refused():
    with seeded() as store:
        blob, other, third = (store.open(*name)[0] for name in (("wal", b"0"), ("wal", b"1"), ("q", b"1")))
        assert not is_refused(blob) and not blob.is_stale
        store.remove("wal", b"0")
        assert is_refused(blob) and blob.is_stale and not other.is_stale
        store.remove("wal")
        assert is_refused(other) and not third.is_stale
        store.crash()
        assert is_refused(third)
        for line in ("crash", "reopen", "remove wal", "remove  wal 30 "):
            blob, _ = store.open("wal", b"0")
            assert not blob.is_stale
            store.call(line)
            assert is_refused(blob), line
            blob.close()
        store.reopen()
        third.close()
        other.close()


def test_stale_handles_may_be_asked_for():
    with seeded(allow_stale=True) as store:
        blob, _ = store.open("wal", b"0")
        blob.write(0, b"live")
        store.crash()
        assert blob.read(0, 4) == b"live"
        store.reopen()
        raises(blobcrash.BlobMissing, blob.sync)
        blob.allow_stale = False
        assert is_refused(blob)
    with seeded() as store:
        blob, _ = store.open("wal", b"0")
        store.crash()
        blob.allow_stale = True
        assert blob.size() == 0


def test_a_refusal_has_the_callers_text():
    with seeded() as store:
        for partition in ("", " p", "p 62", "p\nremove p", "\udc80", "\t", "é"):
            error = raises(blobcrash.PartitionNameInvalid, store.open, partition, b"")
            assert error.fields == (partition,) and error.reply == "error PartitionNameInvalid " + (partition or "-")
        error = raises(blobcrash.PartitionMissing, store.remove, "-", b"")
        assert error.fields == ("-",)
        store.open("p", b"")
        error = raises(blobcrash.BlobAlreadyOpen, store.open, "p", b"")
        assert error.fields == ("p", "") and pickle.loads(pickle.dumps(error)).fields == ("p", "")


def test_an_injected_fault_is_an_os_error():
    with Store(settings=["sync 1 1"], by=BY) as store:
        error = raises(Injected, store.open("p", b"b")[0].sync)
        assert isinstance(error, OSError) and error.errno == 5 and str(error) == "error Injected"


def test_types_that_look_like_others():
    class Number(int):
        __str__ = __repr__ = __format__ = lambda *_: "0 0 62"

    class Text(str):
        __str__ = __repr__ = __format__ = lambda *_: "p 62"

    class Data(bytes):
        hex = lambda *_: "00 00"

    with seeded() as store:
        blob, _ = store.open(Text("p"), Data(b"b"))
        blob.write(Number(2), Data(b"abc"))
        blob.write(0, bytearray(b"xy"))
        blob.write(1, memoryview(b"-y-")[1:2])
        assert blob.read(Number(0), Number(5)) == b"xyabc"
        blob.resize(Number(1))
        assert store.script == ["seed 7", "open p 62", "write 0 2 616263", "write 0 0 7879", "write 0 1 79", "read 0 0 5", "resize 0 1"]


def test_the_script_has_what_was_called():
    with seeded(images=[("q", b"i", b"none")], settings=["sync 1 8"]) as store:
        for line in ("a\nb", "frob", "open p wal", "config write 1/8 1 2 subset", "# a\n# b", "\udc80"):
            raises(BadLine, store.call, line)
        raises(BadLine, store.configure, "clear\nopen p 62")
        raises(ValueError, store.finish, 2**64)
        store.note("two\nlines \udc80")
        assert store.call("# here") == []
        raises(NoHandle, store.call, " size  5")
        script = ["image q 69 6e6f6e65", "seed 7", "config sync 1 8", "# two", "# lines \\udc80", "# here", " size  5"]
        assert store.script == script
    assert printed("\n".join(script)) == "ok\nerror NoHandle\n"


def test_bad_lines_tell_why():
    with Store(by=BY) as store:
        rows = [("open p wal", "`wal`: a name is hex"), ("config write 1/8 1 2 subset", "`1/8`: a rate is two numbers")]
        rows += [("crash\r", "a carriage return"), ("seed 1", "`seed`: a preamble line precedes all calls"), ("crash 1", "a token too many")]
        for line, why in [*rows, ("open p 62 0 65536", "`65536`: the greatest version is 65535")]:
            error = raises(BadLine, store.call, line)
            assert why in error.why and why in str(error), (line, error)
        assert store.call("open p 62") == ["opened", "0", "0", "0"]


def test_another_thread_is_told():
    with seeded() as store:
        blob, _ = store.open("p", b"b")
        errors = []

        def use():
            for call, *arguments in [(blob.read, 0, 0), (blob.write, 0, b""), (store.crash,), (store.call, "#"), (blob.close,), (store.close,)]:
                errors.append(type(raises(WrongThread, call, *arguments)))

        thread = threading.Thread(target=use)
        thread.start()
        thread.join()
        assert errors == 6 * [WrongThread]
        assert blob.read(0, 0) == b""


def test_a_closed_store_is_told():
    store = seeded()
    blob, _ = store.open("p", b"b")
    store.close()
    store.close()
    for call, *arguments in [(blob.read, 0, 0), (blob.write, 0, b""), (blob.size,), (store.crash,), (blob.close,)]:
        assert "closed" in str(raises(ValueError, call, *arguments))


def test_an_interrupted_call_ends_the_store():
    store = seeded()
    blob, _ = store.open("p", b"b")
    answer = store._layer.apply

    def interrupted(*_):
        if BY is Program:
            store._layer._lost = KeyboardInterrupt()
        raise KeyboardInterrupt

    store._layer.apply = interrupted
    # A handle calls the library without the layer.
    blob._ask = blob._ask and interrupted
    raises(KeyboardInterrupt, blob.sync)
    store._layer.apply = answer
    for call, *arguments in [(blob.sync,), (blob.read, 0, 0), (store.reopen,), (blob.close,)]:
        assert isinstance(raises(Interrupted, call, *arguments).__cause__, KeyboardInterrupt)
    store.close()


def test_a_signal_in_the_middle_of_a_call():
    """A handler that asks the same store is refused, and an exception of it leaves a reply in the pipe."""
    if BY is not Program:
        return
    pipe = Program(b"seed 7\n")
    assert pipe.call(b"open p 62") == b"opened 0 0 0"
    os.kill(pipe._run.pid, signal.SIGSTOP)

    def handler(*_):
        raises(Interrupted, pipe.call, b"size 0")
        raise TimeoutError

    signal.signal(signal.SIGALRM, handler)
    signal.setitimer(signal.ITIMER_REAL, 0.05)
    raises(TimeoutError, pipe.call, b"sync 0")
    signal.signal(signal.SIGALRM, signal.SIG_DFL)
    os.kill(pipe._run.pid, signal.SIGCONT)
    assert isinstance(raises(Interrupted, pipe.call, b"size 0").__cause__, TimeoutError)
    assert pipe.close() != 0


def test_a_program_that_ends_is_told():
    if BY is not Program:
        return
    pipe = Program()
    pipe._run.kill()
    raises(ProgramEnded, pipe.call, b"crash")
    raises(ProgramEnded, pipe.call, b"crash")
    pipe.close()
    pipe = Program()
    pipe._run.stdin.write(b"frob\n")
    first = raises(BadLine, pipe.call, b"crash")
    assert raises(BadLine, pipe.call, b"scan p") is first
    assert pipe.close() == 2


def test_a_blob_is_a_context():
    with seeded() as store:
        with store.open("p", b"b")[0] as blob:
            blob.write(0, b"a")
        assert store.script[-1] == "close 0"
        with store.open("p", b"b")[0] as blob:
            blob.close()
        with store.open("p", b"b")[0]:
            store.restart()
        store.open("p", b"b")


def test_a_blob_is_a_file():
    with seeded() as store:
        with store.file("p", b"b") as file:
            assert isinstance(file, io.RawIOBase) and file.readable() and file.writable() and file.seekable()
            assert file.write(b"record") == 6 and file.tell() == 6
            assert file.seek(2) == 2 and file.read(2) == b"co" and file.read() == b"rd" and file.read(1) == b""
            assert file.seek(-1, io.SEEK_END) == 5 and file.seek(3, io.SEEK_CUR) == 8 and file.read() == b""
            file.write(b"!")
            assert file.blob.size() == 9
            assert file.truncate(3) == 3 and file.tell() == 9 and file.blob.size() == 3
            raises(ValueError, file.seek, -1)
            raises(OSError, file.fileno)
            file.flush()
            assert not any(line.startswith("sync") for line in store.script)
            file.seek(0)
            file.write(b"abc\ndef")
            file.sync()
        raises(ValueError, file.read, 1)
        store.restart()
        file = store.file("p", b"b")
        assert file.readlines() == [b"abc\n", b"def"]
        buffered = io.BufferedRandom(file)
        buffered.write(b"tail")
        assert file.blob.size() == 7
        buffered.flush()
        assert file.blob.read(0, 11) == b"abc\ndeftail"
        store.restart()
        raises(StaleHandle, file.seek, 0, io.SEEK_END)


def test_a_file_that_is_dropped_stays_open():
    with seeded() as store:
        store.file("p", b"b").write(b"a")
        assert "close 0" not in store.script
        raises(blobcrash.BlobAlreadyOpen, store.file, "p", b"b")


def test_a_child_does_not_share_the_pipe():
    """A forked child's calls are refused or are its own, and don't keep the parent's program alive."""
    store = seeded()
    store.note("buffered")
    blob, _ = store.open("p", b"b")
    done, waits = os.pipe()
    child = os.fork()
    if child == 0:
        os.close(waits)
        status = 0
        try:
            blob.write(0, b"child")
            status = 1 if BY is Program else 0
        except ValueError:
            pass
        try:
            store.close()
            os.read(done, 1)
        except BaseException:
            status = 2
        os._exit(status)
    os.close(done)
    blob.write(0, b"ab")
    assert blob.read(0, 2) == b"ab" and blob.size() == 2
    # The child still lives: the program ends all the same.
    store.close()
    os.close(waits)
    assert os.waitpid(child, 0)[1] == 0


def test_ctrl_c_between_calls_ends_nothing():
    lines = [
        "import os, signal, sys",
        f"sys.path.insert(0, {os.path.join(TOP, 'bindings', 'python')!r})",
        f"from blobcrash import {BY.__name__}, Store",
        f"with Store(7, by={BY.__name__}) as store:",
        "    blob, _ = store.open('p', b'b')",
        "    try:",
        "        os.killpg(0, signal.SIGINT)",
        "        signal.pause()",
        "    except KeyboardInterrupt:",
        "        pass",
        "    blob.write(0, b'after')",
        "    assert blob.size() == 5",
    ]
    run = subprocess.run([sys.executable, "-c", "\n".join(lines)], start_new_session=True, stderr=subprocess.PIPE, timeout=60)
    assert run.returncode == 0, run.stderr.decode()


def test_words_are_pushed():
    if BY is Program:
        raises(ValueError, Store, pushed=True, by=BY)
        return
    for given in ({"seed": 1}, {"words": [1]}):
        raises(ValueError, Store, pushed=True, by=BY, **given)
    with seeded() as store:
        raises(ValueError, store.push_words, [0])
    with Store(pushed=True, settings=["write 0 1 1 2 subset"], by=BY) as store:
        blob, _ = store.open("p", b"b")
        raises(ValueError, store.push_words, [2**64])
        try:
            store.push_words([0, 2**64 - 1])
        except blobcrash.LibraryMissing:
            print("traps.py: skipped: the library has no blobcrash_push_words")
            return
        blob.write(0, b"ab")
        store.push_words([2**64 - 1, 0, 0])
        assert store.restart() == [(0, "01")]
        blob, _ = store.open("p", b"b")
        blob.write(0, b"xyz")
        store.push_words([0, 2**64 - 1, 0])
        assert store.restart() == [(0, "101")]
        assert store.script[0] == "words 18446744073709551615 0 0 18446744073709551615 0 0 0 18446744073709551615 1"
        replies = blobcrash.run("\n".join(store.script).encode())
        assert b"crashed 0:01\n" in replies and b"crashed 0:101\n" in replies
        store.open("p", b"b")[0].write(0, b"too many draws")
        store.crash()
        raises(ValueError, store.push_words, [0])
    with Store(pushed=True, settings=["scan 1 2"], by=BY) as store:
        for word in range(1, 1000):
            store.push_words([word, 2**64 - 1])
        raises(blobcrash.Injected, store.scan, "p")
        raises(blobcrash.PartitionMissing, store.scan, "p")
        store.push_words([5])
        last = [f"{word} {2**64 - 1}" for word in range(998, 0, -1)]
        assert store.script[0] == " ".join([f"words 999 {2**64 - 1} 5", *last, "1"])


def test_numbers_of_the_library_do_not_wrap():
    if BY is Program:
        return
    layer = Library()
    layer.call(b"open p 62")
    layer.call(b"resize 0 8192")
    for arguments in ((2**64, 0, 1), (-1, 0, 1), (0, 2**64, 1), (0, -1, 1), (0, 0, 8192 - 2**64)):
        raises(ValueError, layer.read, *arguments)
    for arguments in ((2**64, 0, b"a"), (-1, 0, b"a"), (0, 2**64, b"a"), (0, -1, b"a")):
        raises(ValueError, layer.write, *arguments)
    assert layer.read(0, 0, 8192) == bytes(8192)


def test_a_library_begins_with_bytes():
    if BY is Program:
        return
    for text in ("seed 1\n", "\n", "", 5, None):
        raises(TypeError, Library, text)
    layer = Library()
    for text in ("seed 1\n", "\n", "", 5, None):
        raises(TypeError, layer.begin, text)
    layer.begin(bytearray(b"seed 1\n"))
    assert layer.call(b"open p 62") == b"opened 0 0 0"


def test_long_reads_take_no_memory():
    with seeded() as store:
        blob, _ = store.open("p", b"b")
        raises(blobcrash.BlobInsufficientLength, blob.read, 0, 2**62)
        raises(blobcrash.OffsetOverflow, blob.read, 2**63, 2**63)
        raises(blobcrash.Memory, blob.write, 2**62, b"a")
        raises(blobcrash.Memory, blob.resize, 2**62)
        data = bytes(range(256)) * 1024
        blob.write(0, data)
        assert blob.read(0, len(data)) == data and blob.read(256, 5000) == data[256:5256]
    with seeded(allow_stale=True) as store:
        blob, _ = store.open("p", b"b")
        store.remove("p")
        raises(blobcrash.BlobMissing, blob.write, 0, data, True)
        assert blob.size() == 0 and blob.read(0, len(data)) == data


def main():
    passed = failed = 0
    for name, test in [(name, value) for name, value in globals().items() if name.startswith("test_")]:
        try:
            test()
            passed += 1
        except Exception:
            failed += 1
            print(f"traps.py: FAILED: {name}, {BY.__name__}")
            traceback.print_exc(file=sys.stdout)
    print(f"{passed} passed, {failed} failed")
    return int(failed > 0)


if __name__ == "__main__":
    sys.exit(main())
