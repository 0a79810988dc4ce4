"""Unmodified Python code on files: programs see what they see on a real folder (tests/patched_programs.py), bugs are found, what isn't
served is refused, and everything is as before after each block. pytest runs it too. The last line is `N passed, M failed`."""

import builtins
import dbm.dumb
import fcntl
import glob
import io
import json
import os
import pathlib
import shutil
import sys
import tempfile
import threading
import types
import warnings

TOP = os.path.dirname(os.path.dirname(os.path.abspath(__file__)))
sys.path[:0] = [os.path.join(TOP, "bindings", "python"), os.path.join(TOP, "tests")]

from passing import raises, run_tests
from patched_programs import PROGRAMS

from blobcrash import Failed, Files, Injected, PowerLoss, WrongThread, explore, patched, seeds

PROFILES = ("ext4", "xfs", "btrfs", "posix")
SECTORS = ["write 0 1 1 2 sectors 512"]
DISK = "/disk-of-blobcrash"


def everything():
    """All that `patched` may replace."""
    held = [dict(vars(module)) for module in (os, io, fcntl, builtins)]
    held += [set(supported) for supported in (os.supports_dir_fd, os.supports_fd, os.supports_follow_symlinks)]
    holders = getattr(pathlib, "_NormalAccessor", object), getattr(glob, "_StringGlobber", object), tempfile._TemporaryFileCloser
    held += [dict(vars(holder)) for holder in holders]
    return [*held, [f.__defaults__ for f in vars(holders[-1]).values() if isinstance(f, types.FunctionType)]]


def compare(program):
    before = everything()
    with warnings.catch_warnings():
        # Line buffering of a binary file.
        warnings.simplefilter("ignore", RuntimeWarning)
        with tempfile.TemporaryDirectory() as real:
            want = list(program(real))
        with Files(words=[0]) as files, patched(files, DISK):
            found = list(program(DISK))
    assert everything() == before
    assert len(found) == len(want)
    for at, (one, other) in enumerate(zip(found, want)):
        assert one == other, f"{program.__name__}, row {at}: {one}, and on a real folder {other}"


def test_programs():
    for program in PROGRAMS:
        compare(program)


def save(path, value, syncs):
    new = path + ".new"
    with open(new, "w") as file:
        json.dump(value, file)
        if syncs:
            file.flush()
            os.fsync(file.fileno())
    os.replace(new, path)


def saves(syncs):
    def body(files):
        may = None, 1
        try:
            with patched(files, DISK):
                save(DISK + "/settings", 1, True)
            files.settle()
            may = 1, 2
            with patched(files, DISK):
                save(DISK + "/settings", 2, syncs)
        except PowerLoss:
            pass
        files.restart()
        with patched(files, DISK):
            path = pathlib.Path(DISK, "settings")
            assert (json.loads(path.read_text()) if path.exists() else None) in may

    return body


def test_a_replaced_file():
    for profile in PROFILES:
        for losses in (0, 1):
            assert explore(saves(True), files=profile, settings=SECTORS, power_losses=losses).complete
            failed = raises(Failed, explore, saves(False), files=profile, settings=SECTORS, power_losses=losses)
            assert failed.reason.startswith("JSONDecodeError"), failed
    raises(Failed, seeds, saves(False), 100, files="xfs", settings=SECTORS)


def adds(files):
    with patched(files, DISK), dbm.dumb.open(DISK + "/db", "c") as db:
        db[b"a"] = b"1"
    files.settle()
    with patched(files, DISK), dbm.dumb.open(DISK + "/db", "w") as db:
        db[b"b"] = b"2"
    files.restart()
    with patched(files, DISK), dbm.dumb.open(DISK + "/db", "r") as db:
        assert b"a" in db.keys(), "a durable key is lost"


def test_dbm_dumb():
    # With zeros its index can't be read at all.
    for profile in PROFILES:
        reason = raises(Failed, explore, adds, files=profile, settings=SECTORS).reason
        assert ("a durable key is lost" if profile == "xfs" else "null bytes") in reason, reason


def sets(files, key):
    with patched(files, DISK):
        db = dbm.dumb.open(DISK + "/db", "c")
        db[key] = b"1"
        db.close()


def counts(files):
    """The keys that are left if the power fails at some call, or the kind of the error by which the database can't be opened."""
    try:
        sets(files, b"a")
        files.settle()
        sets(files, b"b")
    except PowerLoss:
        pass
    files.restart()
    with patched(files, DISK):
        try:
            with dbm.dumb.open(DISK + "/db", "r") as db:
                return len(db.keys())
        except Exception as error:
            return type(error).__name__


def test_a_database_that_is_dropped():
    # It writes when Python drops it, after its block: it finds no folder, and no later run.
    dropped, hook = [], sys.unraisablehook
    sys.unraisablehook = lambda found: dropped.append(found.exc_type)
    try:
        found = explore(counts, files="posix", settings=SECTORS, power_losses=1)
    finally:
        sys.unraisablehook = hook
    assert found.complete and found.runs > 50 and {0, 1, 2} <= set(found.outcomes), found
    assert dropped and set(dropped) == {FileNotFoundError}, dropped


def test_the_calls():
    with Files(words=[0]) as files:
        with patched(files, DISK):
            save(DISK + "/s", [1], True)
            folder = os.open(DISK, os.O_RDONLY)
            os.fsync(folder)
            os.close(folder)
            with open(DISK + "/s", "a") as file:
                file.write("x")
            fd = os.open(DISK + "/s", os.O_RDWR | os.O_DSYNC)
            os.write(fd, b"y")
            os.close(fd)
            fd = os.open(DISK + "/s", os.O_RDWR | os.O_SYNC)
            os.pwrite(fd, b"z", 1)
        calls = files.script[2:]
    assert calls == [
        *("create /s.new # is 0", "write 0 0 5b315d", "fsync 0", "close 0", "rename /s.new /s", "fsyncdir /"),
        *("open /s # is 1", "write 1 3 78", "close 1"),
        *("open /s # is 2", "write 2 0 79", "fdatasync 2", "close 2"),
        *("open /s # is 3", "write 3 1 7a", "fsync 3", "close 3"),
    ], calls


def test_real_files_stay():
    with tempfile.TemporaryDirectory() as real, Files(words=[0]) as files:
        path = pathlib.Path(real, "f")
        with patched(files, DISK):
            path.write_text("real")
            assert path.read_text() == "real" and os.listdir(real) == ["f"] and not files.listdir()
            os.rename(path, str(path) + "2")
            assert raises(OSError, os.rename, str(path) + "2", DISK + "/f").errno == 18
            assert raises(OSError, os.link, DISK + "/f", str(path)).errno == 18
            assert shutil.copy(str(path) + "2", DISK + "/f") == DISK + "/f" and files.listdir() == ["f"]
            assert os.path.exists("/") and os.path.isdir(os.curdir) and os.listdir() == os.listdir(os.getcwd())
            assert not os.path.exists(DISK + "2") and not os.path.exists(DISK + "/../f")
        assert not os.path.lexists(DISK) and files.listdir() == ["f"]
        raises(FileNotFoundError, open, DISK + "/f")


def test_everything_is_restored():
    before = everything()

    def in_block(error):
        with Files(words=[0]) as files, patched(files, DISK):
            open(DISK + "/f", "w")
            assert everything() != before
            raise error

    for error in (KeyError, OSError, PowerLoss, KeyboardInterrupt, GeneratorExit):
        raises(error, in_block, error())
        assert everything() == before
    runs = explore(saves(True), files="posix", settings=SECTORS, power_losses=2).runs
    assert runs > 10 and everything() == before
    raises(Failed, explore, saves(False), files="xfs", settings=SECTORS)
    assert everything() == before


def test_blocks_in_blocks():
    with Files(words=[0]) as one, Files(words=[0]) as other:
        with patched(one, DISK), patched(other, DISK + "2"):
            raises(ValueError, patched(one, DISK).__enter__)
            save(DISK + "/f", 1, False)
            assert raises(OSError, os.rename, DISK + "/f", DISK + "2/f").errno == 18
            shutil.move(DISK + "/f", DISK + "2/f")
        assert (one.listdir(), other.listdir()) == ([], ["f"])


def test_a_restart_ends_the_process():
    with Files(words=[0]) as files, patched(files, DISK):
        text, raw = open(DISK + "/t", "w"), open(DISK + "/r", "wb", buffering=0)
        text.write("never flushed")
        fd = os.open(DISK + "/r", os.O_RDWR)
        files.settle()
        files.restart()
        assert text.closed and raw.closed
        for call in (lambda: os.write(fd, b"x"), lambda: os.fstat(raw.fileno() if not raw.closed else fd), lambda: os.close(fd)):
            assert raises(OSError, call).errno == 9
        raises(ValueError, text.write, "x")
        text.close()
        del text, raw
        assert os.path.getsize(DISK + "/t") == 0 and sorted(os.listdir(DISK)) == ["r", "t"]


def test_the_end_of_a_block_ends_the_process():
    with Files(words=[0]) as files:
        with patched(files, DISK):
            file, flushed = open(DISK + "/f", "w"), open(DISK + "/g", "w")
            file.write("lost")
            flushed.write("kept")
            flushed.flush()
        assert file.closed and files.script[-2:] == ["close 0", "close 1"]
        file.close()
        assert [files.stat(path).size for path in ("/f", "/g")] == [0, 4]


def test_faults():
    with Files(words=[0], settings=["sync 1 1"]) as files:
        with patched(files, DISK):
            error = raises(Injected, save, DISK + "/f", 1, True)
            assert isinstance(error, OSError) and error.errno == 5
            files.configure("sync 0 1")
            files.configure("space 2 9")
            with open(DISK + "/g", "wb", buffering=0) as file:
                assert raises(OSError, file.write, b"abc").errno == 28


def test_a_power_loss():
    with Files(words=[0]) as files:
        files.crash_after(2)
        with patched(files, DISK):
            raises(PowerLoss, save, DISK + "/f", 1, True)
            raises(PowerLoss, os.stat, DISK + "/f")
        files.restart()
        with patched(files, DISK):
            save(DISK + "/f", 1, True)
            assert os.listdir(DISK) in (["f"], ["f", "f.new"])


def in_thread(call):
    """What a call raises in another thread."""
    found = []

    def run():
        try:
            found.append(call())
        except Exception as error:
            found.append(error)

    thread = threading.Thread(target=run)
    thread.start()
    thread.join()
    return found[0]


def test_other_threads_and_processes():
    with Files(words=[0]) as files, tempfile.TemporaryDirectory() as real:
        with patched(files, DISK):
            file = open(DISK + "/f", "wb", buffering=0)
            for call in (lambda: open(DISK + "/g", "w"), lambda: os.path.exists(DISK), lambda: file.write(b"x"), lambda: os.fsync(file), os.sync):
                assert isinstance(in_thread(call), WrongThread)
            assert in_thread(lambda: pathlib.Path(real, "r").write_text("served")) == 6
            process = os.fork()
            if process == 0:
                try:
                    os.path.exists(DISK)
                except WrongThread:
                    os._exit(7)
                os._exit(1)
            assert os.waitpid(process, 0)[1] >> 8 == 7
            file.write(b"y")
        assert files.stat("/f").size == 1


def test_what_is_refused():
    with Files(words=[0]) as files, patched(files, DISK):
        file = open(DISK + "/f", "w+b")
        fd = file.fileno()
        for call in (
            lambda: os.chdir(DISK),
            lambda: os.symlink("/etc/passwd", DISK + "/l"),
            lambda: os.mkfifo(DISK + "/p"),
            lambda: os.statvfs(DISK),
            lambda: os.dup2(fd, 1),
            lambda: os.posix_fallocate(fd, 0, 9),
            lambda: os.writev(fd, [b"x"]),
            lambda: os.lockf(fd, os.F_LOCK, 0),
            lambda: fcntl.fcntl(fd, fcntl.F_GETFL),
            lambda: fcntl.ioctl(file, 1),
            lambda: os.open(DISK, os.O_PATH),
        ):
            raises(NotImplementedError, call)
        assert raises(OSError, os.open, DISK, os.O_TMPFILE | os.O_RDWR).errno == 95
        assert raises(OSError, os.getxattr, DISK + "/f", "user.x").errno == 95
        other = open(DISK + "/f")
        fcntl.flock(file, fcntl.LOCK_EX)
        raises(NotImplementedError, fcntl.flock, other, fcntl.LOCK_SH)
        folder = os.open(DISK, os.O_RDONLY)
        os.mkdir("d", dir_fd=folder)
        inner = os.open(DISK + "/d", os.O_RDONLY)
        os.rename(DISK + "/d", DISK + "/e")
        raises(NotImplementedError, os.fsync, inner)


def test_roots():
    with Files(words=[0]) as files, tempfile.TemporaryDirectory() as real:
        for root in ("disk", "/", "//", DISK + "/", DISK + "/../x", "", real, __file__):
            raises(ValueError, patched(files, root).__enter__)
        raises(TypeError, patched(files, b"/disk").__enter__)
        with patched(files, real + "/sub") as root:
            pathlib.Path(root, "f").write_text("x")
            assert os.listdir(real) == []
        assert files.listdir() == ["f"]


def test_modules_that_import_names():
    module = types.ModuleType("module")
    exec("from os import replace, listdir\nfrom os.path import exists\nread = open", vars(module))
    before = dict(vars(module))
    with Files(words=[0]) as files:
        with patched(files, DISK):
            raises(FileNotFoundError, module.listdir, DISK)
        with patched(files, DISK, modules=[module]):
            with module.read(DISK + "/a", "w") as file:
                file.write("x")
            module.replace(DISK + "/a", DISK + "/b")
            assert module.listdir(DISK) == ["b"] and module.exists(DISK + "/b")
        assert vars(module) == before


if __name__ == "__main__":
    sys.exit(run_tests(globals(), sys.argv[1:]))
