"""The switches of `Files` of the package for Python: syncs that fail and drop bytes, syncs that lie, writes that write a prefix. Also files
without names, and what a crash says of pending writes. The last line is `N passed, M failed`. With the name of a test only that one is
run."""

import errno
import os
import sys

TOP = os.path.dirname(os.path.dirname(os.path.abspath(__file__)))
sys.path.insert(0, os.path.join(TOP, "bindings", "python"))

from files import KEEPS, LOSES, PROFILES, get, put, refused
from passing import raises, run_tests

from blobcrash import BadLine, Files, Injected

MAX = 2**64 - 1


def test_a_failed_sync_that_drops():
    with Files(words=[0, MAX], settings=[*KEEPS, "failed_sync drops"]) as files:
        put(files, "/f", b"old")
        files.settle()
        files.configure("sync 1 2")
        with files.open("/f", "r+b") as file:
            file.write(b"newer")
            raises(Injected, files.fsync, file)
            # The bytes are read, and a later sync doesn't write them.
            assert file.seek(0) == 0 and file.read() == b"newer" and files.stat("/f").size == 5
            assert file.seek(1) == 1 and file.write(b"E") == 1
            files.fsync(file)
            assert file.seek(0) == 0 and file.read() == b"nEwer"
            assert get(files, "/f") == b"oEd" and file.seek(0) == 0 and file.read() == b"oEd" and files.stat("/f").size == 3
        files.restart()
        assert get(files, "/f") == b"oEd"
    with Files(words=[0, MAX], settings=[*KEEPS, "failed_sync keeps", "sync 1 2"]) as files:
        with files.open("/f", "xb") as file:
            file.write(b"new")
            raises(Injected, files.fsync, file)
            files.fsync(file)
        files.configure("failed_sync drops")
        files.restart()
        assert get(files, "/f") == b"new"


def test_syncs_that_lie():
    for profile in PROFILES:
        with Files(profile=profile, settings=[*LOSES, "syncs lie", "sync 1 1"]) as files:
            with files.open("/f", "xb") as file:
                file.write(b"F")
                files.fsync(file)
                files.fdatasync(file)
            files.fsync_directory("/")
            files.sync()
            refused(FileNotFoundError, errno.ENOENT, "NotFound", files.fsync_directory, "/d")
            files.restart()
            assert files.listdir() == [], profile
            put(files, "/f", b"old")
            put(files, "/g", b"g")
            files.settle()
            put(files, "/f", b"new")
            files.rename("/g", "/f")
            files.restart()
            assert (get(files, "/f"), get(files, "/g")) == (b"old", b"g"), profile
            files.configure("syncs honest")
            raises(Injected, files.sync)


def test_a_failed_write_of_a_prefix():
    with Files(words=[0, 0, 0, MAX], settings=["write 1 2 1 2 sectors 4", "failed_write prefix"]) as files:
        with files.open("/f", "x+b") as file:
            raises(Injected, file.write, b"abcd")
            assert file.seek(0) == 0 and file.read() == b"ab"
    # By the mode a sector is written whole.
    with Files(words=[0, 0], settings=["write 1 2 1 2 sectors 4", "failed_write mode"]) as files:
        with files.open("/f", "x+b") as file:
            raises(Injected, file.write, b"abcd")
            assert file.seek(0) == 0 and file.read() == b"abcd"


def test_a_failed_write_after_a_truncation():
    for setting in ("failed_write mode", "failed_write prefix"):
        with Files(words=[0], settings=[*KEEPS, setting]) as files:
            put(files, "/f", b"abcd")
            files.settle()
            files.configure("write 1 1 1 1 prefix")
            with files.open("/f", "r+b") as file:
                file.truncate(2)
                raises(Injected, file.write, b"xy")
                assert file.seek(0) == 0 and file.read() == b"ab", setting
                # The truncation is durable, and a write that fails writes a part again, here all.
                files.fsync(file)
                assert file.seek(0) == 0
                raises(Injected, file.write, b"xyz")
                assert file.seek(0) == 0 and file.read() == b"xyz", setting
            files.restart()
            assert get(files, "/f") == b"xyz", setting


def test_space_of_unlinked_files():
    with Files(settings=[*LOSES, "space 3 1"]) as files:
        put(files, "/f", b"123")
        files.settle()
        with files.open("/f") as file:
            files.unlink("/f")
            refused(OSError, errno.ENOSPC, "NoSpace", files.open, "/g", "xb")
            assert file.read() == b"123"
        put(files, "/g", b"456")
        refused(OSError, errno.ENOSPC, "NoSpace", put, files, "/g", b"7", "ab")
        # The unlink is lost, and so is the other file.
        files.restart()
        assert get(files, "/f") == b"123" and files.listdir() == ["f"]


def test_where_a_crash_kept_bytes():
    with Files(settings=KEEPS) as files:
        put(files, "/f", b"12")
        put(files, "/g", b"34", "ab")
        with files.open("/g", "r+b") as file:
            file.seek(7)
            file.write(b"5")
        f, g = files.stat("/f").inode, files.stat("/g").inode
        kept = files.crash()
        places = [(place, digits) for place, (_, digits) in zip(kept.places, kept.writes)]
        # A record of the journal has 34 bytes and its entry, 8 bytes of the directory's number and the name. On ext4 each of the writes
        # made its file longer, and has zeros before it.
        of_edits = [(place[1], len(digits)) for place, digits in places if place[0] is None]
        assert of_edits == [(0, 43), (43, 43)] and len(kept.places) == len(kept.writes) == 8
        of_writes = [((f, 0), "11"), ((f, 0), "11"), ((g, 0), "11"), ((g, 0), "11"), ((g, 2), "111111"), ((g, 7), "1")]
        assert [place for place in places if place[0][0]] == of_writes


def test_bad_switches():
    for setting in ("edits", "edits none", "failed_sync", "failed_sync lie", "failed_sync drops drops", "syncs drops", "failed_write", "failed_write sectors 4"):
        raises(BadLine, Files, settings=[setting])
        with Files(settings=["keep 1 1"]) as files:
            raises(BadLine, files.configure, setting)


if __name__ == "__main__":
    sys.exit(run_tests(globals(), sys.argv[1:]))
