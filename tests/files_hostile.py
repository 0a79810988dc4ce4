"""`Files` of the package for Python with hostile arguments: names, modes, offsets, settings, closed and stale files, and calls that are cut
short. The last line is `N passed, M failed`. With the name of a test only that one is run."""

import errno
import io
import os
import sys
import threading

TOP = os.path.dirname(os.path.dirname(os.path.abspath(__file__)))
sys.path.insert(0, os.path.join(TOP, "bindings", "python"))

from passing import raises, run_tests

from blobcrash import BadLine, Files, Interrupted, Library, NeedsSeed, NotMade, Program, WrongThread
from blobcrash.file_calls import Found, refusal_of
from files import KEEPS, get, put, refused


def test_hostile_names():
    with Files(settings=KEEPS) as files:
        put(files, "/f", b"F")
        files.mkdir("/d")
        invalid = OSError, errno.EINVAL, "InvalidName"
        too_long = OSError, errno.ENAMETOOLONG, "NameTooLong"
        all_invalid = [(bad, invalid) for bad in ("..", ".", "a\0b", b"\0")]
        on_path = (files.unlink, files.mkdir, files.rmdir, files.open, files.listdir, files.fsync_directory, files.stat, files.makedirs)
        for bad, kind in (*all_invalid, ("x" * 256, too_long), ("é" * 128, too_long)):
            above = (b"/" if isinstance(bad, bytes) else "/") + bad
            below = above + (b"/f" if isinstance(bad, bytes) else "/f")
            for path in (bad, above, below):
                for call in on_path:
                    refused(*kind, call, path)
                for call in (files.link, files.rename):
                    refused(*kind, call, "/f", path)
                    refused(*kind, call, path, "/g")
                refused(*kind, files.open, path, "xb")
                refused(*kind, files.open, path, "wb")
                assert not files.exists(path)
        for empty in ("", b""):
            for call in on_path:
                refused(FileNotFoundError, errno.ENOENT, "NotFound", call, empty)
            assert not files.exists(empty)
        for root in ("/", "//"):
            assert files.exists(root) and files.listdir(root) == ["d", "f"]
            files.fsync_directory(root)
        refused(*invalid, files.mkdir, "/d/../e")
        for bad in (None, 1, 1.5, ["f"], object()):
            for call in (files.open, files.mkdir, files.listdir, files.exists, files.stat, files.fsync_directory):
                raises(TypeError, call, bad)
            raises(TypeError, files.rename, "/f", bad)
        assert files.listdir() == ["d", "f"] and get(files, "/f") == b"F"
        deep = "/d" + "/e" * 300
        files.makedirs(deep)
        put(files, deep + "/f", b"deep")
        assert get(files, deep + "/f") == b"deep"


def test_hostile_modes_and_files():
    with Files(settings=KEEPS) as files, Files(settings=KEEPS) as others:
        put(files, "/f", b"F")
        put(others, "/f", b"F")
        for mode in ("", "b", "r", "w", "rw", "rwb", "rbb", "r++b", "rtb", "+b", "R", "rb ", "wxb"):
            raises(ValueError, files.open, "/f", mode)
        for mode in (None, 1, b"rb"):
            raises(TypeError, files.open, "/f", mode)
        file = files.open("/f", "br+")
        for call in (files.fsync, files.fdatasync):
            for bad in (None, 0, "/f", io.BytesIO(), others.open("/f")):
                raises(TypeError, call, bad)
        file.close()
        for call, *arguments in ((files.fsync, file), (file.read,), (file.write, b"x"), (file.tell,), (file.size,), (file.seek, 0), (file.truncate,)):
            raises(ValueError, call, *arguments)
        file = files.open("/f", "r+b")
        for bad in (None, "text", 1, object()):
            raises(TypeError, file.write, bad)
        for bad in (-1, 2**64):
            raises(ValueError, file.seek, bad)
            raises(ValueError, file.truncate, bad)
            raises(ValueError, files.truncate, "/f", bad)
        raises(ValueError, file.seek, 0, 3)
        raises(TypeError, file.truncate, 1.5)
        raises(TypeError, files.truncate, "/f", "1")


def test_hostile_offsets():
    with Files(settings=KEEPS) as files:
        file = files.open("/f", "w+b")
        for at in (2**31, 2**63 - 1, 2**63, 2**64 - 1):
            assert file.seek(at) == at and file.read(10) == b"" and file.read() == b""
        for at in (2**63 - 1, 2**63, 2**64 - 2, 2**64 - 1):
            file.seek(at)
            error = raises(OSError, file.write, b"xy")
            assert error.refusal in ("NoSpace", "OffsetOverflow", "Memory"), error
            error = raises(OSError, file.truncate, at)
            assert error.refusal in ("NoSpace", "OffsetOverflow", "Memory"), error
        assert file.size() == 0 and files.stat("/f").size == 0


def test_stale_and_closed():
    files = Files(settings=KEEPS)
    file = files.open("/f", "xb")
    file.write(b"F")
    other = files.open("/f")
    files.crash()
    for call, *arguments in ((other.read,), (file.write, b"x"), (files.fsync, file), (file.size,), (file.truncate,)):
        refused(OSError, errno.ESTALE, "Stale", call, *arguments)
    file.close()
    assert file.closed and get(files, "/f") == b"F"
    reader = files.open("/f")
    files.restart()
    assert reader.closed and raises(ValueError, reader.read)
    assert get(files, "/f") == b"F"
    error = []
    thread = threading.Thread(target=lambda: error.append(raises(WrongThread, files.mkdir, "/d")))
    thread.start()
    thread.join()
    assert len(error) == 1
    reader = files.open("/f")
    files.close()
    files.close()
    for call, *arguments in ((files.mkdir, "/d"), (files.listdir,), (files.crash,), (files.sync,), (files.settle,), (reader.read,)):
        raises(ValueError, call, *arguments)
    for call, argument in ((files.crash_after, 1), (files.configure, "clear"), (files.exists, "/f"), (files.recover, files.listdir)):
        raises(ValueError, call, argument)
    reader.close()


class Replies:
    """A layer that gives these replies to its calls, or raises them."""

    def __init__(self, *replies):
        self.replies = list(replies)

    def __call__(self, preamble):
        return self

    def apply(self, asked):
        reply = self.replies.pop(0)
        if isinstance(reply, BaseException):
            raise reply
        return reply

    def close(self):
        pass


def test_calls_that_are_cut_short():
    files = Files(by=Replies(KeyboardInterrupt("now")))
    raises(KeyboardInterrupt, files.mkdir, "/d")
    error = raises(Interrupted, files.mkdir, "/e")
    assert isinstance(error.__cause__, KeyboardInterrupt) and files.script == ["profile ext4", "mkdir /d"], files.script
    files.close()
    # No call was made, and the next one is.
    with Files(by=Replies(NotMade(), Found(0, 0, 0))) as files:
        raises(MemoryError, files.mkdir, "/d")
        files.mkdir("/d")
        assert files.script == ["profile ext4", "mkdir /d"]
    with Files(by=Replies(refusal_of(29), refusal_of(75), refusal_of(30), refusal_of(16), refusal_of(99))) as files:
        refused(OSError, errno.ENOMEM, "Memory", files.mkdir, "/d")
        refused(OSError, errno.EIO, "Crashed", files.mkdir, "/d")
        refused(OSError, errno.ENOSPC, "GenerationsExhausted", files.mkdir, "/d")
        refused(OSError, errno.EFBIG, "OffsetOverflow", files.mkdir, "/d")
        refused(OSError, errno.EIO, "Refusal99", files.mkdir, "/d")


def test_arguments_and_settings():
    for bad in ("ext3", "", "EXT4"):
        raises(ValueError, Files, profile=bad)
    raises(TypeError, Files, profile=None)
    raises(TypeError, Files, settings="keep 1 1")
    raises(ValueError, Files, by=Program)
    Files(by=Library).close()
    raises(ValueError, Files, 2**64)
    raises(TypeError, Files, "1")
    raises(ValueError, Files, words=[-1])
    keeps = ("keep", "keep 1", "keep 1 0", "keep 2 1", "keep 1 2 3", "keep a b", "keep 1 2\nkeep 1 1")
    for bad in ("", *keeps, "space 1", "space 1 x", "space -1 1", "nothing 1 2", "write 0 1 1 2", "profile xfs"):
        raises(BadLine, Files, 1, settings=[bad])
        with Files(1) as files:
            raises(BadLine, files.configure, bad)
            files.mkdir("/d")
    for setting in ("keep 1 2", "sync 1 2", "write 0 1 1 2 prefix"):
        raises(NeedsSeed, Files, settings=[setting])
        with Files() as files:
            raises(NeedsSeed, files.configure, setting)
    with Files() as files:
        files.mkdir("/d")
        raises(NeedsSeed, files.crash)
        raises(NeedsSeed, files.restart)
        files.configure("keep 1 1")
        files.restart()
        assert files.listdir() == ["d"]


if __name__ == "__main__":
    sys.exit(run_tests(globals(), sys.argv[1:]))
