"""`Files` of the package for Python: every public call, refusals, faults and power losses. The last line is `N passed, M failed`. With the
name of a test only that one is run."""

import errno
import io
import os
import pickle
import sys

TOP = os.path.dirname(os.path.dirname(os.path.abspath(__file__)))
sys.path.insert(0, os.path.join(TOP, "bindings", "python"))

from passing import raises, run_tests

from blobcrash import Files, Injected, OpenFile, PowerLoss

# Of unsynced bytes and unsettled edits a crash keeps all, or none.
KEEPS, LOSES = ["write 0 1 1 1 prefix", "keep 1 1"], ["write 0 1 0 1 prefix", "keep 0 1"]
HALF = ["write 0 1 1 2 sectors 4"]
PROFILES = ("ext4", "xfs", "btrfs", "posix")


def refused(kind, number, name, call, *arguments, **named):
    """Checks that a call is refused: by the class of the error, its errno, and the name of its refusal."""
    error = raises(OSError, call, *arguments, **named)
    assert type(error) is kind and error.errno == number and error.refusal == name, (type(error), error.errno, error.refusal)
    assert name in str(error), error
    return error


def put(files, path, data, mode="wb"):
    with files.open(path, mode) as file:
        file.write(data)


def get(files, path):
    with files.open(path, "rb") as file:
        return file.read()


def test_reads_and_writes():
    with Files(settings=KEEPS) as files:
        with files.open("/f", "xb") as file:
            assert isinstance(file, OpenFile) and isinstance(file, io.RawIOBase) and (file.name, file.mode) == ("/f", "xb")
            assert file.writable() and not file.readable() and file.seekable()
            assert file.write(b"hello world") == 11 and file.tell() == 11
            assert file.write(memoryview(b"!")) == 1 and file.write(b"") == 0 and file.size() == 12
            raises(io.UnsupportedOperation, file.read, 1)
            raises(io.UnsupportedOperation, file.fileno)
        with files.open("/f", "r+b") as file:
            assert (file.read(5), file.tell(), file.read()) == (b"hello", 5, b" world!")
            assert file.read(1) == b"" and file.seek(-6, os.SEEK_END) == 6 and file.seek(1, os.SEEK_CUR) == 7
            assert file.write(b"O") == 1 and file.seek(0) == 0 and file.read() == b"hello wOrld!"
            assert file.seek(20) == 20 and file.read(3) == b"" and file.write(b"z") == 1 and file.size() == 21
            assert file.truncate(3) == 3 and file.tell() == 21 and file.seek(2) == 2 and file.truncate() == 2
            assert file.truncate(4) == 4 and file.size() == 4
        assert get(files, "/f") == b"he\0\0"
        with files.open("/f", "a+b") as file:
            assert file.write(b"ab") == 2 and file.tell() == 6 and file.seek(0) == 0
            assert file.read(2) == b"he" and file.write(b"cd") == 2 and file.tell() == 8
        put(files, "/f", b"new")
        assert get(files, b"/f") == b"new"
        put(files, "/g", b"1", "ab")
        put(files, "/g", b"2", "ab")
        assert get(files, "//g") == b"12"
        with files.open("/g", "w+b") as file:
            assert file.read() == b"" and file.write(b"3") == 1 and file.seek(0) == 0
            buffer = bytearray(b"....")
            assert file.readinto(buffer) == 1 and buffer == b"3..." and file.readinto(bytearray()) == 0
        files.truncate("/g", 3)
        assert get(files, "/g") == b"3\0\0" and files.stat("/g").size == 3
        with files.open("/g") as file:
            raises(io.UnsupportedOperation, file.write, b"x")
            raises(io.UnsupportedOperation, file.truncate, 0)
        large = os.urandom(200_000)
        put(files, "/large", large)
        assert get(files, "/large") == large


def test_names():
    with Files(settings=KEEPS) as files:
        files.mkdir("/d")
        files.makedirs("/a/b/c")
        files.makedirs("/a/b/c", exist_ok=True)
        files.makedirs("d", exist_ok=True)
        refused(FileExistsError, errno.EEXIST, "Exists", files.makedirs, "/a/b/c")
        assert files.listdir() == ["a", "d"] == files.listdir("/") and files.listdir(b"/") == [b"a", b"d"]
        put(files, "/d/f", b"F")
        files.link("/d/f", "/a/g")
        status, other = files.stat("/d/f"), files.stat("/a/g")
        assert status == other == (1, "file", status.inode) and status.kind == "file"
        assert files.stat("/").kind == "directory" == files.stat("/d").kind and files.stat("/d").size == 0
        assert files.exists("/d/f") and files.exists("/") and files.exists("d") and not files.exists("/x") and not files.exists("/d/f/x")
        files.unlink("/d/f")
        assert not files.exists("/d/f") and get(files, "/a/g") == b"F" and files.listdir("/d") == []
        files.rename("/a/g", "/d/h")
        put(files, "/i", b"I")
        refused(FileExistsError, errno.EEXIST, "Exists", files.rename, "/i", "/d/h", replaces=False)
        files.exchange("/i", "/d/h")
        assert (get(files, "/i"), get(files, "/d/h")) == (b"F", b"I")
        files.replace("/i", "/d/h")
        assert get(files, "/d/h") == b"F" and files.listdir() == ["a", "d"]
        files.rename("/d", "/a/b/d")
        files.remove("/a/b/d/h")
        files.rmdir("/a/b/d")
        files.rename("/a/b/c", "/a/b/e")
        assert files.listdir("/a/b") == ["e"] and files.listdir("a") == ["b"]
        for name in ("é", "\udcff", " ", "\n", "\\", "a b", "x" * 255):
            put(files, "/" + name, b"n")
        assert files.listdir() == ["\n", " ", "\\", "a", "a b", "x" * 255, "é", "\udcff"]
        assert not any("\n" in line for line in files.script)


def test_an_open_file_outlives_its_name():
    with Files(settings=KEEPS) as files:
        file = files.open("/f", "w+b")
        file.write(b"F")
        files.unlink("/f")
        put(files, "/f", b"other")
        assert file.seek(0) == 0 and file.read() == b"F"
        file.close()
        file.close()
        assert file.closed and get(files, "/f") == b"other"


def test_syncs():
    for profile in PROFILES:
        with Files(profile=profile, settings=LOSES) as files:
            with files.open("/f", "xb") as file:
                file.write(b"F")
                files.fsync(file)
            files.fsync_directory("/")
            with files.open("/f", "ab") as file:
                file.write(b"G")
                files.fdatasync(file)
                file.write(b"lost")
            put(files, "/g", b"lost")
            kept = files.restart()
            assert files.listdir() == ["f"] and get(files, "/f") == b"FG", profile
            assert all("1" not in digits for _, digits in kept.writes) and kept.edits == [False]
            put(files, "/g", b"G")
            files.sync()
            files.restart()
            assert get(files, "/g") == b"G"
            files.mkdir("/h")
            files.settle()
            assert files.restart().edits == [] and files.listdir() == ["f", "g", "h"]


def test_a_commit():
    for profile in PROFILES:
        with Files(profile=profile, settings=LOSES) as files:
            files.mkdir("/d")
            put(files, "/f", b"lost")
            files.commit()
            files.mkdir("/e")
            assert get(files, "/f") == b"lost"
            kept = files.restart()
            assert kept.edits == [False] and files.listdir() == ["d", "f"] and get(files, "/f") == b"", profile


def test_what_a_crash_kept():
    with Files(settings=KEEPS) as files:
        put(files, "/f", b"FFFF")
        files.mkdir("/d")
        kept = files.crash()
        assert kept.edits == [True, True] and "1111" in [digits for _, digits in kept.writes], kept
        assert "# of the unsettled edits it keeps 11" in files.script and files.listdir() == ["d", "f"]
    # Words decide: of each draw, 0 keeps and the greatest word loses.
    with Files(words=[2**64 - 1], settings=["write 0 1 1 1 prefix"]) as files:
        files.mkdir("/d")
        assert files.crash().edits == [False] and files.listdir() == []
    assert [Files(5, settings=HALF).crash() for _ in range(2)] == [([], [], [])] * 2


def test_seeds_decide():
    def run(seed):
        with Files(seed, profile="posix", settings=HALF) as files:
            for name in "abcdefgh":
                put(files, name, b"12345678")
            return files.restart(), files.listdir(), [get(files, name) for name in files.listdir()]

    assert run(1) == run(1) and len({str(run(seed)) for seed in range(5)}) == 5


def test_refusals():
    with Files(settings=KEEPS) as files:
        files.makedirs("/d/e")
        put(files, "/f", b"F")
        put(files, "/d/g", b"G")
        exists = FileExistsError, errno.EEXIST, "Exists"
        missing = FileNotFoundError, errno.ENOENT, "NotFound"
        for call, arguments in ((files.open, ("/f", "xb")), (files.mkdir, ("/d",)), (files.mkdir, ("/f",)), (files.link, ("/f", "/d/g"))):
            refused(*exists, call, *arguments)
        for call in (files.open, files.unlink, files.rmdir, files.listdir, files.fsync_directory, files.stat):
            refused(*missing, call, "/x")
            refused(*missing, call, "/x/y")
        for call in (files.rename, files.link, files.exchange):
            refused(*missing, call, "/x", "/f")
        for call in (files.exchange, files.rename):
            refused(*missing, call, "/f", "/x/y")
        error = refused(*missing, files.exchange, "/f", b"/x")
        assert (error.filename, error.filename2) == ("/f", b"/x")
        refused(*missing, files.truncate, "/x", 0)
        refused(*missing, files.open, "/x", "r+b")
        refused(*missing, files.open, "/x/y", "wb")
        refused(OSError, errno.ENOTEMPTY, "NotEmpty", files.rmdir, "/d")
        files.mkdir("/k")
        refused(OSError, errno.ENOTEMPTY, "NotEmpty", files.rename, "/k", "/d")
        is_directory = IsADirectoryError, errno.EISDIR, "IsDirectory"
        for call, *arguments in ((files.open, "/d"), (files.open, "/d", "wb"), (files.unlink, "/d")):
            refused(*is_directory, call, *arguments)
        refused(PermissionError, errno.EPERM, "IsDirectory", files.link, "/d", "/l")
        refused(*is_directory, files.rename, "/f", "/k")
        not_directory = NotADirectoryError, errno.ENOTDIR, "NotDirectory"
        for call, *arguments in ((files.rmdir, "/f"), (files.listdir, "/f"), (files.fsync_directory, "/f"), (files.open, "/f/x", "wb")):
            refused(*not_directory, call, *arguments)
        refused(*not_directory, files.rename, "/d", "/f")
        refused(OSError, errno.EINVAL, "Loop", files.rename, "/d", "/d/e/h")
        refused(OSError, errno.EINVAL, "Loop", files.rename, "/d", "/d/h")
        refused(OSError, errno.EINVAL, "Loop", files.exchange, "/d", "/d/e")
        refused(OSError, errno.EINVAL, "Loop", files.exchange, "/d/e", "/d")
        assert files.listdir("/d") == ["e", "g"]


def test_limits():
    with Files(settings=[*KEEPS, "space 10 3"]) as files:
        put(files, "/f", b"0123456789")
        with files.open("/f", "ab") as file:
            refused(OSError, errno.ENOSPC, "NoSpace", file.write, b"x")
            refused(OSError, errno.ENOSPC, "NoSpace", file.truncate, 11)
        files.truncate("/f", 1)
        files.mkdir("/d")
        put(files, "/g", b"123456789")
        refused(OSError, errno.ENOSPC, "NoSpace", files.mkdir, "/e")
        refused(OSError, errno.ENOSPC, "NoSpace", files.open, "/e", "xb")
        files.configure("space 1000000 100")
        files.mkdir("/e")


def test_injected_faults():
    with Files(words=[0] * 20, settings=["sync 1 2", "keep 1 1"]) as files:
        with files.open("/f", "xb") as file:
            file.write(b"F")
            error = raises(Injected, files.fsync, file)
            assert isinstance(error, OSError) and (error.errno, error.refusal) == (errno.EIO, "Injected")
            error = raises(OSError, files.fdatasync, file)
        raises(Injected, files.sync)
        files.settle()
        assert get(files, "/f") == b"F"
        files.configure("clear")
        files.sync()
        files.configure("open 1 2")
        raises(Injected, files.open, "/g", "xb")
        assert files.listdir() == ["f"]
        for setting, call, *arguments in (
            ("write 1 2 1 1 prefix", put, files, "/f", b"G", "r+b"),
            ("read 1 2", get, files, "/f"),
            ("resize 1 2 0 1", files.truncate, "/f", 0),
        ):
            files.configure("clear")
            files.configure(setting)
            raises(Injected, call, *arguments)


def test_the_lines_of_a_script():
    with Files(7, profile="xfs", settings=["write 0 1 1 1 sectors 4", "keep 1 1"]) as files:
        put(files, "/f", b"AB", "xb")
        files.note("a note")
        raises(OSError, files.mkdir, "/f")
        files.rename("/f", "/a b")
        files.exchange("/a b", b"/a b")
        files.restart()
        lines = files.script
    assert lines[:4] == ["seed 7", "profile xfs", "config write 0 1 1 1 sectors 4", "keep 1 1"], lines
    assert lines[4:9] == ["create /f # is 0", "write 0 0 4142", "close 0", "# a note", "mkdir /f # is Exists"], lines
    assert lines[9:12] == ["rename /f /a\\x20b", "rename /a\\x20b /a\\x20b exchange", "crash"], lines
    assert "# of the unsettled edits it keeps 11" in lines[12:], lines
    assert any(line.endswith("keeps bytes 0 to 1 of 2") for line in lines[12:]) and not any(" of 4" in line for line in lines), lines


def test_power_losses():
    with Files(settings=KEEPS) as files:
        files.crash_after(2)
        file = files.open("/f", "xb")
        assert files.exists("/f") and file.size() == 0
        file.write(b"1")
        assert raises(PowerLoss, file.write, b"2").is_first
        for call, *arguments in ((files.mkdir, "/d"), (files.listdir,), (files.exists, "/f"), (files.settle,), (files.commit,), (files.open, "/f")):
            assert not raises(PowerLoss, call, *arguments).is_first
        raises(ValueError, files.crash_after, 1)
        files.configure("keep 1 1")
        file.close()
        files.restart()
        assert get(files, "/f") == b"1" and files.script.count("# power loss") == 1

        def recover(count):
            files.mkdir(f"/d{len(files.listdir())}")
            return count

        files.crash_after(0)
        assert files.recover(recover, 7) == 7 and files.listdir() == ["d1", "f"]
        # A file that is closed while the power is off hides nothing.
        files.crash_after(0)
        error = raises(PowerLoss, put, files, "/f", b"2")
        assert error.is_first
        files.restart()
        files.crash_after(1)
        error = raises(PowerLoss, put, files, "/f", b"2", "r+b")
        assert error.is_first and error.__context__ is None


def test_a_close_is_no_change():
    # It makes nothing durable, also if an open has truncated the file.
    with Files(profile="ext4", settings=["write 0 1 0 1 prefix", "keep 1 1"]) as files:
        put(files, "/f", b"old")
        files.settle()
        files.crash_after(1)
        assert raises(PowerLoss, put, files, "/f", b"new").is_first
        files.restart()
        # The open and the write are two changes, and the folder is the third.
        files.crash_after(3)
        put(files, "/f", b"new")
        files.mkdir("/d")
        assert raises(PowerLoss, files.mkdir, "/e").is_first
        files.restart()
        # The edits are kept, and the write is lost.
        assert get(files, "/f") == b"" and files.listdir() == ["d", "f"]


def test_errors_are_pickled():
    with Files(settings=KEEPS) as files:
        for error in (raises(OSError, files.rename, "/x", "/y"), raises(OSError, files.open, "/x")):
            copy = pickle.loads(pickle.dumps(error))
            assert type(copy) is FileNotFoundError and copy.refusal == "NotFound"
            assert (copy.filename, copy.filename2) == (error.filename, error.filename2)
            assert str(copy) == str(error)


if __name__ == "__main__":
    sys.exit(run_tests(globals(), sys.argv[1:]))
