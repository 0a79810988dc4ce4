"""
Tests of calls on the mount that few programs make: mount_extra.py PROGRAM. Extended attributes, copies within the file system, holes, modes of
fallocate, syncfs, O_TMPFILE, calls that are to fail, also by commands of LazyFS, and paths in the record. The last line is `N passed, M failed`.
"""

import ctypes
import functools
import mmap
import os
import subprocess
import sys
import tempfile

sys.dont_write_bytecode = True
from mount_calls import Mount, allocate, check, comes, get, libc, put, refusal, refused, run_tests, sync_folder  # noqa: E402

PROGRAM = sys.argv[1]
FOLDER = tempfile.TemporaryDirectory()  # removed at the end


def attributes_of(path):
    """Returns the extended attributes of a file."""
    return {name: os.getxattr(path, name) for name in os.listxattr(path)}


def test_attributes():
    """Extended attributes survive with their file, without a sync. Without the option there are none."""
    with Mount(PROGRAM, "--attributes", "--keep", "0/1") as mount:
        path = f"{mount.at}/f"
        put(path, b"bytes", sync=True)
        os.mkdir(f"{mount.at}/d")
        sync_folder(mount.at)
        os.setxattr(path, "user.one", b"1")
        os.setxattr(path, "user.two", bytes(range(256)))
        os.setxattr(f"{mount.at}/d", "user.of.d", b"")
        check("their values", attributes_of(path) == {"user.one": b"1", "user.two": bytes(range(256))}, attributes_of(path))
        check("one that is there", refusal(os.setxattr, path, "user.one", b"", os.XATTR_CREATE) == "EEXIST")
        check("one that isn't", [refusal(os.setxattr, path, "user.no", b"", os.XATTR_REPLACE), refusal(os.getxattr, path, "user.no"),
                                 refusal(os.removexattr, path, "user.no")] == ["ENODATA"] * 3)
        check("too many bytes", refusal(os.setxattr, path, "user.big", bytes(65400)) == "ENOSPC")
        os.setxattr(path, "user.one", b"another", os.XATTR_REPLACE)
        mount.ask("crash")
        check("after a crash", attributes_of(path) == {"user.one": b"another", "user.two": bytes(range(256))}, attributes_of(path))
        check("of a folder", attributes_of(f"{mount.at}/d") == {"user.of.d": b""})
        os.removexattr(path, "user.two")
        check("removed", attributes_of(path) == {"user.one": b"another"} and get(path) == b"bytes")
    with Mount(PROGRAM) as mount:
        put(f"{mount.at}/f", b"")
        check("without the option", refusal(os.setxattr, f"{mount.at}/f", "user.one", b"1") == "ENOTSUP")


def test_copies():
    """copy_file_range copies bytes as an unsynced write. A file ends where it ends."""
    with Mount(PROGRAM, "--keep", "0/1") as mount:
        data = bytes(number % 251 for number in range(3_000_000))
        put(f"{mount.at}/from", data[:1])
        with open(f"{mount.at}/from", "wb") as file:
            file.write(data)
        one, two = os.open(f"{mount.at}/from", os.O_RDONLY), os.open(f"{mount.at}/to", os.O_RDWR | os.O_CREAT)
        done = 0
        while (count := os.copy_file_range(one, two, 4_000_000, 1_000 + done, 5 + done)) > 0:
            done += count
        check("the bytes", done == 2_999_000 and get(f"{mount.at}/to") == bytes(5) + data[1_000:], done)
        mount.ask("settle")
        os.copy_file_range(one, two, 10, 0, 0)
        check("before a crash", get(f"{mount.at}/to")[:10] == data[:10])
        mount.ask("crash")
        check("it was unsynced", get(f"{mount.at}/to")[:10] == bytes(5) + data[1_000:1_005])
        os.close(one)
        os.close(two)


def test_holes():
    """A hole counts as bytes: all of a file is data. fallocate has the modes that the kernel passes to FUSE."""
    with Mount(PROGRAM) as mount:
        path = f"{mount.at}/f"
        put(path, b"x", at=100_000)
        file = os.open(path, os.O_RDWR)
        check("data", [refusal(os.lseek, file, 5, os.SEEK_DATA), refusal(os.lseek, file, 5, os.SEEK_HOLE)] == [5, 100_001])
        check("after the end", refusal(os.lseek, file, 100_001, os.SEEK_DATA) == "ENXIO")
        os.close(file)
        found = [refusal(allocate, path, mode, 4096, 8192) for mode in (0, 1, 3, 16, 17, 8, 32)]
        check("modes", found == [100_001] * 5 + ["EOPNOTSUPP"] * 2 or found == [100_001] * 5 + ["ENOTSUP"] * 2, found)
        found = [refusal(allocate, path, mode, 100_000, 50_000) for mode in (1, 17, 16, 0)]
        check("beyond the end", found == [100_001, 100_001, 150_000, 150_000], found)


def test_syncs():
    """syncfs doesn't reach the mount, so it makes nothing durable; the kernel writes mapped pages to the mount, unsynced."""
    with Mount(PROGRAM, "--keep", "0/1") as mount:
        with open(f"{mount.at}/f", "w+b") as file:
            file.truncate(4096)
            os.fsync(file.fileno())
            sync_folder(mount.at)
            with mmap.mmap(file.fileno(), 4096) as mapped:
                mapped[0:4] = b"page"
                before = mount.control.status()["unsynced"]
                check("syncfs", libc.syncfs(file.fileno()) == 0, ctypes.get_errno())
                # The kernel doesn't wait for the answer to this write.
                comes(lambda: mount.control.status()["unsynced"] != before)
                after = mount.control.status()["unsynced"]
                check("a mapped page was written", (before, after) == ("0", "4096"), (before, after))
                mount.ask("crash")
        check("and isn't durable", get(f"{mount.at}/f") == bytes(4096))


def test_failing():
    """The n-th open, write or sync of a path fails, once, and changes nothing. The record says which."""
    record = f"{FOLDER.name}/record"
    with Mount(PROGRAM, "--record", record, "--keep", "0/1") as mount:
        at = mount.at
        os.mkdir(f"{at}/a d")
        for line in ("fail /a d/f write 2 ENOSPC", "fail /a d/f sync 1 EIO", "fail /a d/f open 3 EMFILE", "fail /a d sync 1 EIO", "fail / sync 2 EROFS"):
            check(line, refused(mount, line) == "")
        file = os.open(f"{at}/a d/f", os.O_RDWR | os.O_CREAT)
        found = [refusal(os.pwrite, file, letter, 0) for letter in (b"1", b"2", b"3")]
        check("writes", found == [1, "ENOSPC", 1] and get(f"{at}/a d/f") == b"3", found)
        check("syncs", [refusal(os.fsync, file) for _ in range(2)] == ["EIO", None])
        check("opens", [refusal(os.open, f"{at}/a d/f", os.O_RDONLY)] == ["EMFILE"])  # after the create and an open of `get`
        check("folders", [refusal(sync_folder, f"{at}/{name}") for name in ("", "a d", "", "a d")] == [None, "EIO", "EROFS", None])
        os.close(file)
        mount.ask("fail /new open 1 EACCES")
        check("a create", refusal(put, f"{at}/new", b"") == "EACCES" and not os.path.exists(f"{at}/new"))
        bad = ["fail", "fail x write 1 EIO", "fail /x write 0 EIO", "fail /x read 1 EIO", "fail /x write 1 ENONE", "fail write 1 EIO",
               "fail /x write 1 EIO 2"]
        found = {refused(mount, line) for line in bad}
        check("bad ones", found == {"no such command", "Invalid argument"}, found)
        check("too many", [refused(mount, f"fail /x{number} open 1 EIO") for number in range(33)][32] == "No buffer space available")
        check("taken back", mount.ask("fail none") == "never due " + " ".join(map(str, range(7, 39))))
        check("nothing is left", mount.ask("fail none") == "")
        check("not any more", refusal(put, f"{at}/x5", b"") is None)
        mount.ask("fail /x5 write 2 off")
        writes = subprocess.Popen([sys.executable, "-c", "import os, sys\nfile = os.open(sys.argv[1], os.O_WRONLY)\n"
                                   "for _ in range(9): os.write(file, b'x')", f"{at}/x5"])
        check("the power goes off", comes(mount.control.is_off))
        writes.kill()
        writes.wait(60)
        mount.ask("on")
        check("after the second write", get(f"{at}/x5")[:2] == b"xx", get(f"{at}/x5"))
        mount.ask("record stop")
    with open(record, encoding="ascii") as file:
        lines = file.read().splitlines()
    failed = [line for line in lines if line.startswith("# failed")]
    wanted = ["write of /a\\x20d/f: ENOSPC", "sync of /a\\x20d/f: EIO", "open of /a\\x20d/f: EMFILE", "sync of /a\\x20d: EIO", "sync of /: EROFS",
              "open of /new: EACCES", "write of /x5: off"]
    check("the record", failed == [f"# failed {line}" for line in wanted], failed)
    check("paths of descriptors", "# descriptor 0 is /a\\x20d/f" in lines, [line for line in lines if "descriptor" in line])


def test_failing_and_a_long_name():
    """A longer name than a file can have is refused below a long path too, while a call is to fail."""
    with Mount(PROGRAM) as mount:
        mount.ask("fail /x open 1 EIO")
        folder = os.open(mount.at, os.O_RDONLY)
        for _ in range(15):
            os.mkdir("d" * 250, dir_fd=folder)
            below = os.open("d" * 250, os.O_RDONLY, dir_fd=folder)
            os.close(folder)
            folder = below
        found = refusal(functools.partial(os.open, dir_fd=folder), "n" * 1000, os.O_CREAT | os.O_WRONLY)
        os.close(folder)
        check("a long name", found == "ENAMETOOLONG" and "power on" in mount.ask("status"), found)


def lazy_mount(folder, *options):
    return Mount(PROGRAM, "--keep", "0/1", "--fifo", f"{folder}/fifo", "--log", f"{folder}/log", *options)


def lazy(folder, *commands):
    """Sends commands of LazyFS, and returns what the log says of each."""
    with open(f"{folder}/log", "ab+") as log, open(f"{folder}/fifo", "wb", buffering=0) as fifo:
        before = log.seek(0, os.SEEK_END)
        fifo.write(b"".join(b"lazyfs::" + command.encode() + b"\n" for command in commands))

        def said():
            log.seek(before)
            return log.read().decode().splitlines()

        comes(lambda: len(said()) == len(commands))
        return [line.rpartition(": ")[2] for line in said()]


def test_lazy_crash():
    """The power goes off before or after a call that a command of LazyFS names by a pattern."""
    with tempfile.TemporaryDirectory() as folder, lazy_mount(folder) as mount:
        path = f"{mount.at}/db.wal"
        put(path, b"old", sync=True)
        sync_folder(mount.at)
        bad = ["timing=after::op=write", "timing=now::op=write::from_rgx=x", "timing=after::op=unlink::from_rgx=x", "timing=after::op=write::from_rgx=(",
               "op=write::from_rgx=x", "timing=after::op=write::from_rgx="]
        found = lazy(folder, *(f"crash::{fields}" for fields in bad))
        check("bad ones", found == ["Invalid argument"] * len(bad), found)
        check("before a sync", lazy(folder, "crash::timing=before::op=fsync::from_rgx=/db\\.[a-z]+$") == ["ok"])
        put(f"{mount.at}/other", b"", sync=True)
        file = os.open(path, os.O_WRONLY)
        os.pwrite(file, b"new", 0)
        check("the sync fails", refusal(os.fsync, file) == "EIO" and mount.control.is_off())
        mount.ask("crash")
        os.close(file)
        check("it wasn't made", get(path) == b"old", get(path))
        lazy(folder, "crash::timing=after::op=fsync::from_rgx=wal")
        file = os.open(path, os.O_WRONLY)
        os.pwrite(file, b"new", 0)
        check("a sync", refusal(os.fsync, file) is None and mount.control.is_off())
        mount.ask("crash")
        os.close(file)
        check("it was made", get(path) == b"new", get(path))


def test_lazy_torn():
    """Of a write that a command of LazyFS tears a crash keeps the parts that it names, whatever the settings are, and of later ones none."""
    record = f"{FOLDER.name}/torn"
    with tempfile.TemporaryDirectory() as folder, lazy_mount(folder, "--profile", "posix", "--record", record) as mount:
        path = f"{mount.at}/f"
        put(path, b"........", sync=True)
        sync_folder(mount.at)
        bad = ["file=/f::persist=1", "file=f::parts=2::persist=1", "file=/f::parts=2::persist=3", "file=/f::parts=2::persist=0", "parts=2::persist=1",
               "file=/f::parts=33::persist=1", "file=/f::parts=2::persist=1,", "file=/f::parts=2::persist=1::occurrence=0", "file=/f::parts_bytes=[1,x]::persist=1"]
        found = lazy(folder, *(f"torn-op::{fields}" for fields in bad))
        check("bad ones", found == ["Invalid argument"] * len(bad), found)
        for fields, left in (("parts=3::persist=1,3::occurrence=2", b"ab..efgh"), ("parts_bytes=[1,4,2]::persist=[2, 3]", b".bcdefg.")):
            lazy(folder, "cache-checkpoint", f"torn-op::file=/f::{fields}")
            file = os.open(path, os.O_WRONLY)
            if "occurrence" in fields:
                os.pwrite(file, b"XXXXXXXX", 0)
            check("the write fails", refusal(os.pwrite, file, b"abcdefgh", 0) == "EIO" and mount.control.is_off())
            mount.ask("crash")
            os.close(file)
            check(fields, get(path) == left, get(path))
            put(path, b"........", sync=True)
        put(path, b"later")
        mount.ask("crash")
        check("settings are as before", get(path) in (b"........", b""), get(path))
        mount.ask("record stop")
    with open(record, encoding="ascii") as file:
        lines = file.read().splitlines()
    check("the record", [line for line in lines if line.startswith("# failed")] == ["# failed write of /f: torn"] * 2)


def test_temporary_files():
    """There is no O_TMPFILE: libfuse doesn't pass it on."""
    with Mount(PROGRAM) as mount:
        check("O_TMPFILE", refusal(os.open, mount.at, os.O_TMPFILE | os.O_RDWR) == "ENOTSUP")


def test_descriptors():
    """Each open of the record has a comment with its path, after a crash too."""
    record = f"{FOLDER.name}/paths"
    with Mount(PROGRAM, "--record", record) as mount:
        put(f"{mount.at}/f", b"")
        os.rename(f"{mount.at}/f", f"{mount.at}/\udcff#")
        mount.ask("settle")
        mount.ask("crash")
        put(f"{mount.at}/\udcff#", b"x")
        mount.ask("record stop")
    with open(record, encoding="ascii") as file:
        found = [line.rstrip() for line in file if line.startswith(("# descriptor", "create", "open", "crash"))]
    opens = [line.split()[0] if line[0] != "#" else line.split(" is ")[1] for line in found]
    check("in order", opens == ["create_at", "/f", "crash", "open_inode", "/\\xff\\x23"], found)


if __name__ == "__main__":
    run_tests([test_attributes, test_copies, test_holes, test_syncs, test_failing, test_failing_and_a_long_name, test_lazy_crash, test_lazy_torn,
               test_temporary_files, test_descriptors])
