"""The calls of programs, as system calls on a folder of a real file system."""

import ctypes
import fcntl
import mmap
import os
import struct
import time
from types import SimpleNamespace

from disks import call, libc

# sync_file_range: wait, write, wait.
WRITE_AND_WAIT = 7
# The clock of the times of files. A tick of it is some milliseconds.
CLOCK_REALTIME_COARSE = 5
AT_FDCWD, RENAME_EXCHANGE = -100, 2
BTRFS_IOC_START_SYNC, BTRFS_IOC_WAIT_SYNC = 0x80089418, 0x40089416


def wait_for_tick():
    """Waits for the next tick of the clock: an overwrite in the tick of a file's last change leaves its times as they are."""
    now = time.time_ns()
    while time.clock_gettime_ns(CLOCK_REALTIME_COARSE) <= now:
        time.sleep(0.0002)


class Descriptor:
    """An open file. Python's own reads the file's times when it opens it. Linux 6.13 and later then give the next change a time of its
    own."""

    FLAGS = {
        "rb": os.O_RDONLY,
        "r+b": os.O_RDWR,
        "ab": os.O_WRONLY | os.O_APPEND,
        "wb": os.O_WRONLY | os.O_TRUNC,
        "xb": os.O_WRONLY | os.O_CREAT | os.O_EXCL,
    }

    def __init__(self, path, mode):
        self.number = os.open(path, self.FLAGS[mode], 0o644)

    def __enter__(self):
        return self

    def __exit__(self, *_):
        os.close(self.number)

    def write(self, data):
        assert os.write(self.number, data) == len(data)

    def seek(self, offset):
        os.lseek(self.number, offset, os.SEEK_SET)

    def truncate(self, size):
        os.ftruncate(self.number, size)

    def allocate(self, size):
        """Allocates the bytes up to a size, and extends the file to it if it is shorter."""
        call("fallocate", self.number, 0, ctypes.c_int64(0), ctypes.c_int64(size))

    def map_and_write(self, offset, data):
        """Writes through a map of the whole file, and makes the map durable."""
        with mmap.mmap(self.number, os.lseek(self.number, 0, os.SEEK_END)) as mapped:
            mapped[offset : offset + len(data)] = data
            mapped.flush()

    def write_back(self, start, end):
        """Writes bytes to the disk, as background writeback may do at any time, and waits for it."""
        call("sync_file_range", self.number, ctypes.c_int64(start), ctypes.c_int64(end - start), WRITE_AND_WAIT)


class Folder:
    """The calls on the files of a folder."""

    def __init__(self, top):
        self.top = top

    def path(self, path):
        """The path of one from the root of the program."""
        return f"{self.top}/{path}"

    def open(self, path, mode):
        return Descriptor(self.path(path), mode)

    def stat(self, path):
        try:
            os.close(os.open(self.path(path), os.O_RDONLY | os.O_DIRECTORY))
        except NotADirectoryError:
            return SimpleNamespace(kind="file")
        return SimpleNamespace(kind="directory")

    def fsync(self, file):
        os.fsync(file.number)

    def fdatasync(self, file):
        os.fdatasync(file.number)

    def fsync_directory(self, path):
        with self.open(path, "rb") as directory:
            os.fsync(directory.number)

    def mkdir(self, path):
        os.mkdir(self.path(path))

    def rmdir(self, path):
        os.rmdir(self.path(path))

    def rename(self, old, new):
        os.rename(self.path(old), self.path(new))

    def exchange(self, one, other):
        paths = [os.fsencode(self.path(path)) for path in (one, other)]
        call("renameat2", AT_FDCWD, paths[0], AT_FDCWD, paths[1], RENAME_EXCHANGE)

    def link(self, old, new):
        os.link(self.path(old), self.path(new))

    def unlink(self, path):
        os.unlink(self.path(path))

    def sync(self):
        """Makes all of this file system durable."""
        with self.open("", "rb") as directory:
            call("syncfs", directory.number)


class Background:
    """What the kernel may do by itself at any time, on this file system alone."""

    def __init__(self, type, top):
        self.type, self.top, self.made = type, top, 0

    def commit(self):
        """Commits the file system's changes. Of ext4 and XFS a sync of a new file does so, of btrfs there is a call."""
        if self.type != "btrfs":
            return self.sync()
        number = os.open(self.top, os.O_RDONLY | os.O_DIRECTORY)
        try:
            started = fcntl.ioctl(number, BTRFS_IOC_START_SYNC, struct.pack("=Q", 0))
            return fcntl.ioctl(number, BTRFS_IOC_WAIT_SYNC, started)
        finally:
            os.close(number)

    def sync(self):
        """Syncs a new file."""
        self.made += 1
        with Descriptor(os.path.join(self.top, "outside", str(self.made)), "xb") as file:
            os.fsync(file.number)
