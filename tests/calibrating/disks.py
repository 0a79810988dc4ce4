"""Images of file systems in a mount namespace of this process: made once, copied, attached to loop devices and mounted."""

import contextlib
import ctypes
import errno
import fcntl
import os
import shutil
import signal
import struct
import subprocess
import sys
import time
from typing import NamedTuple

BLOCK = 4096
PR_SET_PDEATHSIG, CLONE_NEWNS = 1, 0x20000
MS_RDONLY, MS_PRIVATE_ALL, MNT_DETACH = 1, 0x44000, 2
LOOP_CTL_GET_FREE, LOOP_CONFIGURE, LO_FLAGS_AUTOCLEAR = 0x4C82, 0x4C0A, 4
libc = ctypes.CDLL(None, use_errno=True)


class Kind(NamedTuple):
    """A file system: its type, its profile, the size of its image in MB, how it is made and checked, its options, and how many bytes the
    disk keeps or loses together, so that no crash tears the superblock, which has a checksum."""

    type: str
    profile: str
    size: int
    make: tuple
    check: tuple
    options: str = ""
    whole: int = 512


EXT4 = ("mkfs.ext4", "-q", "-F", "-b", str(BLOCK), "-J", "size=4", "-E", "lazy_itable_init=0,lazy_journal_init=0")
EXT4_CHECK = ("e2fsck", "-f", "-n")
KINDS = {
    "ext4": Kind("ext4", "ext4", 64, EXT4, EXT4_CHECK, "commit=60", 1024),
    "ext4-nodelalloc": Kind("ext4", "ext4", 64, EXT4, EXT4_CHECK, "commit=60,nodelalloc", 1024),
    "xfs": Kind("xfs", "xfs", 300, ("mkfs.xfs", "-q", "-f"), ("xfs_repair", "-n")),
    "btrfs": Kind("btrfs", "btrfs", 128, ("mkfs.btrfs", "-q", "-f"), ("btrfs", "check", "--readonly"), "commit=60", BLOCK),
}


class Refused(Exception):
    """What doesn't work here, in a line."""


def command(*words):
    """Runs a command, which must succeed. If it fails, the line is the first that it printed."""
    if shutil.which(words[0]) is None:
        raise Refused(f"there is no {words[0]} (Debian: e2fsprogs, xfsprogs, btrfs-progs)")
    done = subprocess.run(words, stdin=subprocess.DEVNULL, stdout=subprocess.PIPE, stderr=subprocess.STDOUT, text=True)
    if done.returncode:
        raise Refused(done.stdout.strip().split("\n")[0] or f"{words[0]}: status {done.returncode}")


def call(name, *arguments):
    """Calls a function of the C library that returns 0 or fails."""
    if getattr(libc, name)(*arguments):
        raise OSError(ctypes.get_errno(), f"{name}: {os.strerror(ctypes.get_errno())}")


def mount(source, at, kind=None, flags=0, options=""):
    names = [name and os.fsencode(name) for name in (source, at, kind)]
    call("mount", *names, ctypes.c_ulong(flags), options.encode() or None)


def attach(image):
    """Attaches an image to a free loop device, until the last use of it ends. Returns its number and a descriptor."""
    with open("/dev/loop-control", "rb") as control, open(image, "r+b") as file:
        # A struct loop_config: this descriptor, and flags.
        configuration = struct.pack("=I56xI240x", file.fileno(), LO_FLAGS_AUTOCLEAR)
        while True:
            number = fcntl.ioctl(control, LOOP_CTL_GET_FREE)
            device = os.open(f"/dev/loop{number}", os.O_RDWR)
            try:
                fcntl.ioctl(device, LOOP_CONFIGURE, configuration)
                return number, device
            except OSError as error:
                os.close(device)
                # Another process may have taken the device.
                if error.errno != errno.EBUSY:
                    raise


def wait_until_free(number, image):
    """Waits until a loop device is no longer attached to an image. Some kernels detach it later than the unmount."""
    for _ in range(2000):
        try:
            with open(f"/sys/block/loop{number}/loop/backing_file", encoding="utf-8") as file:
                if file.read().strip() != image:
                    return
        except OSError:
            return
        time.sleep(0.005)
    raise Refused(f"/dev/loop{number} is still attached")


def copy(image, to):
    """Copies an image, and leaves its holes out."""
    source = os.open(image, os.O_RDONLY)
    target = os.open(to, os.O_RDWR | os.O_CREAT | os.O_TRUNC, 0o600)
    try:
        end = os.lseek(source, 0, os.SEEK_END)
        os.ftruncate(target, end)
        at = next_data(source, 0)
        while at is not None:
            end = os.lseek(source, at, os.SEEK_HOLE)
            while at < end:
                part = os.pread(source, min(end - at, 1 << 20), at)
                os.pwrite(target, part, at)
                at += len(part)
            at = next_data(source, end)
    finally:
        os.close(source)
        os.close(target)


def next_data(file, at):
    """Returns the first position of data from a position on, or None."""
    try:
        return os.lseek(file, at, os.SEEK_DATA)
    except OSError as error:
        if error.errno != errno.ENXIO:
            raise
        return None


def end_with(parent):
    """From now on the kernel kills this process when its parent ends."""
    call("prctl", PR_SET_PDEATHSIG, signal.SIGKILL)
    if os.getppid() != parent:
        sys.exit("its parent has ended")


def go_apart(folder):
    """Moves this process to a mount namespace of its own, with a tmpfs at the folder."""
    call("unshare", CLONE_NEWNS)
    mount(None, "/", flags=MS_PRIVATE_ALL)
    mount("tmpfs", folder, "tmpfs", options="size=3g,mode=700")


def remove_apart(folder):
    """Removes the folder of go_apart, and what is in it."""
    with contextlib.suppress(OSError):  # nothing is mounted there
        call("umount2", os.fsencode(folder), MNT_DETACH)
    shutil.rmtree(folder, ignore_errors=True)


@contextlib.contextmanager
def mounted(kind, image, at, flags=0):
    """Mounts an image at a folder."""
    number, descriptor = attach(image)
    try:
        mount(f"/dev/loop{number}", at, kind.type, flags, kind.options)
    finally:
        os.close(descriptor)
    try:
        yield number
    finally:
        call("umount2", os.fsencode(at), 0)
        wait_until_free(number, image)


def make_image(kind, folder, at):
    """Makes a file system and mounts it once. Returns the path of its image, which has holes."""
    made, image = os.path.join(folder, "made"), os.path.join(folder, "new")
    with open(made, "xb") as file:
        file.truncate(kind.size << 20)
    command(*kind.make, made)
    with mounted(kind, made, at):
        os.mkdir(os.path.join(at, "outside"))
    command("cp", "--sparse=always", made, image)
    os.remove(made)
    return image
