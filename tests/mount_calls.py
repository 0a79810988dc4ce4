"""
What tests/mount.py needs: calls on files, trees, and random calls on the mount and on tmpfs, which must agree.
"""

import ctypes
import errno
import os
import random
import shutil
import stat
import sys
import tempfile
import time
import traceback

sys.dont_write_bytecode = True
TOP = os.path.join(os.path.dirname(os.path.realpath(__file__)), "..")
sys.path.insert(0, os.path.join(TOP, "adapters", "mount"))
from mounting import Failed, Mount  # noqa: E402

libc = ctypes.CDLL(None, use_errno=True)
counts = {"passed": 0, "failed": 0}


def check(name, holds, shown=""):
    """Counts one test."""
    counts["passed" if holds else "failed"] += 1
    if not holds:
        print(f"{os.path.basename(sys.argv[0])}: FAILED: {name} {str(shown)[:2000]}")


def run_tests(tests):
    """Runs tests, and prints the last line. A test that breaks is one failure, and the others run; so is none at all. Ends with the
    status."""
    if not tests:
        check("no test has this name", False)
    for test in tests:
        name, began = getattr(test, "__name__", "test"), time.time()
        try:
            test()
        except Exception:  # noqa: BLE001 - as above
            check(name, False, traceback.format_exc())
        if os.environ.get("VERBOSE"):
            print(f"{name} {time.time() - began:.1f} s")
    print(f"{counts['passed']} passed, {counts['failed']} failed")
    sys.exit(counts["failed"] > 0)


def refused(mount, line):
    """Returns why a command is refused, or what it replies."""
    try:
        return mount.ask(line)
    except Failed as error:
        return str(error)


def comes(holds):
    """Waits until something holds, for a minute at most. Returns whether it does."""
    until = time.monotonic() + 60
    while not holds():
        if time.monotonic() > until:
            return False
        time.sleep(0.02)
    return True


def put(path, data, sync=False, flags=os.O_CREAT, at=None):
    """Writes bytes by one call."""
    descriptor = os.open(path, os.O_WRONLY | flags, 0o644)
    try:
        if at is None:
            os.write(descriptor, data)
        else:
            os.pwrite(descriptor, data, at)
        if sync:
            os.fsync(descriptor)
    finally:
        os.close(descriptor)


def fill(path, length):
    """Writes zeros until the file has this length."""
    with open(path, "wb", buffering=0) as file:
        while file.tell() < length:
            file.write(bytes(min(1 << 16, length - file.tell())))


def get(path):
    """Returns the bytes of a file, or None."""
    try:
        with open(path, "rb") as file:
            return file.read()
    except FileNotFoundError:
        return None


def sync_folder(path):
    """Makes the names in a folder durable."""
    descriptor = os.open(path, os.O_RDONLY)
    try:
        os.fsync(descriptor)
    finally:
        os.close(descriptor)


def refusal(call, *arguments):
    """Returns the name of the error of a call, or what it returned."""
    try:
        return call(*arguments)
    except OSError as error:
        return errno.errorcode[error.errno]


def rename_by(path, to, flags):
    """renameat2: 1 refuses a name that is taken, 2 exchanges."""
    if libc.renameat2(-100, os.fsencode(path), -100, os.fsencode(to), flags):
        raise OSError(ctypes.get_errno(), "renameat2")


def allocate(path, mode, offset, length):
    """fallocate: 0 extends, 3 punches a hole, 16 zeroes."""
    descriptor = os.open(path, os.O_RDWR)
    try:
        if libc.fallocate(descriptor, mode, ctypes.c_long(offset), ctypes.c_long(length)):
            raise OSError(ctypes.get_errno(), "fallocate")
        return os.fstat(descriptor).st_size
    finally:
        os.close(descriptor)


def tree(root):
    """Returns all that is in a folder: kinds, modes, links, sizes, bytes, and which names are one file."""
    found, first = {}, {}
    for folder, folders, files in os.walk(root):
        folders.sort()
        for name in sorted(folders + files):
            path = os.path.join(folder, name)
            about = os.lstat(path)
            key = os.path.relpath(path, root)
            row = [about.st_mode, about.st_nlink, about.st_uid]
            if stat.S_ISREG(about.st_mode):
                row += [about.st_size, get(path), first.setdefault(about.st_ino, key)]
            elif stat.S_ISLNK(about.st_mode):
                row += [about.st_size, os.readlink(path)]
            found[key] = row
    return found


def difference(ours, theirs):
    """Returns what differs between two trees, shortened, or an empty text."""
    names = [name for name in sorted(set(ours) | set(theirs)) if ours.get(name) != theirs.get(name)]
    return "; ".join(f"{name}: {str(ours.get(name))[:70]}, not {str(theirs.get(name))[:70]}" for name in names)


class Random:
    """Random calls on two folders."""

    NAMES = ["a", "b", "c", "d", "d/a", "d/b", "d/e", "d/e/a", "c/x", "b/y", "\udcff\n'$(x)"]

    def __init__(self, seed, roots):
        self.random = random.Random(seed)
        self.roots = roots
        self.held = [[] for _ in roots]

    def write(self, root, name, flags, offset, data, length):
        """Opens, writes, truncates and reads a file."""
        descriptor = os.open(f"{root}/{name}", flags, 0o640)
        try:
            count = os.write(descriptor, data) if flags & os.O_APPEND else os.pwrite(descriptor, data, offset)
            if length is not None:
                os.ftruncate(descriptor, length)
            return count, os.fstat(descriptor).st_size, os.pread(descriptor, 300000, 0)
        finally:
            os.close(descriptor)

    def use(self, at, which, offset, data, closes):
        """Writes to an open file, whatever has happened to its name."""
        descriptor = self.held[at][which]
        try:
            os.pwrite(descriptor, data, offset)
            os.fsync(descriptor)
            found = os.fstat(descriptor)
            return found.st_size, found.st_nlink, os.pread(descriptor, 300000, 0)
        finally:
            if closes:
                os.close(self.held[at].pop(which))

    def hold(self, at, name, flags):
        """Opens a file, and keeps it open."""
        self.held[at].append(os.open(f"{self.roots[at]}/{name}", os.O_RDWR | flags))

    def hold_again(self, at, which, flags):
        """Opens an open file once more, whatever has happened to its name, and keeps it open."""
        self.held[at].append(os.open(f"/proc/self/fd/{self.held[at][which]}", os.O_RDWR | flags))

    def call(self):
        """Draws a call. Returns its name, and a function of the index of a root."""
        draw, roots = self.random, self.roots
        one, two, kind = draw.choice(self.NAMES), draw.choice(self.NAMES), draw.randrange(20)
        offset = draw.choice([0, 1, 10, 4095, 4096, 70000])
        data = bytes([draw.randrange(97, 123)]) * draw.choice([0, 1, 100, 5000, 140000])
        if kind < 5:
            flags = os.O_RDWR | draw.choice([0, os.O_CREAT, os.O_CREAT | os.O_EXCL, os.O_TRUNC, os.O_CREAT | os.O_TRUNC, os.O_APPEND])
            length = draw.choice([None, None, 0, 3, 5000, 66000])
            return "write", lambda at: self.write(roots[at], one, flags, offset, data, length)
        truncates = draw.choice([0, 0, os.O_TRUNC])
        if kind == 5 and len(self.held[0]) < 20:
            return "hold", lambda at: self.hold(at, one, truncates)
        if kind == 19 and 0 < len(self.held[0]) < 20:
            which = draw.randrange(len(self.held[0]))
            return "hold again", lambda at: self.hold_again(at, which, truncates)
        if kind in (6, 7) and self.held[0]:
            which, closes = draw.randrange(len(self.held[0])), draw.random() < 0.3
            return "use", lambda at: self.use(at, which, offset, data, closes)
        paths = lambda at: (f"{roots[at]}/{one}", f"{roots[at]}/{two}")  # noqa: E731
        flag, mode = draw.choice([1, 2]), draw.choice([0o600, 0o755, 0o4711])
        shape, size = draw.choice([0, 1, 3]), draw.choice([1, 5000, 70000])
        calls = {
            8: ("mkdir", lambda at: os.mkdir(paths(at)[0])),
            9: ("rmdir", lambda at: os.rmdir(paths(at)[0])),
            10: ("unlink", lambda at: os.unlink(paths(at)[0])),
            11: ("rename", lambda at: os.rename(*paths(at))),
            12: ("rename", lambda at: os.rename(*paths(at))),
            13: ("renameat2", lambda at: rename_by(*paths(at), flag)),
            14: ("link", lambda at: os.link(*paths(at))),
            15: ("symlink", lambda at: os.symlink(two, paths(at)[0])),
            16: ("chmod", lambda at: os.chmod(paths(at)[0], mode)),
            17: ("fallocate", lambda at: allocate(paths(at)[0], shape, offset, size)),
        }
        return calls.get(kind, ("truncate", lambda at: os.truncate(paths(at)[0], size)))


def differential(seed, count, program):
    """Makes random calls on the mount and on tmpfs. Results, errors and trees agree, and no settled byte or name is lost."""
    reference = tempfile.mkdtemp(dir="/dev/shm" if os.access("/dev/shm", os.W_OK) else None)
    with Mount(program, "--seed", str(seed)) as mount:
        calls = Random(seed, [mount.at, reference])
        differs, worked = "", 0
        for number in range(count):
            name, call = calls.call()
            ours, theirs = refusal(call, 0), refusal(call, 1)
            worked += not isinstance(theirs, str)
            if ours != theirs:
                differs = f"call {number}, {name}: {str(ours)[:90]}, not {str(theirs)[:90]}"
            elif number % 40 == 0:
                differs = difference(tree(mount.at), tree(reference))
                differs = differs and f"the trees after call {number}, {name}: {differs}"
            if differs:
                break
        for held in calls.held:
            for descriptor in held:
                os.close(descriptor)
        check(f"random calls of seed {seed}", not differs and worked > count // 6, differs or worked)
        mount.ask("settle")
        mount.ask("crash")
        check(f"the tree of seed {seed} after settle and crash", tree(mount.at) == tree(reference))
        mount.control.end()
        mount.daemon.wait(60)
        check(f"the daemon of seed {seed} ends well", mount.daemon.returncode == 0 and not mount.messages(), mount.messages())
    shutil.rmtree(reference)
