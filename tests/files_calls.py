"""Random calls on `Files` and on the kernel's files: results, errors, positions and trees agree. The kernel's are below a new root
(`chroot`), so that both get the same paths, among them the empty one, the root and such with a slash at the end. The last line is
`N passed, M failed`. Arguments: how many seeds (20), and the first one (1)."""

import ctypes
import os
import random
import shutil
import stat
import sys
import tempfile
import traceback

TOP = os.path.dirname(os.path.dirname(os.path.abspath(__file__)))
sys.path.insert(0, os.path.join(TOP, "bindings", "python"))

from blobcrash import Files
from files import KEEPS

CALLS = 2000
NAMES = ["/a", "/b", "/c", "/d", "/d/a", "/d/b", "/d/e", "/d/e/a", "/c/x", "b/y", "/\udcff\n'$(x)", "/a/b/c"]
ODD = ["", "/", "//", "/a/", "/b//", "/d/", "/d/e/", "//d//a", "/d/b/", "/c/x/", "/a/b/", "e/", "/" + "n" * 256, "/" + "n" * 256 + "/"]
MODES = ["rb", "r+b", "wb", "w+b", "xb", "x+b", "ab", "a+b"]
libc = ctypes.CDLL(None, use_errno=True)
NEW_USERS = 0x10000000


class Kernel:
    """The calls of `Files` that `os` has under another name."""

    mkdir, makedirs, rmdir, unlink, rename, link, listdir, truncate = (
        staticmethod(getattr(os, name)) for name in ("mkdir", "makedirs", "rmdir", "unlink", "rename", "link", "listdir", "truncate")
    )
    exists = staticmethod(os.path.exists)

    def open(self, path, mode):
        return open(path, mode, buffering=0)

    def fsync(self, file):
        os.fsync(file.fileno())

    def rename_by(self, old, new, flags):
        if libc.renameat2(-100, os.fsencode(old), -100, os.fsencode(new), flags):
            raise OSError(ctypes.get_errno(), "renameat2")

    def stat(self, path):
        found = os.stat(path)
        return ("directory", 0) if stat.S_ISDIR(found.st_mode) else ("file", found.st_size)

    def inode(self, path):
        return os.stat(path).st_ino

    def sync_directory(self, path):
        os.close(os.open(path, os.O_RDONLY | os.O_DIRECTORY))


class Layer(Files):
    """`Files` with the results of `Kernel`."""

    def rename_by(self, old, new, flags):
        if flags == 1:
            self.rename(old, new, replaces=False)
        else:
            self.exchange(old, new)

    def stat(self, path):
        found = super().stat(path)
        return found.kind, found.size

    def inode(self, path):
        return super().stat(path).inode

    def sync_directory(self, path):
        self.fsync_directory(path)


def tree(of, folder=""):
    """What is below a folder: kinds, bytes, and which names are one file."""
    found, first = {}, {}
    folders = [folder]
    while folders:
        above = folders.pop()
        for name in sorted(of.listdir(above or "/")):
            path = f"{above}/{name}"
            kind, size = of.stat(path)
            if kind == "directory":
                folders.append(path)
                found[path] = kind
            else:
                with of.open(path, "rb") as file:
                    found[path] = size, file.read(), first.setdefault(of.inode(path), path)
    return found


def result(of, opened, call):
    """What a call returns or raises, as values that can be compared."""
    try:
        made = call(of, opened)
    except OSError as error:
        return type(error).__name__, error.errno
    return sorted(made) if isinstance(made, list) else made


class Random:
    """Random calls. Each is a function of the system and of its open files."""

    def __init__(self, seed):
        self.random = random.Random(seed)
        self.count = 0

    def path(self):
        return self.random.choice(ODD if self.random.random() < 0.2 else NAMES)

    def call(self):
        kind = self.random.randrange(24)
        return self.on_file() if kind < 11 and self.count else self.on_names(kind)

    def on_names(self, kind):
        one, two, mode = self.path(), self.path(), self.random.choice(MODES)
        exist_ok, flags, size = self.random.random() < 0.5, self.random.choice([1, 2]), self.random.choice([0, 1, 3, 5000, 70000])
        calls = [
            ("mkdir", lambda of, _: of.mkdir(one)),
            ("makedirs", lambda of, _: of.makedirs(one, exist_ok=exist_ok)),
            ("rmdir", lambda of, _: of.rmdir(one)),
            ("unlink", lambda of, _: of.unlink(one)),
            ("rename", lambda of, _: of.rename(one, two)),
            ("rename", lambda of, _: of.rename(one, two)),
            ("link", lambda of, _: of.link(one, two)),
            ("rename_by", lambda of, _: of.rename_by(one, two, flags)),
            ("listdir", lambda of, _: of.listdir(one)),
            ("stat", lambda of, _: of.stat(one)),
            ("exists", lambda of, _: of.exists(one)),
            ("truncate", lambda of, _: of.truncate(one, size)),
            ("sync_directory", lambda of, _: of.sync_directory(one)),
        ]
        if kind < 18:
            return f"open {one!r} {mode}", lambda of, opened: opened.append(of.open(one, mode)) or opened[-1].tell()
        name, call = self.random.choice(calls)
        return f"{name} {one!r} {two!r} {exist_ok} {flags} {size}", call

    def on_file(self):
        which, how = self.random.randrange(self.count), self.random.randrange(9)
        at, whence = self.random.choice([0, 0, 1, 10, 4096, 70000]), self.random.choice([os.SEEK_SET, os.SEEK_SET, os.SEEK_CUR, os.SEEK_END])
        data = bytes([self.random.randrange(97, 123)]) * self.random.choice([0, 1, 100, 5000])
        calls = [
            ("read", lambda of, file: file.read(at)),
            ("read", lambda of, file: file.read()),
            ("write", lambda of, file: file.write(data)),
            ("write", lambda of, file: file.write(data)),
            ("seek", lambda of, file: file.seek(at, whence)),
            ("truncate", lambda of, file: file.truncate(None if at == 10 else at)),
            ("fsync", lambda of, file: of.fsync(file)),
            ("size", lambda of, file: (file.readable(), file.writable(), file.seekable())),
        ]
        if how == 8:
            return f"close {which}", lambda of, opened: opened.pop(which).close()
        name, call = calls[how]
        return f"{name} {which} {at} {whence} {len(data)}", lambda of, opened: (call(of, opened[which]), opened[which].tell())


def differs(seed):
    """Makes random calls on both. Returns what differs, or an empty text."""
    calls, kernel, worked = Random(seed), Kernel(), 0
    with Layer(seed, settings=KEEPS) as files:
        theirs, ours = [], []
        for number in range(CALLS):
            name, call = calls.call()
            expected, found = result(kernel, theirs, call), result(files, ours, call)
            worked += not (isinstance(expected, tuple) and isinstance(expected[0], str) and expected[0].endswith("Error"))
            if expected != found:
                return f"call {number}, {name}: {str(found)[:90]}, not {str(expected)[:90]}"
            calls.count = len(theirs)
            if number % 40 == 0 and tree(kernel) != tree(files):
                return f"the trees after call {number}, {name}"
        expected = tree(kernel)
        for opened in (theirs, ours):
            for file in opened:
                file.close()
        files.settle()
        files.restart()
        return "" if tree(files) == expected and worked > CALLS // 3 else f"the tree after a crash, or only {worked} calls worked"


def enter(folder):
    """Makes a folder the root. Without the right to do so, as the root of new users."""
    try:
        os.chroot(folder)
    except PermissionError:
        users = os.getuid(), os.getgid()
        if libc.unshare(NEW_USERS):
            raise
        for name, text in (("setgroups", "deny"), ("uid_map", f"0 {users[0]} 1"), ("gid_map", f"0 {users[1]} 1")):
            with open(f"/proc/self/{name}", "w", encoding="ascii") as file:
                file.write(text)
        os.chroot(folder)
    os.chdir("/")


def run(seed):
    """Runs a seed in a process of its own. Returns its status: 0, 1 if something differs, or 3 if there is no new root."""
    folder = tempfile.mkdtemp(dir="/dev/shm" if os.access("/dev/shm", os.W_OK) else None)
    child = os.fork()
    if child == 0:
        status = 1
        try:
            try:
                enter(folder)
            except OSError:
                os._exit(3)
            shown = differs(seed)
            status = int(bool(shown))
            if shown:
                print(f"files_calls.py: FAILED: seed {seed}: {shown}", flush=True)
        except BaseException:
            traceback.print_exc()
        os._exit(status)
    ended = os.waitpid(child, 0)[1]
    shutil.rmtree(folder)
    return os.WEXITSTATUS(ended) if os.WIFEXITED(ended) else 1


def main(arguments):
    count, first = (int(word) for word in (*arguments, "20", "1")[:2]) if len(arguments) != 1 else (int(arguments[0]), 1)
    Files(settings=KEEPS).close()  # loads the library, which the new root doesn't have
    statuses = [run(seed) for seed in range(first, first + count)]
    skipped = 0
    if 3 in statuses:
        print("files_calls.py: skipped: this user can't change the root")
        skipped = statuses.count(3) if os.environ.get("CI") != "true" else 0
    passed = statuses.count(0)
    failed = count - passed - skipped
    print(f"{passed} passed, {failed} failed" + (f", {skipped} skipped" if skipped else ""))
    return int(failed > 0)


if __name__ == "__main__":
    sys.exit(main(sys.argv[1:]))
