"""
Tests of the mount (adapters/mount): mount.py PROGRAM [SANITIZED]. Random calls on the mount and on tmpfs agree, and what a crash
leaves is in the sets that docs/FILES.md allows, worked out by hand. SANITIZED is the daemon under the sanitizers. The last line is
`N passed, M failed`.
"""

import mmap
import os
import signal
import subprocess
import sys
import tempfile
import time

sys.dont_write_bytecode = True
from mount_calls import allocate, check, comes, differential, fill, get, put, refusal, refused  # noqa: E402
from mount_calls import run_tests, sync_folder, tree  # noqa: E402
from mount_programs import A, B, SECTOR, letters, test_programs  # noqa: E402
from mounting import Mount  # noqa: E402

PROGRAM = sys.argv[1]


def mounted(*options):
    """Returns a mount."""
    return Mount(PROGRAM, *options)


def test_profiles():
    """What crashes leave of small programs."""
    with mounted("--seed", "5", "--keep", "3/4") as mount:
        test_programs(mount)


def test_stale():
    """After a crash, descriptors of the life before get EIO."""
    with mounted() as mount:
        put(f"{mount.at}/f", A)
        os.mkdir(f"{mount.at}/d")
        mount.ask("settle")
        file = os.open(f"{mount.at}/f", os.O_RDWR)
        folder = os.open(f"{mount.at}/d", os.O_RDONLY)
        root = os.open(mount.at, os.O_RDONLY)
        mount.ask("crash")
        check("an old file", refusal(os.pwrite, file, B, 0) == "EIO")
        check("an old fsync", refusal(os.fsync, file) == "EIO")
        check("an old folder", refusal(os.listdir, folder) == "EIO")
        check("the old root", refusal(os.listdir, root) == "EIO")
        check("a name in an old folder", refusal(lambda: os.mkdir("x", dir_fd=folder)) == "EIO")
        for descriptor in (file, folder, root):
            os.close(descriptor)
        check("a new open", get(f"{mount.at}/f") == A)


MAPPED = """
import mmap
mapped = mmap.mmap(os.open(sys.argv[1], os.O_RDWR), 10)
print(mapped[:].decode(), flush=True)
sys.stdin.readline()
print(mapped[:])
"""


def test_cached():
    """After a crash the kernel has no page and no attribute of the life before: old descriptors and maps don't show lost bytes."""
    with mounted("--keep", "0/1", "--profile", "posix") as mount:
        os.mkdir(f"{mount.at}/d")
        paths = [f"{mount.at}/f", f"{mount.at}/d/f"]
        for path in paths:
            put(path, b"lost bytes")
        descriptors = [os.open(path, os.O_RDONLY) for path in paths]
        check("cached pages", [os.pread(descriptor, 10, 0) for descriptor in descriptors] == [b"lost bytes"] * 2)
        folder = os.open(f"{mount.at}/d", os.O_RDONLY)
        os.stat("f", dir_fd=folder)
        maps = program(MAPPED, paths[0], stdin=subprocess.PIPE)
        check("a map", maps.stdout.readline() == "lost bytes\n")
        mount.ask("crash")
        check("an old read", [refusal(os.pread, descriptor, 10, 0) for descriptor in descriptors] == ["EIO"] * 2)
        check("an old size", [refusal(os.fstat, descriptor) for descriptor in descriptors] == ["EIO"] * 2)
        check("an old name", refusal(lambda: os.stat("f", dir_fd=folder)) == "EIO")
        check("an old map", (maps.communicate("\n", timeout=60)[0], maps.returncode) == ("", -signal.SIGBUS))
        for descriptor in (*descriptors, folder):
            os.close(descriptor)


def test_unlinked():
    """A file without a name, whose open that truncated is closed before another: its descriptors work as on tmpfs."""
    with mounted() as mount, tempfile.TemporaryDirectory(dir="/dev/shm") as reference:
        found = []
        for at in (mount.at, reference):
            path = f"{at}/f"
            put(path, A)
            first = os.open(path, os.O_RDWR | os.O_TRUNC)
            os.write(first, b"first")
            second = os.open(path, os.O_RDWR)
            os.unlink(path)
            os.close(first)
            told = [refusal(os.pread, second, 100, 0), refusal(os.pwrite, second, b"S", 0), refusal(os.fsync, second)]
            third = refusal(os.open, f"/proc/self/fd/{second}", os.O_RDWR | os.O_TRUNC)
            told += [type(third), os.fstat(second).st_size, refusal(os.pwrite, second, b"third", 2), refusal(os.pread, second, 100, 0)]
            for descriptor in (second, third):
                if isinstance(descriptor, int):
                    os.close(descriptor)
            found.append(told)
        check("a file without a name", found[0] == found[1], found)
        check("and without a descriptor", comes(lambda: mount.control.status()["bytes"].startswith("0/")))


def test_names():
    """Names: long ones, hard links, moved directories, offsets of readdir."""
    with mounted() as mount:
        at = mount.at
        check("a name of 255 bytes", refusal(put, f"{at}/{'n' * 255}", A) is None)
        check("a name of 256 bytes", refusal(put, f"{at}/{'n' * 256}", A) == "ENAMETOOLONG")
        os.link(f"{at}/{'n' * 255}", f"{at}/m")
        os.makedirs(f"{at}/x/y/z")
        os.mkdir(f"{at}/u")
        check("a directory below itself", refusal(os.rename, f"{at}/x", f"{at}/x/y/z/w") == "EINVAL")
        check("over a directory with names", refusal(os.rename, f"{at}/u", f"{at}/x") == "ENOTEMPTY")
        os.rename(f"{at}/x/y", f"{at}/u/y")
        check("links of directories", [os.stat(f"{at}/{name}").st_nlink for name in ("", "x", "u", "u/y")] == [4, 2, 3, 3])
        check("the parent", os.stat(f"{at}/u/y/..").st_ino == os.stat(f"{at}/u").st_ino)
        os.mkdir(f"{at}/many")
        for number in range(700):
            put(f"{at}/many/{number}", b"")
        with os.scandir(f"{at}/many") as entries:
            seen = [next(entries).name for _ in range(50)]
            for number in range(0, 700, 2):
                os.unlink(f"{at}/many/{number}")
            put(f"{at}/many/aa", b"")
            seen += [entry.name for entry in entries]
        check("offsets stay", all(seen.count(str(number)) == 1 for number in range(1, 700, 2)))
        before = tree(at)
        mount.ask("settle")
        mount.ask("crash")
        check("names after a crash", tree(at) == before and os.stat(f"{at}/m").st_nlink == 2)


def test_missing():
    """The kernel may keep that a name is missing: a name that is made, or that a crash brings back, is found."""
    with mounted("--keep", "0/1") as mount:
        at = mount.at
        os.mkdir(f"{at}/d")
        put(f"{at}/f", A)
        put(f"{at}/d/f", B)
        mount.ask("settle")
        os.unlink(f"{at}/f")
        os.unlink(f"{at}/d/f")
        os.rmdir(f"{at}/d")
        check("names are missing", not any(os.path.exists(f"{at}/{name}") for name in ("f", "d", "d/f", "new")))
        put(f"{at}/new", A)
        check("a name that was missing", get(f"{at}/new") == A)
        mount.ask("crash")
        check("a crash brings names back", get(f"{at}/f") == A and get(f"{at}/d/f") == B)
        check("and takes one", not os.path.exists(f"{at}/new"))


def test_switches():
    """A sync that fails and drops, a sync that lies, a bad switch; a removed file doesn't count."""
    with mounted("--keep", "0/1") as mount:
        at = mount.at
        put(f"{at}/f", A)
        mount.ask("settle")
        mount.ask("failed_sync drops")
        mount.ask("config sync 1 1")
        with open(f"{at}/f", "r+b", buffering=0) as file:
            file.write(B)
            check("a sync that fails", refusal(os.fsync, file.fileno()) == "EIO")
            mount.ask("config sync 0 1")
            check("the next one succeeds", refusal(os.fsync, file.fileno()) is None)
        mount.ask("crash")
        check("and its bytes were dropped", get(f"{at}/f") == A)
        mount.ask("syncs lie")
        with open(f"{at}/f", "r+b", buffering=0) as file:
            file.write(B)
            os.fsync(file.fileno())
        mount.ask("crash")
        check("a sync that lies", get(f"{at}/f") == A)
        check("no such switch", refused(mount, "syncs sometimes") == "Invalid argument")
        mount.ask("syncs honest")
        before = [mount.control.status()[name] for name in ("bytes", "files")]
        put(f"{at}/g", bytes(5000))
        os.unlink(f"{at}/g")
        check("a removed file", [mount.control.status()[name] for name in ("bytes", "files")] == before)


def test_kinds():
    """Kinds, modes and owners survive with their inode."""
    with mounted("--keep", "0/1") as mount:
        at = mount.at
        os.symlink("far/away", f"{at}/link")
        os.mkfifo(f"{at}/fifo", 0o620)
        os.mkdir(f"{at}/d", 0o700)
        put(f"{at}/f", A)
        os.chmod(f"{at}/f", 0o4711)
        os.utime(f"{at}/f", (1000, 2000))
        before = tree(at)
        mount.ask("settle")
        os.symlink("lost", f"{at}/lost")
        mount.ask("crash")
        check("kinds and modes after a crash", tree(at) == before, (tree(at), before))
        check("times after a crash", os.stat(f"{at}/f").st_mtime == 2000)


def test_bytes():
    """Sparse files, a full disk and mapped files."""
    with mounted("--size", "2M") as mount:
        at = mount.at
        put(f"{at}/sparse", B, at=1 << 20)
        check("a sparse file", get(f"{at}/sparse") == bytes(1 << 20) + B)
        put(f"{at}/zeroed", A + A + A)
        check("a range of zeros", allocate(f"{at}/zeroed", 16, SECTOR, SECTOR) == 3 * SECTOR and letters(get(f"{at}/zeroed")) == "A0A")
        free = os.statvfs(at).f_bavail
        check("a full disk", refusal(fill, f"{at}/full", 1 << 20) == "ENOSPC" and free < 256)
        check("a file beyond it", refusal(os.truncate, f"{at}/sparse", 1 << 40) == "ENOSPC")
        check("other calls go on", refusal(put, f"{at}/small", A) is None and get(f"{at}/small") == A)
        mount.ask("settle")
        os.unlink(f"{at}/sparse")
        sync_folder(at)
        mount.ask("crash")
        check("space after a crash", refusal(fill, f"{at}/full", 1 << 20) is None)
        check("many files", "ENOSPC" in [refusal(put, f"{at}/{number}", b"") for number in range(1100)])
    with mounted("--keep", "0/1") as mount:
        with open(f"{mount.at}/mapped", "w+b") as file:
            file.truncate(8192)
            os.fsync(file.fileno())
            sync_folder(mount.at)
            with mmap.mmap(file.fileno(), 8192) as mapped:
                mapped[0:SECTOR] = A
                mapped.flush()
                mapped[4096:4096 + SECTOR] = B
                mount.ask("crash")
        found = get(f"{mount.at}/mapped")
        check("a mapped page after msync", found[:SECTOR] == A and found[4096:] == bytes(4096))


def test_write_back():
    """Unsynced bytes beyond the limit of memory are written back."""
    with mounted("--size", "1M", "--keep", "0/1") as mount:
        put(f"{mount.at}/f", A)
        sync_folder(mount.at)
        for _ in range(5):
            put(f"{mount.at}/f", bytes(1 << 19), flags=0, at=0)
        status = mount.control.status()
        check("written back", int(status["write-backs"]) >= 1 and int(status["unsynced"]) <= 1 << 20, status)


def program(text, *arguments, **streams):
    """Starts a program in Python that prints what it sees."""
    command = [sys.executable, "-c", "import errno, os, signal, sys\n" + text, *arguments]
    return subprocess.Popen(command, stdout=subprocess.PIPE, text=True, **streams)


def waits_in_open(process):
    """Waits until a process is in a call of open that doesn't return."""
    calls = []

    def is_same():
        with open(f"/proc/{process.pid}/syscall", encoding="ascii") as file:
            calls.append(file.read())
        return len(calls) > 9 and calls[-1].startswith("257 ") and len(set(calls[-10:])) == 1

    return comes(is_same)


WRITES = """
try:
    descriptor = os.open(sys.argv[1], os.O_CREAT | os.O_WRONLY)
    print(os.write(descriptor, b"x"))
except OSError as error:
    print(errno.errorcode[error.errno])
"""


def test_power():
    """While the power is off calls wait: signals don't end them, but SIGKILL does."""
    with mounted() as mount:
        mount.ask("off")
        interrupted = program("signal.signal(signal.SIGALRM, lambda *_: None); signal.setitimer(signal.ITIMER_REAL, 0.05, 0.05)"
                              + WRITES, f"{mount.at}/a")
        killed = program(WRITES, f"{mount.at}/b")
        check("calls wait", waits_in_open(interrupted) and waits_in_open(killed))
        killed.kill()
        check("a killed program ends", killed.wait(60) == -signal.SIGKILL)
        mount.ask("on")
        check("calls go on", interrupted.communicate(timeout=60)[0] == "1\n")
        mount.ask("off")
        ended = program(WRITES, f"{mount.at}/c")
        check("a call waits", waits_in_open(ended))
        mount.ask("crash")
        check("a crash ends calls with EIO", ended.communicate(timeout=60)[0] == "EIO\n")
        check("and their file isn't there", "c" not in os.listdir(mount.at))
        check("the power is on", mount.control.status()["power"] == "on")
        mount.ask("settle")
        mount.ask("crash-after 3")
        counted = program("for number in range(9): os.mkdir(f'{sys.argv[1]}/{number}'); print(number, flush=True)", mount.at)
        check("the power goes off after the third call", comes(mount.control.is_off))
        counted.kill()
        check("three calls were made", counted.communicate(timeout=60)[0] == "0\n1\n2\n")
        mount.ask("crash")
        maps_and_waits(mount)
        bad = [refused(mount, line) for line in ("crash-after x", "frob", "config frob")]
        check("a bad command", bad == ["Invalid argument", "no such command", "Invalid argument"], bad)


MAPS = """
import mmap
file = open(sys.argv[1], "w+b")
file.truncate(4096)
mapped = mmap.mmap(file.fileno(), 4096)
mapped[0:1] = b"x"
print("mapped", flush=True)
signal.pause()
"""


def maps_and_waits(mount):
    """A killed program with a page to write back may have to wait for the crash."""
    maps = program(MAPS, f"{mount.at}/mapped")
    maps.stdout.readline()
    mount.ask("off")
    maps.kill()
    time.sleep(0.1)
    mount.ask("crash")
    check("a killed program with a mapped page ends", maps.wait(60) == -signal.SIGKILL)
    maps.stdout.close()


SURVIVES = """
import random
draw, root, held = random.Random(int(sys.argv[2])), sys.argv[1], []
name = lambda: root + "/" + draw.choice(["a", "b", "c", "d", "d/x", "e", "e/z", "e/f", "e/f/g"])
calls = [lambda: os.mkdir(name()), lambda: os.rename(name(), name()), lambda: os.unlink(name()), lambda: os.rmdir(name()),
         lambda: os.link(name(), name()), lambda: os.listdir(name()), lambda: os.symlink("a", name()),
         lambda: held.append(os.open(name(), os.O_RDWR | draw.choice([0, os.O_CREAT, os.O_TRUNC]))),
         lambda: os.pwrite(draw.choice(held), bytes(draw.choice([1, 5000, 100000])), draw.choice([0, 77, 4096])),
         lambda: os.fsync(draw.choice(held)), lambda: os.close(held.pop(draw.randrange(len(held))))]
while True:
    try:
        draw.choice(calls)()
    except (OSError, IndexError, ValueError):
        pass
"""


def test_survivors(daemon):
    """Programs that aren't killed go on through crashes, and neither they nor the daemon hang."""
    with Mount(daemon, "--seed", "9", "--size", "64M") as mount:
        programs = [program(SURVIVES, mount.at, str(seed)) for seed in range(4)]
        for number in range(24):
            time.sleep(0.02)
            if number % 3 == 1:
                mount.ask("off")
            if number % 3 == 2:
                mount.ask("crash-after 30")
                time.sleep(0.02)
            mount.ask("crash")
        status = mount.control.status()
        check("the programs run on", all(survivor.poll() is None for survivor in programs) and status["life"] == "25", status)
        for survivor in programs:
            survivor.kill()
        check("the programs end", [survivor.wait(60) for survivor in programs] == [-signal.SIGKILL] * 4)
        for survivor in programs:
            survivor.stdout.close()
        mount.control.end()
        check("the daemon ends well after them", mount.daemon.wait(60) == 0 and not mount.messages(), mount.messages())


def test_kill():
    """A daemon that is killed leaves no hung process."""
    mount = mounted()
    try:
        put(f"{mount.at}/f", A)
        mount.ask("off")
        waits = program(WRITES, f"{mount.at}/f")
        check("a call waits", waits_in_open(waits))
        mount.daemon.kill()
        check("its calls end", waits.communicate(timeout=60)[0] in ("ECONNABORTED\n", "ENOTCONN\n"))
        check("later calls too", refusal(os.listdir, mount.at) == "ENOTCONN")
    finally:
        mount.close()


def main():
    """Runs all tests."""
    sanitized = sys.argv[2] if len(sys.argv) > 2 else None
    programs = [PROGRAM] * 17 + [sanitized or PROGRAM] * 3
    tests = [lambda seed=seed, program=program: differential(seed, 2500, program) for seed, program in enumerate(programs, 1)]
    tests.append(lambda: test_survivors(sanitized or PROGRAM))
    tests += [test_profiles, test_stale, test_cached, test_unlinked, test_names, test_missing, test_switches, test_kinds, test_bytes, test_write_back]
    tests += [test_power, test_kill]
    run_tests(tests)


if __name__ == "__main__":
    main()
