"""
Tests of the mount's limits: mount_limits.py PROGRAM. Removed files, changes of names without end, and files that don't fit. The last line is
`N passed, M failed`.
"""

import os
import sys
import time

sys.dont_write_bytecode = True
from mount_calls import allocate, check, put, refusal, run_tests, sync_folder  # noqa: E402
from mounting import Failed, Mount  # noqa: E402

PROGRAM = sys.argv[1]
os.environ["ASAN_OPTIONS"] = "quarantine_size_mb=1"  # what the daemon frees doesn't count
MEGABYTE = 1 << 20


def temporary(mount, number):
    """Writes a megabyte to a new file, and removes it."""
    path = f"{mount.at}/{number}"
    put(path, bytes(MEGABYTE))
    os.unlink(path)


def memory_of(mount):
    """Returns the most bytes that the daemon has had."""
    with open(f"/proc/{mount.daemon.pid}/status", encoding="ascii") as file:
        return [int(line.split()[1]) * 1024 for line in file if line.startswith("VmHWM:")][0]


def test_removed():
    """Unsynced bytes of removed files don't fill the disk, whether their removal is durable or not."""
    for profile in ("ext4", "posix"):
        for syncs in (True, False):
            with Mount(PROGRAM, "--size", "8M", "--profile", profile) as mount:
                put(f"{mount.at}/kept", b"kept")
                found = []
                for number in range(20):
                    found.append(refusal(temporary, mount, number))
                    if syncs:
                        sync_folder(mount.at)
                name = f"removed files on {profile}{', synced' if syncs else ''}"
                check(name, found == [None] * 20, found)
                status = mount.control.status()
                check(f"{name}: the count", int(status["unsynced"]) <= 8 * MEGABYTE and status["write-backs"] == "0", status)
                found = [refusal(temporary, mount, number) for number in range(80)]
                check(f"{name}: the memory", found == [None] * 80 and memory_of(mount) < 64 * MEGABYTE, memory_of(mount))


def test_open_removed():
    """A file without a name that is open counts, and its bytes go with its last descriptor."""
    with Mount(PROGRAM, "--size", "8M") as mount:
        found = []
        for number in range(4):
            path = f"{mount.at}/{number}"
            descriptor = os.open(path, os.O_RDWR | os.O_CREAT)
            os.unlink(path)
            found += [refusal(os.pwrite, descriptor, bytes(MEGABYTE), at * MEGABYTE) for at in range(6)]
            found.append(os.pread(descriptor, 9, 5 * MEGABYTE))
            os.close(descriptor)
        check("open files without a name", found == [*[MEGABYTE] * 6, bytes(9)] * 4, found)


def changes_of(mount):
    """Returns the changes since the last commit, and the commits."""
    status = mount.control.status()
    return status["names-changed"].split("/")[0], status["commits"]


def test_changes():
    """Changes of names without end: each 50 the mount commits them. Those after the last commit may be lost."""
    with Mount(PROGRAM, "--changes", "50", "--keep", "0/1") as mount:
        for number in range(120):
            put(f"{mount.at}/{number:03}", b"")
        check("commits", changes_of(mount) == ("20", "2"), changes_of(mount))
        mount.ask("crash")
        found = sorted(os.listdir(mount.at))
        check("what the last commit has", found == [f"{number:03}" for number in range(100)], found)
        check("a crash begins anew", changes_of(mount) == ("0", "2"), changes_of(mount))
        descriptor = os.open(f"{mount.at}/000", os.O_RDWR)
        found = [refusal(os.ftruncate, descriptor, number % 2 + 1) for number in range(120)]
        check("truncations", found == [None] * 120 and changes_of(mount) == ("20", "4"), changes_of(mount))
        os.close(descriptor)
        mount.ask("settle")
        check("settle begins anew", changes_of(mount) == ("0", "4"), changes_of(mount))
        found = []
        for number in range(60):
            path = f"{mount.at}/{number:03}"
            os.rename(path, f"{path}x")
            os.link(f"{path}x", path)
            os.truncate(path, 9)
            os.close(os.open(path, os.O_WRONLY | os.O_TRUNC))
            found.append(refusal(os.unlink, path))
        check("all kinds", found == [None] * 60 and changes_of(mount)[1] == "9", changes_of(mount))


def test_known():
    """A node that the kernel knows lives through a commit, and through the next one after it was forgotten."""
    with Mount(PROGRAM, "--changes", "10") as mount:
        put(f"{mount.at}/f", b"bytes")
        os.mkdir(f"{mount.at}/d")
        held = [os.open(f"{mount.at}/f", os.O_PATH), os.open(f"{mount.at}/d", os.O_RDONLY)]
        os.unlink(f"{mount.at}/f")
        os.rmdir(f"{mount.at}/d")
        for number in range(40):
            put(f"{mount.at}/{number}", b"")
        check("links", [refusal(lambda at=at: os.fstat(at).st_nlink) for at in held] == [0, 0])
        check("the folder is empty", refusal(os.listdir, held[1]) == [])
        for descriptor in held:
            os.close(descriptor)
        for number in range(40):
            os.unlink(f"{mount.at}/{number}")
        check("and later", os.listdir(mount.at) == [] and mount.control.status()["files"].startswith("1/"))


def test_default():
    """As many changes as the layer keeps without --changes, and more."""
    with Mount(PROGRAM, "--size", "64M") as mount:
        for _ in range(33000):
            os.mkdir(f"{mount.at}/d")
            os.rmdir(f"{mount.at}/d")
        check("66,000 changes", refusal(put, f"{mount.at}/f", b"f") is None and changes_of(mount) == ("465", "1"), changes_of(mount))


def machine():
    """Returns the bytes of memory of this machine, as the kernel says, or of its control group if that has fewer."""
    with open("/proc/meminfo", encoding="ascii") as file:
        found = [int(line.split()[1]) * 1024 for line in file if line.startswith("MemTotal:")]
    if os.path.exists("/sys/fs/cgroup/memory.max"):
        with open("/sys/fs/cgroup/memory.max", encoding="ascii") as file:
            found += [int(word) for word in file.read().split() if word != "max"]
    return min(found)


def test_sizes():
    """What doesn't fit is refused before it takes memory. The size without an option goes with the memory, and can't exceed it."""
    with Mount(PROGRAM) as mount:
        size, before = min(machine() // 4 // MEGABYTE, 1024) * MEGABYTE, memory_of(mount)
        check("the size without an option", mount.control.status()["bytes"] == f"0/{size}", mount.control.status())
        path = f"{mount.at}/sparse"
        put(path, b"x")
        began = time.monotonic()
        descriptor = os.open(path, os.O_RDWR)
        calls = [lambda: os.truncate(path, 4 << 30), lambda: os.pwrite(descriptor, b"x", 4 << 30), lambda: allocate(path, 0, 0, 4 << 30)]
        found = [refusal(call) for call in calls]
        os.close(descriptor)
        check("files of 4 GB", found == ["ENOSPC"] * 3 and os.stat(path).st_size == 1, found)
        check("take no time and no memory", time.monotonic() < began + 5 and memory_of(mount) < before + 16 * MEGABYTE, memory_of(mount))
    larger = f"{machine() // MEGABYTE + 1}M"
    try:
        Mount(PROGRAM, "--size", larger).close()
        said = ""
    except Failed as error:
        said = str(error)
    check("more than the memory", said == f"mount: --size {larger}: files are in memory, and there are only {machine() // MEGABYTE}M", said)


if __name__ == "__main__":
    run_tests([test_removed, test_open_removed, test_changes, test_known, test_default, test_sizes])
