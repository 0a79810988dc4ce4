"""How a crate is checked, for tools/prove and tools/verdict."""

import contextlib
import os
import signal

# A check of a crate takes about a gigabyte, and processes that it starts share most of that.
NEEDED_MEMORY = 2_500_000_000


def options(crate, crates, kit, jobs):
    """Returns the options of a check of the crate."""
    words = ["--crate-name", crate.name, "src/main.rt" if crate.is_program else "src/lib.rt", "-L", f"dependency={kit}/rlibs"]
    for name in dict.fromkeys(["std", *crate.libraries]):
        built = crates[name].folder / "out/rlib" if name in crates else kit / "rlibs"
        words += ["--extern", f"{name}={built}/{name}.rlib"]
    for below in crate.below:
        words += ["-L", f"dependency={below.folder}/out/rlib"]
    words += ["--antt-project", f"{kit}/rattle/logic/antt-project.json", "--logic-built", f"{kit}/logic_built"]
    return [*words, "--jobs", str(jobs)]


def command(crate, crates, kit, jobs):
    """Returns the command that proves the crate and builds its library, or the object file of its program."""
    words = [kit / "bin/rattle", "build", *options(crate, crates, kit, jobs), "--links", f"{crate.name}="]
    if crate.is_program:
        return [*words, "--toolchain", f"{kit}/toolchain", "--backend", "llvm", "-o", f"out/{crate.name}.o"]
    return [*words, "--statements", "-o", f"out/rlib/{crate.name}.rlib"]


def processors():
    return len(os.sched_getaffinity(0))


def has_memory():
    """Returns whether another check may start."""
    with open("/proc/meminfo", encoding="utf-8") as file:
        free = [int(line.split()[1]) * 1024 for line in file if line.startswith("MemAvailable:")]
    return free[0] >= NEEDED_MEMORY


def start_guard():
    """Starts a process that waits until this one ends, even by SIGKILL, and then kills its own process group. Returns that group: the
    checks join it."""
    reading, writing = os.pipe()
    guard = os.fork()
    if guard == 0:
        os.setpgid(0, 0)
        os.close(writing)
        os.read(reading, 1)
        os.killpg(0, signal.SIGKILL)
    os.close(reading)
    with contextlib.suppress(PermissionError):
        os.setpgid(guard, guard)
    return guard
