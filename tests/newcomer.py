"""What README shows first, as a new user runs it in a clone in which nothing is built, with an empty cache: the first answer of
`./blobcrash`, the first examples in Python and Rust, a thousand seeds, and a mount. The code and the commands are those of README.
Arguments: the clone.

Prints how long each took. Fails if one fails, or takes three times as long as is wanted: a minute for the first answer, four for the
others together. The last line is `N passed, M failed`."""

import os
import re
import resource
import shutil
import subprocess
import sys
import tempfile
import time
from pathlib import Path

from pages import commands, named, programs, read

# In seconds, when nothing else runs. Beside other tests everything takes longer.
FIRST_ANSWER, OTHERS, FACTOR = 60, 240, 3


class Clone:
    """Runs what README shows, and counts."""

    def __init__(self, folder, work):
        self.folder, self.work = folder, work
        self.lines = read(folder / "README.md")
        kept = {name: value for name, value in os.environ.items() if not name.startswith(("BLOBCRASH", "PYTHON", "CARGO_TARGET"))}
        self.environment = {**kept, "XDG_CACHE_HOME": str(work / "cache"), "PYTHONDONTWRITEBYTECODE": "1", "TMPDIR": str(work)}
        self.passed, self.failed, self.skipped = 0, 0, 0

    def tell(self, holds, what):
        self.passed, self.failed = self.passed + bool(holds), self.failed + (not holds)
        if not holds:
            print(f"newcomer.py: FAILED: {what}")

    def run(self, what, command, wanted, status=0, **environment):
        """Runs a command, compares the lines that it prints, and returns how many seconds it took."""
        began, before = time.monotonic(), _processor_seconds()
        ran = subprocess.run(command, shell=True, cwd=self.folder, env={**self.environment, **environment}, stdin=subprocess.DEVNULL,
                             stdout=subprocess.PIPE, stderr=subprocess.PIPE, text=True, check=False)
        took = time.monotonic() - began
        printed = ran.stdout.splitlines()
        print(f"{what}: {took:.1f} s, {_processor_seconds() - before:.1f} s of a processor", flush=True)
        told = ran.stderr.count("not proved yet")
        holds = ran.returncode == status and wanted(printed) and told <= 1
        self.tell(holds, f"{what}: status {ran.returncode}, not proved {told} times, {printed[-5:]}, {ran.stderr[-2000:]}")
        return took

    def shown(self, beginning):
        """The first command of README that begins so, with what compares its lines."""
        command, printed = next(pair for pair in commands(self.lines) if pair[0].startswith(beginning))
        return command, lambda lines: lines == [line.rstrip() for line in printed if line.strip()]

    def skip(self, what, is_package=True):
        """Leaves something out. With CI=true that fails if a package of .ci/packages is missing."""
        print(f"newcomer.py: skipped: {what}")
        fails = is_package and os.environ.get("CI") == "true"
        self.skipped, self.failed = self.skipped + (not fails), self.failed + fails


def _processor_seconds():
    used = resource.getrusage(resource.RUSAGE_CHILDREN)
    return used.ru_utime + used.ru_stime


def seeds(clone):
    took = clone.run("a thousand seeds", *clone.shown("python3 examples/seeds.py"))
    forgets = next(command for command in sorted(named(clone.lines)) if command.startswith("python3 examples/seeds.py"))
    # By hand: an open, a write, its acknowledgement, a crash and a reopen.
    return took + clone.run("a sync that is forgotten", forgets, lambda lines: " of which it takes 5:" in lines[1], status=1)


def python(clone):
    program, printed = programs(clone.lines)[0]
    (clone.work / "first.py").write_text(program, encoding="utf-8")
    command = f"python3 '{clone.work}/first.py'"
    return clone.run("the first example in Python", command, lambda lines: lines == printed, PYTHONPATH="bindings/python")


def rust(clone):
    if not shutil.which("cargo"):
        clone.skip("Rust: there is no cargo")
        return 0
    name = next(found[1] for found in (re.match(r"<!-- quoted: bindings/rust/examples/(\w+)\.rs -->", line) for line in clone.lines) if found)
    command = f"cargo run -q --offline --manifest-path bindings/rust/Cargo.toml --example {name}"
    prints = re.findall(r"The program in Rust prints `([^`]*)`", "\n".join(clone.lines))
    return clone.run("the first example in Rust", command, lambda lines: lines == prints, CARGO_TARGET_DIR=str(clone.work / "target"))


def mount(clone):
    tools = (shutil.which("fusermount3"), shutil.which("cc"), shutil.which("pkg-config"))
    if not all(tools) or subprocess.run(["pkg-config", "--atleast-version=3.10", "fuse3"], check=False).returncode:
        clone.skip("the mount: libfuse 3 is missing")
        return 0
    if not os.access("/dev/fuse", os.R_OK | os.W_OK):
        clone.skip("the mount: there is no /dev/fuse", is_package=False)
        return 0
    # The crash keeps what was synced, and the name of the other file.
    found = re.compile(r" *4 \S*/synced$"), re.compile(r" *0 \S*/unsynced$")
    return clone.run("a mount", "sh examples/mount.sh", lambda lines: all(any(each.match(line) for line in lines) for each in found))


def main(folder):
    work = Path(tempfile.mkdtemp(dir=folder.parent))
    (work / "cache").mkdir()
    clone = Clone(folder, work)
    first = clone.run("the first answer", *clone.shown("./blobcrash "))
    clone.tell(first < FACTOR * FIRST_ANSWER, f"the first answer took {first:.0f} s, {FACTOR * FIRST_ANSWER} at most")
    others = python(clone) + rust(clone) + seeds(clone) + mount(clone)
    clone.tell(others < FACTOR * OTHERS, f"the others took {others:.0f} s, {FACTOR * OTHERS} at most")
    print(f"the others together: {others:.1f} s; wanted are {FIRST_ANSWER} s for the first answer, {OTHERS} s for the others")
    print(f"{clone.passed} passed, {clone.failed} failed" + (f", {clone.skipped} skipped" if clone.skipped else ""))
    return int(clone.failed > 0)


if __name__ == "__main__":
    sys.exit(main(Path(sys.argv[1])))
