"""The crates of crates.txt, for tools/prove, tools/unproved and tools/verdict."""

import os
import shutil
import subprocess
from pathlib import Path

TOP = Path(__file__).resolve().parent.parent
# Of a crate that isn't in tests/budget.txt.
DEFAULT_SECONDS = 100


class Crate:
    def __init__(self, line, folder):
        name, _, libraries = line.partition("#")[0].partition(":")
        self.name = name.split()[0]
        self.line = line
        self.libraries = libraries.split()
        self.folder = folder / "crates" / self.name
        self.is_program = (self.folder / "src/main.rt").exists()
        self.below = []
        self.seconds = DEFAULT_SECONDS
        self.chain = 0
        # Identifies the library, once it is built.
        self.version = None


def find_below(crate, crates):
    """Returns all crates below this one."""
    found = {}
    for name in crate.libraries:
        if name in crates:
            found.update(find_below(crates[name], crates), **{name: crates[name]})
    return found


def crates_in(folder):
    """Returns the crates of FOLDER/crates.txt by name."""
    lines = (folder / "crates.txt").read_text(encoding="utf-8").splitlines()
    made = [Crate(line, folder) for line in lines if line.partition("#")[0].strip()]
    crates = {crate.name: crate for crate in made}
    for crate in made:
        crate.below = list(find_below(crate, crates).values())
    return crates


def proof_seconds(crates):
    """Sets the processor seconds of each crate's proof, by tests/budget.txt."""
    seconds = {}
    budget = TOP / "tests/budget.txt"
    for line in budget.read_text(encoding="utf-8").splitlines() if budget.exists() else ():
        words = line.partition("#")[0].split()
        if words:
            seconds[words[0]] = int(words[1])
    for crate in crates.values():
        crate.seconds = seconds.get(crate.name, DEFAULT_SECONDS)


def toolchain():
    """Returns the folder of the Rattle toolchain, or None."""
    rt = Path(shutil.which("rt") or "/opt/rattle/bin/rt")
    return rt.resolve().parent.parent if os.access(rt, os.X_OK) else None


def shell(function, *words):
    """Calls a function of tools/building.sh, and returns what it prints."""
    line = ["sh", "-c", f'. "$top/tools/building.sh" && {function} "$@"', "sh", *map(str, words)]
    return subprocess.run(line, env={**os.environ, "top": str(TOP)}, stdout=subprocess.PIPE, text=True, check=True).stdout
