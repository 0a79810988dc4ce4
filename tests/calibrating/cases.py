"""Cases: a program with what is durable before it, and what the kernel does by itself between its steps; random ones from a seed."""

import random
from typing import NamedTuple

from files_steps import Steps, parted
from scripts import Script

FILES = ("a", "b", "c")
FOLDERS = ("d", "e")
# How many calls a random program has, letters a write, and how many draws a crash of it may have.
MOST_STEPS, MOST_LETTERS, MOST_DRAWS = 8, 3, 11


class Case(NamedTuple):
    """The steps of tests/files_steps.py. Those that begin with `~` aren't the program's: `~commit` commits the file system's changes,
    `~sync` syncs another file, `~back PATH FROM TO` writes a file's letters back, `~wait` waits for a tick of the clock of files. The unit
    is the size of a letter."""

    before: tuple
    steps: tuple
    unit: int = 4096

    def __str__(self):
        unit = f"unit {self.unit}: " if self.unit != 4096 else ""
        return f"{unit}{', '.join(self.before)} -- {', '.join(self.steps)}"

    def calls(self):
        """The program's own steps."""
        return tuple(step for step in self.steps if not step.startswith("~"))

    @staticmethod
    def parse(text):
        """A case of its text: `f = A -- append B to f, fsync f`."""
        unit = 4096
        if text.startswith("unit "):
            number, _, text = text[5:].partition(":")
            unit = int(number)
        before, _, steps = text.rpartition("--")
        return Case(tuple(parted(before, ",")), tuple(parted(steps, ",")), unit)


def valid(case):
    """Whether the steps of a case succeed one after another."""
    script = Script()
    steps = Steps(script, 1)
    try:
        for text in (*case.before, *case.steps):
            if text.startswith("~back"):
                _, path, _, end = text.split()
                if script.found[path].length < int(end):
                    return False
            elif not text.startswith("~"):
                steps.make(text)
    except (KeyError, OSError, ValueError):
        return False
    return bool(case.calls())


class Follow:
    """Follows which files there are while steps are made."""

    def __init__(self, before):
        self.script = Script()
        self.steps = Steps(self.script, 1)
        for text in before:
            self.steps.make(text)

    def written(self, text):
        """Makes a step. Returns the file that it writes to, with its length, or None and 0."""
        self.steps.make(text)
        words = text.split()
        path = words[0] if words[1:2] == ["="] else words[3] if words[0] in ("append", "write") else None
        return path, self.script.found[path].length if path else 0


class Sketch:
    """Draws the steps of a case, each of which succeeds."""

    def __init__(self, seed):
        self.random = random.Random(seed)
        self.script = Script()
        self.steps = Steps(self.script, 1)
        self.draws = 0
        self.letters = iter("BCDEFGHIJKLMNOPQRSTUVWXYZ")

    def letter(self):
        return next(self.letters, "Z")

    def make(self, text):
        self.steps.make(text)
        return text

    # What there is, and where something new may go.

    def files(self):
        return [path for path, entry in self.script.found.items() if entry.length is not None]

    def folders(self):
        return [path for path, entry in self.script.found.items() if entry.length is None and path not in "/."]

    def free(self, names=FILES):
        """Names that aren't taken, in the root or in a folder."""
        places = ["", *(f"{folder}/" for folder in self.folders() if "/" not in folder)]
        paths = [place + name for place in places for name in names]
        return [path for path in paths if path not in self.script.found]

    def pick(self, paths):
        return self.random.choice(paths) if paths else None

    def length(self, path):
        return self.script.found[path].length

    def written(self):
        return self.letter() * self.random.choice((1, 1, 2, MOST_LETTERS))

    # Each returns a step, or None if there is none of its kind now.

    def put(self):
        path = self.pick(self.free())
        return path and f"{path} = {self.written()}"

    def create(self):
        path = self.pick(self.free())
        return path and f"create {path}"

    def append(self):
        path = self.pick(self.files())
        return path and f"append {self.written()} to {path}"

    def overwrite(self):
        path = self.pick([path for path in self.files() if self.length(path)])
        return path and f"write {self.letter()} to {path} at {self.random.randrange(self.length(path))}"

    def sparse(self):
        path = self.pick(self.files())
        return path and f"write {self.letter()} to {path} at {self.length(path) + self.random.choice((1, 1, 2))}"

    def map(self):
        path = self.pick([path for path in self.files() if self.length(path)])
        return path and f"map {self.letter()} to {path} at {self.random.randrange(self.length(path))}"

    def rewrite(self):
        path = self.pick(self.files())
        return path and f"rewrite {path} {self.written()}"

    def empty(self):
        path = self.pick(self.files())
        return path and f"empty {path}"

    def truncate(self):
        path = self.pick([path for path in self.files() if self.length(path)])
        if not path:
            return None
        length = self.random.randrange(self.length(path))
        return f"truncate {path} to {'A' * length}" if length else f"truncate {path}"

    def extend(self):
        path = self.pick(self.files())
        return path and f"truncate {path} to {'A' * (self.length(path) + self.random.choice((1, 1, 2)))}"

    def allocate(self):
        path = self.pick(self.files())
        return path and f"allocate {path} to {'A' * max(1, self.length(path) + self.random.choice((0, 1, 2)))}"

    def mkdir(self):
        path = self.pick([path for path in self.free(FOLDERS) if "/" not in path])
        return path and f"mkdir {path}"

    def rmdir(self):
        found = self.script.found
        path = self.pick([path for path in self.folders() if not any(other.startswith(f"{path}/") for other in found)])
        return path and f"rmdir {path}"

    def move(self):
        old, new = self.pick(self.files()), self.pick(self.free())
        return old and new and f"rename {old} {new}"

    def replace(self):
        files = self.files()
        old = self.pick(files)
        new = self.pick([path for path in files if self.script.found[path] is not self.script.found[old]])
        return new and f"rename {old} {new}"

    def move_folder(self):
        old, new = self.pick(self.folders()), self.pick([path for path in self.free(FOLDERS) if "/" not in path])
        return old and new and f"rename {old} {new}"

    def exchange(self):
        files = self.files()
        if len(files) < 2:
            return None
        one, other = self.random.sample(files, 2)
        return f"exchange {one} {other}"

    def link(self):
        old, new = self.pick(self.files()), self.pick(self.free())
        return old and new and f"link {old} {new}"

    def unlink(self):
        path = self.pick(self.files())
        return path and f"unlink {path}"

    def fsync(self):
        path = self.pick(self.files())
        return path and f"fsync {path}"

    def fdatasync(self):
        path = self.pick(self.files())
        return path and f"fdatasync {path}"

    def fsync_folder(self):
        return f"fsync {self.pick(['/', *self.folders()])}"

    KINDS = {
        put: 6, create: 2, append: 6, overwrite: 6, sparse: 2, map: 1, rewrite: 2, empty: 1, truncate: 4, extend: 2, allocate: 2,
        mkdir: 2, rmdir: 1, move: 4, replace: 4, move_folder: 1, exchange: 1, link: 2, unlink: 3, fsync: 7, fdatasync: 2, fsync_folder: 3,
    }  # fmt: skip

    def step(self):
        """Draws a step and makes it."""
        kinds, weights = zip(*self.KINDS.items())
        while True:
            text = self.random.choices(kinds, weights)[0](self)
            if text:
                return self.make(text)

    def before(self):
        """What is durable: up to three files in up to two folders."""
        texts = [f"mkdir {name}" for name in FOLDERS if self.random.random() < 0.3]
        for text in texts:
            self.make(text)
        for _ in range(self.random.randrange(4)):
            path = self.pick([path for path in self.free() if path[-1] not in {path[-1] for path in self.files()}])
            if path:
                texts.append(self.make(f"{path} = {'A' * self.random.choice((1, 2, 2, 3))}"))
        return texts

    def background(self):
        """What the kernel does by itself after a step."""
        drawn = self.random.random()
        if drawn < 0.12:
            return ["~commit"]
        files = [path for path in self.files() if self.length(path)]
        if drawn < 0.3 and files:
            path = self.pick(files)
            start, end = sorted(self.random.sample(range(self.length(path) + 1), 2))
            return [f"~back {path} {start} {end}"]
        return ["~wait"] if drawn < 0.5 else []


def draws_of(texts):
    """About how many draws the crash of a program has, if it syncs nothing."""
    words = " ".join(texts).split()
    letters = sum(len(word) for word in words if word.isupper())
    return letters + len(texts)


def random_case(seed, unit=4096):
    """Returns the case of a seed."""
    sketch = Sketch(seed)
    before = sketch.before()
    steps, all_steps = [], []
    count = sketch.random.randint(2, MOST_STEPS)
    while len(steps) < count and draws_of(steps) < MOST_DRAWS:
        steps.append(sketch.step())
        all_steps += [steps[-1], *sketch.background()]
    return Case(tuple(before), tuple(all_steps), unit)
