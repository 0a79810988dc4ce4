"""Random programs on files: in each profile the library has the same errors, and `explore` finds the same outcomes, each as often, as in
the rules written in Python (tests/files_model.py). A second crash changes nothing. The last line is `N passed, M failed`.

    files_random.py [FIRST COUNT]
"""

import random
import sys

from files_model import PROFILES, Model

from blobcrash import Files, explore

SECTOR = 4
SETTINGS = ["write 0 1 1 2 sectors 4"]
# A program is left out in a profile in which it has more runs.
MOST_RUNS = 128
PATHS = ("/a", "/b", "/x", "/y", "/x/f", "/y/f", "/x/z", "/x/z/f", "/y/x")
MODES = {"put": "xb", "append": "ab", "write": "r+b", "rewrite": "wb"}
ON_PATH = ("mkdir", "mkdir", "unlink", "rmdir", "fsync", "fdatasync", "fsync_directory")
ON_TWO = ("rename", "rename", "rename", "exchange", "link")


def random_step(chance):
    path, other = chance.choice(PATHS), chance.choice(PATHS)
    kind = chance.randrange(20)
    if kind < 6:
        return chance.choice(list(MODES)), path, chance.randrange(1, 3)
    if kind < 8:
        return "truncate", path, chance.randrange(5) * SECTOR // 2
    if kind < 13:
        return chance.choice(ON_PATH), path
    if kind < 19:
        return chance.choice(ON_TWO), path, other
    return chance.choice([("sync",), ("fsync_directory", "/"), ("commit",)])


def steps_of(chance, count, files):
    """Random steps, most of which aren't refused."""
    steps = []
    while len(steps) < count:
        word, *arguments = random_step(chance)
        try:
            step(files, word, arguments, b"-")
        except OSError:
            if chance.random() < 0.95:
                continue
        steps.append((word, *arguments))
    return steps


def step(files, word, arguments, letter):
    if word in MODES:
        path, sectors = arguments
        with files.open(path, MODES[word]) as file:
            file.write(letter * sectors * SECTOR)
    elif word in ("fsync", "fdatasync"):
        with files.open(*arguments) as file:
            getattr(files, word)(file)
    else:
        getattr(files, word)(*arguments)


def tree(files, path="/"):
    """All that is found below a directory."""
    found = []
    for name in files.listdir(path):
        below = f"{path.rstrip('/')}/{name}"
        status = files.stat(below)
        if status.kind == "directory":
            found.append((name, status.inode, tree(files, below)))
        else:
            with files.open(below) as file:
                found.append((name, status, file.read()))
    return tuple(found)


class Program:
    """A random program, of which the first steps are durable. It returns its refusals, what is found before the crash, and after it."""

    def __init__(self, seed):
        chance = random.Random(seed)
        with Files(settings=["keep 1 1"], by=Model) as files:
            self.before = steps_of(chance, chance.randrange(10), files)
            self.steps = steps_of(chance, chance.randrange(1, 7), files)
        self.settings = SETTINGS + chance.choice((["resize 1 2 0 1"], ["resize 1 2 1 2"], [], [], []))
        # Settings that come after what is durable.
        self.later = chance.choice((["sync 1 2", "failed_sync drops"], ["sync 1 2"], ["syncs lie"], ["edits logged"], ["edits prefix"], [], [], []))

    def __call__(self, files):
        files.configure("keep 1 1")
        refusals = []
        for steps, letters in ((self.before, b"abcdefghij"), (self.steps, b"ABCDEF")):
            for at, (word, *arguments) in enumerate(steps):
                try:
                    step(files, word, arguments, letters[at : at + 1])
                except OSError as error:
                    refusals.append((at, error.refusal))
            if steps is self.before:
                files.settle()
                files.configure("keep 1 2")
                for setting in self.later:
                    files.configure(setting)
        live = tree(files)
        edits = tuple(files.restart().edits)
        left = tree(files)
        files.restart()
        assert tree(files) == left, "a second crash changes what is found"
        return tuple(refusals), live, edits, left

    def outcomes(self, profile, **way):
        """The outcomes, or `None` if there are too many runs."""
        explored = explore(self, files=profile, settings=self.settings, runs=MOST_RUNS, **way)
        return explored.outcomes if explored.complete else None


def compare(first, count):
    """Returns how many comparisons hold, and prints those that don't."""
    passed = failed = 0
    # Of each profile, those by the rules of which some program has other outcomes.
    told_apart = set()
    for seed in range(first, first + count):
        program = Program(seed)
        wanted = {profile: program.outcomes(profile, by=Model) for profile in PROFILES}
        for profile, outcomes in wanted.items():
            if outcomes is None:
                continue
            found = program.outcomes(profile)
            told_apart |= {(profile, other) for other in PROFILES if wanted[other] not in (None, found)}
            if found == outcomes:
                passed += 1
            else:
                failed += 1
                print(f"files_random.py: FAILED: program {seed} in {profile}: {program.before}, then {program.steps}")
                print(f"  only by the rules: {sorted(set(outcomes) - set(found), key=str)}")
                print(f"  only found: {sorted(set(found) - set(outcomes), key=str)}")
    pairs = len(PROFILES) * (len(PROFILES) - 1)
    if count >= 40:
        passed, failed = passed + len(told_apart), failed + pairs - len(told_apart)
    return passed, failed


def main(first=0, count=60):
    passed, failed = compare(int(first), int(count))
    print(f"{passed} passed, {failed} failed")
    return int(failed > 0)


if __name__ == "__main__":
    sys.exit(main(*sys.argv[1:]))
