"""What a profile leaves of a program, by the library."""

import subprocess

from files_steps import Steps
from scripts import Script, tree_of

# A crash keeps any letter of an unsynced write with this rate, in units of a letter.
WRITES = "config write 0 1 {} sectors {}"
# A page of the file systems, and how many letters a large sector has.
PAGE, LARGE = 4096, 16
# The lines that change names or truncate.
EDITS = ("create", "link", "unlink", "rename", "mkdir", "rmdir", "truncate", "open_truncated")
SYNCS = ("fsync", "fdatasync", "fsyncdir")


class TooMany(Exception):
    """A program has too many outcomes to try them all."""


class Written:
    """The lines of a case. After each number of its steps a crash comes after some number of lines: the first and the last of these."""

    def __init__(self, script, case):
        self.unit, self.script = case.unit, script
        steps = Steps(script, 1)
        if "~sync" in case.steps:
            script.make_other()
        for text in case.before:
            steps.make(text)
        script.settle()
        self.start = len(script.lines)
        self.ends = [[self.start, self.start]]
        for text in case.steps:
            if text == "~sync":
                script.sync_other()
                self.ends[-1][1] = len(script.lines)
            elif not text.startswith("~"):
                steps.make(text)
                self.ends.append([len(script.lines)] * 2)
        # Whether a crash after a number of lines leaves a state.
        self.known = {}


class Model:
    """What a profile leaves of programs, by the library: trees.c."""

    def __init__(self, program, profile):
        self.profile = profile
        self.case, self.lines = None, None
        self.trees = subprocess.Popen([program], stdin=subprocess.PIPE, stdout=subprocess.PIPE, text=True)

    def close(self):
        self.trees.stdin.close()
        self.trees.wait()
        self.trees.stdout.close()

    def explore(self, unit, lines):
        """Returns the states that a crash after these lines leaves. A letter has `unit` bytes. Raises TooMany."""
        self.trees.stdin.write("\n".join([f"unit {unit}", f"profile {self.profile}", WRITES.format("1 2", unit), *lines, ".\n"]))
        self.trees.stdin.flush()
        states = set()
        for line in self.trees.stdout:
            if line.startswith("="):
                if line == "= limit\n":
                    raise TooMany
                return states
            states.add(tree_of(line))
        raise ValueError("\n".join(lines))

    def states(self, case):
        """Returns the states that a crash after a case leaves, or none if there are too many."""
        try:
            return self.explore(case.unit, self.written(case).script.lines)
        except TooMany:
            return set()

    def is_in(self, case, done, inside, state):
        """Whether what a crash left after this number of steps of a case, or inside of the next step, is in the set."""
        return self.leaves(self.written(case), done, inside, state)

    def written(self, case):
        """The lines of a case."""
        if case != self.case:
            self.case, self.lines = case, Written(Script(), case)
        return self.lines

    def leaves(self, written, done, inside, state):
        """Whether a crash leaves a state. Inside of a step it does if it does after some of the calls of which this consists."""
        first, last = written.ends[done]
        if inside:
            last = written.ends[done + 1][0]
        return any(self.has(written, end, state) for end in range(first, last + 1))

    def has(self, written, end, state):
        """Whether a crash after some lines leaves a state. First without the draws that the state decides, and then with all. If these are
        too many it is taken for one that isn't left; a shorter program shows whether that is so."""
        place = end, state
        if place not in written.known:
            lines, unit = written.script.lines, written.unit
            kept = logged if self.profile == "btrfs" else up_to_point
            try:
                is_found = any(state in self.explore(unit, lines[: written.start] + given) for given in directed(written, end, state, kept))
                written.known[place] = is_found or state in self.explore(unit, lines[:end])
            except TooMany:
                written.known[place] = False
        return written.known[place]


def up_to_point(written, end):
    """The rates with which a crash keeps edits, by their lines: those up to some point."""
    edits = edits_of(written, written.start, end)
    for count in range(len(edits), -1, -1):
        yield {**dict.fromkeys(edits[:count], "1 1"), **dict.fromkeys(edits[count:], "0 1")}


def logged(written, end):
    """The same for btrfs: any edits from before the last sync, or all of these and later ones up to some point."""
    yield from up_to_point(written, end)
    last = last_sync(written.script.lines, written.start, end)
    yield {**dict.fromkeys(edits_of(written, written.start, last), "1 2"), **dict.fromkeys(edits_of(written, last, end), "0 1")}


def last_sync(lines, start, end):
    """The number of the last line that syncs between two, or the first of them."""
    return max((number for number in range(start, end) if lines[number].split()[0] in SYNCS), default=start)


def edits_of(written, start, end):
    return [number for number in range(start, end) if written.script.lines[number].split()[0] in EDITS]


def directed(written, end, state, kept):
    """The lines of a case up to one, with rates of 0 and 1 that leave few draws: a write is lost of which a state has nothing, and kept of
    which it has everything. Edits are kept by a rule. Returns lines for each of its rates: first those by which zeros that a write leaves
    are kept or lost in large sectors."""
    letters = "".join(word.partition("=")[2] for word in state.split())
    for sectors in (LARGE * written.unit, written.unit):
        planned, places, is_same = [], {}, True
        for number in range(written.start, end):
            line = written.script.lines[number]
            rate, is_zeros = rate_of(line, number in written.script.grows, letters, written.unit)
            if rate:
                planned.append(WRITES.format(rate, sectors if is_zeros else written.unit))
                is_same = is_same and not is_zeros
            places[number] = len(planned)
            planned.append(line)
        for rates in kept(written, end):
            yield list(with_keeps(planned, {places[number]: rate for number, rate in rates.items()}))
        if is_same:
            break


def with_keeps(lines, rates):
    """Lines, with the rate with which a crash keeps an edit before each that has one, by its number."""
    for number, line in enumerate(lines):
        if number in rates:
            yield f"keep {rates[number]}"
        yield line


def rate_of(line, grows, letters, unit):
    """The rate with which a crash keeps a write, if a state has these letters, or None if a line writes nothing; and whether it is drawn
    for zeros alone. A write that makes a file longer may leave zeros, and so may a truncation within a page."""
    words = line.split()
    if words[0] in ("truncate", "open_truncated") and unit < PAGE:
        return "1 2", False
    if words[0] != "write":
        return None, False
    written = bytes.fromhex(words[3]).decode()
    if not any(letter in letters for letter in written):
        return ("1 2", True) if grows and "0" in letters else ("0 1", False)
    is_whole = all(letters.count(letter) == written.count(letter) for letter in written)
    return "1 1" if is_whole else "1 2", False
