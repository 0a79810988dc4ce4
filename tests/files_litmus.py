"""The litmus programs of docs/FILES.md: in each profile `explore` finds exactly the outcomes of the page's tables, which are worked out by
hand from its rules. What was seen on real file systems lies in their profiles' sets. The last line is `N passed, M failed`."""

import os
import sys

TOP = os.path.dirname(os.path.dirname(os.path.abspath(__file__)))
sys.path.insert(0, os.path.join(TOP, "bindings", "python"))

from blobcrash import explore

from files_steps import Steps, parted

# How many bytes a letter has in the first table, and in the second one.
PAGE, SECTOR = 4096, 512
PROFILES = ("ext4", "xfs", "btrfs", "posix")
# How many runs an exploration may have: far less than a second's.
MOST_RUNS = 1000

# What Linux 6.18 left on an image of 4 KB blocks that was copied right after the calls, or after background writeback: a letter is a
# block. The columns are the program, what is durable before, the files looked at, ext4 (also without delayed allocation), XFS, btrfs.
SEEN = """
append BB to f | f = AA | f | AA | AA | AA
append BB to f, o = X, fsync o | f = AA | f | AA AA0B AABB | AA AABB AA0B | AA
t = BB, rename t f | f = AA | f | AA | AA | AA
t = BB, rename t f, o = X, fsync o | f = AA | f | BB | empty | AA
t = BB, rename t f, o = X, fsync o | | f | empty BB | empty | none
rewrite f BB | f = AA | f | AA | AA | AA
rewrite f BB, o = X, fsync o | f = AA | f | BB | BB | AA
t = BB, link t f, unlink t, o = X, fsync o | | f | empty BB | empty | none
mkdir s, s/f = BB, fsync s/f | | s/f | BB | BB | BB
create f, mkdir q, q/o = X, fsync q/o | | f | empty | empty | none
create f, fsync d | mkdir d | f | empty | none | none
create f, write B to g, fdatasync g | g = AA | f | none | none | none
create f, write B to g, fsync g | g = AA | f | empty | empty none | none
write A to g, fsync g, create f, write B to g, fsync g | g = AA | f | empty none | empty none | none
unlink f | f = AA | f | AA | AA | AA
unlink f, o = X, fsync o | f = AA | f | none | none | AA
rename f g, fsync g | f = AA | f, g | none/AA | none/AA | none/AA
write B to f | f = AA | f | AA BA | AA BA | AA
write B to f, o = X, fsync o | f = AA | f | AA BA | AA BA | AA
truncate f to A, o = X, fsync o | f = AA | f | A | A | AA
truncate f to AA00, o = X, fsync o | f = AA | f | AA00 | AA00 | AA00
write B to f, fsync f, append BB to f | f = AA | f | BA | BA | BA
truncate f to A, create g | f = AA | f, g | AA/none | AA/none | AA/none
truncate f to A, create g, o = X, fsync o | f = AA | f, g | A/empty | A/empty | AA/none
create g, truncate f to A, o = X, fsync o | f = AA | f, g | A/empty | A/empty | AA/none
truncate f to A, rename f g, o = X, fsync o | f = AA | f, g | none/A | none/A | AA/none
truncate f to A, fsync f, append B to f | f = AA | f | A | A | A
truncate f to A, fsync / | f = AA | f | A | AA | AA
truncate f to A, append BB to f, o = X, fsync o | f = AA | f | A A0B ABB | A A0B ABB | AA
append B to f, truncate f to AA, o = X, fsync o | f = AA | f | AA | AA | AA
f = B, truncate f to BB, o = X, fsync o | | f | 00 B0 | B0 | none
append BB to f, truncate f to AAA, o = X, fsync o | f = AA | f | AA0 AAB | AA0 AAB | AA
truncate f to AAA, append B to f, o = X, fsync o | f = AA | f | AA0 AA0B | AA0 AA0B | AA
write B to f, create g, fsync f | f = A | f, g | B/empty | B/empty | B/none
append B to f, create g, fsync f | f = A | f, g | AB/empty | AB/empty | AB/none
write B to f, o = X, fsync o, create g, fsync f | f = A | f, g | B/none | B/none | B/none
append B to f, o = X, fsync o, create g, fsync f | f = A | f, g | AB/empty AB/none | AB/empty AB/none | AB/none
write B to f, fsync q, create g, fsync f | f = A, mkdir q | f, g | B/none | B/empty | B/none
write B to f, o = X, fsync o, create g, write C to f, fsync f | f = A | f, g | C/empty | C/empty | C/none
write B to f, o = X, fsync o, rename o p, fsync f | f = A | f, o, p | B/X/none | B/X/none | B/none/X
create g, append B to f, fdatasync f | f = A | f, g | AB/empty | AB/empty | AB/none
rename f g, fdatasync g | f = A | f, g | A/none | none/A | none/A
append BB to f, o = X, fsync o, truncate f to AA | f = A | f | A A0B ABB | A A0B ABB | A
t = BB, o = X, fsync o, rename t f | f = AA | t, f | BB/AA empty/AA | empty/AA | none/AA
"""

class Litmus:
    """A program as a body of `explore`, which returns what is found of its files after a crash."""

    def __init__(self, program, before, looks_at, letter=PAGE):
        self.before, self.program, self.looks_at = (parted(text, ",") for text in (before, program, looks_at))
        self.letter = letter

    def __call__(self, files):
        steps = Steps(files, self.letter)
        # Nothing is drawn before the program.
        files.configure("keep 1 1")
        for text in self.before:
            steps.make(text)
        files.settle()
        files.configure("keep 1 2")
        for text in self.program:
            steps.make(text)
        files.restart()
        return "/".join(steps.look(path) for path in self.looks_at)

    def outcomes(self, profile, *settings):
        """The outcomes in a profile, each of them found."""
        explored = explore(self, files=profile, settings=[f"write 0 1 1 2 sectors {self.letter}", *settings])
        assert explored.complete
        return set(explored.outcomes), explored.runs


def rows_of(text):
    return [[cell.strip() for cell in row.split("|")] for row in text.strip().split("\n")]


def page_rows():
    """The rows of the page's tables, each with the bytes of a letter."""
    with open(os.path.join(TOP, "docs", "FILES.md"), encoding="utf-8") as file:
        section = file.read().split("\n## Litmus programs\n")[1].split("\n## ")[0]
    tables = [part for part in section.split("\n\n") if part.startswith("| program |")]
    for letter, table in zip((PAGE, SECTOR), tables):
        # Below the head and the line after it.
        for line in table.strip().split("\n")[2:]:
            yield letter, [cell.strip() for cell in line.strip()[1:-1].split("|")]


def wanted(cell, before):
    """The outcomes of a cell, by those of ext4 and XFS before it."""
    words = cell.split()
    if words[0] == "as":
        return before[("ext4", "XFS").index(words[1])]
    return before[0] | set(words[1:]) if words[0] == "and" else set(words)


class Count:
    def __init__(self):
        self.passed = self.failed = 0

    def tell(self, holds, what):
        self.passed, self.failed = self.passed + bool(holds), self.failed + (not holds)
        if not holds:
            print(f"{os.path.basename(sys.argv[0])}: FAILED: {what}")


def compare_page(count):
    """Compares the page's tables."""
    most = 0
    rows = list(page_rows())
    count.tell(len(rows) == 60 and all(len(row) == 7 for _, row in rows), f"the page's tables have 60 rows of 7 cells: {len(rows)}")
    for letter, (program, before, looks_at, *cells) in rows:
        expected = []
        for profile, cell in zip(PROFILES, cells):
            found, runs = Litmus(program, before, looks_at, letter).outcomes(profile)
            expected.append(wanted(cell, expected))
            what = f"{program} ({profile}): wanted {sorted(expected[-1])}, found {sorted(found)} in {runs} runs"
            count.tell(found == expected[-1], what)
            most = max(most, runs)
    count.tell(most < MOST_RUNS, f"an exploration had {most} runs")


def compare_seen(count):
    """Compares what real file systems left."""
    for program, before, looks_at, *cells in rows_of(SEEN):
        for profile, cell in zip(PROFILES, cells):
            if cell:
                found, runs = Litmus(program, before, looks_at).outcomes(profile)
                seen = set(cell.split())
                what = f"{program} ({profile}): {sorted(seen)} was seen, found {sorted(found)} in {runs} runs"
                count.tell(seen <= found, what)


def compare_edits(count):
    """Which edits a crash keeps is a setting of its own. On POSIX the sync of `o` doesn't settle its name: `c` needs this too."""
    litmus = Litmus("create a, create b, o = X, fsync o, create c", "", "a, b, c")
    kept = {
        "btrfs, edits prefix": "none/none/none empty/none/none empty/empty/none empty/empty/empty",
        "ext4, edits logged": "empty/empty/none empty/empty/empty",
        "posix, edits logged": "none/none/none none/empty/none empty/none/none empty/empty/none empty/empty/empty",
        "posix, edits prefix": "none/none/none empty/none/none empty/empty/none empty/empty/empty",
    }
    for settings, cell in kept.items():
        found, _ = litmus.outcomes(*settings.split(", "))
        count.tell(found == set(cell.split()), f"{settings}: {sorted(found)}")


def found_parts(files, *places):
    """Returns the first byte of each part of a file that is found, between two of these places, `0` for a zero."""
    files.restart()
    with files.open("f") as file:
        content = file.read()
    parts = [content[start:end] for start, end in zip(places, places[1:]) if content[start:end]]
    assert all(part == part[:1] * len(part) for part in parts), "a part is torn"
    return b"".join(part[:1] for part in parts).replace(b"\0", b"0").decode()


def cut_and_append(files):
    """Truncates a file within a page, and appends to it there."""
    Steps(files, PAGE).put("f", "xb", "A")
    files.settle()
    with files.open("f", "r+b") as file:
        file.truncate(100)
        file.seek(100)
        file.write(b"C" * 100)
    return found_parts(files, 0, 100, 200, PAGE)


def write_beyond(files):
    """Writes to the second page of a file that ends within the first one."""
    Steps(files, 100).put("f", "xb", "A")
    files.settle()
    with files.open("f", "r+b") as file:
        file.seek(PAGE)
        file.write(b"C" * 100)
    return found_parts(files, 0, 100, PAGE, PAGE + 100)


def compare_within(count):
    """ext4 and XFS left the old length, with the new bytes and then zeros, after background writeback: `AC0`."""
    xfs = {"AAA", "A00", "ACA", "AC0", "A", "AC"}
    outcomes = {"ext4": xfs | {"A0A", "A0"}, "xfs": xfs, "btrfs": {"AAA", "A0A", "ACA", "A", "A0", "AC"}, "posix": xfs | {"A0A", "A0"}}
    for profile, expected in outcomes.items():
        found = set(explore(cut_and_append, files=profile, settings=[f"write 0 1 1 2 sectors {PAGE}"]).outcomes)
        count.tell(found == expected, f"a truncation and an append in a page ({profile}): {sorted(found)}")


def compare_beyond(count):
    """XFS left zeros up to the end of the page alone, after background writeback: `A0`."""
    others = {"A", "A0", "A00", "A0C"}
    outcomes = {"ext4": others, "xfs": {"A", "A0", "A0C"}, "btrfs": others, "posix": others}
    for profile, expected in outcomes.items():
        found = set(explore(write_beyond, files=profile, settings=[f"write 0 1 1 2 sectors {PAGE}"]).outcomes)
        count.tell(found == expected, f"a write beyond an end within a page ({profile}): {sorted(found)}")


def main():
    count = Count()
    compare_page(count)
    compare_seen(count)
    compare_within(count)
    compare_beyond(count)
    compare_edits(count)
    print(f"{count.passed} passed, {count.failed} failed")
    return int(count.failed > 0)


if __name__ == "__main__":
    sys.exit(main())
