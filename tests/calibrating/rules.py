"""How much of a profile's sets was ever left, by the rules of docs/FILES.md: which states are in a set only because of a rule."""

from itertools import product
from typing import NamedTuple

from model import EDITS, LARGE, PAGE, WRITES, TooMany, last_sync, with_keeps

# The lines that sync something, by the rule that says what they settle.
SYNCS = {"fsync": "7 sync", "fdatasync": "7 sync_data", "fsyncdir": "6 sync_directory"}
# Profiles without a rule: without zeros or flushes, without pages, and with syncs that settle no name.
NO_ZEROS, NO_PAGES, NO_NAMES = "profile xfs", "profile btrfs", "profile posix"
TRUNCATIONS = ("truncate", "open_truncated")
ON_FILE, OPENING = ("write", "truncate", "fsync", "fdatasync", "close"), ("create", "open", "open_truncated")
# More combinations aren't tried.
MOST_PLANS = 64


class Extra(str):
    """A line of a plan that opens a file, and that the program doesn't have."""


def renumbered(plan):
    """A plan in which the descriptors of the program are those that its calls now get."""
    made, numbers, count = [], [], 0
    for line in plan:
        words = line.split()
        is_path = words[1:] and words[1].startswith("/")
        if words[0] in ON_FILE and not is_path:
            words[1] = str(numbers[int(words[1])])
        if words[0] in OPENING or words[0] in ON_FILE and is_path:
            if not isinstance(line, Extra):
                numbers.append(count)
            count += 1
        made.append(" ".join(words))
    return made


def word_of(line):
    return line.split()[0]


class Program(NamedTuple):
    """The lines of a program, how many of them are durable, and what they do to files."""

    profile: str
    unit: int
    start: int
    lines: tuple
    # The lines that make a file longer, with its length before; and those that rename over a name.
    grows: dict
    replaces: frozenset

    def around(self, profile, wanted):
        """One plan: another profile for the lines that are wanted."""
        made = []
        for number, line in enumerate(self.lines):
            is_wanted = number >= self.start and wanted(number, line)
            made += [profile, line, f"profile {self.profile}"] if is_wanted else [line]
        return [made]

    def writes_with(self, rate, letters=1):
        return WRITES.format(rate, letters * self.unit)

    def kept(self, rates):
        """Lines in which a crash keeps edits with given rates, by their lines."""
        return list(with_keeps(self.lines, rates))

    def edits(self):
        return [number for number in range(self.start, len(self.lines)) if word_of(self.lines[number]) in EDITS]


# Each returns plans: lists of lines, whose states together are the set without the rule.


def whole_writes(program):
    """A write is kept or lost whole."""
    return [[program.writes_with("1 2", LARGE), *program.lines]]


def ordered_writes(program):
    """Of the writes those up to some point are kept, the last of these in part."""
    writes = [number for number in range(program.start, len(program.lines)) if word_of(program.lines[number]) == "write"]
    plans = []
    for last in writes:
        made = []
        for number, line in enumerate(program.lines):
            rate = "1 1" if number < last else "1 2" if number == last else "0 1"
            made += [program.writes_with(rate), line, program.writes_with("1 2")] if number in writes else [line]
        plans.append(made)
    return plans


def all_edits(program):
    """Of the edits that nothing settled all are kept, or none."""
    return [program.kept(dict.fromkeys(program.edits(), rate)) for rate in ("1 1", "0 1")]


def ordered_edits(program):
    """Of the edits that nothing settled those up to some point are kept."""
    return [["edits prefix", *program.lines]]


def settling(word):
    """A sync of this kind settles all edits."""

    def plans(program):
        made = []
        for number, line in enumerate(program.lines):
            made.append(line)
            if number >= program.start and word_of(line) == word:
                made.append("commit")
        return [made]

    return plans


def kept_truncations(program):
    """A crash keeps each truncation. Of the changes of names it keeps those up to some point, and on btrfs any from before the last sync."""
    names = [number for number in program.edits() if word_of(program.lines[number]) not in TRUNCATIONS]
    rates = [dict.fromkeys(names[end:], "0 1") for end in range(len(names) + 1)]
    if program.profile == "btrfs":
        last = last_sync(program.lines, program.start, len(program.lines))
        rates.append({number: "1 2" if number < last else "0 1" for number in names})
    return [["edits any", *program.kept({**dict.fromkeys(program.edits(), "1 1"), **chosen})] for chosen in rates]


def no_holes(program):
    """Of the letters beyond the end of a file those up to some point are kept."""
    grows = [number for number in program.grows if number >= program.start]
    choices = [range(end_of(program.lines[number]) - beyond(program, number) + 1) for number in grows]
    plans = []
    for chosen in product(*choices):
        if len(plans) == MOST_PLANS:
            raise TooMany
        kept, made = dict(zip(grows, chosen)), []
        for number, line in enumerate(program.lines):
            made += grown(program, number, kept[number]) if number in kept else [line]
        plans.append(made)
    return plans


def end_of(line):
    _, _, offset, letters = line.split()
    return int(offset) + len(letters) // 2


def beyond(program, number):
    """The place of the first letter of a write beyond the end of its file."""
    return max(program.grows[number], int(program.lines[number].split()[2]))


def grown(program, number, kept):
    """The pieces of a write that makes a file longer. Beyond the end its first letters are kept, this many, and the others lost."""
    _, file, offset, letters = program.lines[number].split()
    at, length, end = int(offset), program.grows[number], end_of(program.lines[number])
    middle = beyond(program, number) + kept
    pieces = [("1 2", length, "00" * (end - length))] if program.profile in ("ext4", "btrfs") else []
    pieces += [(rate, start, letters[2 * (start - at) : 2 * (stop - at)]) for rate, start, stop in parts(at, max(at, length), middle, end)]
    made = [Extra(f"write {file} {start} {text}") for _, start, text in pieces if text]
    made[0] = str(made[0])
    rates = [program.writes_with(rate) for rate, _, text in pieces if text]
    return [NO_ZEROS, *(line for pair in zip(rates, made) for line in pair), program.writes_with("1 2"), f"profile {program.profile}"]


def parts(at, beyond_end, middle, end):
    return (("1 2", at, beyond_end), ("1 1", beyond_end, middle), ("0 1", middle, end))


def no_zeros(program):
    """A write that makes a file longer writes no zeros."""
    return program.around(NO_ZEROS, lambda number, line: number in program.grows)


def synced_renames(program):
    """A rename over a name makes the bytes of its file durable."""
    made = []
    for number, line in enumerate(program.lines):
        is_over = number >= program.start and number in program.replaces
        made += [NO_NAMES, Extra(f"fsync {line.split()[1]}"), f"profile {program.profile}", line] if is_over else [line]
    return [made]


def no_flushes(program):
    """A rename over a name keeps no length."""
    return program.around(NO_ZEROS, lambda number, line: word_of(line) == "rename")


def no_pages(program):
    """A truncation writes no zeros."""
    return program.around(NO_PAGES, lambda number, line: word_of(line) in TRUNCATIONS)


# The rules: their number and word in docs/FILES.md, whether a profile has it for a size of letters, and what is left out.
RULES = (
    ("1 sectors", lambda profile, unit: True, whole_writes),
    ("2 order", lambda profile, unit: True, ordered_writes),
    ("5 edits", lambda profile, unit: True, all_edits),
    ("5 logged", lambda profile, unit: profile == "btrfs", ordered_edits),
    *((name, lambda profile, unit: True, settling(word)) for word, name in SYNCS.items()),
    ("8 holes", lambda profile, unit: True, no_holes),
    ("8 zeros", lambda profile, unit: profile != "xfs", no_zeros),
    ("9 rename", lambda profile, unit: True, synced_renames),
    ("9 flushes", lambda profile, unit: profile == "ext4", no_flushes),
    ("10 truncation", lambda profile, unit: True, kept_truncations),
    ("10 pages", lambda profile, unit: profile != "btrfs" and unit < PAGE, no_pages),
)


class Coverage:
    """Which states of programs were left after the last call, with and without what the kernel did by itself."""

    def __init__(self, model):
        self.model, self.left = model, {}

    def add(self, case, states):
        """Adds states that were left after all calls of a case."""
        self.left.setdefault(case._replace(steps=case.calls()), set()).update(states)

    def needed(self, case):
        """The states of a case, each with the rules without which it isn't in the set. Raises TooMany."""
        written = self.model.written(case)
        script = written.script
        program = Program(self.model.profile, case.unit, written.start, tuple(script.lines), script.grows, frozenset(script.replaces))
        states = {state: [] for state in self.model.explore(case.unit, script.lines)}
        for name, has, plans in RULES:
            if has(self.model.profile, case.unit):
                without = set()
                for plan in plans(program):
                    without |= self.model.explore(case.unit, renumbered(plan))
                # Without writes there is no plan, and nothing that a rule of writes adds.
                for state in set(states) - without if without else ():
                    states[state].append(name)
        return states

    def print(self):
        """Prints the states that were never left, with the rules that each needs, and how many states need each rule."""
        counts = {name: [0, 0] for name, *_ in RULES}
        total, seen, skipped = 0, 0, 0
        for case, left in self.left.items():
            try:
                states = self.needed(case)
            except TooMany:
                skipped += 1
                continue
            total, seen = total + len(states), seen + len(left & set(states))
            for state, rules in sorted(states.items()):
                if state not in left:
                    print(f"never | {case} | {state} | {', '.join(rules) or 'none'}")
                for name in rules:
                    counts[name][0] += 1
                    counts[name][1] += state in left
        print(f"# {len(self.left) - skipped} programs: {seen} of {total} states were left")
        for name, (needing, found) in counts.items():
            if needing:
                print(f"# rule {name}: {found} of {needing} states that need it")
        if skipped:
            print(f"# {skipped} programs have too many outcomes")
