"""
What crashes leave of small programs on the mount: the table of docs/FILES.md, and programs of its own. The outcomes that each profile
allows were worked out by hand, from the rules there.
"""

import os
import shutil

from mount_calls import check, get, put, rename_by, sync_folder

PROFILES = ("ext4", "xfs", "btrfs", "posix")
CRASHES = 12
SECTOR = 512
A, B, X = (letter * SECTOR for letter in (b"A", b"B", b"X"))


def letters(data):
    """Writes each sector as a letter, zeros as 0."""
    if not data:
        return "none" if data is None else "empty"
    kinds = {A: "A", B: "B", X: "X", bytes(SECTOR): "0"}
    return "".join(kinds.get(data[at:at + SECTOR], "?") for at in range(0, len(data), SECTOR))


def same(*outcomes):
    """The outcomes that all profiles allow."""
    return [set(outcomes)] * 4


def more(outcomes, others, last=()):
    """Outcomes of ext4, with others of the other profiles, and with further ones of POSIX."""
    return [set(outcomes), {*outcomes, *others}, {*outcomes, *others}, {*outcomes, *others, *last}]


def zeros(outcomes, ext4, xfs=(), others=()):
    """Outcomes that all profiles allow, with those of ext4 alone, of XFS alone, and of btrfs and POSIX."""
    return [{*outcomes, *ext4}, {*outcomes, *xfs}, {*outcomes, *others}, {*outcomes, *others}]


def sync_data(path):
    """fdatasync."""
    descriptor = os.open(path, os.O_RDWR)
    os.fdatasync(descriptor)
    os.close(descriptor)


def sync_file(path):
    """fsync."""
    descriptor = os.open(path, os.O_RDWR)
    os.fsync(descriptor)
    os.close(descriptor)


def append_one(at):
    """Appends a sector."""
    put(f"{at}/f", B, flags=os.O_APPEND)


def append(at):
    """Appends two sectors, a call each."""
    for _ in range(2):
        append_one(at)


def cut(at, sectors=1):
    """Truncates f."""
    os.truncate(f"{at}/f", sectors * SECTOR)


def replace(at, syncs_file=False, syncs_folder=False, data=B + B):
    """Replaces f by a new file."""
    put(f"{at}/t", data, sync=syncs_file)
    os.rename(f"{at}/t", f"{at}/f")
    if syncs_folder:
        sync_folder(at)


def make_below(at):
    """A new file in a new folder."""
    os.mkdir(f"{at}/s")
    put(f"{at}/s/f", B + B, sync=True)


def create(at, *names):
    """Makes empty files."""
    for name in names:
        put(f"{at}/{name}", b"")


def move(at, synced=None):
    """Moves f from x to y."""
    os.rename(f"{at}/x/f", f"{at}/y/f")
    if synced:
        sync_folder(f"{at}/{synced}")


def link(at):
    """Gives a another name."""
    os.link(f"{at}/a", f"{at}/b")
    os.unlink(f"{at}/a")


def overwrite(at, sync, *names):
    """Overwrites files, and syncs the last."""
    for name in names:
        put(f"{at}/{name}", B, flags=0)
    if sync:
        sync(f"{at}/{names[-1]}")


def use_unlinked(at, syncs):
    """Unlinks f while it is open, and writes to it."""
    descriptor = os.open(f"{at}/f", os.O_RDWR)
    os.unlink(f"{at}/f")
    os.pwrite(descriptor, B + B, 0)
    if syncs:
        os.fsync(descriptor)
    os.close(descriptor)


def folders(at):
    """Two folders, with a file in the first."""
    os.mkdir(f"{at}/x")
    os.mkdir(f"{at}/y")
    put(f"{at}/x/f", A)


def files(**data):
    """Returns what makes files with these bytes."""
    return lambda at: [put(f"{at}/{name}", found) for name, found in data.items()]


def then(*steps):
    """Returns what makes steps in turn."""
    return lambda at: [step(at) for step in steps]


MIXED = ("none", "AA", "AB", "BA", "BB")
# Two new sectors, each of which may be zeros; and where the end may be lost too.
LONG, SHORT = ("00", "0B", "B0", "BB"), ("empty", "0", "B")
F = files(f=A + A)
BA = files(a=A, b=A)
# The program, what is durable before it, what is looked at, and the outcomes.
PROGRAMS = [
    ("append", append, F, "f", zeros(["AA", "AAB", "AABB", "AA0B"], ["AA0", "AA00", "AAB0"], others=["AA0", "AA00", "AAB0"])),
    ("replace", replace, F, "f", zeros(["AA", "BB", "0B"], LONG, ["empty", "B"], [*LONG, *SHORT])),
    ("replace, file synced", lambda at: replace(at, True), F, "f", same("AA", "BB")),
    ("replace, file and folder synced", lambda at: replace(at, True, True), F, "f", same("BB")),
    ("new file, synced", lambda at: put(f"{at}/f", B + B, sync=True), None, "f", more(["BB"], [], ["none"])),
    ("new file in a new folder, synced", make_below, None, "s/f", more(["BB"], [], ["none"])),
    ("create a and b", lambda at: create(at, "a", "b"), None, "a b",
     more(["none/none", "empty/none", "empty/empty"], [], ["none/empty"])),
    ("create a, rename it b", then(lambda at: create(at, "a"), lambda at: os.rename(f"{at}/a", f"{at}/b")), None, "a b",
     same("none/none", "empty/none", "none/empty")),
    ("move", move, folders, "x/f y/f", same("A/none", "none/A")),
    ("move, old folder synced", lambda at: move(at, "x"), folders, "x/f y/f", same("none/A")),
    ("move, new folder synced", lambda at: move(at, "y"), folders, "x/f y/f", [{"none/A"}, {"none/A"}, {"none/A", "A/A"}, {"none/A"}]),
    ("link b, unlink a", link, files(a=A), "a b", more(["A/none", "A/A", "none/A"], [], ["none/none"])),
    ("overwrite a and b", lambda at: overwrite(at, None, "a", "b"), BA, "a b", same("A/A", "A/B", "B/A", "B/B")),
    ("replace f, new file d, synced", then(lambda at: replace(at, True, data=B), lambda at: put(f"{at}/d", X, sync=True)),
     files(f=A), "f d", [{"B/X"}, {"B/X"}, {"B/X", "A/X"}, {"B/X", "A/X", "B/none", "A/none"}]),
    ("rename f g, g synced", then(lambda at: os.rename(f"{at}/f", f"{at}/g"), lambda at: sync_file(f"{at}/g")), files(f=A), "f g",
     more(["none/A"], [], ["A/none"])),
    ("create f, an older folder synced", then(lambda at: create(at, "f"), lambda at: sync_folder(f"{at}/x")), folders, "f",
     more(["empty"], ["none"])),
    ("unlink f, new file o, synced", then(lambda at: os.unlink(f"{at}/f"), lambda at: put(f"{at}/o", X, sync=True)), files(f=A), "f",
     [{"none"}, {"none"}, {"none", "A"}, {"none", "A"}]),
    ("create f, overwrite g, synced", then(lambda at: create(at, "f"), lambda at: overwrite(at, sync_file, "g")), files(g=A), "f g",
     same("none/B", "empty/B")),
    ("create f, overwrite g, data synced", then(lambda at: create(at, "f"), lambda at: overwrite(at, sync_data, "g")), files(g=A),
     "f g", same("none/B", "empty/B")),
    ("exchange", lambda at: rename_by(f"{at}/a", f"{at}/b", 2), files(a=A, b=B), "a b", same("A/B", "B/A")),
    # A sector is a part of a page: except on btrfs a truncation that is lost may leave zeros behind it.
    ("append, truncate f to AA", then(append_one, lambda at: cut(at, 2)), F, "f", same("AA", "AAB", "AA0")),
    ("truncate f, append", then(cut, append), F, "f",
     zeros(["A", "AA", "AB", "AAB", "ABB", "A0B"], ["A0", "A00", "AB0", "AA0"], ["A0"], ["A0", "A00", "AB0", "AA0"])),
    ("truncate f, create g", then(cut, lambda at: create(at, "g")), F, "f g",
     [*[{"AA/none", "A0/none", "A/none", "A/empty"}] * 2, {"AA/none", "A/none", "A/empty"},
      {"AA/none", "A0/none", "A/none", "A/empty", "AA/empty", "A0/empty"}]),
    ("create g, truncate f", then(lambda at: create(at, "g"), cut), F, "f g",
     [*[{"AA/none", "A0/none", "AA/empty", "A0/empty", "A/empty"}] * 2, {"AA/none", "AA/empty", "A/empty"},
      {"AA/none", "A0/none", "AA/empty", "A0/empty", "A/empty", "A/none"}]),
    ("truncate f, rename it g", then(cut, lambda at: os.rename(f"{at}/f", f"{at}/g")), F, "f g",
     [*[{"AA/none", "A0/none", "A/none", "none/A"}] * 2, {"AA/none", "A/none", "none/A"},
      {"AA/none", "A0/none", "A/none", "none/A", "none/AA", "none/A0"}]),
    ("truncate f, synced, append", then(cut, lambda at: sync_file(f"{at}/f"), append_one), F, "f",
     zeros(["A", "AB"], ["A0"], others=["A0"])),
    ("truncate f, new file o, synced", then(cut, lambda at: put(f"{at}/o", X, sync=True)), F, "f",
     [{"A"}, {"A"}, {"A", "AA"}, {"A", "AA", "A0"}]),
    ("truncate f, folder synced", then(cut, sync_folder), F, "f", [{"A"}, {"A", "AA", "A0"}, {"A", "AA"}, {"A", "AA", "A0"}]),
    # Programs that are not in the table.
    ("unlink, write", lambda at: use_unlinked(at, False), F, "f", same(*MIXED)),
    ("unlink, write, sync", lambda at: use_unlinked(at, True), F, "f", more(["none"], [], ["BB"])),
    ("open that truncates, write, close", lambda at: put(f"{at}/f", B + B, flags=os.O_TRUNC), F, "f",
     zeros([*MIXED[1:], "empty", "B", "0B"], ["A0", "0A", *LONG, "0"], others=["A0", "0A", *LONG, "0"])),
]


def outcomes(mount, before, run, names):
    """Runs a program, and crashes, some times. Returns what was seen."""
    seen = set()
    for number in range(CRASHES):
        at = f"{mount.at}/{number}"
        os.mkdir(at)
        if before:
            before(at)
        mount.ask("settle")
        run(at)
        mount.ask("crash")
        seen.add("/".join(letters(get(f"{at}/{name}")) for name in names.split()))
        shutil.rmtree(at)
        mount.ask("settle")
    return seen


def test_programs(mount):
    """Each program in each profile leaves only what is allowed. Where much is allowed, more than one outcome is seen."""
    for at, profile in enumerate(PROFILES):
        mount.ask(f"profile {profile}")
        for name, run, before, names, allowed in PROGRAMS:
            seen = outcomes(mount, before, run, names)
            check(f"{profile}: {name}", seen <= allowed[at] and (len(seen) > 1 or len(allowed[at]) < 4), seen)
