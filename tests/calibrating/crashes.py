"""Crashes of a recorded run: the disk at a place of the record, as a power loss leaves it, recovered by the kernel."""

import hashlib
import os
import random
import sys
from typing import NamedTuple

from disks import MS_RDONLY, Refused, command, copy, mounted
from runs import TOP, Tagged, state_of

sys.path.insert(0, os.path.join(TOP, "bindings", "python"))

from blobcrash.file_system import Files  # noqa: E402

PAGE = 4096
# How often a crash keeps a sector: with these the layer draws.
RATES = ((1, 2), (1, 2), (1, 8), (7, 8))
# The file system's own tool checks each image of this number.
CHECKED = 50


class Found(NamedTuple):
    """A state that a crash left, where, and how."""

    number: int
    done: int
    inside: bool
    state: str
    how: str


class Disk:
    """An image with what is durable, and the writes since the last flush."""

    def __init__(self, image, folder):
        self.durable, self.saved, self.crashed = (os.path.join(folder, name) for name in ("durable", "saved", "crashed"))
        copy(image, self.durable)
        self.file = os.open(self.durable, os.O_RDWR)
        self.pending, self.flushes = [], 0

    def write(self, offset, data):
        self.pending.append((offset, data))

    def flush(self):
        for offset, data in self.pending:
            os.pwrite(self.file, data, offset)
        self.pending, self.flushes = [], self.flushes + 1

    def kept(self, how, seed):
        """What a crash keeps of the writes that are pending: `all`, `none`, or what the layer draws with a rate, in sectors."""
        if how == "none" or not self.pending:
            return []
        return list(self.pending) if how == "all" else self.drawn(*how, seed)

    def drawn(self, rate, sector, seed):
        """The pages that the proved disk leaves: a file with the pages that are written, in order."""
        writes = self.pending
        pages = sorted({page for at, data in writes for page in range(at // PAGE, (at + len(data) - 1) // PAGE + 1)})
        place = {page: index * PAGE for index, page in enumerate(pages)}
        settings = [f"write 0 1 {rate[0]} {rate[1]} sectors {sector}"]
        with Files(seed=seed, profile="posix", settings=settings) as files:
            with files.open("disk", "xb") as file:
                file.write(b"".join(os.pread(self.file, PAGE, page * PAGE) for page in pages))
            files.settle()
            with files.open("disk", "r+b") as file:
                for at, data in writes:
                    file.seek(place[at // PAGE] + at % PAGE)
                    file.write(data)
            files.restart()
            with files.open("disk", "rb") as file:
                left = file.read()
        return [(page * PAGE, left[place[page] : place[page] + PAGE]) for page in pages]

    def leave(self, kept):
        """Makes the image that a crash leaves."""
        copy(self.durable, self.crashed)
        file = os.open(self.crashed, os.O_RDWR)
        for offset, data in kept:
            os.pwrite(file, data, offset)
        os.close(file)

    def save(self):
        """Keeps what the disk is now, for `restore`."""
        os.close(self.file)
        os.rename(self.durable, self.saved)
        copy(self.saved, self.durable)
        self.file = os.open(self.durable, os.O_RDWR)
        self.before = list(self.pending), self.flushes

    def restore(self):
        os.close(self.file)
        os.rename(self.saved, self.durable)
        self.file = os.open(self.durable, os.O_RDWR)
        self.pending, self.flushes = self.before

    def close(self):
        os.close(self.file)


def follow(done, event):
    """Takes a note of a record into account: how many steps of a case were made, and whether the next one is being made."""
    if isinstance(event, str):
        word, number, count = event.split()
        done[int(number)] = int(count), word == "in"


def places(done, events):
    """Each case with the steps that it has made, now and later up to the next flush: a crash there may keep the same writes."""
    later = dict(done)
    yield from done.items()
    for event in events:
        if event is None:
            return
        if isinstance(event, str):
            follow(later, event)
            number = int(event.split()[1])
            yield number, later[number]


class Crashes:
    """Reads the record of a run, and crashes each of its groups at some places."""

    def __init__(self, kind, record, image, folder, crashes):
        self.kind, self.crashes = kind, crashes
        self.at = os.path.join(folder, "after")
        os.makedirs(self.at, exist_ok=True)
        self.disk = Disk(image, folder)
        self.lines = open(record, "rb")
        self.recovered = 0

    def groups(self):
        """Reads up to each group in turn, and returns the numbers of its cases and its events: writes, flushes and notes."""
        numbers, events = [], []
        for line in self.lines:
            word, _, rest = line.rstrip(b"\n").partition(b" ")
            if word == b"#":
                note = rest.decode()
                if note.startswith("group "):
                    numbers, events = [int(number) for number in note.split()[1:]], []
                elif note == "end":
                    yield numbers, events
                    for event in events:
                        self.apply(event)
                    numbers = []
                elif numbers and not note.startswith("process "):
                    events.append(note)
                continue
            if word == b"write":
                _, offset, data = rest.split(b" ")
                event = (int(offset), bytes.fromhex(data.decode()))
            elif word in (b"fsync", b"fdatasync"):
                event = None
            else:
                continue
            if numbers:
                events.append(event)
            else:
                self.apply(event)

    def apply(self, event):
        if event is None:
            self.disk.flush()
        elif isinstance(event, tuple):
            self.disk.write(*event)

    def plan(self, events, unit, seed):
        """Chooses crashes: how many of the events were before each, and what it keeps. Half of them keep all before a flush."""
        draw = random.Random(seed)
        flushes = [index for index, event in enumerate(events) if event is None]
        writes = [index + 1 for index, event in enumerate(events) if isinstance(event, tuple)]
        chosen = [(len(events), "all"), (0, "none")]
        chosen += [(index, "all") for index in draw.sample(flushes, min(len(flushes), self.crashes // 2))]
        for _ in range(self.crashes - len(chosen) if writes else 0):
            chosen.append((draw.choice(writes), draw.choice(["all", "none", *((rate, unit) for rate in RATES)])))
        return sorted(chosen, key=lambda place: place[0])

    def crash(self, group, events, seed):
        """Crashes a group, given by its cases' numbers, and returns what was found. The disk is left as at its start."""
        self.disk.save()
        steps = {number: Tagged(None, case.unit, number) for number, case in group.items()}
        done = {number: (0, False) for number in group}
        unit = max(self.kind.whole, min(case.unit for case in group.values()))
        met, found, at = {}, set(), 0
        for order, (index, how) in enumerate(self.plan(events, unit, seed)):
            for event in events[at:index]:
                follow(done, event)
                self.apply(event)
            at = index
            kept = self.disk.kept(how, seed * 1000 + order)
            key = self.key_of(kept)
            if key not in met:
                self.disk.leave(kept)
                met[key] = self.recover(steps)
            words = how if isinstance(how, str) else f"{how[0][0]}/{how[0][1]} of sectors of {how[1]}"
            for number, place in places(done, events[index:]):
                found.add(Found(number, *place, met[key][number], words))
        self.disk.restore()
        return sorted(found)

    def key_of(self, kept):
        """What the image is, within one group."""
        pieces = dict(kept)
        digest = hashlib.sha1()
        for offset in sorted(pieces):
            digest.update(offset.to_bytes(8, "little") + pieces[offset])
        return self.disk.flushes, digest.digest()

    def recover(self, steps):
        """Lets the kernel recover the image that a crash left, and returns what it finds of each case."""
        self.recovered += 1
        try:
            with mounted(self.kind, self.disk.crashed, self.at, MS_RDONLY):
                states = {number: " ".join(state_of(each, os.path.join(self.at, str(number)))) for number, each in steps.items()}
            if self.recovered % CHECKED == 0:
                command(*self.kind.check, self.disk.crashed)
            return states
        except OSError as error:
            return dict.fromkeys(steps, f"({error.strerror})")
        except Refused as error:
            return dict.fromkeys(steps, f"({self.kind.check[0]}: {error})")

    def close(self):
        self.lines.close()
        self.disk.close()
