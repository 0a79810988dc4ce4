"""Runs of cases on a real file system. Its image lies on the mount, which records each write and each flush."""

import contextlib
import os
import random
import re
import sys

from disks import attach, call, copy, mount, wait_until_free
from files_steps import Steps
from folder import Background, Folder, wait_for_tick

TOP = os.path.dirname(os.path.dirname(os.path.dirname(os.path.abspath(__file__))))
sys.path.insert(0, os.path.join(TOP, "adapters", "mount"))

from mounting import Mount  # noqa: E402

BACK = re.compile(r"~back (\S+) (\d+) (\d+)")
# A letter is repeated with a tag, so that no case takes the bytes of another for its own.
TAG = 8


class Tagged(Steps):
    """Steps that put the number of the case into their letters."""

    def __init__(self, folder, size, number):
        super().__init__(folder, size)
        self.tag = (number % (1 << 48)).to_bytes(TAG - 2, "little")

    def bytes_of(self, letters):
        return b"".join(bytes(self.size) if letter == "0" else self.block_of(letter) for letter in letters)

    def block_of(self, letter):
        return (letter.encode("latin-1") + self.tag + b"\n") * (self.size // TAG)

    def letter_of(self, part):
        """The letter of some bytes, `0` of zeros, and `?` of others."""
        if part == bytes(len(part)):
            return "0" if len(part) == self.size else f"+{len(part)}"
        return chr(part[0]) if part == self.block_of(chr(part[0])) else "?"

    def letters_of(self, content):
        return "".join(self.letter_of(content[at : at + self.size]) for at in range(0, len(content), self.size))


def state_of(steps, top, below=""):
    """What is found in a folder, as a text."""
    found = []
    for entry in os.scandir(top):
        name = below + entry.name
        if entry.is_dir(follow_symlinks=False):
            found += [f"{name}/", *state_of(steps, entry.path, f"{name}/")]
            continue
        number = os.open(entry.path, os.O_RDONLY)
        found.append(f"{name}={steps.letters_of(os.read(number, 1 << 22))}")
        os.close(number)
    return sorted(found) if not below else found


def in_turn(group, seed):
    """Merges the steps of cases, in an order drawn from a seed. Returns the number of the case and the step."""
    draw = random.Random(seed)
    left = {number: list(case.steps) for number, case in group.items() if case.steps}
    order = []
    while left:
        number = draw.choice([number for number, steps in left.items() for _ in steps])
        order.append((number, left[number].pop(0)))
        if not left[number]:
            del left[number]
    return order


class Live:
    """A real file system on the mount: its image is a copy of `image`, and the calls of cases are made on it one after another."""

    def __init__(self, kind, program, image, folder):
        self.kind, self.record, self.at = kind, os.path.join(folder, "record"), os.path.join(folder, "live")
        os.makedirs(self.at, exist_ok=True)
        self.size = os.stat(image).st_size
        self.disk = Mount(program, "--profile", "posix", "--size", str(2 * self.size), "--record", self.record)
        self.image = os.path.join(self.disk.at, "disk")
        copy(image, self.image)
        self.number, descriptor = attach(self.image)
        try:
            mount(f"/dev/loop{self.number}", self.at, kind.type, 0, kind.options)
        finally:
            os.close(descriptor)
        self.background = Background(kind.type, self.at)

    def note(self, text):
        self.disk.ask(f"note {text}")

    def run(self, group, seed):
        """Makes the calls of the cases of a group, given by their numbers, each in a folder of its own, in an order drawn from the seed.
        The record gets a note before each step: which case, and how many of its steps were made."""
        steps = {}
        for number, case in group.items():
            top = os.path.join(self.at, str(number))
            os.mkdir(top)
            steps[number] = Tagged(Folder(top), case.unit, number)
            for text in case.before:
                steps[number].make(text)
        next(iter(steps.values())).files.sync()
        wait_for_tick()
        self.note(f"group {' '.join(map(str, group))}")
        done = dict.fromkeys(group, 0)
        for number, text in in_turn(group, seed):
            if text.startswith("~"):
                self.by_itself(steps[number], text)
                continue
            self.note(f"in {number} {done[number]}")
            steps[number].make(text)
            done[number] += 1
            self.note(f"after {number} {done[number]}")
        self.note("end")

    def by_itself(self, steps, text):
        """Does what the kernel may do at any time."""
        if text == "~commit":
            return self.background.commit()
        if text == "~sync":
            return self.background.sync()
        if text == "~wait":
            return wait_for_tick()
        path, start, end = BACK.fullmatch(text).groups()
        with steps.files.open(path, "rb") as file:
            file.write_back(int(start) * steps.size, int(end) * steps.size)

    def close(self):
        """Unmounts all, and ends the record."""
        with contextlib.suppress(OSError):
            call("umount2", os.fsencode(self.at), 0)
        with contextlib.suppress(OSError):
            wait_until_free(self.number, self.image)
        self.disk.ask("record stop")
        self.disk.close()
