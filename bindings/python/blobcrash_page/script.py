"""A script with its replies, and what `blobcrash explain --json` tells of each call."""

import json
import re

PREAMBLE = ("image", "words", "seed")

_HEX = re.compile("-|(?:[0-9a-fA-F]{2})+")


class Step:
    """A call of a script. `reply` is None for a call that was not made. `told` are the objects of what it drew and did."""

    def __init__(self, line, text, notes):
        self.line = line
        self.text = text
        self.notes = notes
        self.words = text.split(" ")
        self.reply = None
        self.remarks, self.told = [], []

    @property
    def answer(self):
        """The words of the reply, at least one."""
        return (self.reply or "").split(" ")

    def failed_write(self):
        """The ranges that a failed write kept, and the range that is live through a stale handle; None if no write failed."""
        for it in self.told:
            if "bytes" in it and it["write"] is None and "sync" not in it:
                live = it.get("live")
                return [tuple(run) for run in it.get("kept", [])], live and tuple(live)
        return None

    def is_unsynced(self):
        """Whether it is a SYNC write with a failed sync."""
        return any(it.get("sync") == "failed" for it in self.told)

    def pending_resize(self):
        """The length of a resize that a crash applies; None without one."""
        return next((it["reached"] for it in self.told if it.get("reached") is not None), None)

    def is_failed_start(self):
        """Whether it is a started sync that failed."""
        return any("started" in it for it in self.told)


class Script:
    """A script that was run: its preamble, its calls with their replies, and the notes after the last call. `told` is what `blobcrash explain
    --json` printed, or replies alone."""

    def __init__(self, text, told):
        self.preamble, self.steps, notes = [], [], []
        for number, line in enumerate(text.split("\n"), 1):
            line = line.strip(" ")
            if not line:
                continue
            if line.startswith("#"):
                notes.append(line[1:].strip())
                continue
            if "  " in line:
                line = re.sub(" +", " ", line)
            step = Step(number, line, notes)
            notes = []
            (self.preamble if step.words[0] in PREAMBLE else self.steps).append(step)
        self.notes = notes
        self._answer(told)

    def _answer(self, told):
        made = -1
        for it in objects_of(told):
            if "call" not in it:
                self.steps[made].told.append(it)
                continue
            made += 1
            if made >= len(self.steps):
                raise ValueError("there are more replies than calls: these are not the replies to this script")
            self.steps[made].reply, self.steps[made].remarks = it["reply"], it["remarks"]

    def images(self):
        """The raw blobs from before the first call: partition, name and bytes each."""
        for step in self.preamble:
            if step.words[0] == "image" and len(step.words) == 4 and all(map(_HEX.fullmatch, step.words[2:])):
                yield step.words[1], unhex(step.words[2]), unhex(step.words[3])


def objects_of(told):
    """The objects in what `blobcrash explain --json` printed. A line that is none is a reply of which nothing is told."""
    for line in lines_of(told):
        yield json.loads(line) if line.startswith("{") else {"call": None, "reply": line, "remarks": []}


def replies_of(told):
    """The replies in what `blobcrash explain --json` printed, a line each."""
    return "".join(it["reply"] + "\n" for it in objects_of(told) if "call" in it)


def lines_of(text):
    """The lines of what the program printed. Only a line feed ends one."""
    lines = text.split("\n")
    return lines[:-1] if not lines[-1] else lines


def unhex(word):
    """The bytes that a word of a script or of a reply says."""
    return b"" if word == "-" else bytes.fromhex(word)
