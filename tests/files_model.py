"""The rules of docs/FILES.md in Python, as a way for `Files` in place of the library: names, bytes, syncs, and what a crash leaves."""

import os
import sys
from typing import NamedTuple

TOP = os.path.dirname(os.path.dirname(os.path.abspath(__file__)))
sys.path.insert(0, os.path.join(TOP, "bindings", "python"))

from files_model_names import ROOT, Refused, apply
from files_model_syncs import Syncs

from blobcrash.file_calls import Found, Kept, refusal_of
from blobcrash.foreign_files import IS_DIRECTORY, IS_FILE, REFUSALS

STATUSES = {refusal.name: status for status, refusal in REFUSALS.items()}
NEVER = (0, 1)
PAGE = 4096


class Profile(NamedTuple):
    """A column of the page's table of profiles."""

    keeps: str
    settles: str
    flushes: bool
    zeros: bool
    pages: bool


PROFILES = {
    "ext4": Profile("prefix", "up to its last or size", True, True, True),
    "xfs": Profile("prefix", "up to its last", False, False, True),
    "btrfs": Profile("logged", "its names", False, True, False),
    "posix": Profile("any", "its own", False, True, True),
}


class Write(NamedTuple):
    """An unsynced write, and how often a crash keeps one of its sectors."""

    offset: int
    data: bytes
    rate: tuple


class Truncation(NamedTuple):
    """An unsynced truncation or extension to a length, and the number of its edit."""

    length: int
    edit: int


class Flush(NamedTuple):
    """A rename over a name that flushed a file, by the number of its edit, and the length of the file then."""

    length: int
    edit: int


class File:
    """A file: what it has, what is durable, and the writes, truncations and flushes since, in order."""

    def __init__(self):
        self.live, self.durable, self.pending = b"", b"", []
        # The number of the next edit after its size last changed. Its creation is a change of its size.
        self.sized = 0
        # What reads return in place of the live bytes, after a failed sync that dropped some.
        self.shown = None

    def seen(self):
        """What reads return."""
        return self.live if self.shown is None else self.shown

    def drop(self):
        """Drops what is unsynced."""
        self.shown, self.live, self.pending = self.seen(), self.durable, []

    def flush(self):
        """Makes its bytes durable."""
        self.durable, self.pending = self.live, []


def resized(data, length):
    return data[:length] + bytes(max(0, length - len(data)))


def written(data, offset, added):
    """Data with bytes at an offset, and zeros in a gap before them."""
    return resized(data, max(len(data), offset))[:offset] + added + data[offset + len(added) :] if added else data


class Model(Syncs):
    """Files by the rules. Of the settings it takes those of writes in sectors, of resizes and syncs, `edits`, `keep`, `failed_sync` and `syncs`."""

    def __init__(self, preamble):
        super().__init__()
        self.words, self.taken = [], 0
        self.resizes, self.partial, self.retention, self.sector, self.sync_rate = NEVER, NEVER, NEVER, 1, NEVER
        self.drops = self.lies = False
        for line in preamble.decode().split("\n"):
            self.set(line.split())
        self.files, self.opened, self.next_open = {}, {}, 0
        # The names that are durable without any edit, and the numbers of the edits since then that are settled.
        self.base, self.settled = {}, set()
        # The number of the next edit at the last sync.
        self.synced = 0
        # The files without names and descriptors, each with the number of the next edit when that came to be.
        self.gone = {}

    def set(self, tokens):
        if tokens[:1] == ["words"]:
            self.words = [2**64 - 1 if word == "max" else int(word) for word in tokens[1:]]
        elif tokens[:1] == ["profile"]:
            self.profile = PROFILES[tokens[1]]
        elif tokens[:1] == ["edits"]:
            self.profile = self.profile._replace(keeps=tokens[1])
        elif tokens[:1] == ["keep"]:
            self.keep = (int(tokens[1]), int(tokens[2]))
        elif tokens[:2] == ["config", "resize"]:
            self.resizes, self.partial = (int(tokens[2]), int(tokens[3])), (int(tokens[4]), int(tokens[5]))
        elif tokens[:2] == ["config", "sync"]:
            self.sync_rate = (int(tokens[2]), int(tokens[3]))
        elif tokens[:1] == ["failed_sync"]:
            self.drops = tokens[1] == "drops"
        elif tokens[:1] == ["syncs"]:
            self.lies = tokens[1] == "lie"
        elif tokens[:2] == ["config", "write"]:
            self.retention, self.sector = (int(tokens[4]), int(tokens[5])), int(tokens[7])
        elif tokens:
            raise ValueError(tokens)

    def apply(self, asked):
        try:
            reply = getattr(self, asked.word)(asked)
        except Refused as refused:
            return refusal_of(STATUSES[str(refused)])
        finally:
            self.let_go()
        return Found(0, 0, 0) if reply is None else reply

    def close(self, asked=None):
        """Closes a file, or at the end the model."""
        if asked is not None:
            self.inode_of(asked)
            self.opened.pop(asked.number)

    def let_go(self):
        """Finds the files that no name and no descriptor refers to. They go once all edits from before that are settled."""
        for inode in self.files:
            is_named = (inode, IS_FILE) in self.names.values()
            if inode not in self.gone and not is_named and inode not in self.opened.values():
                self.gone[inode] = self.next_edit
        end = min((edit.number for edit in self.unsettled()), default=self.next_edit)
        for inode in [inode for inode, edit in self.gone.items() if edit <= end]:
            del self.files[inode], self.gone[inode]

    def words_left(self):
        left = self.words[self.taken :]
        while left and left[-1] == 0:
            left.pop()
        return len(left)

    def draw(self, rate):
        """Whether a draw of a rate is true. It takes a word unless only one outcome is possible."""
        first, of = rate
        if 0 < first < of:
            word = self.words[self.taken] if self.taken < len(self.words) else 0
            self.taken += 1
            return word * of < first * 2**64
        return first >= of

    # Bytes.

    def before_replacing(self, inode):
        """Comes before the edit by which a file replaces another one."""
        if self.profile.flushes and not self.lies:
            file = self.files[inode]
            file.pending.append(Flush(len(file.live), self.next_edit))

    def create(self, asked):
        inode, _ = self.new(asked.path, IS_FILE)
        self.files[inode] = File()
        self.files[inode].sized = self.next_edit
        return self.opening(inode)

    def open(self, asked):
        inode, kind = self.binding_of(self.place_of(asked.path))
        if kind == IS_DIRECTORY:
            raise Refused("IsDirectory")
        return self.opening(inode)

    def open_truncated(self, asked):
        found = self.open(asked)
        inode = self.opened[found.number]
        try:
            self.resize(inode, 0)
        except Refused:
            self.close(found)
            raise
        return found

    def find(self, asked):
        found = super().find(asked)
        return found if found.kind == IS_DIRECTORY else found._replace(size=len(self.files[found.number].seen()))

    def opening(self, inode):
        self.files[inode].shown = None
        number = self.next_open
        self.next_open += 1
        self.opened[number] = inode
        return Found(0, number, 0)

    def inode_of(self, asked):
        if asked.number not in self.opened:
            raise Refused("Stale")
        return self.opened[asked.number]

    def size(self, asked):
        return Found(0, 0, len(self.files[self.inode_of(asked)].seen()))

    def read(self, asked):
        return self.files[self.inode_of(asked)].seen()[asked.first : asked.first + asked.last]

    def write(self, asked):
        file = self.files[self.inode_of(asked)]
        before = len(file.seen())
        if asked.path:
            end = self.zeros_end(len(file.live), asked.first, asked.first + len(asked.path))
            self.write_zeros(file, len(file.live), end)
        if asked.path and self.retention[0]:
            file.pending.append(Write(asked.first, asked.path, self.retention))
        file.live = written(file.live, asked.first, asked.path)
        if file.shown is not None:
            file.shown = written(file.shown, asked.first, asked.path)
        if len(file.seen()) > before:
            file.sized = self.next_edit

    def zeros_end(self, size, offset, end):
        """Returns where the zeros end that a write first writes from the end of the file on."""
        if self.profile.zeros:
            return end
        return min(offset, size + -size % PAGE) if self.profile.pages else size

    def write_zeros(self, file, start, end):
        """Adds a write of zeros, which calls don't see: a part of what makes a file longer, or the rest of a page that is cut."""
        if start < end and self.retention[0]:
            file.pending.append(Write(start, bytes(end - start), self.retention))

    def truncate(self, asked):
        self.resize(self.inode_of(asked), asked.first)

    def resize(self, inode, length):
        """Truncates or extends a file: an edit in its own number, if the size changes. One that fails may be done in part."""
        file = self.files[inode]
        fails = self.draw(self.resizes)
        if fails:
            if not self.draw(self.partial) or len(file.seen()) - length <= 1:
                raise Refused("Injected")
            length = self.draw_between(length, len(file.seen()))
        if length == len(file.seen()):
            return
        if self.profile.pages:
            self.write_zeros(file, length, min(len(file.seen()), length + -length % PAGE))
        file.pending.append(Truncation(length, self.next_edit))
        self.bind([], [inode], [inode])
        file.live, file.sized = resized(file.live, length), self.next_edit
        if file.shown is not None:
            file.shown = resized(file.shown, length)
        if fails:
            raise Refused("Injected")

    def draw_between(self, low, high):
        """Draws a number between two, by halves."""
        numbers = range(low + 1, high)
        while len(numbers) > 1:
            half = len(numbers) // 2
            numbers = numbers[:half] if self.draw((1, 2)) else numbers[half:]
        return numbers[0]

    def configure(self, asked):
        self.set(asked.path.decode().split())

    # The crash.

    def crash(self, asked):
        kept = self.kept_edits()
        for edit in self.edits:
            if edit.number in kept:
                apply(self.base, edit.changes)
        for file in self.files.values():
            self.crash_bytes(file, kept)
        edits = [edit.number in kept for edit in self.unsettled()]
        self.names, self.directories = reached(self.base)
        self.base = dict(self.names)
        self.files = {inode: file for inode, file in self.files.items() if (inode, IS_FILE) in self.names.values()}
        self.edits, self.opened, self.gone = [], {}, {}
        self.log.clear()
        return Kept([], edits, [])

    def kept_edits(self):
        """Returns the numbers of the edits that are kept."""
        kept, is_lost, is_behind = set(), False, False
        for edit in self.edits:
            is_settled = edit.number in self.settled
            is_found = is_settled or self.draw(edit.rate)
            if is_settled or (is_found and not (is_lost and self.is_ordered(edit, is_behind))):
                kept.add(edit.number)
            else:
                is_lost = True
            is_behind = is_behind or (edit.is_followed and not is_found)
        return kept

    def is_ordered(self, edit, is_behind):
        """Whether an unsettled edit is kept only with all before it. One that the last sync left unsettled isn't, if it binds a name or if
        the log followed it, which it does in order."""
        is_followed = edit.is_followed and not is_behind
        is_alone = edit.number < self.synced and (is_followed or any(binding for _, binding in edit.changes))
        return self.profile.keeps == "prefix" or (self.profile.keeps == "logged" and not is_alone)

    def crash_bytes(self, file, kept):
        """Leaves the durable bytes of a file with what is kept of its writes, truncations and flushes."""
        data = file.durable
        for change in file.pending:
            if isinstance(change, Write):
                data = self.with_kept(data, change)
            elif change.edit in kept:
                least = len(data) if isinstance(change, Flush) else 0
                data = resized(data, max(least, change.length))
        file.live, file.shown = data, None
        file.flush()
        file.sized = 0

    def with_kept(self, data, write):
        """Data with the sectors of a write that a crash keeps."""
        last = write.offset + len(write.data)
        for at in range(write.offset - write.offset % self.sector, last, self.sector):
            start, end = max(at, write.offset), min(at + self.sector, last)
            if self.draw(write.rate):
                data = written(data, start, write.data[start - write.offset : end - write.offset])
        return data


def reached(names):
    """The names that the root reaches, and each directory with the one that has it. No directory has two names."""
    found, above, left = {}, {ROOT: ROOT}, [ROOT]
    while left:
        directory = left.pop()
        for entry, (inode, kind) in sorted(names.items()):
            if entry[0] == directory and not (kind == IS_DIRECTORY and inode in above):
                found[entry] = (inode, kind)
                if kind == IS_DIRECTORY:
                    above[inode] = directory
                    left.append(inode)
    return found, above
