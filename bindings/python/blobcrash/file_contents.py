"""What a crash leaves of a file, by which of its unsynced writes are lost: its durable bytes with the kept writes over them, in their order."""

from __future__ import annotations

from typing import Dict, List, Mapping, NamedTuple, Optional, Sequence, Set, Tuple

from .crash_units import Row

# Of each write 1 if it is lost, and 0 if it is kept.
Lost = Tuple[int, ...]
# The most contents of a file that are looked for.
_MOST = 256


class Part(NamedTuple):
    """The size of a file, and some of its bytes: zeros beyond its end."""

    size: int
    data: bytes


class Write(NamedTuple):
    """A write that a crash keeps or loses as a whole."""

    offset: int
    data: bytes


def span_of(writes: Sequence[Write]) -> Tuple[int, int]:
    """The first byte that the writes reach, and the one after the last."""
    return min(write.offset for write in writes), max(write.offset + len(write.data) for write in writes)


class Contents:
    """The contents that a file may have. Of the outcomes with the same content one is the first: kept comes before lost, and the first write
    decides first."""

    def __init__(self, writes: Sequence[Write], base: Part, found: Dict[Part, Tuple[Lost, int]]) -> None:
        self._writes, self._base, self._found = writes, base, found
        self._start = span_of(writes)[0]
        self._parts: Dict[Lost, Part] = {first: part for part, (first, _) in found.items()}
        self._beginnings: Set[Lost] = {first[:end] for first in self._parts for end in range(len(first) + 1)}
        self._firsts: Dict[Lost, Lost] = {}

    def first(self, lost: Lost) -> Lost:
        """The first outcome with the content of this one."""
        if lost not in self._firsts:
            part = self._base
            for write, is_lost in zip(self._writes, lost):
                part = part if is_lost else _written(part, write, self._start)
            self._firsts[lost] = self._found[part][0]
        return self._firsts[lost]

    def part(self, lost: Lost) -> Part:
        """What an outcome leaves."""
        return self._parts[self.first(lost)]

    def count(self, lost: Lost) -> int:
        """How many outcomes have the content of this one."""
        return self._found[self.part(lost)][1]

    def begins(self, lost: Lost) -> bool:
        """Whether a first outcome begins so."""
        return lost in self._beginnings


def contents_of(writes: Sequence[Write], base: Part) -> Optional[Contents]:
    """The contents that a file may have over the bytes `base`, which are those of the span of the writes. `None` if these are too many."""
    start = span_of(writes)[0]
    found: Dict[Part, Tuple[Lost, int]] = {base: ((), 1)}
    for write in writes:
        after: Dict[Part, Tuple[Lost, int]] = {}
        for part, (lost, count) in found.items():
            for left, is_lost in ((_written(part, write, start), 0), (part, 1)):
                first, others = after.get(left, ((*lost, is_lost), 0))
                after[left] = min(first, (*lost, is_lost)), others + count
        if len(after) > _MOST:
            return None
        found = after
    return Contents(writes, base, found)


def _written(part: Part, write: Write, start: int) -> Part:
    at, end = write.offset - start, write.offset - start + len(write.data)
    return Part(max(part.size, write.offset + len(write.data)), part.data[:at] + write.data + part.data[end:])


class Draws:
    """The draws of a crash, one for each write of files, in their order. Some decide nothing: of the outcomes that leave the same, the first
    one is tried."""

    def __init__(self, inodes: List[int], contents: Dict[int, Contents]) -> None:
        # The file of each draw.
        self._inodes, self._contents = inodes, contents
        self._places: Dict[int, List[int]] = {}
        for at, inode in enumerate(inodes):
            self._places.setdefault(inode, []).append(at)

    def first(self, lost: Lost) -> Lost:
        """The first outcome that leaves what this one does."""
        found = list(lost)
        for inode, contents in self._contents.items():
            for at, bit in zip(self._places[inode], contents.first(self._of(inode, lost))):
                found[at] = bit
        return tuple(found)

    def count(self, lost: Lost) -> int:
        """How many outcomes leave what this one does."""
        count = 1
        for inode, contents in self._contents.items():
            count *= contents.count(self._of(inode, lost))
        return count

    def next(self, lost: Lost) -> Optional[Lost]:
        """The first outcome after this first one that leaves something else."""
        for at in reversed(range(len(lost))):
            if not lost[at] and self._begins((*lost[:at], 1)):
                found = (*lost[:at], 1)
                while len(found) < len(lost):
                    found = (*found, 0) if self._begins((*found, 0)) else (*found, 1)
                return found
        return None

    def agrees(self, taken: Sequence[int], rows: Sequence[Row], parts: Mapping[int, Optional[Part]]) -> bool:
        """Whether a crash that took these words kept and left what is expected."""
        lost = tuple(int(word > 0) for word in taken)
        is_as_drawn = len(lost) == len(rows) and all(row.kept == "10"[bit] * len(row.kept) for row, bit in zip(rows, lost))
        return is_as_drawn and all(parts.get(inode) == contents.part(self._of(inode, lost)) for inode, contents in self._contents.items())

    def _of(self, inode: int, lost: Lost) -> Lost:
        return tuple(lost[at] for at in self._places[inode] if at < len(lost))

    def _begins(self, lost: Lost) -> bool:
        """Whether a first outcome begins so, if one begins with all but the last."""
        inode = self._inodes[len(lost) - 1]
        return inode not in self._contents or self._contents[inode].begins(self._of(inode, lost))
