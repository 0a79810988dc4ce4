"""A judge for any script: what was acknowledged before a crash must be readable after it (docs/GUIDE.md).

A comment says what the code under test has promised to its caller:

    # acknowledged PARTITION NAME OFFSET HEX     these bytes at this offset survive every crash from here on
    # released PARTITION NAME                    nothing that was acknowledged of this blob counts any more
    # released PARTITION NAME OFFSET LENGTH      nor of these bytes, as of a slot that is used again

An acknowledgement counts if calls of the same script wrote or read these bytes there before it, and if a crash and a reopen follow it. The
content must be readable at each reopen that follows a crash. A later acknowledgement of an overlapping range replaces it.
"""

from __future__ import annotations

import os
from typing import Any, Dict, Iterator, List, NamedTuple, Optional, Tuple, Union

from .checking import check
from .errors import BadLine
from .foreign import is_loaded, library
from .grammar import LAST_VERSION, MAX, hex_of, unhex
from .layers import Library
from .pipe import Program
from .shapes import value_of

Name = Tuple[str, str]


class Acknowledged(NamedTuple):
    """Content that must survive: the blob's partition and its name in hex, an offset and bytes."""

    blob: Name
    offset: int
    data: bytes

    def __str__(self) -> str:
        return f"{self.blob[0]} {self.blob[1]} {self.offset} {hex_of(self.data)}"

    @property
    def end(self) -> int:
        return self.offset + len(self.data)

    def without(self, released: Released) -> Iterator[Acknowledged]:
        """The rest of it, as one or two parts, or none."""
        if not released.reaches(self):
            yield self
            return
        if self.offset < released.start:
            yield self._replace(data=self.data[: released.start - self.offset])
        if released.end < self.end:
            yield self._replace(offset=released.end, data=self.data[released.end - self.offset :])


class Released(NamedTuple):
    """Bytes of a blob of which no acknowledgement counts any more."""

    blob: Name
    start: int
    end: int

    def reaches(self, found: Acknowledged) -> bool:
        return self.blob == found.blob and self.start < found.end and found.offset < self.end


class Verdict(NamedTuple):
    """What a script loses, and how many acknowledgements it has, how many of them are of what it wrote or read, and how many count."""

    lost: Optional[str]
    found: int
    known: int
    counted: int

    @property
    def nothing(self) -> Optional[str]:
        """Why nothing was judged, or `None` if an acknowledgement counts."""
        if self.counted:
            return None
        if not self.found:
            return "the script acknowledges nothing: it has no comment `# acknowledged PARTITION NAME OFFSET HEX`"
        if not self.known:
            return "no acknowledgement counts: the script has not written or read those bytes there before"
        return "no acknowledgement counts: no crash and reopen follow one"


def acknowledgement(partition: str, name: bytes, offset: int, data: bytes) -> str:
    """Returns the text of an acknowledgement, for `Store.note`."""
    return f"acknowledged {Acknowledged((partition, hex_of(name)), offset, data)}"


def acknowledgement_of(line: str) -> Optional[Acknowledged]:
    """Returns what a comment acknowledges, or `None` for any other line."""
    tokens = line.split()
    if len(tokens) != 6 or tokens[:2] != ["#", "acknowledged"]:
        return None
    try:
        offset = _number(tokens[4])
        return None if offset is None else Acknowledged((tokens[2], tokens[3].lower()), offset, unhex(tokens[5]))
    except ValueError:
        return None


def release_of(line: str) -> Optional[Released]:
    """Returns what a comment releases, or `None` for any other line."""
    tokens = line.split()
    if len(tokens) not in (4, 6) or tokens[:2] != ["#", "released"]:
        return None
    start, length = (0, MAX) if len(tokens) == 4 else map(_number, tokens[4:])
    if start is None or length is None:
        return None
    return Released((tokens[2], tokens[3].lower()), start, start + length)


def _number(token: str) -> Optional[int]:
    if not token.isascii() or not token.isdigit() or len(token.lstrip("0")) > 20:
        return None
    value = value_of(token)
    return value if value <= MAX else None


def judge(script: Union[str, bytes], by: Any = None) -> Optional[str]:
    """Runs a script. Returns the first acknowledged content that isn't readable at a reopen after a crash, or `None` if all is.

    The script is run once, and again up to each such reopen. `by` is `Library` or `Program`; by default the library if it is built, or is
    used in this process already. Raises `BadLine` if a line isn't a call, and `ValueError` if no acknowledgement counts.
    """
    found = verdict(script, by)
    if found.nothing is not None:
        raise ValueError(found.nothing)
    return found.lost


def verdict(script: Union[str, bytes], by: Any = None) -> Verdict:
    """As `judge`, with how many acknowledgements count, which may be none."""
    data = script if isinstance(script, bytes) else script.encode("utf-8", "surrogateescape")
    for fault in check(data):
        raise BadLine(f"bad call: {fault.why}", fault.line, fault.why)
    preamble, calls = _parts(data.decode().split("\n"))
    way = by or (Library if is_loaded() or os.path.exists(library()) else Program)
    watch = _Watch()
    _run(way, preamble, calls, watch).close()
    return Verdict(_first_lost(way, preamble, calls, watch), watch.found, watch.known, watch.counted)


def _first_lost(way: Any, preamble: List[str], calls: List[str], watch: _Watch) -> Optional[str]:
    for at, due in watch.reopens:
        layer = _run(way, preamble, calls[: at + 1], None)
        lost = _lost(layer, due)
        layer.close()
        if lost is not None:
            return f"line {len(preamble) + at + 1}: {lost}"
    return None


def _run(way: Any, preamble: List[str], calls: List[str], watch: Optional[_Watch]) -> Any:
    """Makes calls, and returns the layer as they leave it."""
    layer = way("".join(line + "\n" for line in preamble).encode())
    for at, line in enumerate(calls):
        try:
            reply = layer.call(line.encode()).decode()
        except BadLine as bad:
            layer.close()
            raise BadLine(f"bad call: {bad.why}" if bad.why else "bad call", len(preamble) + at + 1, bad.why) from None
        if watch is not None:
            watch.see(at, line, reply.split())
    return layer


def _parts(lines: List[str]) -> Tuple[List[str], List[str]]:
    """The lines up to the first call, and those from there on."""
    for at, line in enumerate(lines):
        word = (line.split(" ") + [""])[0] if not line.startswith(" ") else (line.split() or [""])[0]
        if word and not word.startswith("#") and word not in ("image", "words", "seed"):
            return lines[:at], lines[at:]
    return lines, []


class _Watch:
    """What the calls so far have written, and what is acknowledged of it."""

    def __init__(self) -> None:
        self._names: Dict[int, Name] = {}
        self._content: Dict[Name, Dict[int, int]] = {}
        self._acknowledged: List[Acknowledged] = []
        self._at_crash: List[Acknowledged] = []
        # How many acknowledgements there are, how many are of what was written or read, and how many of these a crash and a reopen follow.
        self.found = self.known = self.counted = 0
        self._known_at_crash = 0
        # The reopens after a crash by the places of their lines, and what must be readable there.
        self.reopens: List[Tuple[int, List[Acknowledged]]] = []

    def see(self, at: int, line: str, reply: List[str]) -> None:
        tokens = line.split() or ["#"]
        word = tokens[0]
        if word.startswith("#"):
            self._note(line)
        elif word in ("open", "loose") and reply[0] == "opened":
            self._names[int(reply[1])] = (tokens[1], tokens[2].lower())
        elif word in ("write", "writes") and reply == ["ok"]:
            self._put(tokens[1], value_of(tokens[2]), unhex(tokens[3]))
        elif word == "read" and reply[0] == "bytes":
            self._put(tokens[1], value_of(tokens[2]), unhex(reply[1]))
        elif word == "resize" and reply == ["ok"]:
            self._cut(tokens[1], value_of(tokens[2]))
        elif word == "crash":
            self._at_crash, self._known_at_crash = list(self._acknowledged), self.known
        elif word == "reopen":
            self.counted = max(self.counted, self._known_at_crash)
            if self._at_crash:
                self.reopens.append((at, self._at_crash))
            self._at_crash = []

    def _note(self, line: str) -> None:
        found = acknowledgement_of(line)
        if found is not None:
            self.found += 1
            content = self._content.get(found.blob, {})
            if all(content.get(found.offset + at) == byte for at, byte in enumerate(found.data)):
                self.known += 1
                self._replace(found)
            return
        released = release_of(line)
        if released is not None:
            self._acknowledged = [left for one in self._acknowledged for left in one.without(released)]

    def _replace(self, new: Acknowledged) -> None:
        others = [one for one in self._acknowledged if one.blob != new.blob or one.end <= new.offset or new.end <= one.offset]
        self._acknowledged = [*others, new]

    def _put(self, handle: str, offset: int, data: bytes) -> None:
        name = self._names.get(value_of(handle))
        if name is not None:
            self._content.setdefault(name, {}).update(enumerate(data, offset))

    def _cut(self, handle: str, length: int) -> None:
        name = self._names.get(value_of(handle))
        if name is not None:
            content = self._content.get(name, {})
            for at in [at for at in content if at >= length]:
                del content[at]


def _lost(layer: Any, due: List[Acknowledged]) -> Optional[str]:
    """Returns the first content that isn't found in a store that was just reopened."""
    layer.call(b"config clear")
    handles: Dict[Name, Optional[List[str]]] = {}
    for one in due:
        partition, name = one.blob
        if one.blob not in handles:
            reply = layer.call(f"open {partition} {name} 0 {LAST_VERSION}".encode()).decode().split()
            handles[one.blob] = reply[1:3] if reply[0] == "opened" else None
        opened = handles[one.blob]
        if opened is None:
            return f"acknowledged {one}, and the blob can't be opened"
        length = max(0, min(one.end, int(opened[1])) - one.offset)
        reply = layer.call(f"read {opened[0]} {one.offset} {length}".encode()).decode().split() if length else ["bytes", "-"]
        if unhex(reply[1]) != one.data:
            return f"acknowledged {one}, found {reply[1]}"
    return None
