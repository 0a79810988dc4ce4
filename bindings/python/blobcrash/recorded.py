"""A script as lines that can be left out: each with the words that its call took, and with the line that made its handle."""

from __future__ import annotations

from dataclasses import dataclass, field
from itertools import chain, islice, repeat
from typing import Dict, Iterator, List, NamedTuple, Optional, Tuple

from .errors import BadLine
from .generator import words_of
from .grammar import MAX
from .judging import Acknowledged, acknowledgement_of, release_of
from .layers import Library
from .rates import Rates, Recorded
from .shapes import value_of

# The calls that take a handle as their first argument.
ON_HANDLE = frozenset(("close", "read", "write", "writes", "resize", "size", "sync", "startsync"))


@dataclass(frozen=True)
class Line:
    """A line of a script, with the reply to its call, and `words` that it took.

    `made_by` is the line of the call that made the handle or the started sync that it names. `rows` are of a crash: for the line of each write
    that it drew for, what it kept.
    """

    tokens: Tuple[str, ...]
    reply: Tuple[str, ...] = ()
    words: Tuple[int, ...] = ()
    made_by: Optional[int] = None
    rows: Dict[int, str] = field(default_factory=dict)

    @property
    def is_call(self) -> bool:
        return not self.tokens[0].startswith("#") and self.tokens[0] != "image"

    @property
    def acknowledges(self) -> Optional[Acknowledged]:
        return acknowledgement_of(" ".join(self.tokens))


Lines = Dict[int, Line]


class Writes:
    """The writes that a crash may draw for, by their numbers, since the last reopen."""

    def __init__(self) -> None:
        self.rates = Rates()
        self.numbers: List[int] = []
        self.recorded: Dict[int, Recorded] = {}

    def see(self, at: int, tokens: List[str], reply: List[str], words: List[int]) -> None:
        """Takes the call of the line `at`."""
        if tokens[0] == "config":
            self.rates.set(tokens)
        elif tokens[0] == "reopen":
            self.numbers = []
        elif tokens[0] in ("write", "writes"):
            recorded = self.rates.recorded(tokens, reply, words)
            if recorded is not None:
                self.numbers.append(at)
                self.recorded[at] = recorded

    def rows(self, reply: List[str]) -> Dict[int, str]:
        """The rows of a crash, by the lines of their writes."""
        pairs = [row.split(":") for row in reply[1:]]
        return {self.numbers[int(number)]: kept for number, kept in pairs}


class _Parts(NamedTuple):
    images: List[str]
    words: List[int]
    seed: Optional[int]
    rest: List[str]


def record(script: str) -> Lines:
    """Runs a script, and returns its lines by their places. Empty lines are left out.

    Raises `BadLine` if a line isn't a call, and `LibraryMissing` if the library isn't built.
    """
    parts = split_script(script)
    recorder = _Recorder(parts)
    try:
        for at, line in enumerate(parts.rest, len(parts.images)):
            recorder.add(at, line)
    finally:
        recorder.close()
    return recorder.lines


def split_script(script: str) -> _Parts:
    parts = _Parts([], [], None, [])
    for number, line in enumerate(script.split("\n"), 1):
        tokens = line.split(" ")
        tokens = [token for token in tokens if token]
        if not tokens:
            continue
        if tokens[0] == "words" and tokens[1:]:
            parts.words.extend(MAX if token == "max" else _number(token, number) for token in tokens[1:])
        elif tokens[0] == "seed" and len(tokens) == 2 and parts.seed is None:
            parts = parts._replace(seed=_number(tokens[1], number))
        elif tokens[0] == "image":
            parts.images.append(" ".join(tokens))
        else:
            parts.rest.append(line.strip(" ") if tokens[0].startswith("#") else " ".join(tokens))
    return parts


def _number(token: str, line: int) -> int:
    if not token.isascii() or not token.isdigit() or len(token.lstrip("0")) > 20 or value_of(token) > MAX:
        raise BadLine("bad call", line)
    return value_of(token)


class Player:
    """A session of which each call is given its words."""

    def __init__(self, images: List[str]) -> None:
        self._session = Library("".join(f"{line}\n" for line in [*images, f"words {MAX}"]).encode())
        self._writes = Writes()
        self.close = self._session.close

    def make(self, tokens: List[str], given: Iterator[int]) -> Tuple[List[str], List[int]]:
        """Makes a call. Returns the reply, and the words that it took of those that are given."""
        words = list(islice(given, self._most_words(tokens)))
        before = self._session.words_left() + len(words)
        self._session.push_words(words)
        reply = self._session.call(" ".join(tokens).encode()).decode().split(" ")
        return reply, words[: before - self._session.words_left()]

    def _most_words(self, tokens: List[str]) -> int:
        """How many words a call takes at most."""
        if tokens[0] == "crash":
            return sum(recorded.length for recorded in self._writes.recorded.values())
        return 8 + len(tokens[3]) // 2 if tokens[0] in ("write", "writes") and tokens[3:] else 8


class _Recorder(Player):
    def __init__(self, parts: _Parts) -> None:
        super().__init__(parts.images)
        self._ahead: List[int] = []
        self._stream = chain(parts.words, repeat(0) if parts.seed is None else words_of(parts.seed))
        self._made: Dict[Tuple[str, str], int] = {}
        self.lines: Lines = {at: Line(tuple(image.split(" "))) for at, image in enumerate(parts.images)}

    def add(self, at: int, line: str) -> None:
        """Makes the call of a line."""
        tokens = line.split(" ")
        if line.startswith("#"):
            self.lines[at] = Line(tuple(tokens))
            return
        most = self._most_words(tokens)
        self._ahead += islice(self._stream, max(0, most - len(self._ahead)))
        reply, words = self.make(tokens, iter(self._ahead))
        del self._ahead[: len(words)]
        plain = () if tokens[0] == "crash" else tuple(self._writes.rates.plain(tokens, words))
        self._writes.see(at, tokens, reply, words)
        rows = self._writes.rows(reply) if tokens[0] == "crash" else {}
        self.lines[at] = Line(tuple(tokens), tuple(reply), plain, self._maker(tokens), rows)
        if reply[0] in ("opened", "started"):
            self._made[reply[0], reply[1]] = at

    def _maker(self, tokens: List[str]) -> Optional[int]:
        if tokens[0] in ON_HANDLE:
            return self._made.get(("opened", str(value_of(tokens[1]))))
        if tokens[0] == "finish":
            return self._made.get(("started", str(value_of(tokens[1]))))
        return None


class Needs:
    """What the acknowledgements of a script need."""

    def __init__(self, whole: Lines) -> None:
        self._whole = whole
        self._places = sorted(whole, reverse=True)
        releases = [(at, release_of(" ".join(line.tokens))) for at, line in whole.items()]
        self._releases = [(at, released) for at, released in releases if released is not None]
        self._known: Dict[Tuple[int, Acknowledged], List[int]] = {}

    def of(self, at: int, line: Line) -> List[int]:
        """The lines without which the acknowledgement in the line `at` would promise something else: the last writes of its bytes, each
        sync of that blob between them and the acknowledgement, and what releases some of them later."""
        found = line.acknowledges
        if found is None:
            return []
        if (at, found) not in self._known:
            later = [place for place, released in self._releases if place > at and released.reaches(found)]
            self._known[at, found] = [*self._needed(at, found), *later]
        return self._known[at, found]

    def _needed(self, at: int, found: Acknowledged) -> List[int]:
        unwritten, needed, syncs = set(range(found.offset, found.end)), [], []
        for before in self._places:
            if before >= at or not unwritten:
                continue
            line = self._whole[before]
            if line.made_by is None or _blob(self._whole[line.made_by]) != found.blob:
                continue
            if line.tokens[0] in ("sync", "startsync"):
                syncs.append(before)
            if line.tokens[0] in ("write", "writes") and line.reply == ("ok",):
                start = value_of(line.tokens[2])
                written = set(range(start, start + len(line.tokens[3]) // 2))
                if written & unwritten:
                    needed += [before, *syncs]
                    unwritten, syncs = unwritten - written, []
        return needed


def _blob(line: Line) -> Tuple[str, ...]:
    return (line.tokens[1], line.tokens[2].lower()) if len(line.tokens) > 2 else ()
