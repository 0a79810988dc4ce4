"""The outcomes of a crash after some lines of a script, by all its draws but those that decide nothing."""

from __future__ import annotations

from typing import Any, Dict, Iterator, List, NamedTuple, Optional, Sequence, Tuple

from .crash_units import Row, rows_of
from .file_contents import Draws, Lost, Part
from .file_settings import kept_edits
from .foreign_files import Refusal
from .grammar import MAX
from .learned import Learned, Spans
from .replayed import Content, ReplayedFiles

# How many words a crash is given at first.
_ROOM = 256
# With fewer draws all outcomes are tried.
_MANY = 4
Words = Tuple[int, ...]


class Left(NamedTuple):
    """A crash: the words that it took, what it kept of each unsynced write and unsettled edit, what it left, and of some files a part."""

    taken: Words
    rows: Tuple[Row, ...]
    content: Content
    parts: Dict[int, Optional[Part]]


class Forward:
    """A run of which each call is made once. What a crash leaves is found in a fork."""

    def __init__(self, way: Any, images: List[str], words: List[int], lines: List[str]) -> None:
        self.images, self.words, self.lines, self.line = images, words, lines, 0
        self.is_files = way is ReplayedFiles
        self._session = way(images, words)
        self.learned = Learned()
        # Which unsettled edits of files a crash keeps.
        self._keeps = "prefix" if self.is_files else "any"

    def go_to(self, line: int) -> None:
        """Makes the calls up to a line."""
        while self.line < line:
            text = self.lines[self.line]
            tokens = text.split()
            self._keeps = kept_edits(tokens, self._keeps)
            inode = self._truncated_by(tokens) if self.is_files else None
            reply = self._make(self._session, text)
            self.learned.see(tokens[0], inode, isinstance(reply, Refusal))
            self.line += 1
            if self.is_files and self.line < line and self.learned.wants_rows:
                self.learned.see_rows(self.crash([0] * _ROOM).rows)

    def _truncated_by(self, tokens: List[str]) -> Optional[int]:
        """The inode of the file that a call truncates, if it is open."""
        is_open = tokens[0] == "truncate" and tokens[1].isdigit()
        return self._session.inode_at(int(tokens[1])) if is_open else None

    @property
    def taken(self) -> List[int]:
        """The words that the calls have taken."""
        return self.words[: len(self.words) - self._session.words_left()]

    @property
    def is_prefix(self) -> bool:
        """Whether a crash keeps unsettled edits up to some point."""
        return self._keeps == "prefix"

    def crash(self, given: Sequence[int], spans: Optional[Spans] = None) -> Left:
        """What a crash by these words leaves, and the parts of some files by their inodes. The run stays where it is."""
        session = self._session.fork()
        try:
            before = session.words_left() + len(given)
            reply = session.crash(list(given))
            taken = tuple(given[: before - session.words_left()])
            content = session.content()
            parts = {inode: session.part_of(inode, span) for inode, span in (spans or {}).items()}
            return Left(taken, tuple(sorted(rows_of(reply))), content, parts)
        finally:
            session.close()

    def close(self) -> None:
        self._session.close()

    @staticmethod
    def _make(session: Any, text: str) -> Any:
        return None if text.startswith("#") else session.call(text)


class _Drawn(NamedTuple):
    """What the draws of a crash are for, in order: an edit or a write. In the mode `prefix` a loss is the last draw of its write. An edit
    that is always lost has none."""

    is_edit: bool
    draws: int
    is_prefix: bool


class CrashOutcomes:
    """The outcomes of a crash where the run is. `leaves` counts those of its draws that were tried or are as one that was."""

    def __init__(self, run: Forward, limit: Optional[int]) -> None:
        self._run, self._limit = run, limit
        self._taken = run.taken
        # The lines of the calls and of the crash, as a script has them.
        self._calls: Optional[str] = None
        self._room = _ROOM
        # The draws of each outcome that was made, by those up to the last one that lost. A draw that decides nothing keeps.
        self._known: Dict[Words, Words] = {}
        self._drawn: Tuple[_Drawn, ...] = ()
        self._rows: Tuple[Row, ...] = ()
        # Of files, if each draw is of a whole write: which draws decide nothing, and the crashes that showed it.
        self._draws: Optional[Draws] = None
        self._spans: Spans = {}
        self._made: Dict[Words, Left] = {}
        # A crash has left something else than what was expected.
        self._is_refuted = False
        self.is_complete = True

    @property
    def leaves(self) -> int:
        return sum(self._count(taken) for taken in self._known.values())

    def __iter__(self) -> Iterator[Tuple[str, Content]]:
        """Yields the script and what is left: first those that lose least and most, then depth first."""
        return ((self.script(words), content) for words, content in self.by_words())

    def by_words(self) -> Iterator[Tuple[Words, Content]]:
        """The same with the words of the crash in place of the script, which is long if the run is."""
        kept = yield from self._new((), 0)
        self._run.learned.see_rows(self._rows)
        self._learn(kept)
        yield from self._others(kept)
        if self._is_refuted:
            # What was taken for the same may not be: all draws are tried.
            self._draws, self._is_refuted, self._known = None, False, {}
            kept = yield from self._new((), 0)
            yield from self._others(kept)

    def _others(self, kept: Words) -> Iterator[Tuple[Words, Content]]:
        """Yields what the outcomes leave that don't keep all."""
        yield from self._extremes(kept)
        along: Optional[Words] = None if self._is_refuted else self._next(self._known[()])
        while along is not None and not self._is_refuted:
            taken = self._known.get(_stem(along))
            if taken is None:
                if self._is_at_limit():
                    self.is_complete = False
                    return
                taken = yield from self._new(along, 0)
            along = self._next(taken)

    def all_lost(self) -> Iterator[Tuple[str, Content]]:
        """Yields the outcome that loses all."""
        return ((self.script(words), content) for words, content in self._new((), MAX))

    def close(self) -> None:
        """Ends the run."""
        self._run.close()

    def script(self, words: Sequence[int]) -> str:
        """The script of the calls, and of a crash by these words."""
        all_words = [*self._taken, *words]
        given = f"words {shown_words(all_words)}\n" if all_words else ""
        if self._calls is None:
            self._calls = "\n".join([*self._run.lines[: self._run.line], "crash", ""])
        return "".join(f"{line}\n" for line in self._run.images) + given + self._calls

    def _learn(self, kept: Words) -> None:
        """Finds out which draws of files decide nothing, if there are some and each is of a whole write."""
        if not self._run.is_files or len(kept) != len(self._rows) or len(kept) < _MANY:
            return
        found = self._run.learned.outcomes(self._run, self._rows)
        if found is not None:
            self._draws, self._spans, self._made = found

    def _extremes(self, kept: Words) -> Iterator[Tuple[Words, Content]]:
        """Each single loss, all lost, and each single draw kept."""
        losses: Optional[List[Left]] = None if self._draws else []
        for at in range(len(kept)):
            if self._is_at_limit() or self._is_refuted:
                return
            yield from self._new((0,) * at + (MAX,), 0, losses)
        self._drawn = self._drawn_by(losses or [])
        for path in [(), *((MAX,) * at + (0,) for at in range(len(kept)))]:
            if self._is_at_limit() or self._is_refuted:
                return
            yield from self._new(path, MAX)

    def _is_at_limit(self) -> bool:
        return self._limit is not None and len(self._known) >= self._limit

    def _new(self, path: Words, rest: int, seen: Optional[List[Left]] = None) -> Any:
        """Makes the crash whose first draws are a path, and then all kept or all lost. Yields it unless one like it was made before. Returns
        its draws."""
        known = self._known.get(_stem(self._first((*path, *[rest] * (len(self._rows) - len(path)))))) if self._draws else None
        if known is not None:
            return known
        left = self._crash(path, rest)
        if not self._known:
            self._rows = left.rows
        if seen is not None:
            seen.append(left)
        self._is_refuted |= self._draws is not None and not self._draws.agrees(left.taken, left.rows, left.parts)
        taken = left.taken if self._is_refuted else self._first(left.taken)
        if _stem(taken) not in self._known:
            self._known[_stem(taken)] = taken
            yield left.taken, left.content
        return taken

    def _crash(self, path: Words, rest: int) -> Left:
        while True:
            given = [*path, *[rest] * self._room]
            made = self._made.get(tuple(given[: len(self._rows)])) if self._draws else None
            left = made or self._run.crash(given, self._spans)
            if len(left.taken) < len(given):
                return left
            self._room *= 4

    def _drawn_by(self, losses: List[Left]) -> Tuple[_Drawn, ...]:
        """What each draw is for: the row in which its loss is seen. Only if there are draws that may decide nothing."""
        if not losses or not self._run.is_prefix or sum(row.inode is None for row in self._rows) < 2:
            return ()
        count = len(losses)
        draws, shorter = [0] * len(self._rows), [False] * len(self._rows)
        for left in losses:
            at = next(at for at, row in enumerate(self._rows) if row != left.rows[at])
            draws[at] += 1
            shorter[at] |= len(left.taken) < count
        return tuple(_Drawn(row.inode is None, draws[at], shorter[at]) for at, row in enumerate(self._rows) if draws[at] or _is_lost(row))

    def _idle(self, taken: Words) -> List[bool]:
        """Of each draw whether it decides nothing: it is of an edit after a lost one, if a crash keeps edits up to some point."""
        idle: List[bool] = []
        is_after = False
        for drawn in self._drawn:
            own = taken[len(idle) : len(idle) + drawn.draws]
            if drawn.is_prefix:
                own = own[: next((at for at, word in enumerate(own, 1) if word), drawn.draws)]
            idle += [drawn.is_edit and is_after] * len(own)
            is_after = is_after or drawn.is_edit and any(own or (MAX,))
        return idle + [False] * (len(taken) - len(idle))

    def _first(self, taken: Words) -> Words:
        """The first outcome that is as this one."""
        if self._draws is not None:
            return _words(self._draws.first(_lost(taken)))
        return tuple(0 if idle else word for word, idle in zip(taken, self._idle(taken)))

    def _count(self, taken: Words) -> int:
        """How many outcomes are as this one."""
        return self._draws.count(_lost(taken)) if self._draws is not None else 1 << sum(self._idle(taken))

    def _next(self, taken: Words) -> Optional[Words]:
        """The path of the next outcome, depth first."""
        if self._draws is not None:
            following = self._draws.next(_lost(taken))
            return None if following is None else _words(following)
        idle = self._idle(taken)
        end = len(taken)
        while end and (taken[end - 1] or idle[end - 1]):
            end -= 1
        return (*taken[: end - 1], MAX) if end else None


def _lost(words: Words) -> Lost:
    return tuple(int(word > 0) for word in words)


def _words(lost: Lost) -> Words:
    return tuple(MAX if is_lost else 0 for is_lost in lost)


def shown_words(words: Sequence[int]) -> str:
    """The words as a line of a script has them."""
    return " ".join("max" if word == MAX else str(word) for word in words)


def _is_lost(row: Row) -> bool:
    """Whether a crash that keeps what it can loses an edit all the same."""
    return row.inode is None and "0" in row.kept


def _stem(taken: Words) -> Words:
    """The draws up to the last one that lost."""
    end = len(taken)
    while end and not taken[end - 1]:
        end -= 1
    return taken[:end]
