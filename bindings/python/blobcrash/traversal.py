"""The traversal of a tree of choices, by the library: which branch a run takes, and which path is next."""

from __future__ import annotations

import ctypes
from struct import Struct
from typing import Any, Iterable, List, Sequence

from .foreign import NO_ROOM, Choice, Explorer, function, untyped
from .paths import DRAW, KINDS, SIZE, draws_of, text_of
from .paths import Choice as Chosen

# The fields of a `Choice`.
_CHOICE = Struct("@I4xQQ")
_DRAW, _SIZE = KINDS.index(DRAW), KINDS.index(SIZE)


class Traversal:
    """A path, below which the leaves of a tree are visited, and the choices of the run that follows it."""

    def __init__(self, path: Sequence[Chosen] = ()) -> None:
        self._explorer = Explorer(root=len(path), len=len(path))
        names = ("explorer_begin", "explorer_count", "explorer_end", "explorer_next")
        self._begin, self._count, self._end, self._next = [untyped(name) for name in names]
        self._at = ctypes.byref(self._explorer)
        self._hold(max(64, 2 * len(path)))
        for at, (kind, branch, among) in enumerate(path):
            _CHOICE.pack_into(self._choices, at * _CHOICE.size, KINDS.index(kind), branch, among)

    @property
    def planned(self) -> int:
        """How many choices the path has."""
        return int(self._explorer.len)

    @property
    def made(self) -> int:
        """How many choices the run has made."""
        return int(self._explorer.taken)

    @property
    def differs(self) -> bool:
        """Whether the path has another choice than the run has made."""
        return bool(self._explorer.differs)

    @property
    def path(self) -> List[Chosen]:
        """The choices of the path."""
        return self._rows(0, self._explorer.len)

    @property
    def taken(self) -> List[Chosen]:
        """The choices of the run."""
        return self._rows(0, self._explorer.taken)

    def draws(self) -> List[int]:
        """Returns the words of the draws of the path."""
        return draws_of(self._fields(0, self._explorer.len), _DRAW, _SIZE)

    def begin(self, given: int) -> None:
        """Begins the run of the path, with this many words."""
        self._begin(self._at, given)

    def choose(self, kind: str, among: int) -> int:
        """Makes the next choice of the run, and returns its branch."""
        while True:
            chosen = function("explorer_choose")(self._at, self._choices, self._capacity, KINDS.index(kind), among)
            if chosen.status != NO_ROOM:
                return int(chosen.branch)
            self._hold(2 * self._capacity)

    def count(self, left: int, sizes: int = 0) -> None:
        """Makes the draws up to here choices of the run, where `left` words are left. With `sizes` the last one drew one of that many."""
        while self._counted(left, sizes) == NO_ROOM:
            self._hold(2 * self._capacity)

    def _counted(self, left: int, sizes: int) -> int:
        if sizes:
            return int(function("explorer_count_size")(self._at, self._choices, self._capacity, left, sizes))
        return int(self._count(self._at, self._choices, self._capacity, left))

    def end(self) -> bool:
        """Ends the run. Returns whether it made the choices of the path, and no fewer."""
        return bool(self._end(self._at))

    def advance(self) -> bool:
        """Makes the path that of the next leaf. Returns `False` for the last one."""
        return bool(self._next(self._at, self._choices, self._capacity))

    def rest(self) -> List[str]:
        """The subtrees that are left, from that of the path on, as texts."""
        other = Traversal(self.path)
        other._explorer.root = self._explorer.root
        tokens = [text_of([choice]) for choice in self.path]
        texts = [" ".join(tokens)]
        while other.advance():
            # The choices before the last one are the path's own, so their texts are made once.
            last = other.planned - 1
            texts.append(" ".join([*tokens[:last], text_of(other._rows(last, last + 1))]))
        return texts

    def _fields(self, start: int, end: int) -> Iterable[Any]:
        return _CHOICE.iter_unpack(self._bytes[start * _CHOICE.size : end * _CHOICE.size])

    def _rows(self, start: int, end: int) -> List[Chosen]:
        return [(KINDS[kind], branch, among) for kind, branch, among in self._fields(start, end)]

    def _hold(self, capacity: int) -> None:
        """Takes a longer list, with the same choices."""
        choices = (Choice * capacity)()
        held = getattr(self, "_choices", None)
        if held is not None:
            ctypes.memmove(choices, held, ctypes.sizeof(held))
        self._choices, self._capacity = choices, capacity
        self._bytes: Any = (ctypes.c_char * ctypes.sizeof(choices)).from_buffer(choices)
