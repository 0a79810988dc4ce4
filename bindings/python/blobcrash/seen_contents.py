"""Which contents were met. Of a million that have most of their bytes in common each piece is kept once."""

from __future__ import annotations

from typing import Any, Dict, Set, Tuple

# Bytes of a blob or a file are compared in pieces of this length.
_PIECE = 1 << 14


class SeenContents:
    """Contents with what else tells them apart, such as how many acknowledgements there are."""

    def __init__(self) -> None:
        self._pieces: Dict[bytes, int] = {}
        self._entries: Dict[Tuple[Any, ...], Tuple[Any, ...]] = {}
        self._seen: Set[Tuple[int, Tuple[Any, ...]]] = set()

    def add(self, content: Tuple[Tuple[Any, ...], ...], other: int) -> bool:
        """Returns whether it is new."""
        count = len(self._seen)
        self._seen.add((other, tuple(map(self._shared, content))))
        return len(self._seen) > count

    def _shared(self, entry: Tuple[Any, ...]) -> Tuple[Any, ...]:
        """The entry of a blob or of a path that was met first and is equal, with the numbers of its pieces in place of many bytes."""
        data = entry[-1]
        if data is not None and len(data) > _PIECE:
            pieces = self._pieces
            numbers = tuple(pieces.setdefault(data[at : at + _PIECE], len(pieces)) for at in range(0, len(data), _PIECE))
            entry = (*entry[:-1], numbers)
        return self._entries.setdefault(entry, entry)
