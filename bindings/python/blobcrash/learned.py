"""What is found out of the unsynced writes of files by crashes that keep only one of them: their bytes."""

from __future__ import annotations

from typing import Any, Dict, List, NamedTuple, Optional, Sequence, Set, Tuple

from .crash_units import Row
from .file_contents import Contents, Draws, Part, Write, contents_of, span_of
from .grammar import MAX

# The span of each file that its unsynced writes reach, by inode.
Spans = Dict[int, Tuple[int, int]]
# How many writes are tried alone at one place of a crash.
_MOST_TRIED = 256
# How many words a crash is given beyond one for each row.
_ROOM = 64
_TRUNCATES = frozenset(("truncate", "open_truncated", "open_inode_truncated"))


class Outcomes(NamedTuple):
    """The draws of a crash, the spans by which a crash is compared, and the crashes that were made, by their words."""

    draws: Draws
    spans: Spans
    made: Dict[Tuple[int, ...], Any]


class Learned:
    """The bytes of the unsynced writes of a run of files. A file that was truncated after a write is left out as long as the write is unsynced:
    its bytes aren't those of its writes alone."""

    def __init__(self) -> None:
        self._data: Dict[int, bytes] = {}
        # The last write before the truncations of each inode; `None` is one that isn't known.
        self._last: Dict[Optional[int], int] = {}
        self._truncated: Set[Optional[int]] = set()

    def see(self, word: str, inode: Optional[int], is_refused: bool) -> None:
        """Follows a call: its word, the inode if it truncates one that is known, and whether it was refused."""
        if word == "crash" or word == "write" and is_refused:
            # Numbers begin again, or bytes of earlier writes are durable.
            self._data.clear()
        elif word in _TRUNCATES:
            self._truncated.add(inode)

    @property
    def wants_rows(self) -> bool:
        """Whether a call has truncated a file since `see_rows` was called."""
        return bool(self._truncated)

    def see_rows(self, rows: Sequence[Row]) -> None:
        """Takes what is unsynced after the calls so far."""
        last = max((row.write for row in rows), default=-1)
        self._last.update((inode, last) for inode in self._truncated)
        self._truncated.clear()

    def outcomes(self, run: Any, rows: Sequence[Row]) -> Optional[Outcomes]:
        """The outcomes of a crash here, of which each draw is for a row. `None` if nothing is known of them, as when an edit isn't settled: what
        it leaves of a file depends on more than the file's bytes."""
        files: Dict[int, List[Row]] = {}
        for row in rows:
            if row.inode is None:
                return None
            files.setdefault(row.inode, []).append(row)
        known = {inode: own for inode, own in files.items() if self._is_known(inode, own)}
        spans = {inode: span_of([_write_of(row) for row in own]) for inode, own in known.items()}
        trials = _Trials(run, rows, spans)
        contents = self._contents(trials, known) if known else None
        if contents is None:
            return None
        draws = Draws([row.inode for row in rows if row.inode is not None], contents)
        found = Outcomes(draws, spans, trials.made)
        every = [trials.keep({row.write for row in rows}), *trials.made.values()]
        return found if all(draws.agrees(left.taken, left.rows, left.parts) for left in every) else None

    def _is_known(self, inode: int, rows: Sequence[Row]) -> bool:
        """Whether the bytes of a file are those of its writes over what the file has without them."""
        last = max(self._last.get(inode, -1), self._last.get(None, -1))
        return all(row.write > last for row in rows)

    def _contents(self, trials: "_Trials", files: Dict[int, List[Row]]) -> Optional[Dict[int, Contents]]:
        """The contents of files. `None` if not all is known yet."""
        unknown = [row for own in files.values() for row in own if row.write not in self._data]
        for row in unknown[:_MOST_TRIED]:
            part = trials.keep({row.write}).parts.get(row.inode)
            if part is not None:
                at = (row.offset or 0) - trials.spans[row.inode or 0][0]
                self._data[row.write] = part.data[at : at + len(row.kept)]
        if len(unknown) > _MOST_TRIED:
            return None
        contents: Dict[int, Contents] = {}
        for inode, own in files.items():
            base = trials.keep(set()).parts.get(inode)
            if base is not None and all(row.write in self._data for row in own):
                found = contents_of([Write(row.offset or 0, self._data[row.write]) for row in own], base)
                if found is not None:
                    contents[inode] = found
        return contents


class _Trials:
    """Crashes that keep some writes."""

    def __init__(self, run: Any, rows: Sequence[Row], spans: Spans) -> None:
        self._run, self._rows, self.spans = run, rows, spans
        self.made: Dict[Tuple[int, ...], Any] = {}

    def keep(self, writes: Set[int]) -> Any:
        """What a crash leaves that keeps these writes."""
        words = tuple(0 if row.write in writes else MAX for row in self._rows)
        if words not in self.made:
            self.made[words] = self._run.crash([*words, *[0] * _ROOM], self.spans)
        return self.made[words]


def _write_of(row: Row) -> Write:
    return Write(row.offset or 0, bytes(len(row.kept)))
