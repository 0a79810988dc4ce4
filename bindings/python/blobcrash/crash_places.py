"""A run that crashes after each of its calls: what was unsynced there, and what an outcome leaves."""

from __future__ import annotations

import hashlib
import itertools
from collections import deque
from typing import Any, Deque, Dict, FrozenSet, Iterable, Iterator, List, NamedTuple, Optional, Sequence, Tuple

from .crash_units import Key, Lost, Row, Unit, canonical, rows_of, unit_of, words_of_outcome
from .file_settings import kept_edits
from .forked import Child
from .grammar import MAX
from .recorded_run import SYNCS, AddedSync, RecordedRun, Replay

# How many words a crash is given at first, beyond what it drew at the place before.
_ROOM = 64


class State(NamedTuple):
    """What a crash left: a checksum, its content pickled, and the words of the crash."""

    digest: bytes
    pickled: bytes
    words: Tuple[int, ...]


# A place, and what was lost there.
_Outcome = Tuple[int, Tuple[Tuple[Key, int], ...]]
# How many bytes of what crashes left are kept.
_MOST_KEPT = 1 << 28


class Left:
    """What the crashes left that were made before, also with other syncs: the place and what is lost there decide it."""

    def __init__(self) -> None:
        self._digests: Dict[_Outcome, bytes] = {}
        self._pickled: Dict[bytes, bytes] = {}
        self._bytes = 0

    def find(self, outcome: _Outcome) -> Optional[Tuple[bytes, bytes]]:
        digest = self._digests.get(outcome)
        return None if digest is None else (digest, self._pickled[digest])

    def add(self, outcome: _Outcome, digest: bytes, pickled: bytes) -> None:
        if digest not in self._pickled:
            if self._bytes + len(pickled) > _MOST_KEPT:
                return
            self._bytes += len(pickled)
            self._pickled[digest] = pickled
        self._digests[outcome] = digest


class Place:
    """A place of a crash: after a line, with what nothing had made durable. It can't be used once the run goes on."""

    def __init__(self, walk: Walk, units: List[Unit], old: int) -> None:
        self.run, self.line, self.units = walk.run, walk.replay.line, units
        # The line up to which a crash may keep an edit that binds a name without those before it.
        self.alone_to = walk.alone_to
        self._replay = walk.replay
        # How many of the units the place before had, if they are the first of these and no other was changed since.
        self.old = old

    def canonical(self, lost: Lost) -> Lost:
        """An outcome with all that is lost with it."""
        return canonical(self.units, lost, self.alone_to)

    def is_old(self, lost: Lost) -> bool:
        """Whether an outcome was one of the place before: what the calls since then made is lost."""
        new = range(self.old, len(self.units))
        return len(new) > 0 and all(lost[at] == self.units[at].all for at in new)

    def crash(self, lost: Lost, left: Optional[Left] = None) -> State:
        """What a crash leaves with this outcome. With `left` it isn't made again if one with the same losses was made here."""
        return next(self.crashes([lost], left, 1))[1]

    def crashes(self, every: Iterable[Lost], left: Optional[Left], jobs: int) -> Iterator[Tuple[Lost, State]]:
        """Yields what crashes leave with these outcomes. `jobs` of them are under way at the same time."""
        under_way: Deque[_Crash] = deque()
        try:
            for lost in every:
                under_way.append(_Crash(self, self._replay, lost, left))
                if len(under_way) >= jobs:
                    yield under_way.popleft().result()
            while under_way:
                yield under_way.popleft().result()
        finally:
            for crash in under_way:
                crash.drop()

    def rows(self, state: State) -> Tuple[Row, ...]:
        """What the crash of a state kept of each unit."""
        return _drawn(self._replay, list(state.words))[1]

    def script(self, state: State) -> str:
        """A script that makes the calls up to here, and crashes with the same outcome."""
        return self._replay.script(state.words)


class Walk:
    """The places of a run in order, from the line `since` on."""

    def __init__(
        self, run: RecordedRun, added: Iterable[AddedSync] = (), without: FrozenSet[int] = frozenset(), since: int = 0
    ) -> None:
        self.run = run
        added = list(added)
        self.replay = Replay(run, added, without)
        self._keeps, self._lies = "prefix", False
        # The last line that synced, or after which an added sync did.
        self._synced = 0
        self._added, self._without = frozenset(sync.before for sync in added), without
        self._since = since
        self._made: Dict[int, Key] = {}
        # The writes that were dropped by a sync that failed, by the line of that sync.
        self.dropped: Dict[int, List[Unit]] = {}

    def places(self, only: Optional[Sequence[int]] = None) -> Iterator[Place]:
        """Yields the places, or those after some lines alone."""
        before: List[Unit] = []
        old_line = -1
        settled = self.run.settled_before(self._since)
        try:
            for line in self.run.places():
                if line < settled:
                    continue
                for skipped in range(self.replay.line, line):
                    self._see_line(skipped + 1)
                self.replay.go_to(line)
                units = self._units(line, before)
                if line and self.run.made[line - 1].is_refused:
                    self._see_dropped(line, before, units)
                is_same = [unit.key for unit in units[: len(before)]] == [unit.key for unit in before]
                is_known = is_same and old_line >= 0 and not self.run.is_acknowledgement(line)
                if line >= self._since and (only is None or line in only):
                    yield Place(self, units, len(before) if is_known else len(units))
                    old_line = line
                else:
                    old_line = -1
                before = units
        finally:
            self.replay.close()

    @property
    def alone_to(self) -> int:
        """The line up to which a crash may keep an edit that binds a name without those before it."""
        return {"prefix": 0, "logged": self._synced}.get(self._keeps, MAX)

    def _see_line(self, line: int) -> None:
        """Notes which edits a crash keeps, and syncs."""
        if line in self._added:
            self._synced = line - 1
        tokens = self.run.lines[line - 1].split()
        self._keeps = kept_edits(tokens, self._keeps)
        if tokens[0] == "syncs":
            self._lies = tokens[1] == "lie"
        elif tokens[0] in SYNCS and not (self._lies or line in self._without or self.run.made[line - 1].is_refused):
            self._synced = line

    def _units(self, line: int, before: List[Unit]) -> List[Unit]:
        """What a crash draws for, which it shows if it keeps all. What is new was made by this line."""
        room = sum(unit.draws for unit in before) + _ROOM
        while True:
            taken, rows = _drawn(self.replay, [0] * room)
            if len(taken) < room:
                break
            room *= 4
        fresh = 0
        units = []
        for row in rows:
            if row.write not in self._made:
                self._made[row.write] = (line, fresh)
                fresh += 1
            key = self._made[row.write]
            text = self.run.lines[key[0] - 1]
            units.append(unit_of(row, key, self.run.is_files, self.run.mode(key[0]), text))
        if self._keeps == "logged":
            units = self._with_followed(units)
        drawn = sum(unit.draws for unit in units)
        if drawn != len(taken):
            raise RuntimeError(f"a crash after line {line} makes {len(taken)} draws, and {drawn} were expected")
        return units

    def _with_followed(self, units: List[Unit]) -> List[Unit]:
        """The same, each edit with whether the log follows it. The edits are in the order of their calls."""
        at = itertools.count()
        return [unit._replace(is_followed=self.replay.follows(next(at))) if unit.is_edit else unit for unit in units]

    def _see_dropped(self, line: int, before: List[Unit], units: List[Unit]) -> None:
        """Notes what a call that failed has dropped."""
        keys = {unit.key for unit in units}
        dropped = [unit for unit in before if unit.key not in keys and not unit.is_edit]
        if dropped:
            self.dropped[line] = dropped


class _Crash:
    """A crash that is under way, or that was made before."""

    def __init__(self, place: Place, replay: Replay, lost: Lost, left: Optional[Left]) -> None:
        self._lost, self._left = lost, left
        self._words = words_of_outcome(place.units, lost)
        self._outcome = place.line, tuple((unit.key, bits) for unit, bits in zip(place.units, lost) if bits)
        self._found = None if left is None else left.find(self._outcome)
        self._child = Child(lambda: self._work(replay)) if self._found is None else None

    def result(self) -> Tuple[Lost, State]:
        if self._found is None and self._child is not None:
            taken, pickled = self._child.result()
            if taken != len(self._words):
                raise RuntimeError(f"a crash makes {taken} draws, and {len(self._words)} were expected")
            self._found = hashlib.sha256(pickled).digest(), pickled
            if self._left is not None:
                self._left.add(self._outcome, *self._found)
        assert self._found is not None
        return self._lost, State(*self._found, tuple(self._words))

    def drop(self) -> None:
        if self._child is not None:
            self._child.drop()

    def _work(self, replay: Replay) -> Any:
        taken, _ = replay.crash(self._words)
        return len(taken), replay.content()


def _drawn(replay: Replay, words: List[int]) -> Tuple[Tuple[int, ...], Tuple[Row, ...]]:
    """The words that such a crash takes, and what it keeps."""
    fork = replay.fork()
    try:
        taken, reply = fork.crash(words)
        return tuple(taken), _rows(reply)
    finally:
        fork.close()


def _rows(reply: Any) -> Tuple[Row, ...]:
    return tuple(sorted(rows_of(reply), key=lambda row: row.write))
