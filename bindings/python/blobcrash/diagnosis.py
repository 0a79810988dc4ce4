"""From a recorded run and a check to the causes of its failures, and to the syncs with which it has none: docs/GUIDE.md."""

from __future__ import annotations

from itertools import combinations
from typing import Callable, Dict, FrozenSet, Iterable, Iterator, List, NamedTuple, Optional, Sequence, Set, Tuple

from .called import Called
from .causes import Cause, cause_of, dropped_cause
from .crash_places import Left, Place, State, Walk
from .crash_units import Lost, count_outcomes, outcomes
from .recorded_run import AddedSync, RecordedRun
from .state_checks import Checks, Known, crash_state
from .states import CrashState

Added = Tuple[AddedSync, ...]
# The most records with fewer syncs that are tried, to find out whether fewer are enough.
_MOST_TRIED = 12
NO_LINES: FrozenSet[int] = frozenset()


class Failing(NamedTuple):
    """A failing state, while the run is at its place."""

    walk: Walk
    place: Place
    lost: Lost
    state: State
    known: Known


class NothingLost(Exception):
    """A check fails on a state that has lost nothing."""

    def __init__(self, state: CrashState) -> None:
        super().__init__("the check fails without any loss")
        self.state = state


class Diagnosis:
    """What is found out about a record, with crashes from the line `since` on. `told` is called with what is done next, and `tick` after each
    check."""

    def __init__(
        self,
        run: RecordedRun,
        checks: Checks,
        limit: Optional[int],
        since: int,
        told: Callable[[str], object] = lambda _: None,
        tick: Callable[[], object] = lambda: None,
    ) -> None:
        self.run, self.called = run, Called(run)
        self._checks, self._limit, self._since, self._told, self._tick = checks, limit, since, told, tick
        self.crashes, self.is_complete = sum(line >= since for line in run.places()), True
        # The states of the record, and of the record with the syncs, each with the first line of a crash that leaves it.
        self.states: Dict[Known, int] = {}
        self.states_after: Dict[Known, int] = {}
        self.failing: Set[Known] = set()
        self.causes: List[Cause] = []
        self.added: Added = ()
        self.superfluous: List[int] = []
        # The functions in which a call was made, if they are known.
        self.stack_of: Callable[[int], List[str]] = lambda _: []
        # What the crashes of this record left. That no state fails with the added syncs is tried without it.
        self._left: Optional[Left] = Left()

    def diagnose(self) -> None:
        """Finds the causes, and the syncs. Raises `NothingLost`."""
        self.causes = self._causes((), [], 0, self.states)
        self.states_after = self.states
        if self.causes:
            self._find_syncs()

    def find_superfluous(self) -> None:
        """Finds syncs of the record without which no state fails either, taken out one after another, from the last one on."""
        without: FrozenSet[int] = NO_LINES
        for line in reversed(self.run.syncs()):
            self._told(f"without the sync of line {self.run.shown[line - 1]}")
            if not self._first_fails(self.added, without | {line}, line):
                without |= {line}
        self.superfluous = sorted(without)

    @property
    def unfixed(self) -> List[Cause]:
        """The causes for which no added sync helps."""
        return [cause for cause in self.causes if not cause.added]

    def text_of(self, sync: AddedSync) -> str:
        """A sync as a call."""
        if sync.word == "sync":
            return self.called.text_of_sync(sync.number)
        return f"{sync.word} {self.called.path_of(sync.number, sync.before)}"

    def _causes(self, added: Added, known: List[Cause], since: int, states: Dict[Known, int]) -> List[Cause]:
        """The causes of failing states, other than those that are known."""
        found: List[Cause] = []
        for failing in self._failing(added, NO_LINES, since, None, states):
            place, lost = failing.place, failing.lost
            cause = next((cause for cause in [*known, *found] if cause.is_in(place, lost)), None)
            if cause is None:
                cause = self._cause_of(failing)
                found.append(cause)
            cause.add(place, failing.known)
        merged: List[Cause] = []
        for cause in found:
            same = next((other for other in merged if other.takes(cause)), None)
            if same is None:
                merged.append(cause)
            else:
                same.take(cause)
        return merged

    def _cause_of(self, failing: Failing) -> Cause:
        place = failing.place
        lost, state = self._minimal(place, failing.lost, failing.state)
        shown = crash_state(place, state)
        if any(lost):
            return cause_of(self.called, place, lost, state, shown)
        dropped = sorted(failing.walk.dropped.items())
        if dropped:
            return dropped_cause(place, dropped, shown)
        raise NothingLost(shown)

    def _minimal(self, place: Place, lost: Lost, state: State) -> Tuple[Lost, State]:
        """Keeps what can be kept, first whole calls, as long as the check fails. A write that can be lost as a whole is."""
        def tried(at: int, bits: int) -> bool:
            nonlocal lost, state
            trial = place.canonical((*lost[:at], bits, *lost[at + 1 :]))
            if trial == lost:
                return False
            left = place.crash(trial, self._left)
            if not self._checks.fails(self._checks.begin(place, left)):
                return False
            lost, state = trial, left
            return True

        for at, unit in enumerate(place.units):
            if not lost[at] or tried(at, 0) or lost[at] == unit.all or tried(at, unit.all):
                continue
            for draw in range(unit.draws):
                if lost[at] >> draw & 1:
                    tried(at, lost[at] & ~(1 << draw))
        return lost, state

    def _find_syncs(self) -> None:
        """Adds syncs until no state fails, and takes away what isn't needed."""
        chosen: Set[AddedSync] = {sync for cause in self.causes for sync in cause.added}
        while True:
            self._add_until_none_fails(chosen)
            self.added = self._fewest(tuple(sorted(chosen)))
            if self._is_enough() or self._left is None:
                break
            # A crash left something else than the one that was made before in its place.
            self._left = None
        for cause in self.causes:
            cause.syncs = tuple(sync for sync in self.added if sync in cause.added) or (self._own_syncs(cause) if cause.added else ())

    def _add_until_none_fails(self, chosen: Set[AddedSync]) -> None:
        """Adds what the lost calls suggest."""
        while True:
            self._told(f"{len(chosen)} syncs more")
            since = min((sync.before for sync in chosen), default=0)
            states = {known: line for known, line in self.states.items() if line < since}
            found = self._causes(tuple(sorted(chosen)), self.unfixed, since, states)
            if not found:
                return
            for cause in found:
                self._see_later(cause, chosen)

    def _is_enough(self) -> bool:
        """Whether no state fails with the added syncs, other than of the causes for which none helps. Makes each crash again."""
        since = min((sync.before for sync in self.added), default=0)
        self.states_after = {known: line for known, line in self.states.items() if line < since}
        left, self._left = self._left, None
        failing = self._failing(self.added, NO_LINES, since, None, self.states_after)
        is_enough = all(any(cause.is_in(found.place, found.lost) for cause in self.unfixed) for found in failing)
        self._left = left
        return is_enough

    def _own_syncs(self, cause: Cause) -> Added:
        """The fewest syncs with which no state fails of one cause alone, if those for all together aren't its own."""
        chosen: Added = ()
        for fewer in [cause.added, *([sync] for sync in cause.added if len(cause.added) > 1)]:
            if not self._first_fails(tuple(fewer), NO_LINES, min(sync.before for sync in fewer), [cause]):
                chosen = tuple(fewer)
        return chosen

    def _see_later(self, cause: Cause, chosen: Set[AddedSync]) -> None:
        """Takes a cause of a record with added syncs. If they are those that it suggests, none helps."""
        fresh = set(cause.added) - chosen
        same = next((other for other in self.causes if other.lines == cause.lines), None)
        if not fresh:
            cause.added = ()
        if same is not None and not fresh:
            same.added, same.losses = (), cause.losses
        elif same is None:
            cause.is_later = True
            self.causes.append(cause)
        else:
            same.added = tuple(sorted({*same.added, *cause.added}))
        chosen |= fresh

    def _fewest(self, chosen: Added) -> Added:
        """Takes syncs away as long as no state fails, and then tries fewer of them."""
        whole = chosen
        for sync in reversed(whole):
            fewer = tuple(other for other in chosen if other != sync)
            self._told(f"{len(fewer)} of {len(whole)} syncs more")
            if not self._first_fails(fewer, NO_LINES, sync.before):
                chosen = fewer
        fewest = [combination for size in range(1, len(chosen)) for combination in combinations(whole, size)]
        if len(fewest) <= _MOST_TRIED:
            chosen = next((fewer for fewer in fewest if not self._first_fails(fewer, NO_LINES, whole[0].before)), chosen)
        return chosen

    def _first_fails(self, added: Added, without: FrozenSet[int], since: int, of: Optional[List[Cause]] = None) -> bool:
        """Whether a state fails, of a crash from a line on: of some causes, or else of any but those for which nothing helps. The places at
        which causes were found come first."""
        unfixed = self.unfixed
        likely = sorted({cause.at for cause in self.causes if cause.added and cause.at >= since})
        tries: List[Optional[List[int]]] = [likely, None] if likely else [None]
        for only in tries:
            for failing in self._failing(added, without, since, only, {}):
                is_of = [cause.is_in(failing.place, failing.lost) for cause in (unfixed if of is None else of)]
                if any(is_of) == (of is not None):
                    return True
        return False

    def _failing(
        self, added: Iterable[AddedSync], without: FrozenSet[int], since: int, only: Optional[Sequence[int]], states: Dict[Known, int]
    ) -> Iterator[Failing]:
        """Yields the failing states, each once, of the record with added syncs and without some lines."""
        walk = Walk(self.run, added, without, max(since, self._since))
        for place in walk.places(only):
            begun: Dict[Known, Tuple[Lost, State]] = {}
            tried = (lost for lost in outcomes(place.units, place.alone_to, self._limit) if not place.is_old(lost))
            for lost, state in place.crashes(tried, self._left, self._checks.jobs):
                known = self._checks.begin(place, state)
                self._tick()
                states.setdefault(known, place.line)
                begun.setdefault(known, (lost, state))
            if self._limit is not None and count_outcomes(place.units, place.alone_to) > self._limit:
                self.is_complete = False
            for known, (lost, state) in begun.items():
                if self._checks.fails(known):
                    if states is self.states:
                        self.failing.add(known)
                    yield Failing(walk, place, lost, state, known)
