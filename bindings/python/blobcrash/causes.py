"""Why states fail: the calls that were lost, and what depends on them."""

from __future__ import annotations

from dataclasses import dataclass, field
from typing import List, NamedTuple, Optional, Set, Tuple

from .called import Called
from .crash_places import Place, State
from .crash_units import Key, Lost, Unit, is_alone, is_in_log, runs
from .recorded_run import AddedSync, RecordedRun
from .state_checks import Known
from .states import CrashState

# The classes, in plain words.
ACKNOWLEDGED = "acknowledged before durable"
ORDER = "order"
TORN = "torn"
SPLIT = "split"
DROPPED = "dropped by a failed sync"


class Loss(NamedTuple):
    """A write or an edit that was lost: by the line of its call, of a write the bytes that were kept and lost, as runs."""

    key: Key
    is_edit: bool
    is_torn: bool
    inode: Optional[int]
    start: int
    kept: Tuple[Tuple[int, int], ...]
    lost: Tuple[Tuple[int, int], ...]

    @property
    def line(self) -> int:
        return self.key[0]


@dataclass
class Cause:
    """Some lost calls with which the check fails. `at` is the first line after which a crash that loses them fails. `added` are the
    syncs that may make them durable before that. `crashes` are the lines after which a crash has this cause."""

    kind: str
    losses: List[Loss]
    at: int
    added: Tuple[AddedSync, ...]
    state: CrashState
    crashes: List[int] = field(default_factory=list)
    states: Set[Known] = field(default_factory=set)
    # The fewest of `added` with which no state has this cause.
    syncs: Tuple[AddedSync, ...] = ()
    # The line of the sync that failed, if it dropped what was lost.
    failed: Optional[int] = None
    # Whether it shows only once the syncs for the causes before it are added.
    is_later: bool = False

    @property
    def lines(self) -> List[int]:
        return sorted({loss.line for loss in self.losses})

    def is_in(self, place: Place, lost: Lost) -> bool:
        """Whether an outcome loses these calls."""
        if self.kind == DROPPED:
            return not any(lost) and place.line >= self.at
        found = {unit.key: (unit, bits) for unit, bits in zip(place.units, lost)}
        for loss in self.losses:
            unit, bits = found.get(loss.key, (None, 0))
            if unit is None or not bits or (loss.is_torn and bits == unit.all):
                return False
        return True

    def add(self, place: Place, known: Known) -> None:
        """Counts a state that fails of this cause."""
        self.states.add(known)
        if place.line not in self.crashes:
            self.crashes.append(place.line)

    def takes(self, other: Cause) -> bool:
        """Whether another cause is the same one: another part of what one sync would have made durable at the same place."""
        return self.added == other.added and self.at == other.at and self.kind == other.kind and self.added != ()

    def take(self, other: Cause) -> None:
        """Takes the losses of the same cause."""
        self.losses += [loss for loss in other.losses if loss.key not in [own.key for own in self.losses]]
        self.states |= other.states
        self.crashes = sorted({*self.crashes, *other.crashes})


def cause_of(called: Called, place: Place, lost: Lost, state: State, shown: CrashState) -> Cause:
    """The cause of a failing state that loses nothing that it needn't."""
    losses = _losses(place, lost, state)
    lines = {loss.line for loss in losses}
    kept_lines = {unit.line for unit, bits in zip(place.units, lost) if bits != unit.all}
    run = place.run
    if any(loss.is_torn for loss in losses) or (place.line in lines and lines & kept_lines):
        return Cause(TORN, losses, place.line, (), shown)
    if run.is_acknowledgement(place.line):
        kind = ACKNOWLEDGED
    else:
        kind = ORDER if place.line > max(lines) else SPLIT
    added: Set[AddedSync] = set()
    if kind != SPLIT:
        added = {sync for loss in losses for sync in _syncs(called, run, loss, place.line)}
    return Cause(kind, losses, place.line, tuple(sorted(added)), shown)


def dropped_cause(place: Place, dropped: List[Tuple[int, List[Unit]]], shown: CrashState) -> Cause:
    """The cause of a state in which a crash lost nothing, but a sync that failed did."""
    line, units = dropped[-1]
    losses = [Loss(unit.key, False, False, unit.inode, unit.offset, (), ((unit.offset, unit.offset + unit.length),)) for unit in units]
    return Cause(DROPPED, losses, place.line, (), shown, failed=line)


def _losses(place: Place, lost: Lost, state: State) -> List[Loss]:
    """What an outcome loses. Of edits that are lost since an earlier one is, only that one."""
    losses, has_edit, is_behind = [], False, False
    for unit, bits, row in zip(place.units, lost, place.rows(state)):
        is_with = has_edit and not is_alone(unit, place.alone_to) or is_behind and is_in_log(unit, place.alone_to)
        if not bits or (unit.is_edit and is_with):
            continue
        has_edit, is_behind = has_edit or unit.is_edit, is_behind or unit.is_followed
        kept = () if unit.is_edit else tuple(runs(row.kept, "1", unit.offset))
        gone = () if unit.is_edit else tuple(runs(row.kept, "0", unit.offset))
        losses.append(Loss(unit.key, unit.is_edit, bits != unit.all, unit.inode, unit.offset, kept, gone))
    return losses


def _syncs(called: Called, run: RecordedRun, loss: Loss, before: int) -> List[AddedSync]:
    """The syncs that would have made a lost call durable before a line."""
    if not run.is_files:
        handle = int(run.lines[loss.line - 1].split()[1])
        closed = next((at for at in range(loss.line + 1, before) if run.lines[at - 1].split() == ["close", str(handle)]), before)
        return [AddedSync(closed, "sync", handle)]
    inode = loss.inode if not loss.is_edit else called.file_of(loss.line)
    if inode is not None:
        return [AddedSync(before, "fsync", inode)]
    return [AddedSync(before, "fsyncdir", directory) for directory in called.directories_of(loss.line)]
