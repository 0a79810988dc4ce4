"""How long each change of a run was unsynced, as rails: one for each file and for the names in each directory."""

from __future__ import annotations

from typing import Dict, List, NamedTuple, Optional, Tuple

from .called import Called
from .crash_places import Walk
from .crash_units import Key, Unit
from .recorded_run import RecordedRun


class Rail(NamedTuple):
    """A file, the names in a directory, or a blob of which something was unsynced, from the call `start` on. The call `end` made the last of
    it durable; `None` if none did. `changes` are the calls that changed it, and `slot` is a column that no other rail has meanwhile."""

    of: str
    start: int
    end: Optional[int]
    changes: Tuple[int, ...]
    slot: int


def rails_of(run: RecordedRun, called: Called, since: int) -> List[Rail]:
    """The rails of a run from a line on, in the order of their first calls."""
    spans: Dict[str, List[Tuple[int, Optional[int]]]] = {}
    for unit, end in _ends(run, since):
        for where in _places_of(run, called, unit):
            spans.setdefault(where, []).append((unit.line, end))
    merged = [(where, *whole) for where, every in spans.items() for whole in _merged(every)]
    rails: List[Rail] = []
    for where, start, end, changes in sorted(merged, key=lambda rail: rail[1]):
        taken = {rail.slot for rail in rails if rail.end is None or rail.end >= start}
        rails.append(Rail(where, start, end, changes, min(set(range(len(taken) + 1)) - taken)))
    return rails


def _ends(run: RecordedRun, since: int) -> List[Tuple[Unit, Optional[int]]]:
    """Each unsynced write and edit, with the line after which it wasn't unsynced any more."""
    walk = Walk(run, since=since)
    found: Dict[Key, Tuple[Unit, Optional[int]]] = {}
    unsynced: Dict[Key, Unit] = {}
    for place in walk.places():
        present = {unit.key: unit for unit in place.units}
        for key in set(unsynced) - set(present):
            found[key] = unsynced[key], place.line
        found.update({key: (unit, None) for key, unit in present.items()})
        unsynced = present
    return [found[key] for key in sorted(found)]


def _places_of(run: RecordedRun, called: Called, unit: Unit) -> List[str]:
    """What a unit changes, by a path or the name of a blob."""
    line = unit.line
    if not run.is_files:
        return [called.blob_of(int(run.lines[line - 1].split()[1]))]
    inode = called.file_of(line) if unit.is_edit else unit.inode
    if inode is not None:
        return [called.path_of(inode, line + 1)]
    return [f"names in {called.path_of(directory, line)}" for directory in called.directories_of(line)]


def _merged(spans: List[Tuple[int, Optional[int]]]) -> List[Tuple[int, Optional[int], Tuple[int, ...]]]:
    """Spans that overlap as one, with the starts of all."""
    merged: List[Tuple[int, Optional[int], Tuple[int, ...]]] = []
    for start, end in sorted(spans, key=lambda span: span[0]):
        last = merged[-1] if merged else None
        if last is not None and (last[1] is None or start <= last[1]):
            longer = None if last[1] is None or end is None else max(last[1], end)
            merged[-1] = last[0], longer, tuple(sorted({*last[2], start}))
        else:
            merged.append((start, end, (start,)))
    return merged
