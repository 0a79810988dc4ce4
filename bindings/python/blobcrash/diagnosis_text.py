"""What a diagnosis says, as text of one screen and as objects for JSON (docs/FORMATS.md)."""

from __future__ import annotations

import argparse
from typing import Any, Dict, Iterable, List, Optional, Tuple

from .causes import ACKNOWLEDGED, DROPPED, ORDER, TORN, Cause, Loss
from .diagnosis import Diagnosis
from .recorded_run import AddedSync
from .states import CrashState

# How many lost calls, and bytes of a run, are shown.
_MOST_CALLS, _MOST_BYTES = 8, 16
_NO_LOSS = "fails without any loss"
_WHY = {
    ACKNOWLEDGED: "it was acknowledged, and a crash lost it",
    ORDER: "a later call was kept, and one that it depends on was lost",
    TORN: "a part of a call was kept, and the rest was lost",
    DROPPED: "a sync failed and dropped it, and a later call was kept",
}


def as_text(diagnosis: Diagnosis, wrong: Optional[CrashState], kept: List[str]) -> List[str]:
    """The lines of the causes."""
    lines = [counted(diagnosis)]
    if wrong is not None:
        return [_NO_LOSS, *_of_wrong(diagnosis, wrong), f"  kept: {kept[0]}"]
    for number, (cause, folder) in enumerate(zip(diagnosis.causes, kept), 1):
        later = " (once the syncs for those before are added)" if cause.is_later else ""
        why = f": {why_of(cause.kind)}" if why_of(cause.kind) else ""
        lines += [f"{number}. {cause.kind}{why}{later}", *_of_cause(diagnosis, cause), f"  state: {folder}"]
    return lines


def counted(diagnosis: Diagnosis) -> str:
    """How many crashes and states there are, and how many fail."""
    fail = f"{len(diagnosis.failing)} {'fails' if len(diagnosis.failing) == 1 else 'fail'}"
    return f"{_count(diagnosis.crashes, 'crash')}, {_count(len(diagnosis.states), 'state')}; {fail}"


def why_of(kind: str) -> str:
    """A class in other words. Empty for one that says all itself."""
    return _WHY.get(kind, "")


def summary(diagnosis: Diagnosis, wrong: Optional[CrashState], options: argparse.Namespace) -> List[str]:
    """The last lines: with which syncs no state fails, and which aren't needed."""
    if wrong is not None:
        return []
    lines = []
    if diagnosis.causes:
        states = _count(len(diagnosis.states_after), "state")
        others = " of another cause" if diagnosis.unfixed else ""
        syncs = _placed(diagnosis, diagnosis.added)
        if len(syncs) == 1:
            lines += [f"With {syncs[0]} none of {states} fails{others}."]
        elif syncs:
            lines += [f"With these {len(syncs)} syncs none of {states} fails{others}:", *(f"  {sync}" for sync in syncs)]
        lines.append("This is said of this record and this check alone.")
    if options.superfluous:
        lines += _superfluous(diagnosis)
    if not diagnosis.is_complete:
        lines.append(f"Of a crash at most {options.limit} outcomes were tried: --limit tries more.")
    if diagnosis.run.until is not None:
        lines.append(f"Calls after the crash of line {diagnosis.run.until} weren't tried.")
    return lines


def as_object(diagnosis: Diagnosis, wrong: Optional[CrashState], number: int, kept: str) -> Dict[str, Any]:
    """A cause, or a check that fails without any loss."""
    if wrong is not None:
        return {"cause": 1, "class": "no loss", "at": _call(diagnosis, wrong.line), "kept": kept}
    cause = diagnosis.causes[number]
    lost = [{**(_call(diagnosis, loss.line) or {}), **_bytes(loss)} for loss in cause.losses]
    found: Dict[str, Any] = {"cause": number + 1, "class": cause.kind, "lost": lost, "at": _call(diagnosis, cause.at)}
    if cause.failed is not None:
        found["failed"] = _call(diagnosis, cause.failed)
    crashes = [_shown(diagnosis, line) for line in cause.crashes]
    return {**found, "crashes": crashes, "states": len(cause.states), "syncs": _syncs(diagnosis, cause.syncs), "kept": kept}


def counts_of(diagnosis: Diagnosis, wrong: Optional[CrashState], superfluous: bool) -> Dict[str, Any]:
    """The last object."""
    counts: Dict[str, Any] = {"crashes": diagnosis.crashes, "states": len(diagnosis.states), "complete": diagnosis.is_complete}
    counts["fail"] = len(diagnosis.failing)
    if diagnosis.run.until is not None:
        counts["until"] = diagnosis.run.until
    if wrong is None:
        counts.update(syncs=_syncs(diagnosis, diagnosis.added), states_with=len(diagnosis.states_after), unfixed=len(diagnosis.unfixed))
        if superfluous:
            counts["superfluous"] = [_call(diagnosis, line) for line in diagnosis.superfluous]
    return counts


def _of_wrong(diagnosis: Diagnosis, wrong: CrashState) -> List[str]:
    at = "before the first call" if wrong.line == 0 else f"after {_named(diagnosis, wrong.line)}"
    return [
        f"  {at}: nothing was lost, and the check fails.",
        "  The check is wrong of this state, or a program that is only killed here leaves it too. No sync helps.",
    ]


def _of_cause(diagnosis: Diagnosis, cause: Cause) -> List[str]:
    lines = []
    shown = cause.losses[:_MOST_CALLS]
    for loss in shown:
        is_part = cause.kind == TORN and not loss.is_edit
        lines.append(f"  lost: {_named(diagnosis, loss.line)}{_part(loss) if is_part else ''}")
        lines += _torn(diagnosis, loss) if is_part else []
    if len(cause.losses) > len(shown):
        lines.append(f"  and {len(cause.losses) - len(shown)} calls more")
    if cause.failed is not None:
        lines.append(f"  dropped by: {_named(diagnosis, cause.failed)}, which failed")
    if cause.at not in cause.lines:
        lines.append(f"  {'then' if cause.kind == ACKNOWLEDGED else 'kept'}: {_named(diagnosis, cause.at)}")
    lines += [f"  missing: {sync}" for sync in _placed(diagnosis, cause.syncs)]
    if not cause.added:
        lines.append(f"  no added sync helps: {_advice(cause)}")
    return lines


def _advice(cause: Cause) -> str:
    if cause.kind == DROPPED:
        return "the bytes must be written again"
    if cause.kind == TORN:
        return "what reads this must notice that a part is missing, as by a checksum"
    return "the calls have to leave a state that passes at each place"


def _superfluous(diagnosis: Diagnosis) -> List[str]:
    syncs = [_named(diagnosis, line) for line in diagnosis.superfluous]
    if not syncs:
        return ["Each sync of the run is needed for this check."]
    return [f"Not needed for this check, all of them left out: {_count(len(syncs), 'sync')}", *(f"  {sync}" for sync in syncs)]


def _placed(diagnosis: Diagnosis, syncs: Iterable[AddedSync]) -> List[str]:
    return [f"`{diagnosis.text_of(sync)}` before line {_shown(diagnosis, sync.before)}" for sync in syncs]


def _syncs(diagnosis: Diagnosis, syncs: Iterable[AddedSync]) -> List[Dict[str, Any]]:
    return [{"sync": diagnosis.text_of(sync), "before": _shown(diagnosis, sync.before)} for sync in syncs]


def _shown(diagnosis: Diagnosis, line: int) -> int:
    """The line in the file; 0 before the first call."""
    return diagnosis.run.shown[line - 1] if line else 0


def _named(diagnosis: Diagnosis, line: int) -> str:
    process = diagnosis.run.process(line)
    stack = ", ".join(diagnosis.stack_of(line))
    by = f", by {process}{f', in {stack}' if stack else ''}" if process else ""
    return f"line {_shown(diagnosis, line)}, {diagnosis.called.text(line)}{by}"


def _call(diagnosis: Diagnosis, line: int) -> Optional[Dict[str, Any]]:
    if line == 0:
        return None
    process = diagnosis.run.process(line)
    found: Dict[str, Any] = {"line": _shown(diagnosis, line), "call": diagnosis.called.text(line)}
    if process:
        found["process"] = process
    stack = diagnosis.stack_of(line)
    return {**found, "stack": stack} if stack else found


def _part(loss: Loss) -> str:
    """Which bytes of a torn write were kept and lost. If none were kept, its zeros were."""
    return f": kept {_runs(loss.kept) or 'its zeros'}; lost {_runs(loss.lost)}"


def _torn(diagnosis: Diagnosis, loss: Loss) -> List[str]:
    """The bytes of a torn write."""
    data = diagnosis.called.written(loss.line)
    lines = []
    parts = [(start, end, "kept") for start, end in loss.kept] + [(start, end, "lost") for start, end in loss.lost]
    for start, end, what in sorted(parts):
        part = data[start - loss.start : min(end - loss.start, start - loss.start + _MOST_BYTES)]
        lines.append(f"    {what} {start}: {part.hex(' ')}{' ..' if end - start > _MOST_BYTES else ''}")
    return lines[: 2 * _MOST_CALLS]


def _bytes(loss: Loss) -> Dict[str, Any]:
    return {} if loss.is_edit else {"kept": [list(run) for run in loss.kept], "lost": [list(run) for run in loss.lost]}


def _runs(runs: Iterable[Tuple[int, int]]) -> str:
    return " ".join(f"{start}..{end}" for start, end in runs)


def _count(count: int, noun: str) -> str:
    plural = {"crash": "crashes"}.get(noun, f"{noun}s")
    return f"{count} {noun if count == 1 else plural}"
