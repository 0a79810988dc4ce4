"""What the page of a diagnosis shows, for `blobcrash_page`: the causes, and the calls of the run with what was unsynced after each."""

from __future__ import annotations

import importlib
from typing import Any, Dict, List, Optional

from .diagnosis import Diagnosis
from .diagnosis_text import as_object, counted, why_of
from .recorded_run import SYNCS, RecordedRun
from .states import CrashState
from .unsynced import rails_of

_QUIET = ("# process ", "# descriptor ")
_ALL = frozenset(("settle", "commit"))


def page_of(diagnosis: Diagnosis, wrong: Optional[CrashState], kept: List[str], since: int, ending: List[str]) -> str:
    """The page, one file of HTML. `ending` are the last lines of the text. Raises `ImportError` if `blobcrash_page` is missing."""
    run = diagnosis.run
    causes = [as_object(diagnosis, wrong, number, folder) for number, folder in enumerate(kept)]
    rails = []
    for rail in rails_of(run, diagnosis.called, since):
        end = None if rail.end is None else run.shown[rail.end - 1]
        changes = [run.shown[line - 1] for line in rail.changes]
        rails.append({"of": rail.of, "start": run.shown[rail.start - 1], "end": end, "changes": changes, "slot": rail.slot})
    shown = {
        "summary": counted(diagnosis),
        "causes": [{**cause, "why": why_of(cause["class"])} for cause in causes],
        "ending": ending,
        "rows": _rows(diagnosis),
        "rails": rails,
        "since": run.shown[since - 1] if since else 0,
    }
    page: str = importlib.import_module("blobcrash_page.timeline").timeline(shown)
    return page


def _rows(diagnosis: Diagnosis) -> List[Dict[str, Any]]:
    """The lines of the run: calls, acknowledgements and other notes."""
    run, called = diagnosis.run, diagnosis.called
    lines = [line for line in range(1, len(run.lines) + 1) if not run.lines[line - 1].startswith(_QUIET)]
    return [{"line": run.shown[line - 1], "text": called.text(line), "kind": _kind(run, line), "by": run.process(line)} for line in lines]


def _kind(run: RecordedRun, line: int) -> str:
    if run.lines[line - 1].startswith("#"):
        return "note"
    if run.word(line) in SYNCS or run.word(line) in _ALL:
        return "sync"
    return "change" if run.way.changes(run.lines[line - 1]) else "other"
