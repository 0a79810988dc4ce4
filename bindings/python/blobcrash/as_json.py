"""What `blobcrash explore` and `blobcrash states` print, as JSON: an object a line (docs/FORMATS.md)."""

from __future__ import annotations

import json
import re
from typing import Any, Dict, Iterable, Iterator

_LEAVES = r"# (?P<leaves>\d+) (?:leaf|leaves)"
_OUTCOME = re.compile(_LEAVES + r"(?:, which draws no words|, first: words (?P<words>.*))")
_EXPLORED = re.compile(_LEAVES + r", (?P<rest>not )?all of them.*; (?P<outcomes>\d+) outcomes?")
_STATE = re.compile(r"# crash after call (?P<call>\d+), (?:no words|words (?P<words>.*))")
_STATES = re.compile(r"# (?P<crashes>\d+) crash(?:es)?, (?P<outcomes>\d+) outcomes?, (?P<states>\d+) states?, (?P<rest>not )?all of them.*")


def line_of_json(found: Dict[str, Any]) -> str:
    """An object as a line."""
    return json.dumps(found, ensure_ascii=False) + "\n"


def explored_as_json(lines: Iterable[str]) -> Iterator[str]:
    """An object for each outcome, and one with the counts."""
    found: Dict[str, Any] = {}
    for line in lines:
        outcome, end = _OUTCOME.fullmatch(line), _EXPLORED.fullmatch(line)
        if (outcome or end) and found:
            yield line_of_json(found)
        if outcome:
            found = {"leaves": int(outcome["leaves"]), "words": outcome["words"] or "", "replies": []}
        elif end:
            yield line_of_json({"leaves": int(end["leaves"]), "outcomes": int(end["outcomes"]), "complete": not end["rest"]})
        else:
            found["replies"].append(line)


def states_as_json(lines: Iterable[str]) -> Iterator[str]:
    """An object for each state, and one with the counts."""
    found: Dict[str, Any] = {}
    for line in lines:
        state, end = _STATE.fullmatch(line), _STATES.fullmatch(line)
        if (state or end) and found:
            yield line_of_json(found)
        if state:
            found = {"call": int(state["call"]), "words": state["words"] or "", "blobs": []}
        elif end:
            counts = {name: int(end[name]) for name in ("crashes", "outcomes", "states")}
            yield line_of_json({**counts, "complete": not end["rest"]})
        else:
            _, partition, name, data = line.split(" ")
            found["blobs"].append({"partition": partition, "name": name, "bytes": data})
