"""Which lines of a script aren't calls, and why: docs/FORMATS.md."""

from __future__ import annotations

from typing import List, NamedTuple, Optional, Union

from .file_checking import file_reason_of
from .shapes import misplaced, reason_of, shown

_PREAMBLE = ("image", "words", "seed")


class Fault(NamedTuple):
    """A line, counted from 1, and why a script can't have it."""

    line: int
    why: str


def check(script: Union[str, bytes], *, files: bool = False, explored: bool = False) -> List[Fault]:
    """Returns each line that a script can't have. It runs nothing. A line that is refused counts for nothing after it.

    With `files` it is a script of files. With `explored` it is one for `explore`, which draws its words itself.
    """
    data = script.encode("utf-8", "surrogateescape") if isinstance(script, str) else script
    preamble = _PREAMBLE[1:] if files else _PREAMBLE
    faults, has_calls, has_seed = [], False, False
    for number, line in enumerate(data.split(b"\n"), 1):
        tokens = tokens_of_bytes(line)
        if tokens == []:
            continue
        why = "the line is not UTF-8" if tokens is None else (file_reason_of if files else reason_of)(tokens)
        is_preamble = tokens is not None and tokens[0] in preamble
        if tokens is not None and why is None and is_preamble:
            why = _misplaced(tokens[0], has_calls, has_seed, explored)
        if why is not None:
            faults.append(Fault(number, why))
        elif tokens is not None:
            has_calls, has_seed = has_calls or not is_preamble, has_seed or tokens[0] == "seed"
    return faults


def _misplaced(word: str, has_calls: bool, has_seed: bool, explored: bool) -> Optional[str]:
    """Why a preamble line can't come after the lines before it."""
    if explored and word != "image":
        return f"{shown(word)}: `explore` draws the words itself"
    if has_calls:
        return misplaced(word)
    return f"{shown('seed')}: a script has one seed" if word == "seed" and has_seed else None


def tokens_of_bytes(line: bytes) -> Optional[List[str]]:
    """The tokens of a line; none of an empty line and of a comment. `None` if it isn't UTF-8."""
    try:
        tokens = [token for token in line.decode().split(" ") if token]
    except UnicodeDecodeError:
        return None
    return [] if tokens and tokens[0].startswith("#") else tokens
