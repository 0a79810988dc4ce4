"""The shortest script that still fails: docs/GUIDE.md.

`cut` leaves out lines, then shortens writes, and keeps what each call was given by the generator. `cut_lines` does it with any text.
"""

from __future__ import annotations

from dataclasses import replace
from typing import Callable, Iterator, List, Optional, Sequence, Tuple, TypeVar

from .errors import BadLine
from .judging import Acknowledged, verdict
from .played import Played, play
from .recorded import Lines, Needs, record

Item = TypeVar("Item")
Fails = Callable[[str], bool]


def loses(script: str) -> bool:
    """Whether a script loses content that it says is acknowledged."""
    try:
        return verdict(script).lost is not None
    except BadLine:
        return False


def fewest(items: Sequence[Item], is_failing: Callable[[List[Item]], bool]) -> List[Item]:
    """Delta debugging: leaves out parts, ever smaller ones, and single items until none of them can be left out."""
    left = list(items)
    size = max(len(left) // 2, 1)
    while left:
        start, is_shorter = 0, False
        while start < len(left):
            rest = left[:start] + left[start + size :]
            if is_failing(rest):
                left, is_shorter = rest, True
            else:
                start += size
        if size > 1:
            size = (size + 1) // 2
        elif not is_shorter:
            break
    return left


def cut_lines(script: str, fails: Fails) -> str:
    """Returns the fewest lines of a text for which `fails` is true. No line is changed."""
    lines = script.split("\n")
    lines = [line + "\n" for line in (lines if lines[-1] else lines[:-1])]
    return "".join(fewest(lines, lambda some: fails("".join(some))))


def cut(script: str, fails: Fails = loses) -> str:
    """Returns a short script for which `fails` is true, made of a script for which it is.

    Its choices are the words of one line: those that the script's calls took, also of a seed. Lines are left out with their words, and
    handles are renumbered; each call that is left has the kind of reply that it had. Then writes, and acknowledged content, are
    shortened. An acknowledgement is left only with the last writes of its bytes and the syncs after them.

    Raises `BadLine` if a line isn't a call, `LibraryMissing` if the library isn't built, and `ValueError` if the script with its choices
    as words doesn't fail.
    """
    return _Cutter(record(script), fails).run()


class _Cutter:
    def __init__(self, whole: Lines, fails: Fails) -> None:
        self._whole = whole
        self._needs = Needs(whole)
        self._fails = fails

    def run(self) -> str:
        first = self._failing(self._whole)
        if first is None:
            raise ValueError("the script doesn't fail with its choices as words")
        lines, shorter = first.lines, first.script
        while True:
            lines = self._fewest(lines)
            for at in sorted(lines):
                lines = self._simplest(lines, at)
            lines = self._fewest(lines)
            played = self._failing(lines)
            assert played is not None
            if len(played.script) >= len(shorter):
                return played.script
            shorter = played.script

    def _failing(self, lines: Lines) -> Optional[Played]:
        played = play(lines, self._needs)
        return played if played is not None and self._fails(played.script) else None

    def _fewest(self, lines: Lines) -> Lines:
        kept = fewest(sorted(lines), lambda some: self._failing({at: lines[at] for at in some}) is not None)
        played = self._failing({at: lines[at] for at in kept})
        assert played is not None
        return played.lines

    def _simplest(self, lines: Lines, at: int) -> Lines:
        """The script with one line made as short as it can be."""
        while True:
            shorter = next((other for other in _simpler(lines, at) if self._failing(other) is not None), None)
            if shorter is None:
                return lines
            lines = shorter


def _simpler(lines: Lines, at: int) -> Iterator[Lines]:
    """Scripts with one line made shorter or simpler."""
    line = lines[at]
    found = line.acknowledges
    if found is not None:
        for start, end in _slices(len(found.data)):
            part = Acknowledged(found.blob, found.offset + start, found.data[start:end])
            yield {**lines, at: replace(line, tokens=("#", "acknowledged", *str(part).split(" ")))}
    elif line.tokens[0] in ("write", "writes") and line.reply == ("ok",):
        for start, end in _slices(len(line.tokens[3]) // 2):
            yield _sliced(lines, at, start, end)
    elif line.tokens[0] == "crash" and "1" in "".join(line.rows.values()):
        yield {**lines, at: replace(line, rows={write: "0" * len(row) for write, row in line.rows.items()})}


def _slices(length: int) -> Iterator[Tuple[int, int]]:
    """Parts of `length` bytes: the first and the last one, and then all but ever fewer of them."""
    if length < 2:
        return
    yield from ((0, 1), (length - 1, length))
    step = length // 2
    while step:
        yield from ((0, length - step), (step, length))
        step //= 2


def _sliced(lines: Lines, at: int, start: int, end: int) -> Lines:
    """The script with a part of a write, and the same part of its row in each crash."""
    line = lines[at]
    word, handle, offset, data = line.tokens
    tokens = (word, handle, str(int(offset) + start), data[2 * start : 2 * end])
    cut_rows: Lines = {
        crash: replace(other, rows={**other.rows, at: other.rows[at][start:end]}) for crash, other in lines.items() if at in other.rows
    }
    return {**lines, **cut_rows, at: replace(line, tokens=tokens)}
