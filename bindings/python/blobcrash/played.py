"""Some lines of a script, run again: with renumbered handles, and with the choices that each call had."""

from __future__ import annotations

from itertools import chain, repeat
from typing import Dict, List, NamedTuple, Optional, Sequence, Tuple

from .grammar import MAX
from .recorded import Line, Lines, Needs, Player


class Played(NamedTuple):
    """A script with its choices as words, and the lines that it has, with their places."""

    script: str
    lines: Lines


class _OtherRows(Exception):
    """A crash draws for other writes than was expected: `drawn` are their lines."""

    def __init__(self, at: int, drawn: List[int]) -> None:
        super().__init__()
        self.at, self.drawn = at, drawn


class _OtherReply(Exception):
    """A call has another kind of reply than in the script that was recorded."""


def play(lines: Lines, needs: Needs) -> Optional[Played]:
    """Runs some lines of a script, with what its acknowledgements need. A line is left out if its handle is not opened.

    Returns `None` if the run isn't one of the same code: a call is refused that wasn't, or the other way round, or a line is missing that
    an acknowledgement needs.
    """
    if not all(needed in lines for at, line in lines.items() for needed in needs.of(at, line)):
        return None
    drawn: Dict[int, List[int]] = {}
    while True:
        player = _Player(lines, drawn)
        try:
            return player.run()
        except _OtherRows as other:
            drawn[other.at] = other.drawn
        except _OtherReply:
            return None
        finally:
            player.close()


class _Player(Player):
    def __init__(self, lines: Lines, drawn: Dict[int, List[int]]) -> None:
        self._lines = lines
        self._drawn = drawn
        self._images = [" ".join(line.tokens) for line in lines.values() if line.tokens[0] == "image"]
        super().__init__(self._images)
        self._made: Dict[int, str] = {}
        self._words: List[int] = []
        self._texts: List[str] = []
        self._made_lines: Lines = {}

    def run(self) -> Played:
        for at in sorted(self._lines):
            line = self._lines[at]
            if line.is_call:
                self._call(at, line)
            else:
                self._made_lines[at] = line
                if line.tokens[0] != "image":
                    self._texts.append(" ".join(line.tokens))
        words = ["words " + " ".join("max" if word == MAX else str(word) for word in self._words)] if self._words else []
        return Played("".join(line + "\n" for line in [*self._images, *words, *self._texts]), self._made_lines)

    def _call(self, at: int, line: Line) -> None:
        tokens = list(line.tokens)
        if line.made_by is not None:
            if line.made_by not in self._made:
                return
            tokens[1] = self._made[line.made_by]
        given = self._crash_words(at, line) if tokens[0] == "crash" else line.words
        reply, words = self.make(tokens, chain(given, repeat(0)))
        if _kind(reply) != _kind(line.reply):
            raise _OtherReply
        if tokens[0] == "crash":
            self._check_rows(at, reply)
        self._writes.see(at, tokens, reply, words)
        if reply[0] in ("opened", "started"):
            self._made[at] = reply[1]
        self._words += words
        self._texts.append(" ".join(tokens))
        self._made_lines[at] = line

    def _crash_words(self, at: int, line: Line) -> List[int]:
        expected = self._drawn.get(at)
        if expected is None:
            expected = [write for write in self._writes.numbers if write in line.rows]
        words: List[int] = []
        for write in expected:
            words += self._writes.recorded[write].words(line.rows.get(write, ""))
        return words

    def _check_rows(self, at: int, reply: List[str]) -> None:
        drawn = list(self._writes.rows(reply))
        expected = self._drawn.get(at, [write for write in self._writes.numbers if write in self._lines[at].rows])
        if drawn != expected:
            raise _OtherRows(at, drawn)


def _kind(reply: Sequence[str]) -> Tuple[str, ...]:
    return tuple(reply[:2]) if reply[0] == "error" else tuple(reply[:1])
