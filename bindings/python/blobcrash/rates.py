"""The rates that a script has set so far, and the words of draws (docs/FORMATS.md, "Draws")."""

from __future__ import annotations

from typing import Dict, List, NamedTuple, Optional, Tuple

from .grammar import MAX
from .shapes import value_of

Rate = Tuple[int, int]
NEVER: Rate = (0, 1)


class Recorded(NamedTuple):
    """A write that a crash may draw for: how its bytes are kept, its offset and its length."""

    rate: Rate
    mode: Tuple[str, ...]
    offset: int
    length: int

    def words(self, kept: str) -> List[int]:
        """The words by which a crash keeps these bytes, `1` for kept and `0` for lost."""
        if not is_drawn(self.rate):
            return []
        kept = kept[: self.length].ljust(self.length, "1")
        if self.mode[0] == "prefix":
            lost = kept.find("0")
            return [0] * self.length if lost < 0 else [0] * lost + [MAX]
        if self.mode[0] == "sectors":
            size = value_of(self.mode[1])
            starts = [at for at in range(self.length) if at == 0 or (self.offset + at) % size == 0]
            return [_word(kept[at]) for at in starts]
        return [_word(choice) for choice in kept]


def _word(choice: str) -> int:
    return 0 if choice == "1" else MAX


def is_drawn(rate: Rate) -> bool:
    """Whether a rate takes a word of the generator."""
    return 0 < rate[0] < rate[1]


def is_true(word: int, rate: Rate) -> bool:
    """The outcome of a draw."""
    return word * rate[1] < rate[0] << 64


class Rates:
    """The settings of the `config` lines so far."""

    def __init__(self) -> None:
        self._rates: Dict[str, Rate] = {}
        self._retention: Rate = NEVER
        self._mode: Tuple[str, ...] = ("prefix",)

    def set(self, tokens: List[str]) -> None:
        """Takes a line `config ..`."""
        what = tokens[1]
        if what == "clear":
            self.__init__()  # type: ignore[misc]
            return
        self._rates[what] = (value_of(tokens[2]), value_of(tokens[3]))
        if what == "write":
            self._retention, self._mode = (value_of(tokens[4]), value_of(tokens[5])), tuple(tokens[6:])
        if what == "resize":
            self._rates["partial"] = (value_of(tokens[4]), value_of(tokens[5]))

    def of(self, what: str) -> Rate:
        return self._rates.get(what, NEVER)

    def fails(self, words: List[int]) -> bool:
        """Whether a write that took these words failed, not its sync."""
        rate = self.of("write")
        return is_true(words[0], rate) if is_drawn(rate) else rate != NEVER and rate[0] > 0

    def recorded(self, tokens: List[str], reply: List[str], words: List[int]) -> Optional[Recorded]:
        """The write that a line has recorded for a crash, if it has."""
        length = len(tokens[3]) // 2 if tokens[3] != "-" else 0
        if length == 0 or self._retention[0] == 0 or reply[0] != "ok" and reply[:2] != ["error", "Injected"]:
            return None
        if (tokens[0] == "write") != (reply == ["ok"]) or (tokens[0] == "writes" and self.fails(words)):
            return None
        return Recorded(self._retention, self._mode, value_of(tokens[2]), length)

    def plain(self, tokens: List[str], words: List[int]) -> List[int]:
        """The words of a call as 0 for each draw that was true, and the greatest one for each that was false."""
        return [_plain(word, rate) for word, rate in zip(words, self._drawn_by(tokens, words))]

    def _drawn_by(self, tokens: List[str], words: List[int]) -> List[Optional[Rate]]:
        """The rate of each word of a call. None for a word that decides a size."""
        word = tokens[0]
        names = {"loose": "open", "startsync": "sync"}
        if word in ("write", "writes"):
            first = [self.of("write")] if is_drawn(self.of("write")) else []
            rest = self._retention if words and self.fails(words) else self.of("sync")
            return [*first, *[rest] * len(words)]
        if word == "resize":
            rate, partial = self.of("resize"), self.of("partial")
            has_failed = is_true(words[0], rate) if is_drawn(rate) and words else rate[0] > 0
            first = [rate] if is_drawn(rate) else []
            return [*first, *([partial] if is_drawn(partial) else []), *[None] * len(words)] if has_failed else [*first, rate]
        return [self.of(names.get(word, word))] * len(words)


def _plain(word: int, rate: Optional[Rate]) -> int:
    if rate is None or not is_drawn(rate):
        return word
    return 0 if is_true(word, rate) else MAX
