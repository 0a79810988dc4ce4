"""The calls of a store, and the replies of the program to them (docs/FORMATS.md)."""

from __future__ import annotations

from typing import Any, List, NamedTuple, Optional, Tuple

from .grammar import hex_of, partition_word, unhex
from .shapes import SHAPES, value_of

# Makes a tuple of a class with all of its fields, in a fraction of the time that a call of the class takes.
new: Any = tuple.__new__
# The kinds of a call's arguments in order, by its word.
_TAKES = {word: shape.replace("[", "").replace("]", "").split() for word, shape in SHAPES.items()}
# The rows of a crash: a write's number and a choice for each of its bytes, `1` if it is kept.
Rows = List[Tuple[int, str]]


class Reply(NamedTuple):
    """The reply line of a call that is refused."""

    line: str


class Opened(NamedTuple):
    """What an open returns: the handle, the size in bytes, and the version."""

    handle: int
    size: int
    version: int


class Call(NamedTuple):
    """A typed call: a word, and what it takes. `first` and `last` are an offset and a length, or the versions of an open, if it has some.
    `name` has the bytes of a write too. The removal of a partition has none."""

    word: str
    number: int = 0
    first: Optional[int] = None
    last: Optional[int] = None
    partition: str = ""
    name: Optional[bytes] = None

    def __str__(self) -> str:
        """The line of the call. A partition that isn't a valid name is `!`, which is refused as that is."""
        numbers = iter((self.first, self.last))
        words = [self.word]
        for kind in _TAKES[self.word]:
            if kind in ("H", "NUMBER"):
                words.append(str(self.number))
            elif kind == "P":
                words.append(partition_word(self.partition))
            elif kind in ("NAME", "HEX"):
                words += [] if self.name is None else [hex_of(self.name)]
            else:
                number = next(numbers)
                words += [] if number is None else [str(number)]
        return " ".join(words)


class Line(Call):
    """A call by its line. The fields of the call are those of the line, if it is one. A setting has its line as `name`."""

    text: str

    @classmethod
    def of(cls, text: str) -> Line:
        """The call of a line, which may be wrong."""
        word, *tokens = [token for token in text.split(" ") if token]
        fields: Any = {} if word in SHAPES else {"name": " ".join([word, *tokens]).encode()}
        try:
            fields = {**fields, **_fields(word, tokens)}
        except ValueError:
            pass  # It is refused.
        line = cls(word, **fields)
        line.text = text
        return line

    def __str__(self) -> str:
        return self.text


def _fields(word: str, tokens: List[str]) -> Any:
    """The fields of a call by the tokens after its word."""
    fields: Any = {}
    for kind, token in zip(_TAKES.get(word, ()), tokens):
        if kind == "P":
            fields["partition"] = token
        elif kind in ("NAME", "HEX"):
            fields["name"] = unhex(token)
        elif kind in ("H", "NUMBER"):
            fields["number"] = value_of(token)
        else:
            fields["last" if "first" in fields else "first"] = value_of(token)
    return fields


def made(asked: Call, reply: str) -> Any:
    """Returns the value of a call with this reply line, or the `Reply` of a refusal; of a `Line` the words of the reply."""
    if reply.startswith("error "):
        return Reply(reply)
    words = reply.split(" ")
    return words if type(asked) is Line else reply_of(words)


def reply_of(words: List[str]) -> Any:
    """Returns the value in the words of a reply, which is no refusal."""
    if words[0] == "opened":
        return Opened(*map(int, words[1:]))
    if words[0] in ("size", "started"):
        return int(words[1])
    if words[0] == "names":
        return [unhex(name) for name in words[1:]]
    if words[0] == "bytes":
        return unhex(words[1])
    return rows_of(words) if words[0] == "crashed" else None


def rows_of(words: List[str]) -> Rows:
    """Returns the rows in the words of a crash's reply."""
    return [(int(write), kept) for row in words[1:] for write, _, kept in [row.partition(":")]]
