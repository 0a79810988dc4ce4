"""The lines of a script (docs/FORMATS.md), and how arguments become parts of one.

No text of a caller is put into a line before it is known to be one token of its kind.
"""

from __future__ import annotations

import operator
import re
from functools import lru_cache
from typing import List, Optional, Tuple

from .errors import BadLine
from .shapes import LAST_VERSION as LAST_VERSION
from .shapes import MAX as MAX
from .shapes import misplaced, reason_of, shown, value_of

_NAME = re.compile(r"[A-Za-z0-9_-]+")
# One token that is no partition name, so that a call with it makes the draw and gets the refusal of every such name.
_NO_NAME = "!"


def number(value: int, what: str, last: int = MAX) -> int:
    """An argument that is a whole number from 0 to `last`. Raises `TypeError`, for a `bool` too, or `ValueError`."""
    if type(value) is not int:
        if isinstance(value, bool) or not hasattr(value, "__index__"):
            raise TypeError(f"{what} is a whole number, not {type(value).__name__}")
        value = int.__add__(operator.index(value), 0)
    if not 0 <= value <= last:
        raise ValueError(f"{what} is out of range: it is a number from 0 to {last}")
    return value


def number_of_branches(value: int) -> int:
    """An argument of a `choose`. Raises as `number` does."""
    branches = number(value, "a number of branches", 10**9 - 1)
    if branches == 0:
        raise ValueError("there is nothing to choose from: a number of branches is at least 1")
    return branches


def data_of(value: bytes, what: str) -> bytes:
    """An argument that is bytes, or a buffer of some. Raises `TypeError`."""
    if type(value) is bytes:
        return value
    try:
        return bytes(memoryview(value))
    except TypeError:
        raise TypeError(f"{what} is bytes, not {type(value).__name__}") from None


def hex_of(data: bytes) -> str:
    return data.hex() or "-"


def unhex(word: str) -> bytes:
    return b"" if word == "-" else bytes.fromhex(word)


def partition_word(partition: str) -> str:
    """The token of a partition. For a text that is no partition name it is one that is refused as that name is."""
    return _word_of(text_of(partition, "a partition"))


@lru_cache(maxsize=256)
def _word_of(partition: str) -> str:
    return partition if _NAME.fullmatch(partition) else _NO_NAME


def image_line(partition: str, name: bytes, data: bytes) -> str:
    """The line of a raw blob. Its partition may be no partition name, but it must be one token."""
    partition = text_of(partition, "a partition")
    if not partition or " " in partition or "\n" in partition or not _is_text(partition):
        raise ValueError(f"the partition of an image is a text without spaces and line feeds, not {partition!r}")
    return f"image {partition} {hex_of(data_of(name, 'a name'))} {hex_of(data_of(data, 'an image'))}"


def versions_of(versions: Optional[Tuple[int, int]]) -> Tuple[Optional[int], Optional[int]]:
    """The first and the last version of a range, if there is one."""
    if versions is None:
        return None, None
    if isinstance(versions, (str, bytes)) or len(versions) != 2:
        raise TypeError("versions are a pair: the first and the last one")
    first, last = versions
    return number(first, "a version", LAST_VERSION), number(last, "a version", LAST_VERSION)


def comment_lines(text: str) -> List[str]:
    """The comment lines of a note, one for each of its lines."""
    if text.isascii() and "\n" not in text:
        return [f"# {text}"]
    text = text.encode("utf-8", "backslashreplace").decode()
    return [f"# {line}" for line in text.split("\n")]


def text_of(text: str, what: str) -> str:
    """An argument that is a `str`, without what a class of its own changes. Raises `TypeError`."""
    if type(text) is str:
        return text
    if not isinstance(text, str):
        raise TypeError(f"{what} is a str, not {type(text).__name__}")
    return str.__str__(text)


def setting_tokens(setting: str) -> List[str]:
    """The tokens of the `config` line of a setting. Raises `BadLine` if it is none."""
    return tokens_of("config " + text_of(setting, "a setting"))


@lru_cache(maxsize=256)
def setting_line(setting: str) -> Tuple[str, bool]:
    """The `config` line of a setting, which is exactly a `str`, and whether it needs draws. Raises `BadLine` if it is none."""
    tokens = setting_tokens(setting)
    return " ".join(tokens), needs_draws(tokens)


def needs_draws(tokens: List[str]) -> bool:
    """Whether a `config` line sets a rate that takes words of the generator."""
    rates = [value_of(token) for token in tokens[2:6] if token.isdigit()]
    pairs = list(zip(rates[0::2], rates[1::2]))
    is_partial = tokens[1] == "resize" and all(top > 0 for top, _ in pairs)
    return is_partial or any(0 < top < bottom for top, bottom in pairs)


def is_call(line: str) -> bool:
    """Whether a line is neither empty nor a comment. Raises `BadLine` if it isn't one line of UTF-8."""
    if "\n" in line:
        raise BadLine(f"bad call: {line!r} is more than one line")
    if not _is_text(line):
        raise BadLine(f"bad call: {line!r} isn't UTF-8")
    return line.strip(" ")[:1] not in ("", "#")


def tokens_of(line: str) -> List[str]:
    """The tokens of a line that is a call; none of an empty line and of a comment. Raises `BadLine` with the reason."""
    if not is_call(line):
        return []
    tokens = [token for token in line.split(" ") if token]
    why = misplaced(tokens[0]) if tokens[0] in ("image", "words", "seed") else reason_of(tokens)
    if why:
        raise BadLine(f"bad call: {why}; in {shown(line)}", why=why)
    return tokens


def _is_text(text: str) -> bool:
    """Whether a `str` can be written as UTF-8: it has no half of a surrogate pair."""
    try:
        text.encode()
    except UnicodeEncodeError:
        return False
    return True
