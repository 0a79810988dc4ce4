"""What the tokens of a line must be (docs/FORMATS.md), and why some aren't."""

from __future__ import annotations

import re
from difflib import get_close_matches
from typing import Iterable, List, Optional

MAX = 2**64 - 1
LAST_VERSION = 2**16 - 1

DIGITS = re.compile(r"[0-9]+")
_HEX = re.compile(r"-|([0-9a-fA-F]{2})+")
# The most bytes of a token that are shown.
_SHOWN = 40

# The arguments of each line by its first words, each named by its kind. What is in brackets may be left out, and `..` are any number of
# further ones.
SHAPES = {
    "image": "P NAME HEX",
    "words": "W ..",
    "seed": "SEED",
    "open": "P NAME [LO HI]",
    "loose": "P NAME [LO HI]",
    "admit": "P NAME",
    "close": "H",
    "read": "H OFFSET LEN",
    "write": "H OFFSET HEX",
    "writes": "H OFFSET HEX",
    "resize": "H LEN",
    "size": "H",
    "sync": "H",
    "startsync": "H",
    "finish": "NUMBER",
    "remove": "P [NAME]",
    "scan": "P",
    "crash": "",
    "reopen": "",
    "config open": "N D",
    "config read": "N D",
    "config sync": "N D",
    "config remove": "N D",
    "config scan": "N D",
    "config write": "FN FD RN RD MODE",
    "config resize": "FN FD PN PD",
    "config clear": "",
}

_NOUNS = {
    "H": "a handle is a number",
    "OFFSET": "an offset is a number",
    "LEN": "a length is a number",
    "NUMBER": "a started sync is a number",
    "SEED": "a seed is a number",
    "W": "a word is a number or `max`",
    "..": "a word is a number or `max`",
    "[LO": "a version is a number",
    "HI]": "a version is a number",
    "S": "a sector size is a number",
    # Of files.
    **dict.fromkeys(("file", "number", "first"), "this is a number"),
    "last": "a length or an offset is a number",
}


def shown(token: str) -> str:
    """A token in backticks. Bytes that aren't printable ASCII are shown as `\\r`, `\\t` or `\\xHH`, and a long token is cut."""
    data = token.encode("utf-8", "surrogateescape")
    texts = [{13: "\\r", 9: "\\t"}.get(byte) or (chr(byte) if 32 <= byte < 127 else f"\\x{byte:02x}") for byte in data[:_SHOWN]]
    return f"`{''.join(texts)}{'..' if len(data) > _SHOWN else ''}`"


def value_of(digits: str) -> int:
    """The value of decimal digits, of which any number may be leading zeros."""
    return int(digits.lstrip("0") or "0")


def reason_of(tokens: List[str]) -> Optional[str]:
    """Returns why these tokens, at least one, aren't a call or a preamble line; `None` if they are."""
    if tokens[0] == "config" and len(tokens) == 1:
        return "a token is missing: `config SETTING ..`"
    words = tokens[:2] if tokens[0] == "config" else tokens[:1]
    shape = SHAPES.get(" ".join(words))
    if shape is None:
        settings = [name[7:] for name in SHAPES if name.startswith("config ")]
        return unknown("setting", words[1], settings) if len(words) == 2 else unknown("call", words[0], SHAPES)
    return _wrong_arguments(words, shape, tokens[len(words) :])


def misplaced(word: str) -> str:
    """Why a preamble line isn't one after a call."""
    return f"{shown(word)}: a preamble line precedes all calls"


def unknown(kind: str, word: str, known: Iterable[str]) -> str:
    """Why a word that is none of the known ones is wrong, with the one that is nearest."""
    near = get_close_matches(word.lower(), known, 1, 0.7)
    return _wrong(word, f"no such {kind}" + (f"; did you mean `{near[0]}`?" if near else ""))


def _wrong_arguments(words: List[str], shape: str, arguments: List[str]) -> Optional[str]:
    kinds = [kind for kind in shape.split(" ") if kind and kind != ".."]
    if kinds[-1:] == ["MODE"] and arguments[len(kinds) - 1 : len(kinds)] == ["sectors"]:
        kinds, shape = [*kinds, "S"], shape.replace("MODE", "sectors S")
    for at, kind in enumerate(kinds):
        if at >= len(arguments):
            return None if kind.startswith("[") else f"a token is missing: {_line(words, shape)}"
        why = unmet(kind, arguments[at])
        if why:
            return _wrong(arguments[at], why)
        if kind in ("D", "FD", "RD", "PD") and not _is_rate(arguments[at - 1], arguments[at]):
            return f"`{arguments[at - 1]} {arguments[at]}`: a rate is a fraction from 0 to 1"
    return _wrong_rest(words, shape, arguments[len(kinds) :])


def _wrong_rest(words: List[str], shape: str, rest: List[str]) -> Optional[str]:
    if rest and not shape.endswith(".."):
        return _wrong(rest[0], f"a token too many: {_line(words, shape)}")
    for token in rest:
        why = unmet("..", token)
        if why:
            return _wrong(token, why)
    return None


def _line(words: List[str], shape: str) -> str:
    return "`" + " ".join([*words, shape] if shape else words) + "`"


def _wrong(token: str, expected: str) -> str:
    """A token that isn't what was expected. Characters that look like a space are named first."""
    if "\r" in token:
        expected = "a carriage return is no space: a line ends with a line feed alone"
    elif "\t" in token:
        expected = "a tab is no space"
    return f"{shown(token)}: {expected}"


def unmet(kind: str, token: str) -> Optional[str]:
    """What an argument of a kind must be, if the token isn't that."""
    if kind == "P" or (kind in ("W", "..") and token == "max"):
        return None
    if kind in ("NAME", "[NAME]"):
        return None if _HEX.fullmatch(token) else "a name is hex, two digits a byte, or `-` for no bytes"
    if kind in ("HEX", "bytes"):
        return None if _HEX.fullmatch(token) else "bytes are hex, two digits each, or `-` for none"
    if kind == "MODE":
        return None if token in ("prefix", "subset", "sectors") else "a mode is `prefix`, `subset` or `sectors S`"
    if not DIGITS.fullmatch(token):
        return _NOUNS.get(kind, "a rate is two numbers, as `1 8`")
    digits = token.lstrip("0") or "0"
    if len(digits) > 20 or int(digits) > MAX:
        return f"the greatest number is {MAX}"
    if kind in ("[LO", "HI]") and int(digits) > LAST_VERSION:
        return f"the greatest version is {LAST_VERSION}"
    return "a sector has at least one byte" if kind == "S" and digits == "0" else None


def _is_rate(top: str, bottom: str) -> bool:
    return 0 < value_of(bottom) and value_of(top) <= value_of(bottom)
