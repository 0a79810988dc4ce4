"""Which lines of a script of files aren't calls, and why: docs/FORMATS.md."""

from __future__ import annotations

from typing import List, Optional

from .errors import BadLine
from .file_calls import FORMS, PATH, SETTINGS, file_line, without_comment
from .file_settings import PROFILES, file_setting_tokens, one_of
from .shapes import DIGITS, reason_of, shown, unknown, unmet

_NAMES = {"path": "PATH", "to": "TO", "how": "[noreplace|exchange]", "number": "NUMBER", "first": "NUMBER", "last": "LENGTH", "file": "FILE",
          "bytes": "HEX"}


def file_reason_of(tokens: List[str]) -> Optional[str]:
    """Returns why these tokens, at least one, aren't a call, a setting or a preamble line of a script of files; `None` if they are."""
    tokens = without_comment(tokens)
    word, arguments = tokens[0], tokens[1:]
    if word in ("words", "seed", "config"):
        return reason_of(tokens)
    if word == "profile":
        is_right = len(arguments) == 1 and arguments[0] in PROFILES
        return None if is_right else f"{shown(' '.join(arguments))}: a profile is {one_of(PROFILES)}"
    if word in SETTINGS:
        try:
            file_setting_tokens(" ".join(tokens))
        except BadLine as bad:
            return str(bad).rpartition(": ")[2]
        return None
    # `tree` is a line of scripts alone.
    if word == "tree" and not arguments:
        return None
    if word not in FORMS:
        return unknown("call", word, [*FORMS, *SETTINGS, "tree"]) if word != "tree" else "a token too many: `tree`"
    return _wrong_arguments(word, arguments)


def _wrong_arguments(word: str, arguments: List[str]) -> Optional[str]:
    forms = FORMS[word].split()
    line = " ".join([word, *(_NAMES[form] for form in forms)])
    for form, argument in zip(forms, arguments):
        why = _unmet(form, argument)
        if why:
            return f"{shown(argument)}: {why}"
    if len(arguments) > len(forms):
        return f"{shown(arguments[len(forms)])}: a token too many: `{line}`"
    if len(arguments) < len(forms) - (forms[-1:] == ["how"]):
        return f"a token is missing: `{line}`"
    try:
        file_line(" ".join([word, *arguments]))
    except BadLine:
        return f"it isn't `{line}`"
    return None


def _unmet(form: str, argument: str) -> Optional[str]:
    """What an argument must be, if it isn't that."""
    if form == "how":
        return None if argument in ("noreplace", "exchange") else "a rename ends in `noreplace`, `exchange` or nothing"
    if form in ("path", "to") or (form == "file" and not DIGITS.fullmatch(argument)):
        return None if PATH.fullmatch(argument) else "in a path, a byte that isn't printable ASCII, and a backslash, is `\\xNN`"
    return unmet(form, argument)
