"""Paths of a decision tree of draws and choices.

A choice is a triple of its kind, the branch that is taken and how many branches there are. A path is a list of choices from the root.
It names the subtree that begins where it ends. As a text it has a token for each choice:

    0, max   a draw of the store that is true, one that is false: the word that it takes
    K/N      branch K of a `choose(N)`
    K:N      the size at index K of the N sizes at which a partial resize may stop, the least one first
    on, off  whether the power stays on or goes off at a call
"""

from __future__ import annotations

import re
from typing import Any, Iterable, List, Tuple

from .grammar import MAX

Choice = Tuple[str, int, int]

DRAW, CHOICE, POWER, SIZE = "a draw", "choose", "a power loss", "a drawn size"
# By the numbers that they have in the library.
KINDS = (DRAW, POWER, CHOICE, SIZE)
TRUE = (DRAW, 0, 2)
# The words that make a draw true and false, whatever its rate.
WORDS = (0, MAX)
_TOKENS = {"0": TRUE, "max": (DRAW, 1, 2), "on": (POWER, 0, 2), "off": (POWER, 1, 2)}
_BRANCH = re.compile(r"([0-9]{1,9})/([0-9]{1,9})")
_SIZE = re.compile(r"([0-9]{1,20}):([0-9]{1,20})")


# What the tokens of a text mean, for a report. With `on` or `off` a path has power losses.
_LEGENDS = (
    (re.compile(r"(0|max)"), "0, max: a draw that is true, false"),
    (_BRANCH, "K/N: `choose(N)` is K"),
    (_SIZE, "K:N: a partial resize stops at the size at index K of N"),
    (re.compile(r"(on|off)"), "on, off: the power stays on, goes off, at a call that changes something"),
)


def legend_of(text: str) -> str:
    """What the tokens of a path mean, of those kinds that it has."""
    tokens = set(text.split(" "))
    return "; ".join(legend for form, legend in _LEGENDS if any(map(form.fullmatch, tokens)))


def draws_of(path: Iterable[Tuple[Any, int, int]], draw: Any = DRAW, size: Any = SIZE) -> List[int]:
    """The words of the draws of a path. Of a size it is the least word that draws it. `draw` and `size` are the kinds of draws in it."""
    return [WORDS[branch] if kind == draw else -(-branch * 2**64 // among) for kind, branch, among in path if kind == draw or kind == size]


def text_of(path: List[Choice]) -> str:
    """The text of a path."""
    known = {choice: token for token, choice in _TOKENS.items()}
    return " ".join(known.get(choice) or f"{choice[1]}{':' if choice[0] == SIZE else '/'}{choice[2]}" for choice in path)


def path_of(text: str) -> List[Choice]:
    """The path of a text. Raises `ValueError` for a token that is no choice."""
    if not isinstance(text, str):
        raise TypeError(f"a path is a str, not {type(text).__name__}")
    path = []
    for token in text.split():
        branch, size = _BRANCH.fullmatch(token), _SIZE.fullmatch(token)
        if token in _TOKENS:
            path.append(_TOKENS[token])
        elif branch and int(branch[1]) < int(branch[2]):
            path.append((CHOICE, int(branch[1]), int(branch[2])))
        elif size and int(size[1]) < int(size[2]) <= MAX:
            path.append((SIZE, int(size[1]), int(size[2])))
        else:
            raise ValueError(f"{token!r} is no choice of a path: `0`, `max`, `on`, `off`, a branch as `2/5` or a size as `2:5`")
    return path
