"""What `blobcrash explore` printed, as an `Exploration`."""

import re

from .chart import Exploration
from .script import lines_of

_OUTCOME = re.compile(r"# (\d+) (?:leaf|leaves)(?:, which draws no words|, first: words((?: \d+| max)+))$")
_END = re.compile(r"# (\d+) (?:leaf|leaves), (?:not )?all of them")


def outcomes_of(text):
    """Each outcome: how many leaves have it, the words of the first, and its replies. A ValueError says that the text is another."""
    outcomes, is_ended = [], False
    for line in lines_of(text):
        found = _OUTCOME.match(line)
        if found:
            outcomes.append((int(found.group(1)), (found.group(2) or "").split(), []))
        elif _END.match(line):
            is_ended = True
        elif outcomes and not line.startswith("#"):
            outcomes[-1][2].append(line)
        else:
            raise ValueError(f"not a line of an exploration: {line[:60]}")
    if not is_ended:
        raise ValueError("the exploration has no last line")
    return outcomes


def exploration(text, fails=None):
    """The chart of an exploration: outcomes that end in the same reply are counted as one.

    `fails` says of the replies of a run whether it failed. With it the draws are counted, if the words of every leaf are known: if
    each outcome has one leaf, as where the replies to crashes are among them. A word 0 is a draw that was true, `max` one that was
    false.
    """
    outcomes, counts, draws = outcomes_of(text), {}, []
    for count, _, replies in outcomes:
        last = replies[-1] if replies else "no reply"
        counts[last] = counts.get(last, 0) + count
    if fails is not None and all(count == 1 for count, _, _ in outcomes):
        for _, words, replies in outcomes:
            failed = bool(fails(replies))
            for i, word in enumerate(words):
                while len(draws) <= i:
                    draws.append([0, 0, 0, 0])
                side = 0 if word == "0" else 2
                draws[i][side] += 1
                draws[i][side + 1] += failed
    return Exploration(list(counts.items()), [tuple(draw) for draw in draws])
