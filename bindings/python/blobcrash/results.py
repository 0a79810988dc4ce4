"""What searches came to."""

from __future__ import annotations

from typing import Any, Dict, List, Mapping, NamedTuple, Tuple, TypeVar

from .unkept import note_of


class Part(NamedTuple):
    """The counts of a visit of some seeds or subtrees: how many runs there were, what is left, what the crashes met (`Unsynced.met`)."""

    runs: int
    rest: List[Any]
    unsynced: int = 0
    outcomes: Dict[Any, int] = {}
    # How many more runs were ended since another had come to the same state.
    met: int = 0

    def plus(self, other: Any) -> Part:
        """The sum of two, without what is left. The other may be a result."""
        outcomes = dict(self.outcomes)
        for outcome, count in getattr(other, "outcomes", {}).items():
            outcomes[outcome] = outcomes.get(outcome, 0) + count
        unsynced = self.unsynced | getattr(other, "unsynced", 0)
        return Part(self.runs + other.runs, [], unsynced, outcomes, self.met + getattr(other, "met", 0))


class _Explored(NamedTuple):
    runs: int
    outcomes: Dict[Any, int]
    rest: Tuple[str, ...]
    met: int = 0


class Explored(_Explored):
    """What an exploration visited.

    `runs` is how many runs there were. `outcomes` has each value that the body returned, except `None`, and how many runs returned it.
    `rest` are the subtrees that a limit left; `explore(body, under=rest)` goes on with them. `met` is how many more runs were ended at a
    `restart(expecting=..)`, since another had come to the same state. `unkept` is a text if crashes met unsynced writes that they could
    not keep, as their retention was 0: then little of what a crash may leave was tried. `profiles` has the exploration of each profile, if
    it was of all.
    """

    unkept: str = ""
    profiles: Mapping[str, Explored] = {}

    @property
    def complete(self) -> bool:
        """Whether every run was visited."""
        return not self.rest

    def __str__(self) -> str:
        more = f", and {self.met} up to a restart in a state met before" if self.met else ""
        return _text(self, more)


class _Seeded(NamedTuple):
    runs: int
    rest: Tuple[int, ...]


class Seeded(_Seeded):
    """How many runs there were, and the seeds that the time left. `unkept` and `profiles` are as of `Explored`."""

    unkept: str = ""
    profiles: Mapping[str, Seeded] = {}

    def __str__(self) -> str:
        return _text(self)


_Result = TypeVar("_Result", Explored, Seeded)


def explored_of(part: Part) -> Explored:
    """The result of an exploration."""
    explored = Explored(part.runs, part.outcomes, tuple(part.rest), part.met)
    explored.unkept = note_of(part.unsynced)
    return explored


def seeded_of(part: Part) -> Seeded:
    """The result of runs by seeds."""
    seeded = Seeded(part.runs, tuple(part.rest))
    seeded.unkept = note_of(part.unsynced)
    return seeded


def of_profiles(result: _Result, found: Mapping[str, Any]) -> _Result:
    """The sum of the results of each profile, with these."""
    result.profiles = found
    notes = (getattr(each, "unkept", "") for each in found.values())
    result.unkept = next((note for note in notes if note), "")
    return result


def _text(result: Any, more: str = "") -> str:
    """A result as a line, or as one for each profile."""
    if result.profiles:
        return "\n".join(f"{profile}: {each}" for profile, each in result.profiles.items())
    text = f"{result.runs} run{'' if result.runs == 1 else 's'}{more}"
    text += ", not all of them: a limit was reached" if result.rest else ", all of them"
    return f"{text}; {result.unkept}" if result.unkept else text
