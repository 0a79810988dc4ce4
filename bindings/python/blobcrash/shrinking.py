"""The smallest run of a body that still fails: docs/GUIDE.md.

    from blobcrash import Failed, seeds, shrink

    try:
        seeds(body, 1000, settings=["write 1 8 1 2 subset"])
    except Failed as failed:
        print(shrink(body, failed, settings=["write 1 8 1 2 subset"]))
"""

from __future__ import annotations

import itertools
import random
import time
from typing import Any, Callable, Iterable, Iterator, List, NamedTuple, Optional, Sequence, Tuple, Union

from .bodies import check_body, check_result
from .bounds import Bounds
from .exploration import Body, seconds_of
from .failures import Failed, reason_of
from .file_settings import ALL, profile_asked, refuse_of_stores
from .follow import ExploredFiles, ExploredStore, MoreWords, Run, called
from .generator import mixed_of, words_of
from .grammar import MAX, number
from .layers import Library
from .paths import CHOICE, DRAW, POWER, SIZE, WORDS, Choice, draws_of, path_of, text_of
from .traversal import Traversal

# How many lists of random draws are tried with smaller choices.
_DRAWS = 6
# A run with other choices may take some more calls than the one that failed, until it ends: these, and as many again.
_MORE_CALLS = 1000
_NO_TIME = "the search for a smaller run stopped when its time was over: give it more `seconds`"


class Choices(NamedTuple):
    """What decides a run: the words of its draws, what `choose` returns, and before each power loss how many calls have power.

    Further draws take the greatest word: nothing fails any more, and a crash loses what it may. Further choices are 0.
    """

    draws: Tuple[int, ...]
    picks: Tuple[int, ...]
    losses: Tuple[int, ...]


class _Made(NamedTuple):
    """A run that failed, and what decided it."""

    choices: Choices
    calls: int
    counted: int
    path: str
    script: List[str]
    reason: str

    @property
    def size(self) -> Tuple[int, ...]:
        picks, draws = self.choices.picks, self.choices.draws
        return self.calls, len(self.choices.losses), sum(picks), len(draws), sum(word != MAX for word in draws)


def shrink(
    body: Body,
    failed: Union[Failed, str],
    *,
    profile: Union[None, bool, str] = None,
    files: Union[None, bool, str] = None,
    settings: Iterable[str] = (),
    images: Iterable[Tuple[str, bytes, bytes]] = (),
    runs: int = 2000,
    seconds: Optional[float] = None,
    by: Any = Library,
    allow_stale: bool = False,
) -> Failed:
    """Runs `body` again with fewer and smaller choices, and returns the failure of the smallest run found.

    `failed` is raised by `explore` without a seed, or by `seeds`, or it is its `path`. The other arguments are those of that call, also
    `profile`; with `all` a `Failed` has it. A run is smaller if it makes fewer calls; then if it has fewer power losses, smaller results of `store.choose`, fewer draws,
    and fewer of them true. It has to raise an error of the same type. `runs` and `seconds` limit the search; if it stopped at one of them,
    `stopped` of the result says so.

    Raises `ValueError` if the run of `failed` doesn't fail again, and for `by=Program`, before any run.
    """
    check_body(body)
    if not hasattr(by, "words_left"):
        raise ValueError("`shrink` counts the draws of its runs, which only `by=Library` can")
    settings, images = tuple(settings), tuple(images)
    path = failed if isinstance(failed, str) else failed.path
    asked = profile_asked(profile, files)
    if asked == ALL:
        asked = _profile_of(failed)
    if asked is not None:
        refuse_of_stores(images, allow_stale)

    until, most = time.monotonic() + seconds_of(seconds), number(runs, "a number of runs")
    store: Any = ExploredStore(None, settings, images, by, allow_stale) if asked is None else ExploredFiles(None, settings, asked, by)
    search = _Search(body, store.on, most, until)
    made = search.first(path, None if isinstance(failed, str) else failed.reason)
    while True:
        smaller = next(search.failing(made), None)
        if smaller is None:
            return Failed(made.path, made.script, made.reason, search.runs, search.stopped)
        made = smaller


def _profile_of(failed: Union[Failed, str]) -> str:
    """The profile of a failure's run. `ValueError` for a path, which has none."""
    lines = [] if isinstance(failed, str) else failed.script
    found = next((line.split()[1] for line in lines if line.startswith("profile ")), None)
    if found is None:
        raise ValueError("a path has no profile: name that of its run in place of `all`")
    return found


class Replay(Run):
    """A run by given choices."""

    def __init__(self, choices: Choices, room: int, bounds: Optional[Bounds] = None) -> None:
        super().__init__(Traversal(), 0, len(choices.losses), bounds=bounds)
        self._chosen: List[Choice] = []
        self.words = [*choices.draws, *[MAX] * (room + 1)]
        self.left = len(self.words)
        self._picks = iter(choices.picks)
        self._gaps = iter(choices.losses)
        self._gap = next(self._gaps, 0)
        self._taken_words = 0

    @property
    def taken(self) -> List[Choice]:
        return self._chosen

    def pick(self, of: int) -> int:
        return min(next(self._picks, 0), of - 1)

    def choose(self, kind: str, of: int) -> int:
        branch = self.pick(of)
        self._chosen.append((kind, branch, of))
        return branch

    def fails(self) -> bool:
        if self.losses == 0:
            return False
        is_off = self._gap == 0
        self._chosen.append((POWER, int(is_off), 2))
        self._gap = next(self._gaps, 0) if is_off else self._gap - 1
        self.losses -= is_off
        return is_off

    def count(self, left: int, sizes: int = 0) -> None:
        if left == 0:
            self.is_short = True
            raise MoreWords
        self.left, drawn = left, len(self.words) - left
        words = self.words[self._taken_words : drawn]
        self._chosen += [(DRAW, WORDS.index(word) if word in WORDS else word, 2) for word in words]
        if sizes and words:
            self._chosen[-1] = (SIZE, words[-1] * sizes >> 64, sizes)
        self._taken_words = drawn

    def draws(self) -> Sequence[int]:
        return self.words[: self._taken_words]

    def choices(self) -> Choices:
        """What decided this run."""
        losses: List[int] = []
        gap = 0
        for kind, branch, _ in self.taken:
            if kind == POWER:
                losses, gap = ([*losses, gap], 0) if branch else (losses, gap + 1)
        return Choices(tuple(self.draws()), tuple(branch for kind, branch, _ in self.taken if kind == CHOICE), tuple(losses))


class _Seeded(Replay):
    """A run by a seed, as `seeds` makes it."""

    def __init__(self, seed: int, room: int) -> None:
        super().__init__(Choices(tuple(itertools.islice(words_of(seed), room)), (), ()), 0)
        self._chooser = mixed_of(seed)

    def pick(self, of: int) -> int:
        return next(self._chooser) % of


class _Search:
    def __init__(self, body: Body, store: Callable[[Run], Any], most: int, until: float) -> None:
        self._body, self._store, self._most, self._until = body, store, most, until
        self._reason: Optional[str] = None
        self._room = 64
        self.runs = 0
        # Why the search ended although there may be a smaller run.
        self.stopped = ""

    def first(self, path: str, reason: Optional[str]) -> _Made:
        """Makes the run of a path."""
        self._reason = reason and reason.split(":")[0]
        words = path.split()
        if words[:1] == ["seed"] and len(words) == 2:
            made = self._made(lambda: _Seeded(int(words[1]), self._room))
        else:
            choices = _choices_of(path_of(path))
            made = self._made(lambda: Replay(choices, self._room))
        if made is None:
            raise ValueError(f"the run doesn't fail again: {path or 'no choices'}. Its settings and images must be those that it had")
        self._reason = made.reason.split(":")[0]
        return made

    def failing(self, made: _Made) -> Iterator[_Made]:
        """Runs that fail and are smaller, while there are runs and time left."""
        most = 2 * made.counted + _MORE_CALLS
        for choices in _smaller(made.choices):
            if self.runs >= self._most:
                self.stopped = f"the search for a smaller run stopped at its limit of {self._most} runs: give it more `runs`"
            elif time.monotonic() >= self._until:
                self.stopped = _NO_TIME
            if self.stopped:
                return
            other = self._made(lambda: Replay(choices, self._room, Bounds(most, self._until)))
            if other is not None and other.size < made.size:
                yield other

    def _made(self, begin: Callable[[], Replay]) -> Optional[_Made]:
        """Makes a run, again with more words if it takes all of them. `None` if it doesn't fail."""
        while True:
            run = begin()
            store = self._store(run)
            self.runs += 1
            result, error = called(self._body, store)
            if run.bounds.is_late:
                self.stopped = _NO_TIME
            if run.bounds.is_long or run.bounds.is_late:
                return None
            if not run.is_short:
                break
            self._room *= 2
        check_result(result)
        if error is None or (self._reason is not None and reason_of(error).split(":")[0] != self._reason):
            return None
        return _Made(run.choices(), len(run.calls), run.bounds.calls, _path_text(run.taken), store.script, reason_of(error))


def _path_text(taken: List[Choice]) -> str:
    """The path of a run; if a draw took another word than 0 or the greatest, its words."""
    words = [branch for kind, branch, _ in taken if kind == DRAW]
    if all(word in (0, 1) for word in words):
        return text_of(taken)
    return "words " + " ".join("max" if word == 1 else str(word) for word in words)


def _choices_of(path: List[Choice]) -> Choices:
    losses: List[int] = []
    gap = 0
    for kind, branch, _ in path:
        if kind == POWER:
            losses, gap = ([*losses, gap], 0) if branch else (losses, gap + 1)
    return Choices(tuple(draws_of(path)), tuple(branch for kind, branch, _ in path if kind == CHOICE), tuple(losses))


def _smaller(choices: Choices) -> Iterator[Choices]:
    """Choices to try in place of others."""
    for at in range(len(choices.losses)):
        yield choices._replace(losses=choices.losses[:at] + choices.losses[at + 1 :])
        if choices.losses[at]:
            yield choices._replace(losses=(*choices.losses[:at], choices.losses[at] - 1, *choices.losses[at + 1 :]))
    for picks in _smaller_picks(choices.picks):
        for draws in _other_draws(choices.draws):
            yield Choices(draws, picks, choices.losses)
    for size in (len(choices.draws), *_halves(len(choices.draws))):
        for start in range(0, len(choices.draws), size or 1):
            yield choices._replace(draws=choices.draws[:start] + choices.draws[start + size :])
    for at, word in enumerate(choices.draws):
        for plain in WORDS[::-1] if word not in WORDS else WORDS[1:] if word != MAX else ():
            yield choices._replace(draws=(*choices.draws[:at], plain, *choices.draws[at + 1 :]))


def _smaller_picks(picks: Tuple[int, ...]) -> Iterator[Tuple[int, ...]]:
    for size in (len(picks), *_halves(len(picks))):
        for start in range(0, len(picks), size or 1):
            yield picks[:start] + picks[start + size :]
    for at, pick in enumerate(picks):
        for less in sorted({0, pick // 2, pick - 1}):
            if 0 <= less < pick:
                yield (*picks[:at], less, *picks[at + 1 :])


def _other_draws(draws: Tuple[int, ...]) -> Iterator[Tuple[int, ...]]:
    """The same draws and, if there are any, none and some at random: with fewer calls each draw may be another call's."""
    yield draws
    if not draws:
        return
    yield ()
    for seed in range(_DRAWS):
        chance = random.Random(seed)
        yield tuple(chance.choice(WORDS) for _ in draws)


def _halves(length: int) -> Iterator[int]:
    while length > 1:
        length //= 2
        yield length
