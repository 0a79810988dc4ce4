"""Many runs of a body, one a seed: docs/GUIDE.md."""

from __future__ import annotations

import time
from functools import partial
from typing import Any, Callable, Dict, Iterable, List, NamedTuple, Optional, Tuple, Union

from .bodies import check_body, check_result
from .bounds import FIRST_RUN, Bounded, Bounds, RunEnded
from .exploration import seconds_of
from .failures import Failed, one_traceback
from .file_settings import ALL, PROFILES, profile_asked, torn_unless_set
from .file_system import Files
from .generator import mixed_of
from .grammar import number, number_of_branches
from .power import PowerLoss
from .profiles import in_each
from .progress import SEEDS, Progress
from .results import Part, Seeded
from .session import Session
from .store import Store

# How many seeds a task has at most.
_CHUNK = 16


class BySeed(Session):
    """What the stores and the files of runs by seeds share. It stands before the class that makes the calls."""

    _is_search = True

    def __init__(self, seed: int, **arguments: Any) -> None:
        super().__init__(seed, **arguments)  # type: ignore[arg-type]
        self.seed = seed
        self._chooser = mixed_of(seed)

    def choose(self, branches: int) -> int:
        """Returns a number below `branches`, by the seed. `explore` tries every one."""
        branches = number_of_branches(branches)
        self._check()
        branch = next(self._chooser) % branches
        self.note(f"choose({branches}) is {branch}")
        return branch


class SeededStore(BySeed, Store):
    """The store of a run by a seed, which is `seed`."""


class SeededFiles(BySeed, Files):
    """The files of a run by a seed, which is `seed`. Their settings begin with `write 0 1 1 2 sectors 512`, as a mount does, unless one of
    them is of writes."""

    def __init__(self, seed: int, **arguments: Any) -> None:
        super().__init__(seed, **{**arguments, "settings": torn_unless_set(arguments.get("settings", ()))})
        self.profile = arguments.get("profile", PROFILES[0])


class _Timed(BySeed, Bounded):
    """A run that is ended when its time is over."""

    def __init__(self, seed: int, until: float, **arguments: Any) -> None:
        self._bounds = Bounds(until=until)
        super().__init__(seed, **arguments)

    def choose(self, branches: int) -> int:
        self._count()
        return super().choose(branches)


class _TimedStore(_Timed, SeededStore):
    """The store of such a run."""


class _TimedFiles(_Timed, SeededFiles):
    """The files of such a run."""


class _Runs(NamedTuple):
    """A body, and the arguments of its stores."""

    body: Callable[..., Any]
    arguments: Dict[str, Any]
    files: Optional[str] = None


@one_traceback
def seeds(
    body: Callable[..., Any],
    which: Union[int, Iterable[int]],
    *,
    profile: Union[None, bool, str] = None,
    files: Union[None, bool, str] = None,
    seconds: Optional[float] = None,
    executor: Any = None,
    report: Optional[str] = None,
    **arguments: Any,
) -> Seeded:
    """Calls `body` with a new store for each seed: for the first `which` ones, or for each of `which`. With a `profile`, the name of one or
    `True` for ext4, it is called with `SeededFiles`; with `all` for each profile, and `Failed` names those that fail. `files` is another
    name of it.

    After `seconds` no further run begins, and one that is under way is ended at its next call: its seed is one of `rest`. Without an
    executor the first run is given a second at least. With an `executor` of `concurrent.futures` the seeds are spread over its workers.
    `arguments` are those of `Store`, or of `Files`.

    Raises `Failed`, with a script, if the body raises: for the first such seed, or by an executor for one of them. `report` is a file
    for a page that shows it. `NoRuns` if the time is over before a run has ended, `ValueError` for no seeds. `TypeError` for a body that
    hasn't run when it returns: a generator or a coroutine.

    If standard error is a terminal, it shows there how many seeds are done. After Ctrl-C it prints that, and which are left.
    """
    check_body(body)
    for name in ("seed", "words", "pushed"):
        if name in arguments:
            raise TypeError(f"`{name}` is no argument here: each run has a seed of its own")
    for name in ("settings", "images"):
        if name in arguments and not isinstance(arguments[name], str):
            arguments[name] = tuple(arguments[name])
    if isinstance(which, int):
        which = range(number(which, "a number of seeds"))
    every = [number(seed, "a seed") for seed in which]
    if not every:
        raise ValueError("there is nothing to run: no seeds")
    asked = profile_asked(profile, files)
    if asked == ALL:
        search = partial(seeds, body, every, executor=executor, report=report, **arguments)
        parts: Dict[str, List[int]] = {name: every for name in PROFILES}
        all_seeded: Seeded = in_each(lambda name, share: search(profile=name, seconds=share), parts, seconds_of(seconds), SEEDS)
        return all_seeded
    now = time.monotonic()
    until = now + seconds_of(seconds)
    runs = _Runs(body, arguments, asked)

    def visited(progress: Progress) -> Part:
        if executor is None:
            return _visit(runs, every, 0, until, max(until, now + FIRST_RUN), progress)
        return _visit_with(executor, runs, every, until, progress)

    seeded: Seeded = SEEDS.search(visited, report, asked is not None)
    return seeded


def _visit(runs: _Runs, every: List[int], before: int, until: float, first_until: float, progress: Optional[Progress] = None) -> Part:
    """Makes the run of each seed until it is too late, for the first one `first_until`. `before` is how many runs there were."""
    at = unsynced = 0
    try:
        for at, seed in enumerate(every):
            if progress is not None:
                progress.show(lambda: f"{at} of {len(every)}")
            if at and time.monotonic() >= until:
                return Part(at, every[at:], unsynced)
            met = _met_by(runs, seed, before + at, until if at else first_until)
            if met is None:
                return Part(at, every[at:], unsynced)
            unsynced |= met
    except KeyboardInterrupt as error:
        error.part = Part(at, every[at:], unsynced)  # type: ignore[attr-defined]
        raise
    return Part(len(every), [], unsynced)


def _met_by(runs: _Runs, seed: int, before: int, until: float) -> Optional[int]:
    """Makes the run of a seed. Returns what its crashes met, or nothing if it didn't end in time."""
    with _store(runs, seed, until) as store:
        try:
            result = runs.body(store)
        except RunEnded:
            result = None
        except (Exception, PowerLoss) as error:
            if not _is_late(store):
                raise Failed.of(error, f"seed {seed}", store.script, before + 1)
            result = None
        if _is_late(store):
            return None
        check_result(result)
        met: int = store._unsynced.met
        return met


def _store(runs: _Runs, seed: int, until: float) -> Any:
    arguments = runs.arguments if runs.files is None else {"profile": runs.files, **runs.arguments}
    if until == float("inf"):
        return (SeededStore if runs.files is None else SeededFiles)(seed, **arguments)
    return (_TimedStore if runs.files is None else _TimedFiles)(seed, until, **arguments)


def _is_late(store: Any) -> bool:
    return isinstance(store, _Timed) and store._bounds.is_late


def _visit_with(executor: Any, runs: _Runs, every: List[int], until: float, progress: Progress) -> Part:
    """Makes the runs by workers."""
    from .spread import Spread

    # The next seed is the last one.
    spread, waiting = Spread(executor), every[::-1]
    chunk = min(_CHUNK, max(1, len(every) // (4 * spread.workers)))

    def take(total: Part) -> Any:
        left = until - time.monotonic()
        if left <= 0:
            return None
        before, part = len(every) - len(waiting), waiting[: -chunk - 1 : -1]
        return part, _visit_for, runs, part, before, left

    try:
        part = spread.run(waiting, take, progress, lambda total: f"{total.runs} of {len(every)}")
    except KeyboardInterrupt as error:
        error.part.rest.sort()  # type: ignore[attr-defined]
        raise
    part.rest.sort()
    return part


def _visit_for(runs: _Runs, every: List[int], before: int, seconds: float) -> Part:
    until = time.monotonic() + seconds
    return _visit(runs, every, before, until, until)
