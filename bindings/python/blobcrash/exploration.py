"""Every outcome of a small run: docs/GUIDE.md.

    from blobcrash import explore

    def body(store):
        blob, _ = store.open("p", b"b")
        blob.write(0, b"12345678")
        store.restart()
        blob, size = store.open("p", b"b")
        return blob.read(0, size)

    print(explore(body, settings=["write 0 1 1 2 prefix"]).outcomes)    # nine, each once

`body` is called once for each combination of outcomes of the draws, of `store.choose` and, with `power_losses`, of the calls at which
the power fails.
"""

from __future__ import annotations

import threading
import time
from functools import partial
from typing import Any, Callable, Dict, Iterable, List, NamedTuple, Optional, Tuple, Union

from .bodies import check_body, check_result
from .bounds import CALLS_PER_RUN, FIRST_RUN, Bounds
from .failures import Failed, TooLong, one_traceback, reason_of
from .file_library import FilesLibrary, files_way
from .file_settings import ALL, file_setting_tokens, profile_asked, refuse_of_stores
from .follow import ExploredFiles, ExploredStore, NotDeterministic, Run, called
from .grammar import MAX, image_line, number, setting_tokens
from .layers import InTurn, Library
from .met import Met
from .paths import Choice, path_of, text_of
from .profiles import in_each, paths_of
from .progress import EXPLORE, Progress, plural
from .results import Explored, Part
from .traversal import Traversal

Body = Callable[..., Any]
# How many words a run is given at first after those of its path. If it takes more, it is made again.
_ROOM = 64
# A longer line of a report is cut.
_SHOWN = 80
_running = threading.local()


class Tree(NamedTuple):
    """What is explored: a body, and the arguments of its stores."""

    body: Body
    settings: Tuple[str, ...]
    images: Tuple[Tuple[str, bytes, bytes], ...]
    by: Any
    seed: Optional[int]
    power_losses: int
    allow_stale: bool
    calls_per_run: int
    # The profile of its files. Without one it is of stores.
    files: Optional[str] = None

    def store(self) -> Any:
        """The store, or the files, of which those of all runs are made."""
        way = (self.by or Library) if self.files is None else files_way(self.by)
        if way in (Library, FilesLibrary):
            way = InTurn(way)
        if self.files is not None:
            return ExploredFiles(self.seed, self.settings, self.files, way)
        return ExploredStore(self.seed, self.settings, self.images, way, self.allow_stale)


class Times(NamedTuple):
    """When no further run begins, and when a run that is under way is ended: the first one, and any other."""

    last: float
    first_end: float
    end: float


@one_traceback
def explore(
    body: Body,
    *,
    profile: Union[None, bool, str] = None,
    files: Union[None, bool, str] = None,
    settings: Iterable[str] = (),
    images: Iterable[Tuple[str, bytes, bytes]] = (),
    power_losses: int = 0,
    seed: Optional[int] = None,
    runs: Optional[int] = None,
    seconds: Optional[float] = None,
    calls_per_run: int = CALLS_PER_RUN,
    under: Union[str, Iterable[str]] = "",
    executor: Any = None,
    report: Optional[str] = None,
    by: Any = Library,
    allow_stale: bool = False,
) -> Explored:
    """Calls `body` with a new store for each combination of outcomes, depth first, and returns how many there were.

    These are chosen in every way: whether each draw of a rate between 0 and 1 is true, each `store.choose(n)`, and with `power_losses`
    at which calls the power fails, at most that many times a run; the body then catches `PowerLoss`, and lets the store crash and reopen.
    With a `seed` the draws are those of the seed, and only the others are chosen.

    With a `profile`, the name of one or `True` for ext4, the body is called with `Files`, of which `settings` are then. They begin with
    `write 0 1 1 2 sectors 512`, as a mount does, unless one of them is of writes. With `all` each profile is explored, with the same
    limit of runs and a share of the time, and `Failed` names those that fail. `files` is another name of it.

    `settings`, `images`, `by` and `allow_stale` are those of `Store`. `runs` and `seconds` are limits. Without a limit all runs are made,
    however many there are. After `seconds` a run that is under way is ended at its next call, and is left in `rest`; without an executor
    the first run is given a second at least. A run may have `calls_per_run` calls, and as many draws and choices. `under` names subtrees
    by the paths of `Explored.rest` or `Failed.path`, and only these are explored. With an `executor` of `concurrent.futures` the subtrees
    are spread over its workers; the body is then a function that they can import.

    Raises `Failed`, with a script, for the first run in which the body raises; `report` is a file for a page that shows it. `TooLong`,
    with the script so far, for a run with more calls or draws. `NotDeterministic` if the body makes other calls along the same path.
    `LostWork` if workers are lost. `NoRuns` if the time is over before a run has ended. `ValueError` or `TypeError` for an invalid
    argument, before the body is called: also for no runs and no subtrees. `TypeError` too for a body that hasn't run when it returns: a
    generator or a coroutine.

    If standard error is a terminal, it shows there how many runs there were. After Ctrl-C it prints the counts so far and the subtrees that
    are left; `explored` of the `KeyboardInterrupt` is what was visited.
    """
    check_body(body)
    if getattr(_running, "is_on", False):
        raise RuntimeError("an explored body can't explore: call `explore` outside of it, and use `store.choose` inside")
    if isinstance(settings, str):
        raise TypeError("settings are a list of texts")
    asked = profile_asked(profile, files)
    if asked == ALL:
        given: Dict[str, Any] = {"settings": tuple(settings), "images": tuple(images), "power_losses": power_losses, "seed": seed, "runs": runs}
        given.update(calls_per_run=calls_per_run, executor=executor, report=report, by=by, allow_stale=allow_stale)
        parts = paths_of(under)
        search = partial(explore, body, **given)
        all_explored: Explored = in_each(
            lambda name, share: search(profile=name, seconds=share, under=parts[name]), parts, seconds_of(seconds), EXPLORE
        )
        return all_explored
    losses, most_calls = number(power_losses, "a number of power losses"), number(calls_per_run, "a number of calls")
    if asked is not None:
        by = files_way(by)
        refuse_of_stores(images, allow_stale)
    tree = Tree(body, tuple(settings), tuple(images), by, seed, losses, bool(allow_stale), most_calls, asked)
    _check(tree)
    most = MAX if runs is None else number(runs, "a number of runs")
    subtrees = [text_of(path_of(path)) for path in ([under] if isinstance(under, str) else under)]
    if not most or not subtrees:
        raise ValueError(f"there is nothing to explore: no {'runs' if subtrees else 'subtrees'}")
    now = time.monotonic()
    until = now + seconds_of(seconds)

    def visited(progress: Progress) -> Part:
        if executor is None:
            return visit(tree, subtrees, most, Times(until, max(until, now + FIRST_RUN), until), progress)
        from .spread import visit_with

        return visit_with(executor, tree, subtrees, most, until, progress)

    explored: Explored = EXPLORE.search(visited, report, asked is not None)
    return explored


def _check(tree: Tree) -> None:
    """Raises `ValueError` or `TypeError` for an invalid argument."""
    if tree.seed is not None:
        number(tree.seed, "a seed")
    for setting in tree.settings:
        if tree.files is None:
            setting_tokens(setting)
        else:
            file_setting_tokens(setting)
    for image in tree.images:
        image_line(*image)
    if tree.seed is None and not hasattr(tree.by, "words_left"):
        raise ValueError("an exploration counts the draws of its runs, which only `by=Library` can")


def seconds_of(seconds: Optional[float]) -> float:
    """An argument that is a limit of time."""
    if seconds is None:
        return float("inf")
    if isinstance(seconds, bool) or not isinstance(seconds, (int, float)):
        raise TypeError(f"a number of seconds is a number, not {type(seconds).__name__}")
    if not seconds >= 0:
        raise ValueError("a number of seconds is at least 0")
    return float(seconds)


def visit(tree: Tree, subtrees: List[str], most: int, times: Times, progress: Optional[Progress] = None) -> Part:
    """Visits the leaves of subtrees until there were `most` runs, or the time is over. Raises `Failed` and `TooLong`. A `KeyboardInterrupt`
    has the part that was visited, as `part`."""
    visitor = _Visitor(tree, times, progress)
    try:
        for at, subtree in enumerate(subtrees):
            try:
                rest = visitor.visit(path_of(subtree), most)
            except _Interrupted as stopped:
                stopped.error.part = visitor.part(stopped.rest + subtrees[at + 1 :])
                raise stopped.error from None
            if rest:
                return visitor.part(rest + subtrees[at + 1 :])
        return visitor.part([])
    finally:
        visitor.store.end()


class _Late(Exception):
    """The time was over in a run."""


class _Interrupted(Exception):
    """Ctrl-C came. `rest` are the subtrees that are left, with that of the run."""

    def __init__(self, error: Any, rest: List[str]) -> None:
        super().__init__(error, rest)
        self.error, self.rest = error, rest


class _Visitor:
    """Makes the runs of a tree."""

    def __init__(self, tree: Tree, times: Times, progress: Optional[Progress]) -> None:
        self._tree = tree
        self.store = tree.store()
        self._times = times
        self._progress = progress
        self._room = _ROOM
        self._states: Met = {}
        self.runs = 0
        self.met = 0
        self.unsynced = 0
        self.outcomes: Dict[Any, int] = {}

    def part(self, rest: List[str]) -> Part:
        """What was visited so far, if this is left."""
        return Part(self.runs, rest, self.unsynced, self.outcomes, self.met)

    def visit(self, path: List[Choice], most: int) -> List[str]:
        """Visits the leaves below a path, depth first, and returns the subtrees that the limits left."""
        along = Traversal(path)
        _running.is_on = True
        try:
            return self._visit_along(along, path, most)
        except KeyboardInterrupt as error:
            raise _Interrupted(error, along.rest()) from None
        finally:
            _running.is_on = False

    def _visit_along(self, along: Traversal, path: List[Choice], most: int) -> List[str]:
        before: Optional[Run] = None
        while True:
            if self.runs >= most or (self.runs and time.monotonic() >= self._times.last):
                return along.rest()
            try:
                run = self._made(along)
            except _Late:
                return along.rest()
            except NotDeterministic as error:
                if before is None and path:
                    why = "it is the path of another body, or this one isn't deterministic"
                    raise NotDeterministic(f"no run of the body has the path `{text_of(path)}`: {why}") from error
                raise
            if before is not None:
                _compare(before, run)
            before = run
            if not along.advance():
                return []
            if self._progress is not None:
                self._progress.show(lambda: f"{plural(self.runs, 'run')}{'' if most == MAX else f' of at most {most}'}")

    def _made(self, along: Traversal) -> Run:
        """Makes one run, with as many words as it takes."""
        run, store, outcome, error = self._attempt(along, self._times.end if self.runs else self._times.first_end)
        is_whole = along.end()
        self.unsynced |= store._unsynced.met
        if run.bounds.is_met:
            self.met += 1
            return run
        self.runs += 1
        if not is_whole:
            raise NotDeterministic.by(f"it made {along.made} choices where it had made {run.planned}") from error
        if error is not None:
            self._confirm(run, error)
            raise Failed.of(error, text_of(run.taken), store.script, self.runs)
        if outcome is not None:
            self._tally(outcome)
        return run

    def _attempt(self, along: Traversal, until: float = float("inf")) -> Tuple[Run, Any, Any, Optional[BaseException]]:
        """Calls the body, again with more words if it takes all of them. Returns what it returned or raised."""
        tree = self._tree
        while True:
            bounds = Bounds(tree.calls_per_run, until)
            run = Run(along, self._room, tree.power_losses, tree.seed, bounds, self._states)
            store = self.store.on(run)
            outcome, error = called(tree.body, store)
            if run.error is not None:
                raise run.error
            if bounds.is_long:
                raise TooLong(text_of(run.taken), store.script, self.runs + 1, tree.calls_per_run)
            if bounds.is_late:
                raise _Late
            if not run.is_short:
                if error is None and not bounds.is_met:
                    check_result(outcome)
                return run, store, outcome, error
            self._room *= 2

    def _confirm(self, run: Run, error: BaseException) -> None:
        """Makes a run that failed again, which has to fail again."""
        again, _, _, raised = self._attempt(Traversal(run.taken))
        if raised is None or again.calls != run.calls:
            failed = f"a run raised {reason_of(error)}"
            raise NotDeterministic.by(f"{failed}, and made again it {'made other calls' if raised else 'did not'}") from error

    def _tally(self, outcome: Any) -> None:
        try:
            self.outcomes[outcome] = self.outcomes.get(outcome, 0) + 1
        except TypeError:
            raise TypeError(f"the body returned a {type(outcome).__name__}: return a value that can be hashed, or nothing") from None


def _compare(before: Run, run: Run) -> None:
    """Raises `NotDeterministic` if two runs differ before the choice at which their paths part."""
    at = run.planned - 1
    calls = min(before.made[at], run.made[at])
    if before.calls[:calls] != run.calls[:calls]:
        where, was, now = next((at, *pair) for at, pair in enumerate(zip(before.calls, run.calls)) if pair[0] != pair[1])
        first, second = _different(was, now)
        raise NotDeterministic.by(f"call {where} of a run was {first}, and of the next one, which had made the same choices, {second}")
    if before.made[at] != run.made[at]:
        which = f"choice {at} of a run came after {before.made[at]} calls"
        raise NotDeterministic.by(f"{which}, and of the next one, which had made the same choices, after {run.made[at]}")


def _different(was: Any, now: Any) -> Tuple[str, str]:
    """Two calls as lines, each cut to its start and to what is around the first character at which they differ."""
    first, second = str(was), str(now)
    at = next((k for k, (one, other) in enumerate(zip(first, second)) if one != other), min(len(first), len(second)))
    return _cut(first, at), _cut(second, at)


def _cut(line: str, at: int) -> str:
    if len(line) <= _SHOWN:
        return f"`{line}`"
    start, end = max(0, at - _SHOWN // 4), at + _SHOWN // 4
    dots = " .." if end < len(line) else ""
    if start <= _SHOWN // 4:
        return f"`{line[:end]}{dots}`"
    return f"`{line[: _SHOWN // 4]} .. {line[start:end]}{dots}` (from character {start} on)"
