"""Runs of a body on many workers: seeds, and the subtrees of an exploration."""

from __future__ import annotations

import os
import pickle
import time
import traceback
import uuid
from concurrent.futures import FIRST_COMPLETED, Future, wait
from typing import Any, Callable, Dict, Iterator, List, NamedTuple, Optional, Tuple

from .exploration import Times, Tree, visit
from .failures import Failed, Trace
from .interrupts import Interrupts
from .progress import Progress, plural
from .results import Part

# How long a worker goes on before it returns the subtrees that it has left, in seconds: at first, so that there soon are enough for all
# workers, and then.
_FIRST_SLICE, _SLICE = 0.1, 1.0
# How many subtrees wait for each worker at most; a task is given several if there are more.
_WAITING = 4
# After how many seconds without a task that is done Ctrl-C is looked for.
_HELD = 0.1


class LostWork(RuntimeError):
    """Workers died, or couldn't be given the body. `rest` are the parts that are left: subtrees, or seeds. `__cause__` is the first error.

    The other parts have been visited, and none of them failed.
    """

    def __init__(self, text: str, rest: List[Any]) -> None:
        super().__init__(text)
        self.rest = rest

    def __reduce__(self) -> Any:
        return LostWork, (self.args[0], self.rest)


class Told(NamedTuple):
    """What a worker returns: what its task returned or raised, with the traceback of the cause."""

    done: Any
    error: Optional[Exception] = None
    trace: str = ""


def told(key: str, task: Callable[..., Any], *arguments: Any) -> Told:
    """Does a task in a worker. An error is a result, so that it isn't taken for a loss of the worker.

    Each task has a key of its own: an executor may give the result of an earlier task for one with the same arguments.
    """
    try:
        return Told(task(*arguments))
    except Exception as error:
        cause = error.cause if isinstance(error, Failed) else error
        trace = "" if cause is None else "".join(traceback.format_exception(type(cause), cause, cause.__traceback__))
        return Told(None, error, trace)


def visit_for(tree: Tree, subtrees: List[str], most: int, seconds: float, left: float) -> Part:
    """The task of a worker: visits subtrees for a time of its own clock. When no time is left, it ends the run that is under way."""
    now = time.monotonic()
    return visit(tree, subtrees, most, Times(now + seconds, now + left, now + left))


class Spread:
    """Tasks on the workers of an executor. Each is tried twice, and what is lost then is left."""

    def __init__(self, executor: Any) -> None:
        if not callable(getattr(executor, "submit", None)):
            raise TypeError(f"the executor is one of `concurrent.futures`, not {type(executor).__name__}")
        self._executor = executor
        self.workers = getattr(executor, "_max_workers", None) or os.cpu_count() or 1
        self._under_way: Dict["Future[Any]", Tuple[Any, bool, Tuple[Any, ...]]] = {}
        self._interrupts = Interrupts()
        self.lost: List[Any] = []
        self._cause: Optional[BaseException] = None

    def submit(self, part: Any, *task: Any, again: bool = False) -> None:
        """Gives a task to a worker. `part` is what is lost if that is."""
        try:
            self._under_way[self._executor.submit(told, uuid.uuid4().hex, *task)] = (part, again, task)
        except Exception as error:
            self._lose(part, error)

    def run(self, waiting: List[Any], take: Callable[[Part], Any], progress: Progress, text: Callable[[Part], str]) -> Part:
        """Does tasks until nothing waits. `take` returns a part, which is last in what waits, with its task, or nothing if no more tasks
        begin. What a task has left waits again."""
        total = Part(0, [])
        with self._interrupts:
            try:
                while waiting or self._under_way:
                    while waiting and len(self._under_way) < 2 * self.workers:
                        taken = take(total)
                        if taken is None:
                            break
                        self.submit(*taken)
                        # Only now it waits no more: an interrupt before that leaves it.
                        del waiting[len(waiting) - len(taken[0]):]
                    if not self._under_way:
                        break
                    for done in self.done():
                        total = total.plus(done)
                        waiting += done.rest
                    progress.show(lambda: text(total))
                    self._interrupts.check()
            except KeyboardInterrupt as error:
                given = dict.fromkeys(self.under_way())
                rest = [*given, *(piece for piece in waiting if piece not in given)]
                error.part = total._replace(rest=rest)  # type: ignore[attr-defined]
                raise
        self.check(waiting)
        return total._replace(rest=waiting)

    def tasks(self) -> List[Tuple[Any, ...]]:
        """The tasks that are under way."""
        return [task for _, _, task in self._under_way.values()]

    def under_way(self) -> List[Any]:
        """What is lost with the tasks that aren't done. They are cancelled, if they haven't begun."""
        for future in self._under_way:
            future.cancel()
        return [piece for part, _, _ in self._under_way.values() for piece in part]

    def done(self) -> Iterator[Any]:
        """Waits until tasks are done, and yields what they returned. Raises what one of them raised."""
        ready = self._ready()
        for future in ready:
            part, again, task = self._under_way[future]
            try:
                result = future.result()
            except Exception as error:
                del self._under_way[future]
                if again or _is_unsent(error):
                    self._lose(part, error)
                else:
                    self.submit(part, *task, again=True)
                continue
            if result.error is not None:
                for other in self._under_way:
                    other.cancel()
                trace = Trace(result.trace)
                if isinstance(result.error, Failed) and result.error.cause is None:
                    result.error.cause = trace
                raise result.error from trace
            yield result.done
            # Only now its result is counted: an interrupt before that leaves its part among those that are under way.
            del self._under_way[future]

    def check(self, waiting: List[Any]) -> None:
        """Raises `LostWork` if anything is lost, with what waits still."""
        if self._cause is None:
            return
        if _is_unsent(self._cause):
            text = f"the body or its arguments can't be sent to a worker: {self._cause}. Define the body by `def` at the top of a module"
        else:
            text = f"workers were lost: {type(self._cause).__name__}: {self._cause}. `rest` has what they were given, to be run again"
        raise LostWork(text, self.lost + waiting) from self._cause

    def _lose(self, part: Any, error: BaseException) -> None:
        self.lost += part
        self._cause = self._cause or error

    def _ready(self) -> List["Future[Any]"]:
        """The tasks that are done, of which there is at least one. An executor's futures may be of a class of its own."""
        futures = list(self._under_way)
        are_known = all(isinstance(future, Future) for future in futures)
        while True:
            self._interrupts.check()
            if are_known:
                ready = list(wait(futures, _HELD, FIRST_COMPLETED).done)
            else:
                time.sleep(0.01)
                ready = [future for future in futures if future.done()]
            if ready:
                return ready


def _is_unsent(error: BaseException) -> bool:
    """Whether a task failed because it couldn't be pickled."""
    said = str(error)
    # Python 3.13 says of a function in another one that it can't get a local object.
    is_said = "pickle" in said or "local object" in said
    return isinstance(error, pickle.PicklingError) or (isinstance(error, (AttributeError, TypeError)) and is_said)


def visit_with(executor: Any, tree: Tree, subtrees: List[str], most: int, until: float, progress: Progress) -> Part:
    """Visits the leaves of subtrees by workers, which return what they have left after a while, to be spread again."""
    spread, waiting = Spread(executor), list(subtrees)

    def take(total: Part) -> Any:
        left, now = most - total.runs - sum(quota for _, _, _, quota, *_ in spread.tasks()), time.monotonic()
        if left <= 0 or now >= until:
            return None
        # The shallowest subtrees, which tend to be the largest, are given away first.
        waiting.sort(key=len, reverse=True)
        part = waiting[: -max(1, len(waiting) // (_WAITING * spread.workers)) - 1 : -1]
        quota = left if left < spread.workers else left // spread.workers
        length = _SLICE if total.runs else _FIRST_SLICE
        return part, visit_for, tree, part, quota, min(length, until - now), until - now

    try:
        return spread.run(waiting, take, progress, lambda total: plural(total.runs, "run"))
    except KeyboardInterrupt as error:
        error.part.rest.sort(key=len)  # type: ignore[attr-defined]
        raise
