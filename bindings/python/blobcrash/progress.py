"""How far long work is: a line at the bottom of a terminal, and nothing anywhere else."""

from __future__ import annotations

import os
import sys
import threading
import time
from contextlib import contextmanager
from typing import Any, Callable, Iterable, Iterator, List, NamedTuple, Optional

from .errors import NoRuns
from .failures import Failed, reporter
from .results import Part, explored_of, seeded_of

# After how many seconds the line is first shown, and again.
_FIRST, _EVERY = 1.0, 0.2
# Its `profile` is the one that is being searched, in a search of all profiles.
_now = threading.local()


class Progress:
    """The line of one search. It is shown on standard error, if that is a terminal, once the search takes longer than a second."""

    def __init__(self, name: str) -> None:
        profile = getattr(_now, "profile", None)
        self.is_of_profile = profile is not None
        self._name = f"{name} in {profile}" if self.is_of_profile else name
        self._began = time.monotonic()
        self._next = self._began + _FIRST if _is_terminal() else float("inf")
        self._is_shown = False

    @property
    def seconds(self) -> int:
        """How many seconds have passed."""
        return int(time.monotonic() - self._began)

    def show(self, text: Callable[[], str]) -> None:
        """Shows what `text` returns, if it is time."""
        now = time.monotonic()
        if now >= self._next:
            self._next = now + _EVERY
            self._is_shown = True
            _write(f"\r{f'{self._name}: {text()}, {self.seconds} s'[: _columns() - 1]}\x1b[K")

    def clear(self) -> None:
        """Removes the line."""
        if self._is_shown:
            self._is_shown = False
            _write("\r\x1b[K")

    def tell(self, text: str) -> None:
        """Prints a message of the search on standard error, and no line after it."""
        self.clear()
        self._next = float("inf")
        _write(f"{self._name}: {text}\n")


@contextmanager
def in_profile(profile: str) -> Iterator[None]:
    """Makes the searches inside part of one in all profiles, which reports what was interrupted."""
    before, _now.profile = getattr(_now, "profile", None), profile
    try:
        yield
    finally:
        _now.profile = before


def counted(items: Iterable[Any], count: int, name: str) -> Iterator[Any]:
    """Yields the items of long work, of which there are `count`. If standard error is a terminal, it shows there how many were taken."""
    progress = Progress(name)
    try:
        for done, item in enumerate(items):
            progress.show(lambda: f"{done} of {count}")
            yield item
    finally:
        progress.clear()


class Kind(NamedTuple):
    """A kind of search: its name, what makes its result, and what prints a result after Ctrl-C."""

    name: str
    result_of: Callable[[Part], Any]
    tell: Callable[[Any, Progress], None]

    def search(self, visit: Callable[[Progress], Part], report: Optional[str], of_files: bool) -> Any:
        """Searches, and returns the result. Raises `NoRuns` if no run has ended. `report` is a file for a page that shows a failure."""
        show = reporter(report, of_files)
        try:
            part = self._visited(visit)
        except Failed as failed:
            show(failed)
            raise
        if not part.runs:
            raise NoRuns(part.rest)
        return self.result_of(part)

    def _visited(self, visit: Callable[[Progress], Part]) -> Part:
        """What a visit came to. A `KeyboardInterrupt` with the part that was visited, as `part`, is given its result, as `found`. That is
        printed, unless the search is one of those in all profiles."""
        progress = Progress(self.name)
        try:
            return visit(progress)
        except KeyboardInterrupt as error:
            interrupt: Any = error
            if hasattr(error, "part"):
                interrupt.found = self.result_of(interrupt.part)
                if not progress.is_of_profile:
                    self.tell(interrupt, progress)
            raise
        finally:
            progress.clear()


def tell_explored(interrupt: Any, progress: Progress) -> None:
    """Prints what was visited, and the subtrees that are left. The `KeyboardInterrupt` has it as `explored`."""
    interrupt.explored = interrupt.found
    paths = "".join(f"    {path!r},\n" for path in interrupt.found.rest)
    progress.tell(f"{_so_far(interrupt.found, 'run', progress)}. To go on: explore(.., under=[\n{paths}])")


def tell_seeds(interrupt: Any, progress: Progress) -> None:
    """Prints how many seeds are done, and which are left: of each profile, if the search was in all."""
    found = interrupt.found
    if found.profiles:
        left = {profile: each.rest for profile, each in found.profiles.items() if not isinstance(each, Failed) and each.rest}
        calls = "".join(f"\n    seeds(.., {_as_list(list(rest))}, profile={profile!r})" for profile, rest in left.items())
    else:
        calls = f" seeds(.., {_as_list(list(found.rest))})"
    progress.tell(f"{_so_far(found, 'run' if found.profiles else 'seed', progress)}. To go on:{calls}")


EXPLORE = Kind("explore", explored_of, tell_explored)
SEEDS = Kind("seeds", seeded_of, tell_seeds)


def _so_far(found: Any, noun: str, progress: Progress) -> str:
    """The counts of what was visited, and whether some failed."""
    failed = [f"{profile} failed: {each.reason} ({each.path or 'no choices'})" for profile, each in found.profiles.items() if isinstance(each, Failed)]
    notes = [*(failed or ["none failed"]), *([found.unkept] if found.unkept else [])]
    return f"interrupted after {plural(found.runs, noun)}, {progress.seconds} s; {'; '.join(notes)}"


def _as_list(numbers: List[int]) -> str:
    """Ascending numbers as Python's list of them, runs as ranges."""
    runs: List[List[int]] = []
    for number in numbers:
        if runs and runs[-1][1] == number:
            runs[-1][1] = number + 1
        else:
            runs.append([number, number + 1])
    texts = [str(first) if end == first + 1 else f"*range({first}, {end})" for first, end in runs]
    return texts[0][1:] if len(texts) == 1 and texts[0].startswith("*") else f"[{', '.join(texts)}]"


def plural(count: int, noun: str) -> str:
    """A count with its noun."""
    return f"{count} {noun}{'' if count == 1 else 's'}"


def _is_terminal() -> bool:
    """Whether standard error is a terminal on which a line can be removed."""
    try:
        return sys.stderr is not None and sys.stderr.isatty() and os.environ.get("TERM", "dumb") != "dumb"
    except ValueError:
        return False


def _columns() -> int:
    """How wide the terminal is. A longer line would break, and couldn't be removed."""
    try:
        return os.get_terminal_size(sys.stderr.fileno()).columns or 80
    except (OSError, ValueError):
        return 80


def _write(text: str) -> None:
    stream: Optional[Any] = sys.stderr
    try:
        if stream is not None:
            stream.write(text)
            stream.flush()
    except (OSError, ValueError):
        pass
