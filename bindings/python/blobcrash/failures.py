"""The report of a failing run."""

from __future__ import annotations

import functools
import importlib
from types import TracebackType
from typing import Any, Callable, Dict, List, Optional, TypeVar, cast

from .paths import legend_of
from .power import PowerLoss
from .whole_scripts import explain_as_json, run

# A longer script is cut in the middle: `script` has all of it. So is a path with more characters.
_MOST_LINES = 80
_MOST_CHARACTERS = 2000
_CALLS = "its calls:"
_DIAGNOSES = "as a file, with a command CHECK that looks at what is in $STATE: `blobcrash diagnose FILE -- CHECK` names the missing sync"
_Search = TypeVar("_Search", bound=Callable[..., Any])


class Failed(AssertionError):
    """A run of a body failed. `cause` is what it raised; that of a worker in another process is a text, with its traceback.

    `script` are the lines that make the same calls again, to run or to explain; of files, lines to read. `path` names the run:
    `explore(body, under=[path])` makes it again. Of a run by a seed it is `seed N`. `reason` is what the body raised, as a text. `stopped` is a text if `shrink` returns
    it and stopped at a limit: there may be a smaller run. `profiles` has what a search in all profiles came to in each: a `Failed`, or its
    result. The other fields are then those of the first that failed.
    """

    def __init__(
        self, path: str, script: List[str], reason: str, run: int, stopped: str = "", profiles: Optional[Dict[str, Any]] = None
    ) -> None:
        self.path, self.script, self.reason, self.run, self.stopped = path, script, reason, run, stopped
        self.profiles = profiles or {}
        lines = [f"run {run} failed: {reason}", *_of_profiles(self.profiles), *([stopped] if stopped else []), *_named(path)]
        heading = _CALLS if _is_of_files(script) else "its script, to explain with `blobcrash explain`:"
        told = [_DIAGNOSES] if _is_of_files(script) else []
        super().__init__("\n".join([*lines, heading, *_shown(script), *told]))
        self.cause: Optional[BaseException] = None

    @classmethod
    def of(cls, cause: BaseException, path: str, script: List[str], run: int) -> Failed:
        """The failure of a run that raised this."""
        failed = cls(path, script, reason_of(cause), run)
        failed.cause = cause
        return failed

    def __reduce__(self) -> Any:
        return Failed, (self.path, self.script, self.reason, self.run, self.stopped, self.profiles)


class TooLong(RuntimeError):
    """A run of an exploration has more calls, or more draws and choices, than `calls_per_run`.

    `script` are the lines of the run so far, `path` its choices, and `run` its number.
    """

    def __init__(self, path: str, script: List[str], run: int, most: int) -> None:
        self.path, self.script, self.run, self.most = path, script, run, most
        why = "a loop that retries until it succeeds never ends when every try fails; bound it"
        lines = [f"run {run} has more than {most} calls or draws: {why}. For a run that is as long, set `calls_per_run`", *_named(path)]
        super().__init__("\n".join([*lines, "its script so far:", *_shown(script)]))

    def __reduce__(self) -> Any:
        return TooLong, (self.path, self.script, self.run, self.most)


def _of_profiles(profiles: Dict[str, Any]) -> List[str]:
    """The lines of a report that say which profiles failed, and of which the run is."""
    failed = [profile for profile, each in profiles.items() if isinstance(each, Failed)]
    if not failed:
        return []
    lines = [f"    {profile}: {each.reason if profile in failed else each}" for profile, each in profiles.items()]
    return [f"it failed in {len(failed)} of {len(profiles)} profiles; this run is one of {failed[0]}:", *lines]


def _named(path: str) -> List[str]:
    """The lines of a report that name a run."""
    if path.startswith("seed"):
        return [f"its {path}"]
    legend = legend_of(path)
    left = len(path) - _MOST_CHARACTERS
    if left > 0:
        path = f"{path[: _MOST_CHARACTERS // 2]} .. {path[-_MOST_CHARACTERS // 2 :]} ({left} more characters, all in `path`)"
    name = path if path.startswith("words") else f"path: {path or 'no choices'}"
    return [f"its {name}", *([f"    {legend}"] if legend else [])]


def _is_of_files(script: List[str]) -> bool:
    """Whether lines are those of files, which begin with a profile, after words or a seed."""
    return any(line.startswith("profile ") for line in script[:3])


def _shown(script: List[str]) -> List[str]:
    """The lines of a report that show a script."""
    left = len(script) - _MOST_LINES
    if left > 0:
        script = [*script[: _MOST_LINES // 2], f"# .. {left} more lines, all in `script`", *script[-_MOST_LINES // 2 :]]
    return ["    " + (line if len(line) <= _MOST_CHARACTERS else line[:_MOST_CHARACTERS] + " ..") for line in script]


def one_traceback(search: _Search) -> _Search:
    """A search of which a failure has one traceback: that of what the body raised, without the frames of the search."""

    @functools.wraps(search)
    def searched(*arguments: Any, **named: Any) -> Any:
        __tracebackhide__ = True
        try:
            return search(*arguments, **named)
        except Failed as failed:
            cause = failed.cause
            if cause is None or isinstance(cause, Trace):
                # That of a worker in another process is a text, which Python shows before.
                raise failed.with_traceback(None)
            failed.__cause__, failed.__context__ = cause.__cause__, cause.__context__
            failed.__suppress_context__ = cause.__suppress_context__
            raise failed.with_traceback(_of_body(cause.__traceback__))

    return cast(_Search, searched)


def _of_body(trace: Optional[TracebackType]) -> Optional[TracebackType]:
    """A traceback from the frame of the body on."""
    first = trace
    while trace is not None and trace.tb_frame.f_globals.get("__package__") == __package__:
        trace = trace.tb_next
    return trace or first


class Trace(Exception):
    """The traceback of an error in another process."""

    def __str__(self) -> str:
        return "\n" + str(self.args[0])


def reason_of(error: BaseException) -> str:
    """What a body raised, in a line."""
    if isinstance(error, PowerLoss):
        return "the body didn't catch PowerLoss: catch it, and open again what it left by `store.recover(..)`"
    text = str(error).split("\n")[0]
    return f"{type(error).__name__}: {text}" if text else type(error).__name__


def page_writer(wanted_by: str) -> Callable[[str, List[str], str], None]:
    """Returns a function that writes the page of a script to a file: it takes the file's path, the script's lines and a title.

    Raises `ImportError` if pages can't be made. `wanted_by` names the option that needs them.
    """
    try:
        package = importlib.import_module("blobcrash_page")
    except ImportError:
        raise ImportError(f"`{wanted_by}` needs the package `blobcrash_page`, which lies beside `blobcrash` in bindings/python") from None

    def write(path: str, lines: List[str], title: str) -> None:
        script = "".join(line + "\n" for line in lines)
        # With a library of an earlier version, and without the program, the page has no remarks.
        told = explain_as_json(script) or run(script.encode()).decode()
        with open(path, "w", encoding="utf-8") as file:
            file.write(package.page(script, package.replies_of(told), told, title=title))

    return write


def reporter(path: Optional[str], is_of_files: bool = False) -> Callable[[Failed], None]:
    """Returns a function that writes the page of a failure to a file. Raises `ImportError` if pages can't be made, and `ValueError` for
    files, of which there is none."""
    if path is None:
        return lambda failed: None
    if is_of_files:
        raise ValueError("a page shows a store: there is no `report` of files")
    write = page_writer("report")
    page = path
    return lambda failed: write(page, failed.script, f"{failed.path or 'no choices'}: {failed.reason}")
