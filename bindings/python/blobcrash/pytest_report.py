"""The report of a failing test of the pytest plugin: its script, a smaller run, a picture and a page."""

from __future__ import annotations

import contextlib
import hashlib
import io
import os
import re
from typing import Any, Callable, Dict, List, Optional, Set

import pytest

from .bounds import RunEnded
from .failures import Failed, page_writer, reason_of
from .follow import MoreWords
from .foreign import library
from .power import PowerLoss
from .seeding import SeededFiles
from .shrinking import shrink
from .whole_scripts import explain

# A longer picture is cut here: all of it can be drawn from the script.
MOST_LINES = 200
# The name of a file has as many characters of the test's name at most.
_MOST_CHARACTERS = 100
# How many runs are made at most to find a smaller one.
_RUNS = 500
# The tests of which a failure was shrunk. A test's other seeds most often fail for the same reason.
_tried: Set[Any] = set()
# What a test may raise that is no `Exception`, but must not be taken for a failure.
_PASSES_ON = (KeyboardInterrupt, GeneratorExit, MoreWords, RunEnded, PowerLoss, pytest.exit.Exception)


def show(item: Any, call: Any, fixture: str, store: Any, arguments: Dict[str, Any]) -> List[str]:
    """The lines of the report of a failure. What can't be written or drawn is a line of it. Of files there is no page and no picture."""
    reason = call.excinfo.exconly().split("\n")[0] if call.excinfo is not None else "failed"
    script, lines = store.script, []
    lines.append(_written(item, ".script", script, "the script of this failure"))
    smaller = _shrunk(item, call, fixture, store, arguments, lines) if call.when == "call" else None
    if smaller is not None:
        script = smaller.script
        lines.append(_written(item, ".short.script", script, f"a smaller run that fails, of {_calls(script)} calls"))
    if isinstance(store, SeededFiles):
        return [*lines, "which sync is missing: `blobcrash diagnose SCRIPT -- CHECK`, with a command CHECK that looks at what is in $STATE"]
    if item.config.getoption("--blobcrash-report") is not None:
        lines.append(_page(item, store.script, reason))
    return lines + _picture(script)


def _calls(script: List[str]) -> int:
    return sum(not line.startswith(("#", "words ", "seed ", "image ", "config ", "profile ", "keep ", "space ")) for line in script)


def _path(item: Any, option: str, ending: str) -> str:
    """The path of a file for a failure, in the folder of an option, which is made. No two tests have the same."""
    # pytest before 6.1 has only `rootdir`.
    root = getattr(item.config, "rootpath", None) or item.config.rootdir
    folder = os.path.join(str(root), item.config.getoption(option))
    os.makedirs(folder, exist_ok=True)
    digest = hashlib.sha256(item.nodeid.encode("utf-8", "surrogatepass")).hexdigest()[:12]
    name = re.sub(r"[^A-Za-z0-9_.=-]+", "_", item.nodeid)[:_MOST_CHARACTERS]
    return os.path.join(folder, f"{name.lstrip('.-')}-{digest}{ending}")


def _written(item: Any, ending: str, script: List[str], what: str) -> str:
    """Writes a script, and returns the line of the report that names its file."""
    try:
        path = _path(item, "--blobcrash-scripts", ending)
        with open(path, "w", encoding="utf-8", errors="backslashreplace", newline="") as file:
            file.writelines(line + "\n" for line in script)
    except (OSError, ValueError) as error:
        return f"{what} can't be written: {error}"
    return f"{what}: {path}"


def _page(item: Any, script: List[str], reason: str) -> str:
    """Writes the page of a failure, and returns the line of the report that names it."""
    try:
        path = _path(item, "--blobcrash-report", ".html")
        page_writer("--blobcrash-report")(path, script, f"{item.name}: {reason}")
    except Exception as error:
        return f"no page of this failure: {type(error).__name__}: {error}"
    return f"the page of this failure: {path}"


def _picture(script: List[str]) -> List[str]:
    """The lines of a picture of the crashes."""
    try:
        shown = explain("".join(line + "\n" for line in script))
    except Exception as error:
        return [f"no picture of the crashes: {type(error).__name__}: {error}"]
    if shown is None:
        return [f"no picture of the crashes: {library()} can't explain a script: build it with `sh bindings/build.sh`"]
    lines = shown.split("\n")[:-1]
    return lines if len(lines) <= MOST_LINES else [*lines[:MOST_LINES], ".."]


def _shrunk(item: Any, call: Any, fixture: str, store: Any, arguments: Dict[str, Any], lines: List[str]) -> Optional[Failed]:
    """A smaller run that fails in the same way. `None` if none is looked for; a line says why, if one might be expected."""
    seconds = item.config.getoption("--blobcrash-shrink")
    test = (item.parent.nodeid, getattr(item, "originalname", None) or item.name, getattr(store, "profile", None))
    if seconds == 0 or call.excinfo is None or test in _tried:
        return None
    _tried.add(test)
    why = _unshrinkable(item, fixture, arguments)
    if why is not None:
        lines.append(f"no smaller run is looked for: {why}")
        return None
    given = {name: arguments[name] for name in ("settings", "images", "allow_stale") if name in arguments}
    if isinstance(store, SeededFiles):
        given["profile"] = store.profile
    failed = Failed(f"seed {store.seed}", store.script, _reason_of(call.excinfo.value), 1)
    try:
        with contextlib.redirect_stdout(io.StringIO()), contextlib.redirect_stderr(io.StringIO()):
            found = shrink(_body_of(item, fixture, store.seed), failed, runs=_RUNS, seconds=seconds, **given)
    except Exception as error:
        lines.append(f"no smaller run is found: {type(error).__name__}: {error}")
        return None
    if found.stopped:
        lines.append(found.stopped.split(":")[0] + ": there may be a smaller one")
    return found


def _unshrinkable(item: Any, fixture: str, arguments: Dict[str, Any]) -> Optional[str]:
    """Why a test can't be called again with another store, or `None`."""
    info = getattr(item, "_fixtureinfo", None)
    if info is None or not callable(getattr(item, "obj", None)) or fixture not in info.argnames:
        return f"the test doesn't take `{fixture}` itself"
    users = _users_of(fixture, info.name2fixturedefs) - {fixture}
    if users:
        return f"the fixture `{sorted(users)[0]}` uses the store too"
    others = sorted(set(arguments) - {"seeds", "settings", "images", "allow_stale", "by", "profile", "files"})
    if others:
        return f"its mark has `{others[0]}`"
    return None


def _users_of(name: str, definitions: Dict[str, Any]) -> Set[str]:
    """The fixtures that use one, by others too."""
    users = {name}
    while True:
        more = {user for user, each in definitions.items() if any(users & set(one.argnames) for one in each)}
        if more <= users:
            return users
        users |= more


def _body_of(item: Any, fixture: str, seed: int) -> Callable[[Any], None]:
    """The test as a body: its other fixtures have the values of its first run, and so has `seed`."""
    values = {name: item.funcargs[name] for name in item._fixtureinfo.argnames}

    def body(store: Any) -> Any:
        store.seed = seed
        try:
            return item.obj(**{**values, fixture: store})
        except _PASSES_ON:
            raise
        except pytest.skip.Exception:
            return None
        except BaseException as error:
            if isinstance(error, Exception):
                raise
            raise _Raised(str(error)) from error

    return body


class _Raised(Exception):
    """What a test raised that is no `Exception`, as `pytest.fail` does."""


def _reason_of(error: BaseException) -> str:
    return reason_of(error if isinstance(error, (Exception, PowerLoss)) else _Raised(str(error)))
