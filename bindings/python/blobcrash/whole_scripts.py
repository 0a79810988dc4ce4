"""Whole scripts, run or explained by the library in this process."""

from __future__ import annotations

import ctypes
import os
import subprocess
from typing import Callable, Optional

from .errors import BadLine, LibraryMissing
from .foreign import BAD_LINE, NO_ROOM, TOP, check, function
from .bad_lines import bad_at


def explain(script: str) -> Optional[str]:
    """Returns what `blobcrash explain` prints: the replies of a script, with a picture after each crash. Of a script with a bad line
    it is what is printed before that line.

    The library explains it. If there is none, or one of an earlier version that can't, the program does. `None` if that isn't built.
    """
    return _explanation(script, explained)


def explain_as_json(script: str) -> Optional[str]:
    """As `explain`, what `blobcrash explain --json` prints."""
    return _explanation(script, explained_as_json, "--json")


def _explanation(script: str, by_library: Callable[[bytes], bytes], *options: str) -> Optional[str]:
    text = script.encode()
    try:
        return by_library(text).decode()
    except BadLine as bad:
        return bad.replies.decode()
    except LibraryMissing:
        pass
    built = os.environ.get("BLOBCRASH", os.path.join(TOP, "out", "blobcrash"))
    # The program of `explain` is in the same folder as a built `blobcrash`.
    named = f"{built}_explain"
    command = [named] if os.path.exists(named) or "BLOBCRASH" not in os.environ else [built, "explain"]
    try:
        run = subprocess.run([*command, *options], input=text, stdout=subprocess.PIPE, stderr=subprocess.DEVNULL)
    except OSError:
        return None
    return run.stdout.decode() if run.returncode != 2 or run.stdout else None


def explained(script: bytes) -> bytes:
    """Runs a whole script in this process, and returns what `blobcrash explain` prints. `BadLine` as `run`; `LibraryMissing` if the
    library is of an earlier version that can't explain."""
    return _whole("explain", script)


def explained_as_json(script: bytes) -> bytes:
    """As `explained`, what `blobcrash explain --json` prints."""
    return _whole("explain_json", script)


def run(script: bytes) -> bytes:
    """Runs a whole script in this process, and returns what the program prints. `BadLine` has the line's number and, in `replies`,
    what is printed before it."""
    return _whole("run", script)


def _whole(name: str, script: bytes) -> bytes:
    """What a function of the library writes for a script."""
    room = ctypes.create_string_buffer(65536)
    ran = function(name)(script, len(script), room, len(room))
    if ran.status == NO_ROOM:
        room = ctypes.create_string_buffer(ran.len)
        ran = function(name)(script, len(script), room, len(room))
    if ran.status == BAD_LINE:
        error = bad_at(script, ran.line, "bad call")
        error.replies = ctypes.string_at(room, ran.len)
        raise error
    check(ran.status)
    return ctypes.string_at(room, ran.len)
