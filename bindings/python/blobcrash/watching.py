"""tools/watch PROGRAM COMMAND [ARGUMENT ..]: runs `blobcrash explore`, `files explore` or `states` for the launcher, which has compared the
arguments with the table of commands. On a terminal it shows how far the run is. With --json it prints JSON.

The program prints nothing before its end. So that there is something to show, it is run with the limits 1000, 10000 and so on, as far as it
needs. What it prints depends on the script and the limit alone, so the last run prints what a single one would.
"""

from __future__ import annotations

import ctypes
import os
import signal
import subprocess
import sys
import tempfile
from typing import IO, Iterable, List, NamedTuple, Optional

from .as_json import explored_as_json, states_as_json
from .checking import check
from .commands import OutputFailed, write
from .progress import Progress

# The limit of the program, and of the first run on a terminal.
_LIMIT, _FIRST_LIMIT = 1_000_000, 1000
_WAIT = 0.1
_SET_PDEATHSIG = 1
_BLOCK = 1 << 20


class _Ran(NamedTuple):
    """How a run ended. What it printed is in a file, since that may be long."""

    out: IO[bytes]
    errors: bytes
    status: int

    @property
    def last(self) -> str:
        """The last line that it printed."""
        self.out.seek(max(0, self.out.seek(0, os.SEEK_END) - 4096))
        return self.out.read().rstrip(b"\n").rpartition(b"\n")[2].decode()

    @property
    def counts(self) -> str:
        """What the last line counts."""
        counts, _, more = self.last.lstrip("# ").partition(", not all of them: the limit was reached")
        return f"{counts}{more.replace(';', ',')}"


class _Watched:
    """The runs of a program over one script."""

    def __init__(self, program: str, command: str, arguments: List[str], script: bytes) -> None:
        self._program, self._command, self._script = program, command, script
        self._is_json = "--json" in arguments
        rest = [word for word in arguments if word != "--json"]
        self._asked = None
        if "--limit" in rest:
            at = rest.index("--limit")
            self._asked = int(rest[at + 1])
            rest[at : at + 2] = []
        self._rest = rest
        self._progress = Progress(command)
        self._ran: Optional[_Ran] = None
        self._last_limit: Optional[int] = None

    def run(self) -> int:
        """Makes the runs and prints. Returns the status."""
        try:
            for limit in self._limits():
                ran = self._ran = self._run(limit)
                self._last_limit = limit
                if ran.status or ", all of them" in ran.last:
                    break
        except KeyboardInterrupt:
            return self._interrupted()
        self._progress.clear()
        return self._show(ran)

    def _limits(self) -> List[Optional[int]]:
        if not sys.stderr.isatty():
            return [self._asked]
        most = _LIMIT if self._asked is None else self._asked
        limits, limit = [], _FIRST_LIMIT
        while limit < most:
            limits.append(limit)
            limit *= 10
        return [*limits, self._asked]

    def _run(self, limit: Optional[int]) -> _Ran:
        words = [self._program, *self._rest, *([] if limit is None else ["--limit", str(limit)])]
        # In a session of its own: Ctrl-C is for this process, which ends the program.
        out = tempfile.TemporaryFile()
        pipe = subprocess.PIPE
        run = subprocess.Popen(words, stdin=pipe, stdout=out, stderr=pipe, start_new_session=True, preexec_fn=_end_with_parent)
        given: Optional[bytes] = self._script
        try:
            while True:
                try:
                    errors = run.communicate(given, _WAIT)[1]
                    # As a shell tells a signal.
                    return _Ran(out, errors, run.returncode if run.returncode >= 0 else 128 - run.returncode)
                except subprocess.TimeoutExpired:
                    given = None
                    self._progress.show(lambda: self._so_far(limit))
        finally:
            if run.poll() is None:
                run.kill()
                run.communicate()

    def _so_far(self, limit: Optional[int]) -> str:
        done = f"{self._ran.counts}; now " if self._ran else ""
        return f"{done}up to {_LIMIT if limit is None else limit}{' of each crash' if self._command == 'states' else ''}"

    def _interrupted(self) -> int:
        seconds = f"interrupted after {self._progress.seconds} s"
        if self._ran is None:
            self._progress.tell(f"{seconds}, before the first {_FIRST_LIMIT} were visited")
        else:
            again = f"--limit {self._last_limit} prints them, and a higher one goes on from there"
            self._progress.tell(f"{seconds} and {self._ran.counts}. To go on: {again}")
        return 130

    def _show(self, ran: _Ran) -> int:
        ran.out.seek(0)
        if self._is_json and not ran.status:
            lines = (line.decode().rstrip("\n") for line in ran.out)
            parts: Iterable[bytes] = (text.encode() for text in (states_as_json if self._command == "states" else explored_as_json)(lines))
        else:
            parts = iter(lambda: ran.out.read(_BLOCK), b"")
        for part in parts:
            write(part)
        sys.stderr.write(ran.errors.decode(errors="backslashreplace"))
        if ran.status == 2:
            self._tell_why()
        return ran.status

    def _tell_why(self) -> None:
        faults = check(self._script, files=self._command == "files explore", explored=self._command != "states")
        if faults:
            print(f"blobcrash: line {faults[0].line}: {faults[0].why}", file=sys.stderr)


def _end_with_parent() -> None:
    """Ends the program if this process is killed."""
    ctypes.CDLL(None).prctl(_SET_PDEATHSIG, signal.SIGKILL, 0, 0, 0)


def watch_command(arguments: List[str]) -> int:
    """Does what the text at the top of this file says. Returns the status."""
    program, command, *rest = arguments
    try:
        script = sys.stdin.buffer.read() if sys.stdin is not None else None
    except OSError:
        script = None
    except KeyboardInterrupt:
        return 130
    if script is None:
        print("input failed", file=sys.stderr)
        return 1
    try:
        return _Watched(program, command, rest, script).run()
    except (OutputFailed, BrokenPipeError):
        print("output failed", file=sys.stderr)
        return 1
