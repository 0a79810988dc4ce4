"""The program through pipes, as a way to the storage layer."""

from __future__ import annotations

import os
import signal
import subprocess
import weakref
from contextlib import suppress
from typing import Any, Optional, Union

from .bad_lines import bad_line
from .calls import Call, Reply, made
from .errors import BadLine, Interrupted, ProgramEnded
from .foreign import TOP

_LINE_FEED = 10


def program() -> str:
    """Returns the path of the program: `$BLOBCRASH`, or `./blobcrash` of the repository, which builds it on first use."""
    return os.environ.get("BLOBCRASH", os.path.join(TOP, "blobcrash"))


class Program:
    """The layer as a program of its own, one line and one reply at a time.

    A call that is cut short, as by Ctrl-C, leaves a reply unread. From then on each call raises `Interrupted`. After a bad line the
    program has ended, and each call raises `BadLine` with the first bad one. In a child after a fork each call raises `ValueError`: the
    program is the parent's.
    """

    ends_at_bad_line = True
    _is_told = False

    def __init__(self, preamble: bytes = b"") -> None:
        # `./blobcrash` says once a process that it isn't proved.
        environment = {**os.environ, "BLOBCRASH_TOLD": "1"} if Program._is_told else None
        Program._is_told = True
        # In a session of its own, so that Ctrl-C at a terminal reaches this process alone.
        pipe = subprocess.PIPE
        self._run = run = subprocess.Popen([program()], env=environment, stdin=pipe, stdout=pipe, start_new_session=True)
        assert run.stdin is not None and run.stdout is not None
        self._in, self._out = run.stdin, run.stdout
        self._is_parents = False
        _programs.add(self)
        # Why no call can be made any more.
        self._lost: Optional[BaseException] = None
        lines = preamble.split(b"\n")
        for line in lines if lines[-1] else lines[:-1]:
            if line.split()[:1] == [b"config"]:
                self.call(line)
            else:
                self._send(line)

    def call(self, line: bytes) -> bytes:
        """Makes the call of a line, and returns its reply; nothing for an empty line and a comment."""
        if _LINE_FEED in line:
            raise bad_line(line)
        if self._lost is not None:
            self._refuse()
        self._lost = Interrupted("a call was cut short, and its reply is lost")
        try:
            reply = self._replied(line)
        except BaseException as error:
            self._lost = error
            raise
        self._lost = None
        return reply

    def apply(self, asked: Call) -> Any:
        """Makes a typed call, and returns its value, or the `Reply` of a refusal. That of a `Line` is the words of its reply."""
        return made(asked, self.call(str(asked).encode()).decode())

    def read(self, handle: int, offset: int, length: int) -> Union[bytes, Reply]:
        """Returns exactly `length` bytes, or the reply that says why not."""
        found: Union[bytes, Reply] = self.apply(Call("read", handle, offset, length))
        return found

    def write(self, handle: int, offset: int, data: bytes, sync: bool = False) -> Optional[Reply]:
        """Writes bytes. Returns the reply if it isn't `ok`."""
        refused: Optional[Reply] = self.apply(Call("writes" if sync else "write", handle, offset, name=data))
        return refused

    def close(self) -> int:
        """Ends the program, and returns its exit status; 0 in a child after a fork."""
        if self._is_parents:
            return 0
        if self._lost is not None and not isinstance(self._lost, BadLine) and self._run.poll() is None:
            # With what `./blobcrash` has started, if it builds.
            with suppress(ProcessLookupError):
                os.killpg(self._run.pid, signal.SIGTERM)
            try:
                self._run.wait(5)
            except subprocess.TimeoutExpired:
                self._run.kill()
        if self._lost is None:
            self._lost = ValueError("the store is closed")
        if not self._in.closed:
            self._flush()
            self._run.communicate()
        return self._run.returncode

    def _leave_to_parent(self) -> None:
        """Gives up the pipes in a child: what is buffered goes nowhere, and the program ends when the parent closes them."""
        self._is_parents = True
        self._lost = ValueError("the program is the parent process's: open a store after the fork")
        null = os.open(os.devnull, os.O_RDWR)
        for stream in (self._in, self._out):
            if not stream.closed:
                os.dup2(null, stream.fileno())
        os.close(null)

    def _refuse(self) -> None:
        if isinstance(self._lost, (BadLine, ProgramEnded, ValueError)):
            raise self._lost
        raise Interrupted("a call was cut short, and its reply is lost") from self._lost

    def _replied(self, line: bytes) -> bytes:
        self._send(line)
        if line.strip(b" ")[:1] in (b"", b"#"):
            return b""
        self._flush()
        reply = self._out.readline()
        if reply.endswith(b"\n"):
            return reply[:-1]
        status = self._run.wait()
        if status == 2:
            raise bad_line(line)
        raise ProgramEnded(f"{program()} ended with status {status} before it replied to: {line.decode(errors='backslashreplace')}")

    def _send(self, line: bytes) -> None:
        try:
            self._in.write(line + b"\n")
        except BrokenPipeError:
            pass  # It has ended, and gives no reply.

    def _flush(self) -> None:
        try:
            self._in.flush()
        except (BrokenPipeError, ValueError):
            pass


_programs: weakref.WeakSet[Program] = weakref.WeakSet()


def _leave_programs() -> None:
    for each in _programs:
        each._leave_to_parent()


os.register_at_fork(after_in_child=_leave_programs)
