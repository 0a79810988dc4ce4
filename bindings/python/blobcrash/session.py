"""What stores and files have in common: one thread, a record of all calls, and the power."""

from __future__ import annotations

from threading import get_ident
from typing import Any, Callable, Dict, Iterable, List, Optional, TypeVar

from .errors import BadLine, Interrupted, NotMade, WrongThread
from .grammar import comment_lines, number, text_of
from .power import PowerLoss, powered

_Own = TypeVar("_Own", bound="Session")


class Session:
    """A store, or files. Its calls are made by a layer."""

    # How messages begin that name it.
    _named = ("a store belongs to the thread that made it", "the store is", "the store")
    _of_files = False
    # Whether it is that of a run of a search, of which unsynced writes are followed.
    _is_search = False
    # Whether each call is counted before it is made.
    _is_bounded = False
    # What ends it at a call, if its calls are counted.
    _bounds: Any = None
    _layer: Any
    _opened: Dict[int, Any]
    _closed = False
    _cause: Optional[BaseException] = None

    def __init__(self, words: Iterable[int]) -> None:
        self._words = [number(word, "a word") for word in words]
        # The record: a line or a note as its text, or a call. Of a store also the six arguments of a write, one after another; of files a
        # call with what its line says of the reply.
        self._lines: List[Any] = []
        self._thread = get_ident()
        # The thread that may make a call; none if a call is under way or was cut short, or if it is closed.
        self._owner: Optional[int] = self._thread

    def __enter__(self: _Own) -> _Own:
        return self

    def __exit__(self, *_: object) -> None:
        self.close()

    def close(self) -> None:
        """Ends it. Its calls, and those of what it has opened, then raise `ValueError`."""
        if get_ident() != self._thread:
            raise self._unusable()
        if not self._closed:
            self._owner, self._closed = None, True
            self._opened.clear()
            self._layer.close()

    @property
    def script(self) -> List[str]:
        """The lines of all calls, and notes: a script that makes the same calls again. Of files a comment says which descriptor a call
        opened, or the name of its refusal."""
        return self._words_line() + list(map(str, self._made()))

    def _made(self) -> Iterable[Any]:
        """The record: lines, notes and calls."""
        return self._lines

    def _words_line(self) -> List[str]:
        return ["words " + " ".join(map(str, self._words))] if self._words else []

    def note(self, text: str) -> None:
        """Adds a comment to the script, a line for each of the text's."""
        self._lines += comment_lines(text_of(text, "a note"))

    def crash_after(self, calls: int) -> None:
        """Turns the power off after `calls` more calls that may change what a crash leaves.

        Of a store these are opens, writes, resizes, syncs, removals and admissions, whatever they return; of files all but opens of what is
        there, closes, reads and look-ups. From then on every call raises `PowerLoss`, except `configure`, until the store has crashed and
        reopened, or the files have crashed, as by `restart`.
        """
        calls = number(calls, "a number of calls")
        self._check()
        self._layer = powered(self._layer)
        self._layer.cut_after(calls)

    def _recover(self, restart: Callable[[], object], step: Callable[..., Any], arguments: Any) -> Any:
        """Restarts, calls `step` and returns what that returns. Does both again if the power fails meanwhile."""
        while True:
            restart()
            try:
                return step(*arguments)
            except PowerLoss:
                pass

    def _check(self) -> None:
        if self._owner != get_ident():
            raise self._unusable()

    def _unusable(self) -> Exception:
        thread, closed, used = self._named
        if get_ident() != self._thread:
            return WrongThread(thread)
        if self._closed:
            return ValueError(f"{closed} closed")
        error = Interrupted(f"an earlier call was cut short, so its reply is lost: {used} can't be used any more")
        error.__cause__ = self._cause
        return error

    def _apply(self, asked: Any, is_shown: bool = True) -> Any:
        """Makes a call, and returns what the layer does."""
        if self._owner != get_ident():
            raise self._unusable()
        bounds = self._bounds
        if bounds is not None:
            # As `bounds.count()`, without a call.
            bounds.calls = calls = bounds.calls + 1
            if calls > bounds.free:
                bounds.check(calls)
        self._owner = None
        try:
            reply = self._layer.apply(asked)
        except BaseException as error:
            self._ended(asked, error, is_shown)
            raise
        self._owner = self._thread
        if is_shown:
            self._lines.append(asked)
        return reply

    def _ended(self, asked: Any, error: BaseException, is_shown: bool = True) -> None:
        """Notes a call that has no reply. One that may have been made ends the session."""
        if isinstance(error, PowerLoss):
            self._lines += ["# power loss"] if error.is_first else []
            self._owner = self._thread
        elif isinstance(error, (BadLine, NotMade)):
            self._owner = self._thread
        else:
            self._lines += [asked] if is_shown else []
            # Only of a call that ends the session: its traceback has objects of the code under test, which must not outlive their run.
            self._cause = error
