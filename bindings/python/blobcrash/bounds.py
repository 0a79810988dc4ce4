"""What ends a run before its body does: too many calls, or a time that is over."""

from __future__ import annotations

from time import monotonic

from .session import Session

# How many calls, and how many choices, an explored run has at most if no other limit is given.
CALLS_PER_RUN = 10_000
# A first run may take this many seconds, however little time there is: so that a search that is continued gets somewhere.
FIRST_RUN = 1.0
_NEVER = float("inf")


class RunEnded(BaseException):
    """A run is ended at a call. This is no `Exception`, so that a body doesn't handle it like a call that fails."""


class Bounds:
    """The bounds of one run. Once one is reached, each further call ends the run. `is_long` and `is_late` say which one it was, and
    `is_met` that the run was ended at a restart."""

    calls = 0
    is_long = is_late = is_met = False

    def __init__(self, most: float = _NEVER, until: float = _NEVER) -> None:
        self.most = most
        self.until = until
        # How many calls are made before `check` is asked.
        self.free = most if until == _NEVER else 0

    def count(self) -> None:
        """Counts a call, before it is made."""
        self.calls += 1
        if self.calls > self.free:
            self.check(self.calls)

    def end_met(self) -> None:
        """Ends the run at a restart, since another run had the same state."""
        self.is_met, self.free = True, 0
        raise RunEnded

    def check(self, count: int) -> None:
        """Ends the run if it has more than `most` of something, or if its time is over."""
        if self.is_met:
            raise RunEnded
        if count > self.most:
            self.is_long = True
        elif monotonic() >= self.until:
            self.is_late = True
        else:
            return
        raise RunEnded


class Bounded(Session):
    """What counts its calls, and the uses that it refuses. It stands before the class that makes them."""

    _is_bounded = True
    _bounds: Bounds

    def _count(self) -> None:
        """Counts a call. A session of a run that has ended says so, whatever its bounds were."""
        self._check()
        self._bounds.count()

    def _refused(self) -> None:
        self._count()
