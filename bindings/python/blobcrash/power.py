"""Power losses."""

from __future__ import annotations

from typing import Any, Optional

from .calls import Reply
from .foreign import changes

_OFF = "the power is off: catch `PowerLoss`, and let the store crash and reopen, by `restart` or `recover`"
_OFF_ALREADY = "the power is off already: let the store crash and reopen first"


class PowerLoss(BaseException):
    """The power is off. No call is made until the store has crashed and reopened, as `Store.restart` does.

    This is no `Exception`, so that code under test doesn't handle it like a call that fails. `is_first` is true for the call at which
    the power went off.
    """

    def __init__(self, text: str = _OFF, is_first: bool = False) -> None:
        super().__init__(text)
        self.is_first = is_first


class InLibrary:
    """A session whose supply of power is the library's."""

    # Whether a call wasn't made since the power went off.
    _has_lost = False

    def _call(self, name: str, *arguments: Any) -> Any:
        raise NotImplementedError

    @property
    def is_off(self) -> bool:
        """Whether the power is off, also if no call has found it off yet."""
        return bool(self._call("power").is_off)

    @property
    def left(self) -> Optional[int]:
        """How many more changing calls have power. Without a number it stays on."""
        power = self._call("power")
        return int(power.left) if power.is_counting else None

    def cut_after(self, calls: int) -> None:
        """Turns the power off after this number of calls that may change what a crash leaves."""
        power = self._call("power")
        if power.is_off and (self._has_lost or power.has_crashed):
            raise ValueError(_OFF_ALREADY)
        self._has_lost = False
        self._call("power_on")
        self._call("power_off_after", calls)

    def _lose_power(self) -> None:
        """Raises `PowerLoss`, for a call that wasn't made."""
        is_first = not (self._has_lost or self._call("power").has_crashed)
        self._has_lost = True
        raise PowerLoss(is_first=is_first)


class Supply:
    """A supply of power for a program. While the power is off each call raises `PowerLoss`, except settings and a crash, and after the crash
    `close` and the reopening, which turns it on again."""

    def __init__(self, layer: Any) -> None:
        self._layer = layer
        self.left: Optional[int] = None
        self.is_off = False
        self._has_crashed = False

    def cut_after(self, calls: int) -> None:
        """Turns the power off after this number of calls that may change what a crash leaves."""
        if self.is_off:
            raise ValueError(_OFF_ALREADY)
        self.left = calls

    def apply(self, asked: Any) -> Any:
        """Makes a call."""
        word = asked.word
        is_end = word == "crash" or (word == "reopen" and self._has_crashed == self.is_off)
        if not is_end and word != "config" and not (word == "close" and self._has_crashed):
            self._spend(changes(word))
        reply = self._layer.apply(asked)
        if is_end and not isinstance(reply, Reply):
            self._end(word == "crash")
        return reply

    def __getattr__(self, name: str) -> Any:
        return getattr(self._layer, name)

    def _end(self, is_crash: bool) -> None:
        """Takes a crash or a reopening that was done."""
        if is_crash and self.left == 0:
            self.is_off, self.left = True, None
        self._has_crashed = self.is_off = is_crash and self.is_off

    def _spend(self, is_change: bool) -> None:
        if self.is_off:
            raise PowerLoss
        if self.left == 0:
            self.is_off, self.left = True, None
            raise PowerLoss(is_first=True)
        if is_change and self.left is not None:
            self.left -= 1


def powered(layer: Any) -> Any:
    """A layer with a supply of power."""
    return layer if hasattr(layer, "cut_after") else Supply(layer)
