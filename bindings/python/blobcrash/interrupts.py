"""Ctrl-C at chosen places only."""

from __future__ import annotations

import signal
import threading
from typing import Any


class Interrupts:
    """Holds Ctrl-C back until `check`, which raises `KeyboardInterrupt` for it.

    An executor that is interrupted in a call may keep one of its locks: then its workers never end, nor does the program. Nothing is held
    back outside of the main thread, or if the program handles the signal itself.
    """

    def __enter__(self) -> Interrupts:
        self._came = False
        is_main = threading.current_thread() is threading.main_thread()
        self._holds = is_main and signal.getsignal(signal.SIGINT) is signal.default_int_handler
        if self._holds:
            signal.signal(signal.SIGINT, self._note)
        return self

    def __exit__(self, kind: Any, *_: Any) -> None:
        if self._holds:
            signal.signal(signal.SIGINT, signal.default_int_handler)
        if kind is None:
            self.check()

    def check(self) -> None:
        """Raises `KeyboardInterrupt` if Ctrl-C came since the last check."""
        if self._came:
            self._came = False
            raise KeyboardInterrupt

    def _note(self, *_: Any) -> None:
        self._came = True
