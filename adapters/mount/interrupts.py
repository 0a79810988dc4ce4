"""
SIGINT, SIGTERM and SIGHUP: a process ends and removes first what it has begun.

They raise KeyboardInterrupt, once, and only in a part that says so. What comes after that part isn't interrupted: later signals do nothing.
"""

import contextlib
import signal

_SIGNALS = (signal.SIGHUP, signal.SIGINT, signal.SIGTERM)
_state = {"may raise": False, "has come": False, "has raised": False}


def _interrupt():
    if not _state["has raised"]:
        _state["has raised"] = True
        raise KeyboardInterrupt


def _handle(_number, _frame):
    _state["has come"] = True
    if _state["may raise"]:
        _interrupt()


def install():
    """From here on these signals wait for such a part."""
    for number in _SIGNALS:
        signal.signal(number, _handle)
    signal.pthread_sigmask(signal.SIG_UNBLOCK, _SIGNALS)


@contextlib.contextmanager
def held():
    """A part of a thread in which a process is started that calls `install`: until it does, signals that come to it wait."""
    before = signal.pthread_sigmask(signal.SIG_BLOCK, _SIGNALS)
    try:
        yield
    finally:
        signal.pthread_sigmask(signal.SIG_SETMASK, before)


@contextlib.contextmanager
def interruptible():
    """A part in which they raise."""
    _state["may raise"] = True
    try:
        if _state["has come"]:
            _interrupt()
        yield
    finally:
        _state["may raise"] = False
