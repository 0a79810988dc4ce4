"""Work in a copy of this process, which has its sessions as they are and changes nothing here."""

from __future__ import annotations

import gc
import os
import pickle
from typing import Any, Callable, Tuple


class Child:
    """A forked process that calls a function. It ends once its `result` or `drop` was called."""

    def __init__(self, work: Callable[[], Any]) -> None:
        self._reader, writer = os.pipe()
        self._pid = os.fork()
        if self._pid == 0:
            _serve(work, self._reader, writer)
        os.close(writer)

    def result(self) -> Tuple[Any, bytes]:
        """Returns a pair that the function returned: its first item, and its second item pickled.

        Raises `RuntimeError` with the text of what the function raised, and `MemoryError` if the process was killed.
        """
        try:
            with open(self._reader, "rb") as pipe:
                sent = pipe.read()
        finally:
            os.waitpid(self._pid, 0)
        if not sent:
            raise MemoryError
        is_done, first, second = pickle.loads(sent)
        if not is_done:
            raise RuntimeError(first)
        return first, second

    def drop(self) -> None:
        """Takes no result."""
        os.close(self._reader)
        os.waitpid(self._pid, 0)


def _serve(work: Callable[[], Any], reader: int, writer: int) -> None:
    """Does the work, sends what it returned, and ends the process."""
    try:
        gc.disable()
        os.close(reader)
        try:
            first, second = work()
            sent = pickle.dumps((True, first, pickle.dumps(second, -1)), -1)
        except MemoryError:
            sent = b""
        except Exception as error:  # The parent raises it.
            sent = pickle.dumps((False, f"{type(error).__name__}: {error}", b""), -1)
        with open(writer, "wb") as pipe:
            pipe.write(sent)
    finally:
        os._exit(0)
