"""An open file of `Files`."""

from __future__ import annotations

import re
from typing import TYPE_CHECKING, Any

from .byte_file import ByteFile
from .file_calls import FileCall
from .grammar import number

if TYPE_CHECKING:
    from .file_system import Files

_MODE = re.compile(r"[rwxa]\+?")


def plain_mode(mode: str) -> str:
    """A mode without its `b`, which it must have. Raises `TypeError` or `ValueError`."""
    if not isinstance(mode, str):
        raise TypeError(f"a mode is a str, not {type(mode).__name__}")
    plain = mode.replace("b", "", 1)
    if not _MODE.fullmatch(plain):
        raise ValueError(f"{mode!r} is no mode: it is one of r, w, x and a, with `+` for both directions")
    if plain == mode:
        raise ValueError(f"files are binary: give the mode a `b`, {mode + 'b'!r}")
    return plain


class OpenFile(ByteFile):
    """A file of `Files`, unbuffered: each read and write is a call.

    Bytes are durable once `fsync` of the `Files` has returned; `flush` does nothing. There is no `fileno`. After a crash calls raise an
    `OSError` with ESTALE, after a restart `ValueError`, as for any closed file.
    """

    def __init__(self, files: Files, descriptor: int, name: Any, mode: str) -> None:
        super().__init__()
        self.name = name
        self.mode = mode
        self._files = files
        self._descriptor = descriptor
        self._plain = mode.replace("b", "", 1)

    def readable(self) -> bool:
        return self._plain[0] == "r" or "+" in self._plain

    def writable(self) -> bool:
        return self._plain != "r"

    def size(self) -> int:
        """Returns the size in bytes."""
        self._check()
        return int(self._ask("size").size)

    def close(self) -> None:
        """Closes the file. A call is made unless the file is stale, or the power is off.

        If it raises, as a flush by the profile may, the file is closed for Python.
        """
        if not self.closed:
            super().close()
            self._files._close(self._descriptor, self.name)

    def _ask(self, word: str, first: int = 0, last: int = 0) -> Any:
        return self._files._call(FileCall(word, self._descriptor, first, last), self.name)

    def _end(self) -> None:
        """Closes the file without a call: its process has ended."""
        super().close()

    def _read(self, length: int) -> bytes:
        found: bytes = self._ask("read", self._at, length)
        return found

    def _write(self, data: bytes) -> None:
        # Without bytes no call is made.
        if data:
            at = self.size() if self._plain[0] == "a" else number(self._at, "an offset")
            self._files._call(FileCall("write", self._descriptor, at, path=data), self.name)
            self._at = at + len(data)

    def _size(self) -> int:
        return self.size()

    def _resize(self, size: int) -> None:
        self._ask("truncate", size)
