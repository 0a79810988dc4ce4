"""What file objects of blobs and of `Files` have in common: a position, at which they read and write."""

from __future__ import annotations

import io
from typing import TYPE_CHECKING, Any, Optional

from .grammar import data_of, number


class ByteFile(io.RawIOBase):
    """A binary file object without a buffer. `flush` does nothing, and there is no `fileno`."""

    _at = 0

    if TYPE_CHECKING:

        def read(self, __size: int = -1) -> bytes:
            ...

        def readall(self) -> bytes:
            ...

    def readable(self) -> bool:
        return True

    def writable(self) -> bool:
        return True

    def seekable(self) -> bool:
        return True

    def readinto(self, buffer: Any) -> int:
        """Fills a buffer with the bytes at the position, as far as there are any, and returns how many."""
        self._check(self.readable(), "reading")
        view = memoryview(buffer).cast("B")
        found = self._read(len(view))
        view[: len(found)] = found
        self._at += len(found)
        return len(found)

    def write(self, data: Any) -> int:
        """Writes bytes at the position, and zeros in a gap before it; in the mode `a` at the end. Returns how many bytes were written."""
        self._check(self.writable(), "writing")
        data = data_of(data, "the data of a write")
        self._write(data)
        return len(data)

    def seek(self, offset: int, whence: int = io.SEEK_SET) -> int:
        """Moves the position, also past the end."""
        self._check()
        if whence not in (io.SEEK_SET, io.SEEK_CUR, io.SEEK_END):
            raise ValueError(f"whence is 0, 1 or 2, not {whence!r}")
        base = {io.SEEK_SET: 0, io.SEEK_CUR: self._at}.get(whence)
        self._at = number(offset + (self._size() if base is None else base), "a position")
        return self._at

    def tell(self) -> int:
        """Returns the position."""
        self._check()
        return self._at

    def truncate(self, size: Optional[int] = None) -> int:
        """Truncates or extends the file, by default to the position. The position doesn't move."""
        self._check(self.writable(), "writing")
        size = number(self._at if size is None else size, "a size")
        self._resize(size)
        return size

    def __del__(self) -> None:
        # A file that is dropped isn't closed: when that would happen is up to Python, and the close is a call of the script.
        pass

    def _check(self, is_open_so: bool = True, what: str = "") -> None:
        if self.closed:
            raise ValueError("I/O operation on closed file.")
        if not is_open_so:
            raise io.UnsupportedOperation(f"the file isn't open for {what}")

    def _read(self, length: int) -> bytes:
        """The bytes at the position, at most this many."""
        raise NotImplementedError

    def _write(self, data: bytes) -> None:
        """Writes bytes at the position, and moves it."""
        raise NotImplementedError

    def _size(self) -> int:
        raise NotImplementedError

    def _resize(self, size: int) -> None:
        raise NotImplementedError
