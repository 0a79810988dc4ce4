"""A blob as a binary file object."""

from __future__ import annotations

from typing import TYPE_CHECKING

from .byte_file import ByteFile

if TYPE_CHECKING:
    from .blob import Blob


class BlobFile(ByteFile):
    """A blob as an unbuffered file object, open for reading and writing.

    `flush` does nothing, as for any unbuffered file: bytes are durable once `sync` has returned. Call
    it in place of `os.fsync`, since there is no `fileno`. An injected fault is an `OSError`.
    """

    def __init__(self, blob: Blob) -> None:
        super().__init__()
        self.blob = blob

    def sync(self) -> None:
        """Makes what was written durable."""
        self._check()
        self.blob.sync()

    def close(self) -> None:
        """Closes the file and its handle."""
        if not self.closed:
            super().close()
            self.blob.__exit__()

    def _read(self, length: int) -> bytes:
        length = min(length, max(self.blob.size() - self._at, 0))
        return self.blob.read(self._at, length) if length else b""

    def _write(self, data: bytes) -> None:
        self.blob.write(self._at, data)
        self._at += len(data)

    def _size(self) -> int:
        return self.blob.size()

    def _resize(self, size: int) -> None:
        self.blob.resize(size)
