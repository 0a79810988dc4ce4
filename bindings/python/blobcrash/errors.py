"""The errors of the module."""

from __future__ import annotations

import errno
from typing import Any, Dict, Iterable, List, Optional, Tuple, Type


class StorageError(Exception):
    """A call that the storage layer refused.

    `reply` is the reply line. `fields` are its texts after the error's name: an empty name, which the line prints as `-`, is `""`.
    """

    reply: str
    fields: Tuple[str, ...]

    def __init__(self, reply: str) -> None:
        super().__init__(reply)
        self.reply = reply
        self.fields = self._fields_of(reply.split(" ", 4)[2:])

    @staticmethod
    def _fields_of(texts: List[str]) -> Tuple[str, ...]:
        return tuple(texts)


class _OfBlob(StorageError):
    """A refusal that names a blob: its partition and its name in hex."""

    @staticmethod
    def _fields_of(texts: List[str]) -> Tuple[str, ...]:
        if texts[1:2] == ["-"]:
            texts[1] = ""
        return tuple(texts)


class OffsetOverflow(StorageError):
    """The end of the range, with the blob's header, doesn't fit in 64 bits."""


class BlobInsufficientLength(StorageError):
    """The read ends past the end of the blob."""


class PartitionNameInvalid(StorageError):
    """A partition name is empty, or has a character other than ASCII letters, digits, `-` and `_`. `fields` has the caller's text."""

    def __init__(self, reply: str) -> None:
        super().__init__(reply)
        text = reply[len("error PartitionNameInvalid ") :]
        self.fields = ("" if text == "-" else text,)


class PartitionMissing(StorageError):
    """A removal or a scan of a partition that doesn't exist."""


class BlobMissing(_OfBlob):
    """A removal of a blob that doesn't exist; a sync or a SYNC write through a stale handle."""


class BlobAlreadyOpen(_OfBlob):
    """An open of a blob that is open."""


class BlobCorrupt(_OfBlob):
    """The blob's header is damaged. The third field is the reason."""


class BlobLayoutMismatch(StorageError):
    """The header's layout isn't accepted. This store accepts all of them."""


class BlobVersionMismatch(StorageError):
    """The header's version isn't one of those asked for."""


class Closed(StorageError):
    """Never returned by this store."""


class ReadFailed(StorageError):
    """Never returned by this store."""


class WriteFailed(StorageError):
    """Never returned by this store."""


class Injected(StorageError, OSError):
    """An injected I/O error. It is an `OSError` too, with the `errno` EIO, so that code under test handles it as it would a real one."""

    def __init__(self, reply: str) -> None:
        super().__init__(reply)
        self.errno = errno.EIO


class Memory(StorageError):
    """The store found no memory for the call. Nothing has changed but the generator."""


class GenerationsExhausted(StorageError):
    """No number is left for a blob, a write or a started sync."""


class NoHandle(StorageError):
    """The handle is closed, or the started sync is finished or from before a reopen."""


class EmptyRange(StorageError):
    """The range of versions is empty."""


class BadLine(ValueError):
    """A line is no call of a script, or isn't allowed there. No call was made. `line` is its number if it is one of a text. `why` names
    the token and what was expected, if that is known."""

    def __init__(self, text: str, line: Optional[int] = None, why: Optional[str] = None) -> None:
        super().__init__(text if line is None else f"line {line}: {text}")
        self.line = line
        self.why = why
        self.replies = b""


class NeedsSeed(ValueError):
    """A rate needs random draws, and the store has neither a seed nor words."""


class NoRuns(RuntimeError):
    """The time was over before a run had ended, so that nothing was checked. `rest` are the subtrees, or the seeds, that are left."""

    def __init__(self, rest: Iterable[Any]) -> None:
        super().__init__("the time was over before a run had ended: nothing was checked")
        self.rest = tuple(rest)

    def __reduce__(self) -> Any:
        return NoRuns, (self.rest,)


class StaleHandle(RuntimeError):
    """The handle is from before a crash, a reopen or the blob's removal. It is no `StorageError`: code under test must not handle it."""


class WrongThread(RuntimeError):
    """The store was made by another thread."""


class Interrupted(RuntimeError):
    """An earlier call was cut short, so its reply is lost and the store can't be used. `__cause__` is what cut it short."""


class ProgramEnded(OSError):
    """The program ended before it replied."""


class NotMade(MemoryError):
    """The library found no memory, and no call was made."""


class LibraryMissing(OSError):
    """The shared library doesn't exist: build it with `sh bindings/build.sh`, or name its file in `BLOBCRASH_LIBRARY`."""


def _below(error: Type[StorageError]) -> Dict[str, Type[StorageError]]:
    found = {}
    for below in error.__subclasses__():
        found[below.__name__] = below
        found.update(_below(below))
    return found


_errors = _below(StorageError)


def refusal(reply: str, partition: Optional[str] = None) -> StorageError:
    """The error of a reply line that begins with `error`. `partition` is the caller's text, for a name that no line has."""
    error = _errors.get(reply.split(" ")[1], StorageError)
    if error is PartitionNameInvalid and partition is not None:
        return PartitionNameInvalid("error PartitionNameInvalid " + (partition or "-"))
    return error(reply)
