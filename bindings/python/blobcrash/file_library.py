"""Files in this process, by the shared library."""

from __future__ import annotations

import ctypes
from typing import Any, List, Optional, Tuple, Union

from .errors import BadLine
from .file_calls import FileCall, Found, Kept, refusal_of
from .foreign import BAD_LINE, W_FILE_KINDS
from .foreign_files import Refusal
from .layers import InProcess, Library
from .pipe import Program

# A read of more bytes asks for the size first, so that no more are allocated than the file has.
_MOST_BLIND = 65536
# The least status of a call that was made and refused.
_FIRST_REFUSAL = 16


def files_way(by: Any = None) -> Any:
    """The way to files that `by` asks for. A pipe has no calls of files: raises `ValueError`."""
    if by is None or by is Library:
        return FilesLibrary
    if by is Program:
        raise ValueError("files are reached by the library alone, not by a pipe")
    return by


class FilesLibrary(InProcess):
    """The calls of files. `apply` returns what a call returns, or a `Refusal`."""

    _functions, _named, _table = "files_", "files are", W_FILE_KINDS

    def fork(self) -> Union[FilesLibrary, Refusal]:
        """Returns other files in the same state, or the refusal if the recovery of the last crash failed."""
        other, status = self._forked("fork")
        return self._refused(status) or other

    def apply(self, asked: FileCall) -> Any:
        """Makes a call. Returns the bytes of a read, the names of a list, a `Kept` of a crash, nothing of a write or a setting, and `Found`
        of any other."""
        word = asked.word
        if word == "write":
            return self._refused(self._call("write", asked.number, asked.first, asked.path, len(asked.path)))
        if word == "read":
            return self._read(asked.number, asked.first, asked.last)
        if word == "configure":
            return self._configure(asked.path)
        reply = self._applied(self._kinds[word], asked.number, asked.first, asked.last, asked.path, asked.to)
        if reply.status:
            return self._refused(reply.status)
        if word in ("listdir", "listdir_at"):
            return [self._name(index) for index in range(reply.size)]
        if word == "crash":
            edits = [bool(self._length("kept_edit", index)) for index in range(reply.number)]
            rows = range(reply.size)
            return Kept([self._row(row) for row in rows], edits, [self._place(row) for row in rows])
        return Found(reply.kind, reply.number, reply.size)

    def follows(self, edit: int) -> bool:
        """Returns whether the log of the syncs follows an unsettled edit, counted in the order of their calls."""
        return bool(self._length("follows", edit))

    def inode_at(self, descriptor: int) -> int:
        """Returns the inode of an open file."""
        found = self.apply(FileCall("inode_of", descriptor))
        return found.number if isinstance(found, Found) else 0

    def _refused(self, status: int) -> Optional[Refusal]:
        """A refusal, or `None` if the call was made and not refused."""
        if status >= _FIRST_REFUSAL:
            return refusal_of(status)
        self._check(status)
        return None

    def _read(self, number: int, offset: int, length: int) -> Union[bytes, Refusal]:
        if length > _MOST_BLIND:
            found = self.apply(FileCall("size", number))
            if isinstance(found, Refusal):
                return found
            length = min(length, max(found.size - offset, 0))
        room = ctypes.create_string_buffer(length)
        ran = self._call("read", number, offset, room, length)
        return self._refused(ran.status) or room.raw[: ran.len]

    def _configure(self, setting: bytes) -> None:
        status = self._call("configure", setting, len(setting))
        if status == BAD_LINE:
            raise BadLine("bad setting: " + setting.decode(errors="backslashreplace"))
        self._check(status)

    def _name(self, index: int) -> bytes:
        reply = self._call("name", index, self.room, len(self.room))
        self._check(reply.status)
        return bytes(self.room[: reply.size])

    def _row(self, row: int) -> Tuple[int, str]:
        """What a crash kept of a write."""
        digits: List[str] = []
        at = 0
        while True:
            run = self._call("kept_run", row, at)
            self._check(run.status)
            digits += ["0" * (run.start - at), "1" * run.len]
            at = run.start + run.len
            if run.len == 0 or at >= run.bytes:
                return run.write, "".join(digits) + "0" * (run.bytes - at)

    def _place(self, row: int) -> Tuple[Optional[int], int]:
        """Where the write of a row was: the inode, or `None` for an edit, and the offset."""
        reply = self._call("kept_place", row)
        self._check(reply.status)
        return reply.number or None, reply.size

    def _length(self, name: str, *arguments: int) -> int:
        ran = self._call(name, *arguments)
        self._check(ran.status)
        return int(ran.len)

    def _bad_preamble(self, preamble: bytes, line: int) -> BadLine:
        lines = preamble.decode(errors="backslashreplace").split("\n")
        return BadLine(f"bad preamble: {lines[line - 1]}" if 0 < line <= len(lines) else "bad preamble", line)
