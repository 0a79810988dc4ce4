"""The first calls of a script in a session of its own, a crash after them, and what the crash leaves."""

from __future__ import annotations

from copy import copy
from typing import Any, Dict, List, Optional, Tuple, TypeVar

from .calls import Line
from .errors import NotMade
from .file_calls import FileCall, Found, file_line
from .file_contents import Part
from .file_library import FilesLibrary
from .foreign import changes
from .foreign_files import IS_DIRECTORY
from .layers import Library
from .met import blobs_of, durable_blobs

# What a crash left: of a store the partition, the name and the bytes with the header of each blob; of files the path of each, with its
# bytes or, of a directory, `None`.
Content = Tuple[Tuple[Any, ...], ...]
_Own = TypeVar("_Own", bound="_Replayed")


class NotMadeAgain(RuntimeError):
    """A call of a script ran out of memory."""


class _Replayed:
    """The calls so far, in a session of the library."""

    def __init__(self, session: Any) -> None:
        self._session, self.words_left = session, session.words_left

    def fork(self: _Own) -> _Own:
        """Returns another one in the same state."""
        other = copy(self)
        try:
            _Replayed.__init__(other, self._session.fork())
        except NotMade:
            raise NotMadeAgain from None
        return other

    def push_words(self, words: List[int]) -> None:
        """Inserts words before those that are left."""
        try:
            self._session.push_words(words)
        except NotMade:
            raise NotMadeAgain from None

    def close(self) -> None:
        self._session.close()


class ReplayedStore(_Replayed):
    """Calls of a store."""

    def __init__(self, images: List[str], words: List[int]) -> None:
        super().__init__(Library("".join(f"{line}\n" for line in [*images, _words_line(words)]).encode()))
        self._calls = [Line.of(line.replace("image", "open", 1)) for line in images]

    def fork(self) -> ReplayedStore:
        other = super().fork()
        other._calls = self._calls[:]
        return other

    @staticmethod
    def changes(line: str) -> bool:
        """Whether a line may change what a crash leaves."""
        return changes(line.split()[0])

    def call(self, line: str) -> Any:
        """Makes the call of a line, which may be refused as it was. Returns the reply."""
        reply = self._session.call(line.encode())
        self._calls.append(Line.of(line))
        return reply

    def crash(self, words: List[int]) -> Any:
        """Crashes by these words. Returns the reply."""
        self.push_words(words)
        return self.call("crash")

    def content(self) -> Content:
        """What is durable."""
        return durable_blobs(self._session, blobs_of(self._calls, ()))


class ReplayedFiles(_Replayed):
    """Calls of files."""

    def __init__(self, images: List[str], words: List[int]) -> None:
        super().__init__(FilesLibrary(f"{_words_line(words)}\n".encode()))

    @staticmethod
    def changes(line: str) -> bool:
        """Whether a line may change what a crash leaves."""
        return changes(file_line(line).word, of_files=True)

    def call(self, line: str) -> Any:
        """Makes the call of a line, which may be refused as it was. Returns the reply."""
        return self.make(file_line(line))

    def make(self, asked: FileCall) -> Any:
        """Makes a call. Returns the reply, of a file by its path that of the call or the refusal of the open."""
        if not asked.is_by_path:
            return self._apply(asked)
        opened = self._apply(FileCall("open", path=asked.to))
        if not isinstance(opened, Found):
            return opened
        reply = self._apply(asked._replace(number=opened.number, to=b""))
        self._apply(FileCall("close", opened.number))
        return reply

    def crash(self, words: List[int]) -> Any:
        """Crashes by these words. Returns the reply."""
        self.push_words(words)
        return self._apply(FileCall("crash"))

    def follows(self, edit: int) -> bool:
        """Returns whether the log of the syncs follows an unsettled edit."""
        return bool(self._session.follows(edit))

    def inode_at(self, descriptor: int) -> int:
        """Returns the inode of an open file, or 0."""
        return int(self._session.inode_at(descriptor))

    def part_of(self, inode: int, span: Tuple[int, int]) -> Optional[Part]:
        """Returns the size of a file and the bytes of a span, after `content`. `None` if there is no such file."""
        opened = self._apply(FileCall("open_inode", inode))
        if not isinstance(opened, Found):
            return None
        size = self._apply(FileCall("size", opened.number)).size
        data = self._apply(FileCall("read", opened.number, span[0], max(min(span[1], size) - span[0], 0)))
        self._apply(FileCall("close", opened.number))
        return Part(size, data.ljust(span[1] - span[0], b"\0"))

    def names(self) -> Dict[bytes, int]:
        """Returns the inode of each path that calls see, the root's too."""
        found = {b"/": 1}
        self._list(1, b"", found)
        return found

    def content(self) -> Content:
        """The paths that the root reaches, after a crash."""
        self._apply(FileCall("configure", path=b"config clear"))
        found: List[Tuple[Any, ...]] = []
        self._walk(1, b"", found)
        return tuple(found)

    def _list(self, directory: int, above: bytes, found: Dict[bytes, int]) -> None:
        for name in self._apply(FileCall("listdir_at", directory)):
            entry = self._apply(FileCall("find_at", directory, path=name))
            found[above + b"/" + name] = entry.number
            if entry.kind == IS_DIRECTORY:
                self._list(entry.number, above + b"/" + name, found)

    def _walk(self, directory: int, above: bytes, found: List[Tuple[Any, ...]]) -> None:
        for name in self._apply(FileCall("listdir_at", directory)):
            entry = self._apply(FileCall("find_at", directory, path=name))
            path = above + b"/" + name
            if entry.kind == IS_DIRECTORY:
                found.append((path, None))
                self._walk(entry.number, path, found)
            else:
                number = self._apply(FileCall("open_inode", entry.number)).number
                found.append((path, self._apply(FileCall("read", number, 0, entry.size))))

    def _apply(self, asked: FileCall) -> Any:
        """Makes a call. Raises `NotMadeAgain` if there is no memory. Refusals are as they were."""
        try:
            return self._session.apply(asked)
        except NotMade:
            raise NotMadeAgain from None


def _words_line(words: List[int]) -> str:
    return "words " + " ".join(map(str, words))
