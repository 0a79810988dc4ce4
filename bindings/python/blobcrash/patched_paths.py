"""What patched code has open, and which of its paths are those of files: docs/BINDINGS.md."""

from __future__ import annotations

import errno
import itertools
import os
import posixpath
from typing import Any, Dict, Optional, Set, Tuple, Union

from .errors import WrongThread
from .file_system import Files
from .open_file import OpenFile

# An argument: a path of the files, or a descriptor.
At = Union[int, str, bytes]
# No process has as many descriptors, and no length or offset is likely to be one of these numbers. None is used twice.
_numbers = itertools.count(1_500_000_001)


def failure(number: int, *paths: Any) -> OSError:
    """The error that `os` raises with this errno."""
    return OSError(number, os.strerror(number), *(paths[:1] if len(paths) < 2 else (paths[0], None, paths[1])))


class Opened:
    """An open file, or an open directory, which has no `file`. Descriptors that `dup` made share it."""

    def __init__(self, files: Files, path: Any, file: Optional[OpenFile], flags: int) -> None:
        self.path, self.file, self.flags = path, file, flags
        self.inode = files.stat(path).inode
        self.restarts = files._restarts
        self.descriptors = 1
        # The kind of its lock by `flock`, or 0.
        self.lock = 0


class Folder:
    """The folder by which patched code reaches files, and what the code has open."""

    def __init__(self, files: Files, root: str) -> None:
        self.files = files
        self.is_on = True
        self._table: Dict[int, Opened] = {}
        # Every descriptor of the folder, closed ones too.
        self._numbers: Set[int] = set()
        self._process = os.getpid()
        # The root and a slash, as texts and as bytes.
        self._roots: Tuple[Tuple[Any, Any], ...] = ((root, "/"), (os.fsencode(root), b"/"))

    def check(self) -> None:
        """Raises `WrongThread` in another thread or process, and `ValueError` if the files are closed."""
        if os.getpid() != self._process:
            raise WrongThread("files belong to the process that made them")
        self.files._check()

    def at(self, path: Any, dir_fd: Any = None) -> Optional[At]:
        """A path or a descriptor as one of the files, or `None` if it is a real one."""
        if isinstance(path, int):
            return path if path in self._numbers else None
        if not isinstance(path, (str, bytes, os.PathLike)):
            return None
        return self._inside(os.fspath(path), dir_fd)

    def add(self, opened: Opened) -> int:
        """A new descriptor of something open."""
        number = next(_numbers)
        self._table[number] = opened
        self._numbers.add(number)
        return number

    def opened(self, number: int) -> Opened:
        """What a descriptor has open. Raises EBADF if it is closed, or from before a restart."""
        opened = self._table.get(number)
        if opened is None or self.has_ended(opened):
            raise failure(errno.EBADF)
        return opened

    def has_ended(self, opened: Opened) -> bool:
        """Whether the process that opened it has ended: by a restart, or with the block."""
        return not self.is_on or opened.restarts != self.files._restarts

    def file(self, number: int) -> OpenFile:
        """The file of a descriptor. Raises EBADF, and EISDIR for a directory."""
        file = self.opened(number).file
        if file is None:
            raise failure(errno.EISDIR)
        return file

    def directory(self, number: int) -> Any:
        """The path of an open directory. Raises ENOTDIR, and `NotImplementedError` if the directory has no longer that path."""
        opened = self.opened(number)
        if opened.file is not None:
            raise failure(errno.ENOTDIR)
        if not self.files.exists(opened.path) or self.files.stat(opened.path).inode != opened.inode:
            raise NotImplementedError("a directory that was open when it was renamed or removed can't be used by its descriptor")
        return opened.path

    def drop(self, number: int) -> None:
        """Closes a descriptor."""
        opened = self.opened(number)
        del self._table[number]
        opened.descriptors -= 1
        if opened.descriptors == 0 and opened.file is not None:
            opened.file.close()

    def locked(self, inode: int) -> int:
        """The kind of the lock that an open file has on an inode, or 0."""
        live = (opened for opened in self._table.values() if opened.inode == inode and not self.has_ended(opened))
        return max((opened.lock for opened in live), default=0)

    def end(self) -> None:
        """Closes all descriptors, as the kernel does when a process ends. A close that fails is ignored."""
        for number, opened in list(self._table.items()):
            if not self.has_ended(opened):
                try:
                    self.drop(number)
                except OSError:
                    pass

    def _inside(self, path: Any, dir_fd: Any) -> Optional[At]:
        root, slash = self._roots[isinstance(path, bytes)]
        if not path.startswith(slash):
            return self._below(dir_fd, path) if isinstance(dir_fd, int) and dir_fd in self._numbers else None
        plain = slash + posixpath.normpath(path).lstrip(slash)
        if plain != root and not plain.startswith(root + slash):
            return None
        below: At = plain[len(root) :] + (slash if path.endswith(slash) or plain == root else path[:0])
        return below

    def _below(self, number: int, path: Any) -> At:
        above = self.directory(number)
        if isinstance(path, bytes):
            above = os.fsencode(above)
        joined = posixpath.join(above, path)
        end = joined[-1:] if path[-1:] in ("/", b"/") else path[:0]
        plain: At = posixpath.normpath(joined) + end
        return plain
