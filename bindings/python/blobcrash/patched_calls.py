"""The functions of `os` on files. Each takes paths of the files, without the root, or descriptors."""

from __future__ import annotations

import errno
import os
import posixpath
from typing import Any, Callable, List, Optional

from .file_calls import FileCall
from .grammar import data_of
from .open_file import OpenFile
from .patched_entries import Entries, Entry, status_of
from .patched_paths import At, Folder, Opened, failure

_SYNCED = os.O_SYNC | os.O_DSYNC


class PatchedCalls:
    """What the functions of `os` do on a folder. A method has the name of its function."""

    def __init__(self, folder: Folder) -> None:
        self._folder = folder
        self._files = folder.files

    # Opens and closes

    def open(self, path: Any, flags: int, mode: int = 0o777) -> int:
        if flags & os.O_TMPFILE == os.O_TMPFILE:
            raise failure(errno.EOPNOTSUPP, path)
        if flags & os.O_PATH:
            raise NotImplementedError("O_PATH isn't available on patched files")
        if flags & os.O_DIRECT:
            raise failure(errno.EINVAL, path)
        kind = self._kind(path)
        if kind == "directory":
            return self._folder.add(self._opened_directory(path, flags))
        if flags & os.O_DIRECTORY:
            raise failure(errno.ENOTDIR if kind else errno.ENOENT, path)
        how = "w+b" if kind and flags & os.O_TRUNC else "r+b"
        if flags & os.O_CREAT and (not kind or flags & os.O_EXCL):
            how = "x+b"
        return self._folder.add(Opened(self._files, path, self._files.open(path, how), flags))

    def close(self, number: int) -> None:
        self._folder.drop(number)

    def dup(self, number: int) -> int:
        opened = self._folder.opened(number)
        opened.descriptors += 1
        return self._folder.add(opened)

    # Bytes

    def read(self, number: int, length: int) -> bytes:
        file = self._readable(number)
        found: bytes = file._ask("read", file._at, _checked(length))
        file._at += len(found)
        return found

    def readinto(self, number: int, buffer: Any) -> int:
        view = memoryview(buffer).cast("B")
        found = self.read(number, len(view))
        view[: len(found)] = found
        return len(found)

    def pread(self, number: int, length: int, offset: int) -> bytes:
        found: bytes = self._readable(number)._ask("read", _checked(offset), _checked(length))
        return found

    def write(self, number: int, data: Any) -> int:
        data, file = data_of(data, "the data of a write"), self._writable(number)
        if data and self._folder.opened(number).flags & os.O_APPEND:
            file._at = self._size(file)
        return self._written(number, file, file.write(data))

    def pwrite(self, number: int, data: Any, offset: int) -> int:
        data, file = data_of(data, "the data of a write"), self._writable(number)
        if data:
            # As Linux has it: a file that was opened to append is written at its end.
            appends = self._folder.opened(number).flags & os.O_APPEND
            at = self._size(file) if appends else _checked(offset)
            self._files._call(FileCall("write", file._descriptor, at, path=data), file.name)
        return self._written(number, file, len(data))

    def lseek(self, number: int, position: int, how: int = os.SEEK_SET, *, whence: Optional[int] = None) -> int:
        file = self._folder.file(number)
        how = how if whence is None else whence
        if how not in (os.SEEK_SET, os.SEEK_CUR, os.SEEK_END):
            raise failure(errno.EINVAL)
        base = 0 if how == os.SEEK_SET else file._at if how == os.SEEK_CUR else self._size(file)
        return file.seek(_checked(base + position))

    def ftruncate(self, number: int, length: int) -> None:
        self._writable(number, errno.EINVAL).truncate(_checked(length))

    def truncate(self, at: At, length: int) -> None:
        if isinstance(at, int):
            self.ftruncate(at, length)
        else:
            self._files.truncate(at, _checked(length))

    def sendfile(self, *_: Any, **__: Any) -> int:
        """EINVAL, as of a file that can't be mapped: its callers copy by reads and writes then."""
        raise failure(errno.EINVAL)

    # Syncs

    def fsync(self, number: int) -> None:
        self._sync(number, self._files.fsync)

    def fdatasync(self, number: int) -> None:
        self._sync(number, self._files.fdatasync)

    def _sync(self, number: int, sync: Callable[[Any], None]) -> None:
        opened = self._folder.opened(number)
        if opened.file is None:
            self._files.fsync_directory(self._folder.directory(number))
        else:
            sync(opened.file)

    # Names

    def rename(self, old: Any, new: Any) -> None:
        self._files.rename(old, new)

    replace = rename

    def link(self, old: Any, new: Any, **_: Any) -> None:
        self._files.link(old, new)

    def unlink(self, path: Any) -> None:
        self._files.unlink(path)

    remove = unlink

    def mkdir(self, path: Any, mode: int = 0o777) -> None:
        self._files.mkdir(path)

    def rmdir(self, path: Any) -> None:
        self._files.rmdir(path)

    def listdir(self, at: At) -> List[Any]:
        return self._files.listdir(self._path(at))

    def scandir(self, at: At, given: Any) -> Entries:
        above = self._path(at)
        entries = []
        for name in self._files.listdir(above):
            path = name if isinstance(given, int) else posixpath.join(os.fspath(given), name)
            entries.append(Entry(self._files, posixpath.join(above, name), name, path))
        return Entries(entries)

    # Status

    def stat(self, at: At, **_: Any) -> os.stat_result:
        if not isinstance(at, int):
            return status_of(self._files.stat(at))
        opened = self._folder.opened(at)
        if opened.file is None:
            return status_of(self._files.stat(self._folder.directory(at)))
        found = self._files.stat("/")._replace(size=self._size(opened.file), kind="file", inode=opened.inode)
        return status_of(found)

    lstat = fstat = stat

    def access(self, path: Any, mode: int, **_: Any) -> bool:
        kind = self._kind(path)
        return bool(kind) and not (kind == "file" and mode & os.X_OK)

    def touch(self, at: At, *_: Any, **__: Any) -> None:
        """A change of a mode, an owner or a time: files have none, so that only the path is looked up."""
        self.stat(at)

    def readlink(self, path: Any) -> Any:
        self._files.stat(path)
        raise failure(errno.EINVAL, path)

    def attribute(self, at: At, *_: Any, **__: Any) -> Any:
        """A call of an extended attribute."""
        self.stat(at)
        raise failure(errno.ENOTSUP, at)

    def no(self, number: int, *_: Any) -> bool:
        """What is not so of a descriptor of files: that it is a terminal, or inherited."""
        self._folder.opened(number)
        return False

    def nothing(self, number: int, *_: Any) -> None:
        self._folder.opened(number)

    def flock(self, number: int, operation: int) -> None:
        """Locks as `fcntl.flock` does. A wait for another lock of this process would never end."""
        import fcntl

        opened = self._folder.opened(number)
        kind = {fcntl.LOCK_SH: 1, fcntl.LOCK_EX: 2}.get(operation & ~fcntl.LOCK_NB, 0)
        before, opened.lock = opened.lock, 0
        other = self._folder.locked(opened.inode)
        if kind and other and (kind == 2 or other == 2):
            opened.lock = before
            if operation & fcntl.LOCK_NB:
                raise failure(errno.EWOULDBLOCK)
            raise NotImplementedError("the file is locked by another open file of this process, so that flock would wait for ever")
        opened.lock = kind

    def _kind(self, path: Any) -> str:
        """The kind of what a path leads to, or an empty text. Raises the errors of `stat` but the one of a missing file."""
        try:
            return self._files.stat(path).kind
        except FileNotFoundError:
            return ""

    def _path(self, at: At) -> Any:
        return self._folder.directory(at) if isinstance(at, int) else at

    def _opened_directory(self, path: Any, flags: int) -> Opened:
        if flags & os.O_CREAT and flags & os.O_EXCL:
            raise failure(errno.EEXIST, path)
        if flags & (os.O_ACCMODE | os.O_CREAT | os.O_TRUNC):
            raise failure(errno.EISDIR, path)
        return Opened(self._files, os.fsdecode(path), None, flags)

    def _readable(self, number: int) -> OpenFile:
        if self._folder.opened(number).flags & os.O_ACCMODE == os.O_WRONLY:
            raise failure(errno.EBADF)
        return self._folder.file(number)

    def _writable(self, number: int, refusal: int = errno.EBADF) -> OpenFile:
        if self._folder.opened(number).flags & os.O_ACCMODE == os.O_RDONLY:
            raise failure(refusal)
        return self._folder.file(number)

    def _size(self, file: OpenFile) -> int:
        """The size of a file. The call isn't in the script."""
        size: int = self._files._call(FileCall("size", file._descriptor), file.name, False).size
        return size

    def _written(self, number: int, file: OpenFile, count: int) -> int:
        """Syncs a write of a file that was opened to write so."""
        flags = self._folder.opened(number).flags & _SYNCED
        if count and flags == os.O_SYNC:
            self._files.fsync(file)
        elif count and flags:
            self._files.fdatasync(file)
        return count


def _checked(number: int) -> int:
    """An offset or a length. Raises EINVAL if it is negative."""
    if number < 0:
        raise failure(errno.EINVAL)
    return number
