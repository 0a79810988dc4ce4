"""The functions that take the places of those of `os`, `io` and `fcntl`: each looks whether its arguments lead to files, and makes the
real call if they don't."""

from __future__ import annotations

import builtins
import errno
import fcntl
import functools
import importlib
import io
import os
import types
from typing import Any, Callable, Dict, Tuple

from .patched_calls import PatchedCalls
from .patched_paths import Folder, failure

# Python's own `io` in Python: its file object makes the calls of `os`.
_pyio: Any = importlib.import_module("_pyio")

# The functions of `os` by what their first arguments are: a path or a descriptor, two paths, a descriptor; and those that are refused.
_ON_PATH = ("open", "mkdir", "rmdir", "unlink", "remove", "listdir", "stat", "lstat", "access", "truncate", "readlink")
_TOUCHES = ("chmod", "chown", "lchown", "utime")
_ATTRIBUTES = ("getxattr", "setxattr", "listxattr", "removexattr")
_ON_TWO = ("rename", "replace", "link")
_ON_NUMBER = ("close", "dup", "read", "readinto", "pread", "write", "pwrite", "lseek", "ftruncate", "fsync", "fdatasync", "fstat")
_NO = ("isatty", "get_inheritable")
_NOTHING = ("set_inheritable", "fchmod", "fchown", "posix_fadvise")
_REFUSED = (
    *("chdir", "chroot", "copy_file_range", "dup2", "fchdir", "fpathconf", "fstatvfs", "lockf", "mkfifo", "mknod", "pathconf"),
    *("posix_fallocate", "preadv", "pwritev", "readv", "splice", "statvfs", "symlink", "writev"),
)


class Functions:
    """The functions that take the places of the real ones."""

    def __init__(self, folder: Folder) -> None:
        self._folder = folder
        self._calls = PatchedCalls(folder)

    def made(self) -> Dict[Tuple[Any, str], Callable[..., Any]]:
        """All of them, by module and name. A function that this Python doesn't have is left out."""
        calls = self._calls
        makers: Dict[str, Callable[[Any, str], Any]] = {}
        for names, maker, serve in (
            (_ON_PATH, self._on_path, None),
            (_TOUCHES, self._on_path, calls.touch),
            (_ATTRIBUTES, self._on_path, calls.attribute),
            (_ON_TWO, self._on_two, None),
            (_ON_NUMBER, self._on_number, None),
            (_NO, self._on_number, calls.no),
            (_NOTHING, self._on_number, calls.nothing),
        ):
            for name in names:
                makers[name] = functools.partial(maker, serve=serve or getattr(calls, name))
        makers.update({name: self._refused for name in _REFUSED})
        makers.update(scandir=self._scandir, sendfile=self._sendfile, sync=self._sync)
        found: Dict[Tuple[Any, str], Callable[..., Any]] = {}
        for name, make in makers.items():
            if hasattr(os, name):
                found[os, name] = _named(make(getattr(os, name), name), getattr(os, name))
        found[fcntl, "flock"] = self._on_number(fcntl.flock, "flock", serve=calls.flock)
        found[fcntl, "lockf"] = self._on_number(fcntl.lockf, "lockf", serve=calls.nothing)
        for name in ("fcntl", "ioctl"):
            found[fcntl, name] = self._refused(getattr(fcntl, name), name, "fcntl")
        found[io, "open"] = found[builtins, "open"] = self._open(builtins.open)
        return found

    def _served(self, serve: Callable[..., Any], given: Tuple[Any, ...], *arguments: Any, **named: Any) -> Any:
        """Makes a call. Its errors name the paths that the caller gave."""
        self._folder.check()
        try:
            return serve(*arguments, **named)
        except OSError as error:
            if error.filename is not None and given:
                error.filename, error.filename2 = given[0], given[1] if len(given) > 1 else None
            raise

    def _on_path(self, real: Any, name: str, *, serve: Any) -> Any:
        def call(path: Any = None, *arguments: Any, dir_fd: Any = None, **named: Any) -> Any:
            at = self._folder.at(path, dir_fd)
            if at is not None:
                return self._served(serve, (path,), at, *arguments, **named)
            return real(path, *arguments, **({} if dir_fd is None else {"dir_fd": dir_fd}), **named)

        return call

    def _on_two(self, real: Any, name: str, *, serve: Any) -> Any:
        def call(src: Any, dst: Any, *, src_dir_fd: Any = None, dst_dir_fd: Any = None, **named: Any) -> Any:
            old, new = self._folder.at(src, src_dir_fd), self._folder.at(dst, dst_dir_fd)
            if old is None and new is None:
                return real(src, dst, src_dir_fd=src_dir_fd, dst_dir_fd=dst_dir_fd, **named)
            if old is None or new is None:
                raise failure(errno.EXDEV, src, dst)
            return self._served(serve, (src, dst), old, new, **named)

        return call

    def _on_number(self, real: Any, name: str, *, serve: Any) -> Any:
        def call(fd: Any, *arguments: Any, **named: Any) -> Any:
            at = self._folder.at(_number_of(fd))
            return real(fd, *arguments, **named) if at is None else self._served(serve, (), at, *arguments, **named)

        return call

    def _scandir(self, real: Any, name: str) -> Any:
        def scandir(path: Any = None) -> Any:
            at = self._folder.at(path)
            return real(path) if at is None else self._served(self._calls.scandir, (path,), at, path)

        return scandir

    def _sendfile(self, real: Any, name: str) -> Any:
        def sendfile(out_fd: Any, in_fd: Any, *arguments: Any, **named: Any) -> Any:
            if self._folder.at(out_fd) is None and self._folder.at(in_fd) is None:
                return real(out_fd, in_fd, *arguments, **named)
            return self._served(self._calls.sendfile, ())

        return sendfile

    def _sync(self, real: Any, name: str) -> Any:
        return lambda: self._served(self._folder.files.sync, ())

    def _refused(self, real: Any, name: str, module: str = "os") -> Any:
        def call(*arguments: Any, **named: Any) -> Any:
            if all(self._folder.at(_number_of(value)) is None for value in (*arguments[:2], *named.values())):
                return real(*arguments, **named)
            raise NotImplementedError(f"{module}.{name} isn't available on patched files")

        return call

    def _open(self, real: Any) -> Any:
        """The function `open`: that of `_pyio`, with a file object of the folder, and the buffers and texts of `io`."""
        parts = {name: getattr(io, name) for name in ("BufferedRandom", "BufferedReader", "BufferedWriter", "TextIOWrapper")}
        raw = functools.partial(PatchedFile, self._folder)
        plain = getattr(_pyio.open, "__wrapped__", _pyio.open)
        made = types.FunctionType(plain.__code__, {**vars(_pyio), **parts, "FileIO": raw}, "open", plain.__defaults__)

        def open(
            file: Any,
            mode: str = "r",
            buffering: int = -1,
            encoding: Any = None,
            errors: Any = None,
            newline: Any = None,
            closefd: bool = True,
            opener: Any = None,
        ) -> Any:
            opens = real if self._folder.at(file) is None else made
            return opens(file, mode, buffering, encoding, errors, newline, closefd, opener)

        return open


class PatchedFile(_pyio.FileIO):  # type: ignore[misc]
    """An unbuffered file of patched code. Once its process has ended it is closed."""

    _folder: Any = None
    _opened: Any = None

    def __init__(self, folder: Folder, file: Any, mode: str = "r", closefd: bool = True, opener: Any = None) -> None:
        self._folder = folder
        super().__init__(file, mode, closefd, opener)
        self._opened = folder.opened(self._fd)

    @property
    def closed(self) -> bool:
        return bool(super().closed or (self._opened is not None and self._folder.has_ended(self._opened)))


def _number_of(value: Any) -> Any:
    """A descriptor, also of an object that has one."""
    return value.fileno() if hasattr(value, "fileno") else value


def _named(function: Any, real: Any) -> Any:
    function.__name__, function.__doc__ = real.__name__, real.__doc__
    return function
