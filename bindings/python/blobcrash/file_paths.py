"""Paths of which Linux says more than the layer: an empty one, the root, and one that ends with a slash."""

from __future__ import annotations

import errno
import os
from typing import TYPE_CHECKING, Any, Optional, Union

from .file_calls import FileCall
from .file_errors import error_of
from .foreign_files import EXCHANGES, IS_DIRECTORY, IS_FILE, REFUSALS, REFUSES, Refusal

if TYPE_CHECKING:
    from .file_system import Files

Path = Union[str, bytes, "os.PathLike[Any]"]
_BY_NAME = {refusal.name: refusal for refusal in REFUSALS.values()}
_EXISTS, _NOT_FOUND, _NOT_EMPTY, _LOOP = (_BY_NAME[name] for name in ("Exists", "NotFound", "NotEmpty", "Loop"))
_WANTS_FILE, _WANTS_DIRECTORY = _BY_NAME["IsDirectory"], _BY_NAME["NotDirectory"]
_ROOT_IS_BUSY = Refusal("InvalidName", errno.EBUSY, "the root has no name")
_NO_LINK = Refusal("IsDirectory", errno.EPERM, "a directory has no second name")
# What calls on the root are refused for. `make` is the exclusive creation of a file.
_ON_ROOT = {"open": _WANTS_FILE, "create": _WANTS_FILE, "make": _EXISTS, "unlink": _WANTS_FILE, "mkdir": _EXISTS, "rmdir": _ROOT_IS_BUSY}


def bytes_of(path: Path) -> bytes:
    """A path as bytes. Raises `TypeError`."""
    path = os.fspath(path)
    return path if type(path) is bytes else path.encode("utf-8", "surrogateescape") if isinstance(path, str) else bytes(path)


def named(path: Path) -> bytes:
    """A path as bytes. Raises `FileNotFoundError` if it is empty."""
    name = bytes_of(path)
    if not name:
        raise error_of(_NOT_FOUND, path)
    return name


def is_root(name: bytes) -> bool:
    """Whether a path consists of slashes."""
    return bool(name) and not name.strip(b"/")


def is_plain(name: bytes) -> bool:
    """Whether a path is neither empty nor the root, and doesn't end with a slash."""
    return bool(name) and not name.endswith(b"/")


def check_one(files: Files, word: str, path: Path, name: bytes) -> None:
    """Raises the error of a call on the root, or on a path that ends with a slash and leads to no directory."""
    if is_plain(name):
        return
    refusal: Optional[Refusal] = None
    if is_root(name):
        refusal = _ON_ROOT.get(word)
    elif word in ("create", "make"):
        _check_above(files, name, path)
        refusal = _WANTS_FILE
    elif word in ("open", "unlink", "find") and _kind_of(files, name, path) == IS_FILE:
        refusal = _WANTS_DIRECTORY
    if refusal is not None:
        raise error_of(refusal, path)


def check_link(files: Files, old: Path, name: bytes, new: Path, to: bytes) -> None:
    """Raises the error of a link of a directory, and of one with a path that isn't plain."""
    refusal: Optional[Refusal] = None
    kind = _kind_of(files, name, old, new)
    if kind is None:
        refusal = _NOT_FOUND
    elif kind == IS_FILE and not is_plain(name):
        refusal = _WANTS_DIRECTORY
    else:
        _check_above(files, to, old, new)
        if _kind_of(files, to, old, new) is not None:
            refusal = _EXISTS
        elif not is_plain(to):
            refusal = _NOT_FOUND
        elif kind == IS_DIRECTORY:
            refusal = _NO_LINK
    if refusal is not None:
        raise error_of(refusal, old, new)


def check_rename(files: Files, old: Path, name: bytes, new: Path, to: bytes, how: int) -> None:
    """Raises the error of a rename, in the order in which Linux tests for it, except those of which of two paths is a directory."""
    _check_above(files, name, old, new)
    _check_above(files, to, old, new)
    if is_root(name) or is_root(to):
        raise error_of(_EXISTS if how == REFUSES and not is_root(name) else _ROOT_IS_BUSY, old, new)
    kind = _kind_of(files, name, old, new)
    replaced = None if kind is None else _kind_of(files, to, old, new)
    refusal: Optional[Refusal] = None
    if kind is None or (replaced is None and how == EXCHANGES):
        refusal = _NOT_FOUND
    elif replaced is not None and how == REFUSES:
        refusal = _EXISTS
    elif (kind == IS_FILE and not is_plain(name)) or ((replaced if how == EXCHANGES else kind) == IS_FILE and not is_plain(to)):
        refusal = _WANTS_DIRECTORY
    elif _is_below(to, name):
        refusal = _LOOP
    elif _is_below(name, to):
        refusal = _LOOP if how == EXCHANGES else _NOT_EMPTY
    if refusal is not None:
        raise error_of(refusal, old, new)


def _is_below(name: bytes, above: bytes) -> bool:
    parts, first = ([part for part in path.split(b"/") if part] for path in (name, above))
    return len(parts) > len(first) and parts[: len(first)] == first


def _kind_of(files: Files, name: bytes, *paths: Path) -> Optional[int]:
    """What a path leads to, whatever slashes it ends with, or `None` if it leads to nothing."""
    if is_root(name) or not name:
        return IS_DIRECTORY if name else None
    try:
        return int(files._call(FileCall("find", path=name.rstrip(b"/")), paths[0], False, *paths[1:]).kind)
    except FileNotFoundError:
        return None


def _check_above(files: Files, name: bytes, *paths: Path) -> None:
    """Raises the error of an empty path, and of one of which the directory isn't there."""
    above = name.rstrip(b"/").rpartition(b"/")[0].rstrip(b"/")
    kind = _kind_of(files, above, *paths) if above else IS_DIRECTORY
    if kind != IS_DIRECTORY or not name:
        raise error_of(_WANTS_DIRECTORY if kind == IS_FILE else _NOT_FOUND, *paths)
