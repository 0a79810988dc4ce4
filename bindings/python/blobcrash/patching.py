"""Unmodified Python code on files that crash: docs/BINDINGS.md.

    from blobcrash import explore, patched

    def body(fs):
        with patched(fs, "/disk"):
            save("/disk/settings.json", 1)        # unmodified: open, json, os.replace ..
        fs.restart()
        with patched(fs, "/disk"):
            load("/disk/settings.json")
"""

from __future__ import annotations

import os
import posixpath
import sys
import types
from contextlib import ExitStack, contextmanager
from typing import Any, Dict, Iterable, Iterator, Tuple

from .file_system import Files
from .patched_functions import Functions
from .patched_paths import Folder
from .power import PowerLoss


@contextmanager
def patched(files: Files, root: str = "/disk", *, modules: Iterable[types.ModuleType] = ()) -> Iterator[str]:
    """Lets unmodified code reach `files` below the path `root`, in this process, until the block ends: by `open`, `os`, `pathlib`, and
    what is built on them, as `json`, `shutil`, `tempfile`. All other paths stay those of the real files. Yields `root`.

    The block is the life of a process: what is open at its end, or at a restart, is closed, and its unflushed bytes are lost.

    `root` is an absolute path of which nothing exists, so that code which isn't served finds nothing there. `modules` are those that
    have imported functions by their names, as `from os import replace`.

    A call that files don't have raises `NotImplementedError`. Another thread, or a process that was forked, raises `WrongThread`.
    Raises `ValueError` if `root` is no such path.
    """
    root = _checked(root)
    folder = Folder(files, root)
    functions = Functions(folder).made()
    try:
        with ExitStack() as undo:
            _replace_all(undo, functions, modules)
            yield root
    except (Exception, PowerLoss):
        try:
            folder.end()
        except PowerLoss:
            pass
        raise
    else:
        folder.end()
    finally:
        folder.is_on = False


def _checked(root: str) -> str:
    if not isinstance(root, str):
        raise TypeError(f"a root is a str, not {type(root).__name__}")
    if not root.startswith("/") or posixpath.normpath(root) != root or root.strip("/") == "":
        raise ValueError(f"{root!r} is no root: it is an absolute path of a folder, without a slash at its end")
    if os.path.lexists(root):
        raise ValueError(f"{root} exists: name a folder that doesn't, so that no code reaches real files by it")
    return root


def _replace_all(undo: ExitStack, functions: Dict[Tuple[Any, str], Any], modules: Iterable[types.ModuleType]) -> None:
    """Sets all functions until the end of the block, also where they were noted at an import."""
    by_real = {id(getattr(module, name)): function for (module, name), function in functions.items()}
    supports = (os.supports_dir_fd, os.supports_fd, os.supports_follow_symlinks)
    for (module, name), function in functions.items():
        for supported in supports:
            if getattr(module, name) in supported:
                supported.add(function)
                undo.callback(supported.discard, function)
        _set(undo, module, name, function)
    for module in modules:
        for name, value in list(vars(module).items()):
            if id(value) in by_real:
                _set(undo, module, name, by_real[id(value)])
    _replace_noted(undo, by_real)


def _replace_noted(undo: ExitStack, by_real: Dict[int, Any]) -> None:
    """Sets functions that the standard library notes in classes: `pathlib` before Python 3.11, globs since 3.13, and what closes files of
    `tempfile`."""
    for module, name in (("pathlib", "_NormalAccessor"), ("glob", "_StringGlobber"), ("tempfile", "_TemporaryFileCloser")):
        holder = getattr(sys.modules.get(module), name, None)
        for name, value in list(vars(holder).items()) if holder is not None else ():
            function = by_real.get(id(getattr(value, "__func__", value)))
            if function is not None:
                undo.callback(setattr, holder, name, value)
                setattr(holder, name, staticmethod(function))
            elif isinstance(value, types.FunctionType) and value.__defaults__:
                _set(undo, value, "__defaults__", tuple(by_real.get(id(default), default) for default in value.__defaults__))


def _set(undo: ExitStack, holder: Any, name: str, value: Any) -> None:
    undo.callback(setattr, holder, name, getattr(holder, name))
    setattr(holder, name, value)
