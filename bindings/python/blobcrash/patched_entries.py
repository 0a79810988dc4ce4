"""What patched code finds of files: their status, and the entries of a directory."""

from __future__ import annotations

import os
import stat
from typing import Any, Iterator, List

from .file_system import Files, FileStatus

_BLOCK = 4096
# The time of everything, in seconds: the start of 2000. It is one that archives can have.
_TIME = 946_684_800
# The number of the device: no real one has it, so that no file is the same as a real one.
_DEVICE = (1 << 31) - 1
_TIMES = ("st_atime", "st_mtime", "st_ctime")


def status_of(found: FileStatus) -> os.stat_result:
    """The status as `os` has it. Files have no modes, owners and times: these are always the same, so that runs are."""
    mode = stat.S_IFDIR | 0o755 if found.kind == "directory" else stat.S_IFREG | 0o644
    times = {name: float(_TIME) for name in _TIMES}
    nanoseconds = {name + "_ns": _TIME * 10**9 for name in _TIMES}
    fields = (mode, found.inode, _DEVICE, 1, os.getuid(), os.getgid(), found.size, _TIME, _TIME, _TIME)
    blocks = {"st_blksize": _BLOCK, "st_blocks": -(-found.size // 512), "st_rdev": 0}
    return os.stat_result(fields, {**times, **nanoseconds, **blocks})


class Entry(os.PathLike):  # type: ignore[type-arg]
    """An entry of a directory, as those of `os.scandir`. There are no links to other names."""

    def __init__(self, files: Files, at: Any, name: Any, path: Any) -> None:
        self._files, self._at = files, at
        self.name, self.path = name, path

    def inode(self) -> int:
        return self._files.stat(self._at).inode

    def is_dir(self, *, follow_symlinks: bool = True) -> bool:
        return self._kind() == "directory"

    def is_file(self, *, follow_symlinks: bool = True) -> bool:
        return self._kind() == "file"

    def is_symlink(self) -> bool:
        return False

    def is_junction(self) -> bool:
        return False

    def stat(self, *, follow_symlinks: bool = True) -> os.stat_result:
        return status_of(self._files.stat(self._at))

    def __fspath__(self) -> Any:
        return self.path

    def __repr__(self) -> str:
        return f"<Entry {self.name!r}>"

    def _kind(self) -> str:
        return self._files.stat(self._at).kind if self._files.exists(self._at) else ""


class Entries:
    """The entries of a directory, as `os.scandir` returns them: an iterator that can be closed."""

    def __init__(self, entries: List[Entry]) -> None:
        self._entries = iter(entries)

    def __iter__(self) -> Iterator[Entry]:
        return self

    def __next__(self) -> Entry:
        return next(self._entries)

    def __enter__(self) -> Entries:
        return self

    def __exit__(self, *_: object) -> None:
        self.close()

    def close(self) -> None:
        self._entries = iter(())
