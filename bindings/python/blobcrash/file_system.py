"""Files with names, directories, renames and their syncs: docs/FILES.md."""

from __future__ import annotations

import os
from copy import copy
from typing import Any, Callable, Dict, Iterable, List, NamedTuple, Optional

from .errors import NeedsSeed
from .file_calls import FileCall, Kept, reply_text
from .file_errors import error_of
from .file_library import files_way
from .file_paths import Path, bytes_of, check_link, check_one, check_rename, is_plain, is_root, named
from .file_settings import Profile, file_setting_line, profile_of
from .foreign_files import EXCHANGES, IS_DIRECTORY, REFUSES, REPLACES, Refusal
from .grammar import number
from .open_file import OpenFile, plain_mode
from .power import PowerLoss
from .session import Session
from .unkept import Unsynced

# The refusals by which a path has no file.
_MISSING = frozenset(("NotFound", "NotDirectory", "InvalidName", "NameTooLong"))


class FileStatus(NamedTuple):
    """What `stat` returns: the size in bytes, 0 for a directory; `kind`, which is `file` or `directory`; and the inode's number."""

    size: int
    kind: str
    inode: int


class Files(Session):
    """A file system of its own, in memory. A crash keeps only some of the bytes, changes of names and truncations that nothing made
    durable.

    `seed`, a number below 2^64, decides what fails and what a crash keeps. `words` are the first words of the generator, in place of the
    seed's; after the last one it goes on with the seed, or without one with zeros, for which every draw is true. `profile` is `ext4`,
    `xfs`, `btrfs` or `posix`. `settings` are those of `configure`, from the start. `by` is the way to the layer: `FilesLibrary`.

    The calls have the names of `os`. A path is a `str`, `bytes` or an `os.PathLike`, of names, each after a slash, from the root on; `.` and
    `..` are no names, and a path that ends with a slash is one of a directory. A refused call raises the `OSError` that `os` would raise, whose `refusal` names why; an injected fault is
    `Injected`, with EIO.

    Raises `NeedsSeed` if a setting needs random draws and there is neither a seed nor a word, and `ValueError` or `TypeError` for an
    argument that is none.
    """

    _named = ("files belong to the thread that made them", "the files are", "the files")
    _of_files = True

    def __init__(
        self,
        seed: Optional[int] = None,
        *,
        profile: Profile = "ext4",
        words: Iterable[int] = (),
        settings: Iterable[str] = (),
        by: Any = None,
    ) -> None:
        if isinstance(settings, str):
            raise TypeError("settings are a list of texts")
        super().__init__(words)
        self._has_draws = bool(self._words_line()) or seed is not None or self._is_search
        self._unsynced = Unsynced()
        self._lines = [*([] if seed is None else [f"seed {number(seed, 'a seed')}"]), f"profile {profile_of(profile)}"]
        # Whether a crash draws for edits: by the rate 1/2, if no setting says another one.
        self._draws_edits = True
        self._lines += [self._setting_line(setting) for setting in settings]
        # The files that were opened and not closed, by their descriptors.
        self._opened: Dict[int, OpenFile] = {}
        # How often `restart` has ended a process.
        self._restarts = 0
        self._layer = files_way(by)("\n".join([*self.script, ""]).encode())

    def fork(self) -> Files:
        """Returns other files in the same state: names and bytes, what of them is unsynced and unsettled, settings, the power, and the words
        that the generator gives next.

        No call is made again, and from here on no call of one changes the other. The new ones belong to this thread too. File objects stay
        with the files that opened them; their descriptors are open in the new ones too, until these crash.

        Raises `ValueError` for the files of a search's run, and an `OSError` if the recovery of the last crash failed.
        """
        self._check()
        if self._is_search:
            raise ValueError("the files of a search's run can't be forked")
        layer = self._layer.fork()
        if isinstance(layer, Refusal):
            raise error_of(layer)
        other = copy(self)
        other._layer, other._opened = layer, {}
        other._words, other._lines, other._unsynced = self._words[:], self._lines[:], self._unsynced.again()
        return other

    def open(self, path: Path, mode: str = "rb") -> OpenFile:
        """Opens a file, by a mode of `open` with a `b`, as an unbuffered file object.

        Raises `FileNotFoundError`, `FileExistsError` for `x`, `IsADirectoryError`, `NotADirectoryError`.
        """
        plain = plain_mode(mode)
        name = named(path)
        check_one(self, {"x": "make", "r": "open"}.get(plain[0], "create"), path, name)
        word = "open"
        if plain[0] == "x" or (plain[0] in "wa" and not self._has(name)):
            word = "create"
        elif plain[0] == "w":
            word = "open_truncated"
        descriptor = self._call(FileCall(word, path=name), path).number
        opened = self._opened[descriptor] = OpenFile(self, descriptor, path, mode)
        if plain[0] == "a":
            opened._at = self._call(FileCall("size", descriptor), path, False).size
        return opened

    def rename(self, old: Path, new: Path, *, replaces: bool = True) -> None:
        """Moves a file or a directory, in one step. It replaces a file, or an empty directory, that has the new name.

        Without `replaces` that raises `FileExistsError`.
        """
        self._rename(old, new, REPLACES if replaces else REFUSES)

    def replace(self, old: Path, new: Path) -> None:
        """Does what `rename` does."""
        self.rename(old, new)

    def exchange(self, one: Path, other: Path) -> None:
        """Exchanges two names, in one step. Both have to be there."""
        self._rename(one, other, EXCHANGES)

    def link(self, old: Path, new: Path) -> None:
        """Gives a file a second name."""
        name, to = bytes_of(old), bytes_of(new)
        if not (is_plain(name) and is_plain(to)):
            check_link(self, old, name, new, to)
        try:
            self._call(FileCall("link", path=name, to=to), old, True, new)
        except IsADirectoryError:
            check_link(self, old, name, new, to)
            raise

    def unlink(self, path: Path) -> None:
        """Removes a name of a file. An open file stays readable."""
        self._on("unlink", path)

    def remove(self, path: Path) -> None:
        """Does what `unlink` does."""
        self.unlink(path)

    def mkdir(self, path: Path) -> None:
        """Makes a directory."""
        self._on("mkdir", path)

    def makedirs(self, path: Path, exist_ok: bool = False) -> None:
        """Makes a directory and those above it that are missing."""
        names = [name for name in named(path).split(b"/") if name]
        for count in range(1, len(names)):
            above = b"/" + b"/".join(names[:count])
            if not self._has(above):
                self._call(FileCall("mkdir", path=above), path)
        if not (exist_ok and self._is_directory(bytes_of(path))):
            self.mkdir(path)

    def rmdir(self, path: Path) -> None:
        """Removes an empty directory."""
        self._on("rmdir", path)

    def listdir(self, path: Path = "/") -> List[Any]:
        """Returns the names in a directory, sorted by their bytes: as `bytes` if the path is one, else as `str`."""
        names: List[Any] = self._on("listdir", path)
        if isinstance(os.fspath(path), bytes):
            return names
        return [name.decode("utf-8", "surrogateescape") for name in names]

    def exists(self, path: Path) -> bool:
        """Returns whether a path leads to a file or a directory."""
        return self._has(bytes_of(path))

    def stat(self, path: Path) -> FileStatus:
        """Returns the size, the kind and the inode of a file or a directory."""
        name = named(path)
        if is_root(name):
            return FileStatus(0, "directory", 1)
        check_one(self, "find", path, name)
        found = self._call(FileCall("find", path=name), path, False)
        kind = "directory" if found.kind == IS_DIRECTORY else "file"
        return FileStatus(found.size, kind, found.number)

    def truncate(self, path: Path, size: int) -> None:
        """Truncates or extends a file."""
        size = number(size, "a size")
        with self.open(path, "r+b") as file:
            file.truncate(size)

    def fsync(self, file: OpenFile) -> None:
        """Makes a file's bytes and size durable, and the names that the profile says."""
        self._on_file("fsync", file)

    def fdatasync(self, file: OpenFile) -> None:
        """Makes a file's bytes and size durable, and names as `fsync` does if the size has changed or one of its names."""
        self._on_file("fdatasync", file)

    def fsync_directory(self, path: Path) -> None:
        """Makes the changes of a directory's names durable, and more if the profile says so."""
        self._on("fsyncdir", path)

    def sync(self) -> None:
        """Makes the bytes of all files and all names durable."""
        self._call(FileCall("sync"))

    def settle(self) -> None:
        """Makes everything durable without a draw: the state before a test. No power is lost here."""
        self._call(FileCall("settle"))

    def commit(self) -> None:
        """Makes all names and truncations durable without a draw, as a file system's own commit does; the bytes of files stay unsynced.
        No power is lost here."""
        self._call(FileCall("commit"))

    def crash(self) -> Kept:
        """Loses what isn't durable, except what the draws keep, and recovers. Returns what was kept. All open files are stale."""
        if self._draws_edits and not self._has_draws:
            raise NeedsSeed("a crash draws which edits it keeps: give the files a seed, `Files(seed=7)`, words, or the setting `keep 1 1`")
        kept: Kept = self._call(FileCall("crash"))
        self._lines += kept.lines()
        self._opened.clear()
        return kept

    def restart(self) -> Kept:
        """Crashes, and closes every open file, as the end of a process does. Returns what was kept."""
        opened = list(self._opened.values())
        kept = self.crash()
        for file in opened:
            file._end()
        self._restarts += 1
        return kept

    def recover(self, step: Callable[..., Any], *arguments: Any) -> Any:
        """Restarts, calls `step` and returns what that returns. Does both again if the power fails meanwhile."""
        return self._recover(self.restart, step, arguments)

    def configure(self, setting: str) -> None:
        """Makes a setting: a rate as of `Store.configure`, of calls on files; `keep N D`, how often a crash keeps an edit that nothing
        settled, a change of names or a truncation, 1/2 at first; `edits prefix`, `any` or `logged`, which of them a crash may keep, in place of
        what the profile says; `space BYTES FILES`, how many bytes and files there may be; or a switch, of
        which the first is set at first: `failed_sync keeps` or `drops`, `syncs honest` or `lie`, `failed_write mode` or `prefix`
        (docs/FILES.md).

        Raises `BadLine` if it is none, and `NeedsSeed` if it needs random draws and there is neither a seed nor a word.
        """
        self._call(FileCall("configure", path=self._setting_line(setting).encode()))

    def _setting_line(self, setting: str) -> str:
        line, needs_draws = file_setting_line(setting)
        if needs_draws and not self._has_draws:
            raise NeedsSeed(f"`{setting}` needs random draws: give the files a seed, `Files(seed=7)`, or the words of its generator")
        if line.startswith("keep "):
            self._draws_edits = needs_draws
        self._unsynced.set(line.split())
        return line

    def _on(self, word: str, path: Path) -> Any:
        name = named(path)
        check_one(self, word, path, name)
        return self._call(FileCall(word, path=name), path)

    def _rename(self, old: Path, new: Path, how: int) -> None:
        name, to = bytes_of(old), bytes_of(new)
        if not (is_plain(name) and is_plain(to)):
            check_rename(self, old, name, new, to, how)
        try:
            self._call(FileCall("rename", first=how, path=name, to=to), old, True, new)
        except OSError as error:
            if getattr(error, "refusal", None) in ("IsDirectory", "Loop", "NameTooLong"):
                check_rename(self, old, name, new, to, how)
            raise

    def _on_file(self, word: str, file: OpenFile) -> None:
        if not isinstance(file, OpenFile) or file._files is not self:
            raise TypeError(f"{word} takes a file that these files have opened")
        file._check()
        file._ask(word)

    def _has(self, name: bytes) -> bool:
        """Whether a path leads to anything: with a slash at its end, to a directory."""
        found = None if is_root(name) or not name else self._found(name)
        return is_root(name) or (found is not None and (found.kind == IS_DIRECTORY or not name.endswith(b"/")))

    def _is_directory(self, name: bytes) -> bool:
        found = self._found(name) if name else None
        return is_root(name) or (found is not None and found.kind == IS_DIRECTORY)

    def _found(self, name: bytes) -> Any:
        """What a path leads to, or `None`. It makes no draw, and isn't in the script."""
        try:
            return self._call(FileCall("find", path=name), None, False)
        except OSError as error:
            if getattr(error, "refusal", None) in _MISSING:
                return None
            raise

    def _close(self, descriptor: int, path: Path) -> None:
        """Closes a file, unless it is stale or no call can be made."""
        opened = self._opened.pop(descriptor, None)
        if opened is None or self._owner is None:
            return
        try:
            self._call(FileCall("close", descriptor), path)
        except PowerLoss as error:
            if error.is_first:
                raise

    def _made(self) -> Iterable[Any]:
        return (f"{made[0]}{made[1]}" if type(made) is tuple else made for made in self._lines)

    def _call(self, asked: FileCall, path: Any = None, is_shown: bool = True, to: Any = None) -> Any:
        """Makes a call, and returns its reply. Raises the error of a refusal, which names the paths."""
        if self._is_search:
            self._unsynced.before_call(asked, self._layer)
        reply = self._apply(asked, is_shown)
        text = reply_text(asked, reply) if is_shown else ""
        if text:
            self._lines[-1] = asked, text
        if isinstance(reply, Refusal):
            raise error_of(reply, path, to)
        if self._is_search:
            self._unsynced.take_of_files(asked, self._layer)
        return reply
