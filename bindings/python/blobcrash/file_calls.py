"""The calls of files, their replies, and their lines (docs/FORMATS.md, "The script of files")."""

from __future__ import annotations

import re
from ctypes import create_string_buffer
from functools import lru_cache
from typing import Any, List, NamedTuple, Optional, Tuple

from .errors import BadLine
from .file_settings import SWITCHES
from .foreign import W_FILE_KINDS, Asked, check, function, kinds
from .foreign_files import EXCHANGES, REFUSES, REPLACES, Refusal
from .foreign_files import refusal_of as refusal_of
from .grammar import unhex
from .shapes import MAX

# What the arguments of each call are, in order: a path or a name, the second one, the number of the call, its first number, a file by its
# descriptor or its path, an offset or a length, bytes, and what a rename does.
FORMS = {
    **dict.fromkeys(("create", "open", "open_truncated", "unlink", "mkdir", "rmdir", "listdir", "find", "fsyncdir"), "path"),
    **dict.fromkeys(("create_at", "unlink_at", "mkdir_at", "rmdir_at", "find_at"), "number path"),
    **dict.fromkeys(("close", "open_inode", "open_inode_truncated", "listdir_at", "fsyncdir_at", "inode_of"), "number"),
    **dict.fromkeys(("size", "fsync", "fdatasync"), "file"),
    **dict.fromkeys(("sync", "settle", "commit", "crash"), ""),
    "truncate": "file first",
    "read": "file first last",
    "write": "file first bytes",
    "link": "path to",
    "link_at": "first number path",
    "rename": "path to how",
    "rename_at": "number path first to how",
}
SETTINGS = frozenset(("profile", "config", "keep", "space", *SWITCHES))
_HOW = {"": REPLACES, "noreplace": REFUSES, "exchange": EXCHANGES}
# A path as one token: printable ASCII but the space, the number sign and the backslash, and `\xNN` for any other byte.
PATH = re.compile(r'""|(?:[!-\[\]-~]|\\x[0-9a-fA-F]{2})+')
_ESCAPED = re.compile(rb"\\x([0-9a-fA-F]{2})")
_OPENS = frozenset(("create", "open", "open_truncated"))


class FileCall(NamedTuple):
    """A call: a word, and what it takes. A write has its bytes in `path`. If `is_by_path`, the call opens and closes the file `to`."""

    word: str
    number: int = 0
    first: int = 0
    last: int = 0
    path: bytes = b""
    to: bytes = b""
    is_by_path: bool = False

    def __str__(self) -> str:
        """The line of the call, by the library."""
        if self.word == "configure":
            return self.path.decode()
        asked, room = Asked(kinds(W_FILE_KINDS)[self.word], self.number, self.first, self.last), create_string_buffer(128 + 4 * len(self.path + self.to))
        ran = function("files_line_of")(asked, self.path, len(self.path), self.to, len(self.to), room, len(room))
        check(ran.status)
        return room.raw[: ran.len].decode()


class Found(NamedTuple):
    """The numbers of a reply: those of `blobcrash_file_reply`."""

    kind: int
    number: int
    size: int


class Kept(NamedTuple):
    """What a crash kept.

    `writes` are the unsynced writes that it drew for, each with its number and a text of a digit for each of its bytes: `1` if the byte
    was kept. An edit, that is a change of names or a truncation, is one of them, of 1,024 bytes. `edits` says of each edit that nothing had
    settled, in order, whether it was kept. `places` has for each of `writes` the inode of its file, or `None` for an edit, and its offset.
    """

    writes: List[Tuple[int, str]]
    edits: List[bool]
    places: List[Tuple[Optional[int], int]]

    def lines(self) -> List[str]:
        """Comments that say it. Of the writes those of edits are left out."""
        edits = "".join("1" if is_kept else "0" for is_kept in self.edits)
        lines = [f"# of the unsettled edits it keeps {edits}"] if edits else []
        rows = [row for row, (inode, _) in zip(self.writes, self.places) if inode is not None]
        return lines + [f"# of write {write} it keeps {_runs(digits)}" for write, digits in rows]


def _runs(digits: str) -> str:
    """The runs of a row that were kept."""
    runs = [f"bytes {run.start()} to {run.end() - 1}" for run in re.finditer("1+", digits)]
    return f"{', '.join(runs) or 'none'} of {len(digits)}"


def _path(token: str) -> bytes:
    """The bytes of a path or a name."""
    return b"" if token == '""' else _ESCAPED.sub(lambda found: bytes([int(found[1], 16)]), token.encode())


def reply_text(asked: FileCall, reply: Any) -> str:
    """What a comment at the end of a line says of a reply: the descriptor of an opened file, or the name of a refusal."""
    if isinstance(reply, Refusal):
        return f" # is {reply.name}"
    return f" # is {reply.number}" if asked.word in _OPENS else ""


def is_setting(line: str) -> bool:
    """Whether a line is a setting."""
    return line.split(None, 1)[0] in SETTINGS


@lru_cache(maxsize=4096)
def file_line(line: str) -> FileCall:
    """The call of a line that is no comment. Raises `BadLine`."""
    if is_setting(line):
        return FileCall("configure", path=line.encode())
    word, *arguments = without_comment(line.split())
    forms = FORMS[word].split() if word in FORMS else []
    if forms[-1:] == ["how"] and len(arguments) == len(forms) - 1:
        arguments.append("")
    if word not in FORMS or len(arguments) != len(forms):
        raise BadLine(f"bad call: {line}")
    fields: Any = {}
    try:
        for form, argument in zip(forms, arguments):
            fields.update(_field(form, argument, word))
    except (KeyError, ValueError):
        raise BadLine(f"bad call: {line}") from None
    return FileCall(word, **fields)


def _field(form: str, argument: str, word: str) -> Any:
    """The fields of a call that an argument gives."""
    if form in ("path", "to"):
        return {form: _path(argument)}
    if form == "bytes":
        return {"path": unhex(argument)}
    if form == "how":
        return {"first" if word == "rename" else "last": _HOW[argument]}
    if form == "file" and not argument.isdigit():
        return {"to": _path(argument), "is_by_path": True}
    number = int(argument)
    if not argument.isascii() or not argument.isdigit() or number > MAX:
        raise ValueError(argument)
    return {"number" if form == "file" else form: number}


def without_comment(tokens: List[str]) -> List[str]:
    """The tokens before a comment at the end of the line."""
    at = next((k for k, token in enumerate(tokens) if token.startswith("#")), len(tokens))
    return tokens[:at]
