"""The calls of a record as texts with paths, the file that each one changes, and the directories in which it changes names."""

from __future__ import annotations

import os
from typing import Dict, List, Optional, Tuple

from .file_calls import FileCall, file_line
from .foreign_files import EXCHANGES
from .recorded_run import RecordedRun, Replay

_IN_TWO = frozenset(("rename", "rename_at"))


class Called:
    """The calls of a record, by their lines."""

    def __init__(self, run: RecordedRun) -> None:
        self._run = run
        self._names: Dict[int, Dict[bytes, int]] = {}
        self._texts: Dict[int, str] = {}
        self._replay: Optional[Replay] = None

    def text(self, line: int) -> str:
        """A call with its paths, as `rename /t -> /f` or `write 0..3 of /t`; a comment as it is."""
        if line not in self._texts:
            given = self._run.lines[line - 1]
            if given.startswith("#"):
                self._texts[line] = given[1:].strip()
            else:
                self._texts[line] = self._of_files(line) if self._run.is_files else self._of_store(line)
        return self._texts[line]

    def named(self, line: int) -> Tuple[str, Tuple[str, ...], int]:
        """The word of a call on files without `_at` and `_inode`, the last parts of the paths that it names, and how many bytes it writes."""
        asked = file_line(self._run.lines[line - 1])
        word = asked.word.split("_")[0]
        if word in ("write", "truncate", "fsync", "fdatasync"):
            path = _shown(asked.to) if asked.is_by_path else self.path_of(self._run.inodes.get(asked.number, 0), line)
            return word, (os.path.basename(path),), len(asked.path) if word == "write" else 0
        if asked.word.startswith("open_inode") or asked.word == "fsyncdir_at":
            return word, (os.path.basename(self.path_of(asked.number, line)),), 0
        paths = [asked.path, asked.to] if word in ("rename", "link") and asked.word != "link_at" else [asked.path]
        return word, tuple(os.path.basename(_shown(path)) for path in paths), 0

    def written(self, line: int) -> bytes:
        """The bytes of a write."""
        tokens = self._run.lines[line - 1].split()
        return b"" if tokens[3] == "-" else bytes.fromhex(tokens[3])

    def file_of(self, line: int) -> Optional[int]:
        """The inode of the file that a call on a file changes. `None` for a call on names."""
        asked = file_line(self._run.lines[line - 1])
        if asked.word in ("open_truncated", "open_inode_truncated"):
            return self._run.made[line - 1].inode or None
        if asked.word in ("truncate", "write", "fsync", "fdatasync"):
            return self._before(line).get(asked.to) if asked.is_by_path else self._run.inodes.get(asked.number)
        return None

    def directories_of(self, line: int) -> List[int]:
        """The inodes of the directories in which a call changes names."""
        asked = file_line(self._run.lines[line - 1])
        if asked.word.endswith("_at"):
            found = [asked.number, asked.first] if asked.word in _IN_TWO else [asked.number]
        else:
            paths = [asked.path, asked.to] if asked.word in _IN_TWO else [asked.to if asked.word == "link" else asked.path]
            found = [self._before(line).get(os.path.dirname(path) or b"/", 1) for path in paths]
        return sorted(set(found))

    def path_of(self, inode: int, line: int) -> str:
        """A path that an inode has before a line, the shortest one. The number if it has none."""
        paths = [path for path, number in self._before(line).items() if number == inode]
        return _shown(min(paths, key=lambda path: (len(path), path))) if paths else f"inode {inode}"

    def text_of_sync(self, handle: int) -> str:
        """A sync of a store."""
        return f"sync {self.blob_of(handle)}"

    def _before(self, line: int) -> Dict[bytes, int]:
        """The inode of each path before a line."""
        if line not in self._names:
            # Lines are mostly asked for in their order.
            if self._replay is None or self._replay.line >= line:
                self.close()
                self._replay = Replay(self._run)
            self._replay.go_to(line - 1)
            self._names[line] = self._replay.names()
        return self._names[line]

    def close(self) -> None:
        if self._replay is not None:
            self._replay.close()

    def _of_files(self, line: int) -> str:
        asked = file_line(self._run.lines[line - 1])
        word = asked.word[: -len("_at")] if asked.word.endswith("_at") else asked.word
        if word in ("write", "truncate", "fsync", "fdatasync"):
            path = _shown(asked.to) if asked.is_by_path else self.path_of(self._run.inodes.get(asked.number, 0), line)
            if word == "write":
                return f"write {asked.first}..{asked.first + len(asked.path)} of {path}"
            return f"truncate {path} {asked.first}" if word == "truncate" else f"{word} {path}"
        if word in ("open_inode", "open_inode_truncated"):
            return f"{word.replace('_inode', '')} {self.path_of(asked.number, line)}"
        if word == "fsyncdir":
            return f"fsyncdir {self.path_of(asked.number, line) if asked.word.endswith('_at') else _shown(asked.path)}"
        if word in ("sync", "settle", "commit", "close", "configure"):
            return self._run.lines[line - 1].split(" # ")[0]
        return self._of_names(asked, word, line)

    def _of_names(self, asked: FileCall, word: str, line: int) -> str:
        """A call that changes names, with whole paths."""
        path, to = _shown(asked.path), _shown(asked.to)
        how = asked.first
        if asked.word.endswith("_at"):
            path = self._below(asked.number, asked.path, line)
            to, how = self._below(asked.first, asked.to, line), asked.last
            if word == "link":
                path, to = self.path_of(asked.first, line), path
        if word == "rename":
            return f"exchange {path}, {to}" if how == EXCHANGES else f"rename {path} -> {to}"
        return f"link {path} -> {to}" if word == "link" else f"{word} {path}"

    def _below(self, directory: int, name: bytes, line: int) -> str:
        above = self.path_of(directory, line)
        return f"{'' if above == '/' else above}/{_shown(name)}"

    def _of_store(self, line: int) -> str:
        tokens = self._run.lines[line - 1].split()
        if tokens[0] in ("write", "writes"):
            start = int(tokens[2])
            return f"{tokens[0]} {start}..{start + len(self.written(line))} of {self.blob_of(int(tokens[1]))}"
        if tokens[0] in ("sync", "startsync", "resize"):
            return " ".join([tokens[0], self.blob_of(int(tokens[1])), *tokens[2:]])
        return " ".join(tokens)

    def blob_of(self, handle: int) -> str:
        """The partition and the name of the blob of a handle."""
        opened = [text.split() for text, made in zip(self._run.lines, self._run.made) if made.handle == handle]
        return f"{opened[0][1]}/{opened[0][2]}" if opened else f"handle {handle}"


def _shown(path: bytes) -> str:
    return path.decode(errors="backslashreplace")
