"""The calls of a recorded run, each with what it took and made, and their replay with syncs more or less than were recorded."""

from __future__ import annotations

from copy import copy
from itertools import chain, islice
from typing import Any, Dict, FrozenSet, Iterable, List, NamedTuple, Optional, Tuple

from .calls import Reply
from .crash_outcomes import shown_words
from .errors import BadLine
from .file_calls import FileCall, Found, file_line
from .file_settings import TORN_WRITES
from .foreign_files import Refusal
from .generator import words_of
from .grammar import MAX
from .rates import is_drawn
from .recorded import split_script
from .replayed import ReplayedFiles, ReplayedStore

ACKNOWLEDGED = "# acknowledged "
_PROCESS = "# process "
# What a crash keeps of unsynced writes if the record doesn't say, as of a mount.
_TORN = f"config {TORN_WRITES}"
# How many words a record is given at first, beyond its own.
_ROOM = 256
# The words of an added sync, by which no draw of it fails.
_SUCCEEDS = [MAX] * 16
_OPENS = frozenset(("create", "create_at", "open", "open_truncated", "open_inode", "open_inode_truncated"))
_ON_DESCRIPTOR = frozenset(("close", "truncate", "size", "fsync", "fdatasync", "inode_of", "read", "write"))
SYNCS = frozenset(("fsync", "fdatasync", "fsyncdir", "fsyncdir_at", "sync", "startsync"))


class AddedSync(NamedTuple):
    """A sync that isn't in the record: before the call `before`, of a file or a directory by its inode, or of a handle of a store."""

    before: int
    word: str
    number: int


class Made(NamedTuple):
    """What a call did in the recorded run: the words that it took, whether it was refused, and the descriptor and the inode of a file that
    it opened, or the handle of a blob."""

    words: Tuple[int, ...] = ()
    is_refused: bool = False
    descriptor: Optional[int] = None
    inode: int = 0
    handle: Optional[int] = None


class RecordedRun:
    """The lines of a record up to its first crash, numbered from 1: without empty lines, and without those of words.

    What the record always keeps or always loses of unsynced writes and edits is drawn too. `whole` keeps or loses each write as a whole.
    Raises `BadLine` for a line that is no call.
    """

    def __init__(self, script: str, whole: bool = False) -> None:
        parts = split_script(script)
        self.images = parts.images
        self.is_files = _is_files(parts.rest)
        end = next((at for at, line in enumerate(parts.rest) if line.split()[0] == "crash"), len(parts.rest))
        self.lines = parts.rest[:end]
        self.way: Any = ReplayedFiles if self.is_files else ReplayedStore
        # The place of each line in the file, from 1 on.
        places = _places_in(script)
        self.shown = places[:end]
        # That of the first crash, if calls follow it, which aren't tried.
        self.until = places[end] if any(not line.startswith("#") for line in parts.rest[end + 1 :]) else None
        self._modes: List[str] = []
        self.settings = self._settings(whole)
        self.made = self._run(parts.words, parts.seed)
        # The inode of each descriptor. No number is used again.
        self.inodes = {made.descriptor: made.inode for made in self.made if made.descriptor is not None}

    def word(self, line: int) -> str:
        """The word of a call, or the first one of a comment."""
        return self.lines[line - 1].split()[0]

    def mode(self, line: int) -> List[str]:
        """The mode of the writes of a line."""
        return self._modes[line - 1].split()

    def is_acknowledgement(self, line: int) -> bool:
        return self.lines[line - 1].startswith(ACKNOWLEDGED)

    def acknowledged(self, line: int) -> Tuple[str, ...]:
        """What is acknowledged up to a line."""
        return tuple(text[len(ACKNOWLEDGED) :] for text in self.lines[:line] if text.startswith(ACKNOWLEDGED))

    def process(self, line: int) -> Optional[str]:
        """Which process made a call, if the record says so."""
        number, name = self._made_by_process(line)
        return f"{name}[{number}]" if number else None

    def thread(self, line: int) -> Optional[str]:
        """The number of the process or thread that made a call, if the record has it."""
        return self._made_by_process(line)[0] or None

    def _made_by_process(self, line: int) -> Tuple[str, str]:
        if line and self.lines[line - 1].startswith("#"):
            return "", ""
        for text in reversed(self.lines[:line]):
            if text.startswith(_PROCESS):
                number, _, name = text[len(_PROCESS) :].partition(" ")
                return ("", "") if number == "0" else (number, name)
        return "", ""

    def places(self) -> List[int]:
        """After which lines there is a crash: at the start, and after each call that may change what it leaves, and acknowledgement."""
        found = [0]
        for number, line in enumerate(self.lines, 1):
            if line.startswith(ACKNOWLEDGED) or not line.startswith("#") and self.way.changes(line):
                found.append(number)
        return found

    def settled_before(self, line: int) -> int:
        """The last line up to this one after which nothing is unsynced: a `settle`, or the start."""
        return max((at for at in range(1, line + 1) if self.is_files and self.word(at) == "settle" and not self.made[at - 1].is_refused), default=0)

    def line_at(self, shown: int) -> int:
        """The last line that isn't after this one of the file."""
        return sum(place <= shown for place in self.shown)

    def syncs(self) -> List[int]:
        """The lines of the syncs that weren't refused."""
        return [line for line in range(1, len(self.lines) + 1) if self.word(line) in SYNCS and not self.made[line - 1].is_refused]

    def _settings(self, whole: bool) -> List[List[str]]:
        """The settings that are made before the first line, and in place of each one: none for a line that is no setting."""
        mode = _TORN.split(" ", 6)[6]
        found: List[List[str]] = [[] if any(line.startswith("config write ") for line in self.lines) else [_whole(_TORN, whole)]]
        for line in self.lines:
            tokens = line.split(" # ")[0].split()
            drawn: List[str] = []
            if tokens[:2] == ["config", "write"]:
                mode = " ".join(tokens[6:])
                drawn = [_whole(_drawn(tokens), whole)]
            elif tokens[:2] == ["config", "clear"]:
                drawn = [line, _whole(_TORN, whole)]
            elif tokens[0] == "keep" and not is_drawn((int(tokens[1]), int(tokens[2]))):
                drawn = ["keep 1 2"]
            found.append(drawn)
            self._modes.append(f"sectors {MAX}" if whole else mode)
        return found

    def _run(self, words: List[int], seed: Optional[int]) -> List[Made]:
        room = _ROOM
        while True:
            stream = chain(words, iter([0] * room) if seed is None else words_of(seed))
            made = self._made_by([*islice(stream, len(words) + room), MAX])
            if made is not None:
                return made
            room *= 4

    def _made_by(self, words: List[int]) -> Optional[List[Made]]:
        """Makes all calls by these words. `None` if they are too few."""
        session = self.way(self.images, words)
        made: List[Made] = []
        try:
            left = session.words_left()
            for setting in self.settings[0]:
                session.call(setting)
            for line, settings in zip(self.lines, self.settings[1:]):
                reply = None
                for text in settings or ([] if line.startswith("#") else [line]):
                    reply = session.call(text)
                before, left = left, session.words_left()
                if left == 0:
                    return None
                at = len(words) - before
                made.append(_made(session, line, reply, tuple(words[at : at + before - left])))
            return made
        finally:
            session.close()


class Replay:
    """The calls of a record, made up to some line, with added syncs and without some lines."""

    def __init__(self, run: RecordedRun, added: Iterable[AddedSync] = (), without: FrozenSet[int] = frozenset()) -> None:
        self._run, self._without = run, without
        self._added: Dict[int, List[AddedSync]] = {}
        for sync in sorted(added):
            self._added.setdefault(sync.before, []).append(sync)
        self._session = run.way(run.images, [MAX])
        # The lines that were made, and the words that they took.
        self._lines: List[str] = []
        self._words: List[int] = []
        # The present number of each descriptor of the record, and those that are open, with their inodes.
        self._numbers: Dict[int, int] = {}
        self._open: Dict[int, int] = {}
        self.line = 0
        for setting in run.settings[0]:
            self._make(setting)

    def close(self) -> None:
        self._session.close()

    def go_to(self, line: int) -> None:
        """Makes the calls up to a line."""
        while self.line < line:
            self.line += 1
            for sync in self._added.get(self.line, ()):
                self._sync(sync)
            text = self._run.lines[self.line - 1]
            if text.startswith("#"):
                self._lines.append(text)
            elif self.line not in self._without:
                for setting in self._run.settings[self.line] or [text]:
                    self._make(setting, self._run.made[self.line - 1])

    def fork(self) -> Replay:
        """Returns one in the same state, for a crash."""
        other = copy(self)
        other._session = self._session.fork()
        return other

    def follows(self, edit: int) -> bool:
        """Whether the log of the syncs follows an unsettled edit of files."""
        return bool(self._session.follows(edit))

    def crash(self, words: List[int]) -> Tuple[List[int], Any]:
        """Crashes by these words. Returns those that it took, and its reply. From then on only `content` can be called."""
        before = self._session.words_left() + len(words)
        reply = self._session.crash(words)
        return words[: before - self._session.words_left()], reply

    def content(self) -> Any:
        """What a crash left."""
        return self._session.content()

    def names(self) -> Dict[bytes, int]:
        """The inode of each path of files that calls see."""
        found: Dict[bytes, int] = self._session.names()
        return found

    def script(self, words: Iterable[int]) -> str:
        """The script of the calls so far, and of a crash by these words."""
        taken = [*self._words, *words]
        given = [f"words {shown_words(taken)}"] if taken else []
        return "".join(f"{line}\n" for line in [*self._run.images, *given, *self._lines, "crash"])

    def _make(self, text: str, made: Made = Made()) -> None:
        if made.words:
            self._session.push_words(list(made.words))
            self._words += made.words
        if not self._run.is_files:
            self._session.call(text)
            self._lines.append(text)
            return
        asked = file_line(text)
        if asked.word in _ON_DESCRIPTOR and not asked.is_by_path:
            asked = asked._replace(number=self._numbers.get(asked.number, asked.number))
        self._lines.append(text if asked == file_line(text) else str(asked))
        reply = self._session.make(asked)
        if made.descriptor is not None and isinstance(reply, Found):
            self._numbers[made.descriptor] = reply.number
            self._open[reply.number] = made.inode
        elif asked.word == "close":
            self._open.pop(asked.number, None)

    def _sync(self, sync: AddedSync) -> None:
        """Makes an added sync. Of a file that isn't open it opens it."""
        self._session.push_words(_SUCCEEDS)
        before = self._session.words_left()
        if sync.word == "sync":
            self._make(f"sync {sync.number}")
        elif sync.word == "fsyncdir":
            self._make(f"fsyncdir_at {sync.number}")
        else:
            number = next((number for number, inode in self._open.items() if inode == sync.number), None)
            opened = Found(0, number, 0) if number is not None else self._session.make(FileCall("open_inode", sync.number))
            if isinstance(opened, Found):
                self._lines += [] if number is not None else [f"open_inode {sync.number}"]
                self._session.make(FileCall("fsync", opened.number))
                self._lines.append(f"fsync {opened.number}")
                if number is None:
                    self._session.make(FileCall("close", opened.number))
                    self._lines.append(f"close {opened.number}")
        self._words += _SUCCEEDS[: before - self._session.words_left()]


def _made(session: Any, line: str, reply: Any, words: Tuple[int, ...]) -> Made:
    """What a call did that was just made."""
    if isinstance(reply, bytes):
        handle = int(reply.split()[1]) if reply.startswith(b"opened ") else None
        return Made(words, reply.startswith(b"error"), handle=handle)
    if isinstance(reply, (Refusal, Reply)):
        return Made(words, True)
    if isinstance(reply, Found) and line.split()[0] in _OPENS:
        return Made(words, False, reply.number, session.inode_at(reply.number))
    return Made(words)


def _is_files(lines: List[str]) -> bool:
    """Whether these are lines of a script of files. If there is a line that isn't, they are those of a store."""
    try:
        for line in lines:
            if not line.startswith("#"):
                file_line(line)
    except BadLine:
        return any(line.split()[0] == "profile" for line in lines)
    return True


def _places_in(script: str) -> List[int]:
    """The places of the lines that aren't empty, and neither words nor images."""
    tokens = [line.split() for line in script.split("\n")]
    return [at for at, words in enumerate(tokens, 1) if words and words[0] not in ("words", "seed", "image")]


def _drawn(tokens: List[str]) -> str:
    """A setting of writes by which a crash draws for each, if no write fails by it."""
    is_fixed = int(tokens[2]) == 0 and not is_drawn((int(tokens[4]), int(tokens[5])))
    return " ".join([*tokens[:4], "1", "2", *tokens[6:]] if is_fixed else tokens)


def _whole(setting: str, whole: bool) -> str:
    """A setting of writes; with `whole` one by which each is kept or lost as a whole."""
    return " ".join([*setting.split()[:6], "sectors", str(MAX)]) if whole else setting
