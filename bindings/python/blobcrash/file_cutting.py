"""The shortest record of files with which a check still fails: docs/GUIDE.md.

Lines are left out, with what uses their files, and the numbers of descriptors and inodes are those of the shorter run. A shorter record counts
if the check succeeds on it without a crash, and fails with the same status on an outcome of its last crash. Each line keeps its kind of reply.
A sync before the last acknowledgement stays as long as a change stays that it may have made durable: else each record would be one that
forgets a sync. What is before the last crash but one isn't changed.
"""

from __future__ import annotations

from itertools import chain, islice
from typing import Any, Callable, Dict, Iterator, List, NamedTuple, Optional, Sequence, Set, Tuple

from .cutting import fewest
from .file_calls import FileCall, Found, file_line
from .generator import words_of
from .recorded import split_script
from .replayed import Content, ReplayedFiles
from .states import CrashState, CrashStates

# A check of what is left: the status for a state.
Check = Callable[[CrashState], int]
ACKNOWLEDGED = "# acknowledged"
_ON_FILE = frozenset(("close", "inode_of", "size", "fsync", "fdatasync", "truncate", "read", "write"))
_ON_DIRECTORY = frozenset(("create_at", "unlink_at", "mkdir_at", "rmdir_at", "find_at", "listdir_at", "fsyncdir_at", "link_at", "rename_at"))
_NAMES = frozenset(("create_at", "unlink_at", "mkdir_at", "rmdir_at", "link_at", "rename_at"))
_OPENS = frozenset(("create", "create_at", "open", "open_truncated", "open_inode", "open_inode_truncated"))
# Calls by paths. Which inodes they reach isn't looked at: a change counts as one of the inode 0, and a sync as one of all.
_CHANGES_PATHS = frozenset(("create", "open_truncated", "unlink", "mkdir", "rmdir", "link", "rename"))
_SYNCS_ALL = frozenset(("sync", "settle", "commit", "fsyncdir"))
_ROOM = 4096


class _Line(NamedTuple):
    """A line: its call, or none for an acknowledgement, whether it was refused, the inodes that it changes, those that it syncs, and all that
    it is about."""

    text: str
    call: Optional[FileCall]
    refused: bool
    changes: frozenset[int] = frozenset()
    syncs: frozenset[int] = frozenset()
    about: frozenset[int] = frozenset()


class _Run:
    """Calls of a shorter record. Old numbers of descriptors and inodes are those of the whole one."""

    def __init__(self, words: List[int]) -> None:
        self._session = ReplayedFiles([], words)
        self._files: Dict[int, int] = {}
        self._inodes: Dict[int, int] = {1: 1}
        self.lines: List[str] = []
        self.close = self._session.close

    def inode_of(self, descriptor: int) -> int:
        return self._session.inode_at(descriptor)

    def make(self, call: FileCall) -> Any:
        """Makes a call with its numbers as they are. Returns its reply."""
        self.lines.append(str(call))
        return self._session._apply(call)

    def make_again(self, line: _Line, made: Dict[str, int]) -> bool:
        """Makes a call of the whole record, which made these old numbers. Returns whether it can be made, with the same kind of reply."""
        call = line.call
        assert call is not None
        renumbered = self._renumbered(call)
        if renumbered is None:
            return False
        reply = self.make(renumbered)
        if (not isinstance(reply, Found) and reply is not None and not isinstance(reply, (bytes, list))) != line.refused:
            return False
        if isinstance(reply, Found):
            if "descriptor" in made:
                self._files[made["descriptor"]] = reply.number
                self._inodes[made["inode"]] = self.inode_of(reply.number)
            elif "inode" in made:
                self._inodes[made["inode"]] = reply.number
        return True

    def _renumbered(self, call: FileCall) -> Optional[FileCall]:
        number, first = call.number, call.first
        if call.is_by_path:
            return call
        if call.word in _ON_FILE:
            number = self._files.get(number, -1)
        elif call.word in _ON_DIRECTORY or call.word in ("open_inode", "open_inode_truncated"):
            number = self._inodes.get(number, -1)
            if call.word in ("link_at", "rename_at"):
                first = self._inodes.get(first, -1)
        return None if number < 0 or first < 0 else call._replace(number=number, first=first)

    def settled(self) -> Content:
        """What there is without a loss. No call follows."""
        self._session._apply(FileCall("settle"))
        self._session._apply(FileCall("crash"))
        return self._session.content()


class FileCutter:
    """Makes a record of files short. `limit` is how many outcomes of the last crash are tried of each."""

    def __init__(self, script: str, check: Check, limit: int) -> None:
        self._check, self._limit = check, limit
        self._known: Dict[Tuple[Content, Tuple[str, ...]], int] = {}
        parts = split_script(script)
        crashes = [at for at, line in enumerate(parts.rest) if line == "crash"]
        last = crashes[-1] if crashes else len(parts.rest)
        self._fixed = crashes[-2] + 1 if len(crashes) > 1 else 0
        self._preamble = [f"words {' '.join(map(str, parts.words))}"] if parts.words else []
        self._preamble += [] if parts.seed is None else [f"seed {parts.seed}"]
        self._words = [*parts.words, *islice(iter([0] * _ROOM) if parts.seed is None else words_of(parts.seed), _ROOM)]
        self._lines: List[_Line] = []
        self._made: List[Dict[str, int]] = []
        self._paths: Dict[int, str] = {}
        texts = [line for line in parts.rest[:last] if not line.startswith("#") or line.startswith((ACKNOWLEDGED, "# descriptor "))]
        self._fixed = sum(texts_of(parts.rest[: self._fixed]))
        self._read(texts)
        self.status = self._whole()

    def run(self) -> Optional[str]:
        """The short script, or `None` if the whole one doesn't fail."""
        if self.status == 0 or self._failing(range(len(self._lines))) is None:
            return None
        always = [at for at, line in enumerate(self._lines) if at < self._fixed or (line.call and line.call.word == "configure")]
        items = [at for at in range(len(self._lines)) if at not in always]
        for group in self._groups():
            rest = [at for at in items if at not in group]
            if len(rest) < len(items) and self._failing(sorted([*always, *rest])) is not None:
                items = rest
        kept = fewest(items, lambda some: self._failing(sorted([*always, *some])) is not None)
        return self._failing(sorted([*always, *kept]))

    def _groups(self) -> Iterator[Set[int]]:
        """Lines that are tried together: all up to a call that makes everything durable, and all about one file or directory."""
        whole = [at for at, line in enumerate(self._lines) if _syncs_all(line.call)]
        yield from (set(range(at + 1)) for at in reversed(whole))
        for inode in sorted({inode for line in self._lines for inode in line.about} - {1}):
            yield {at for at, line in enumerate(self._lines) if inode in line.about}

    def _read(self, texts: List[str]) -> None:
        """Makes the calls of the whole record."""
        run = _Run(self._words)
        inodes: Dict[int, int] = {}
        for text in texts:
            if text.startswith("# descriptor "):
                self._paths[len(self._lines) - 1] = text.split(" is ", 1)[1]
                continue
            if text.startswith("#"):
                self._add(_Line(text, None, False), {})
                continue
            call = file_line(text)
            reply = None if call.is_by_path else run.make(call)
            if call.is_by_path:
                run._session.call(text)
            refused = reply is not None and not isinstance(reply, (Found, bytes, list)) and call.word != "crash"
            made: Dict[str, int] = {}
            if isinstance(reply, Found) and call.word in _OPENS:
                made = {"descriptor": reply.number, "inode": run.inode_of(reply.number)}
                inodes[reply.number] = made["inode"]
            elif isinstance(reply, Found) and call.word in ("mkdir", "mkdir_at"):
                made = {"inode": reply.number}
            changes, syncs = _reach(call, made, inodes)
            used: Set[int] = {inodes[call.number]} if call.word in _ON_FILE and call.number in inodes and not call.is_by_path else set()
            used |= {call.number} if call.word.startswith("open_inode") else set()
            self._add(_Line(text, call, refused, changes, syncs, changes | syncs | used), made)
        run.close()

    def _add(self, line: _Line, made: Dict[str, int]) -> None:
        self._lines.append(line)
        self._made.append(made)

    def _whole(self) -> int:
        """The status of the check after the crash of the whole record."""
        session = ReplayedFiles([], self._words)
        try:
            for line in self._lines:
                if line.call is not None:
                    session.call(line.text)
            session._apply(FileCall("crash"))
            return self._judged(CrashState(0, "", self._acknowledged(range(len(self._lines))), session.content(), True))
        finally:
            session.close()

    def _acknowledged(self, kept: Sequence[int]) -> Tuple[str, ...]:
        return tuple(self._lines[at].text[len(ACKNOWLEDGED) + 1 :] for at in kept if self._lines[at].text.startswith(ACKNOWLEDGED))

    def _judged(self, state: CrashState) -> int:
        key = (state.content, state.acknowledged)
        if key not in self._known:
            self._known[key] = self._check(state)
        return self._known[key]

    def _failing(self, kept: Sequence[int]) -> Optional[str]:
        """The script of these lines and a crash, if it counts."""
        made = self._replayed(kept) if self._keeps_syncs(kept) else None
        if made is None:
            return None
        text, content = made
        acknowledged = self._acknowledged(kept)
        if self._judged(CrashState(0, "", acknowledged, content, True)):
            return None
        for script, left in islice(self._outcomes(text), self._limit):
            if self._judged(CrashState(0, script, acknowledged, left, True)) == self.status:
                return script
        return None

    def _keeps_syncs(self, kept: Sequence[int]) -> bool:
        """Whether no sync before the last acknowledgement is left out that covers a change which stays."""
        stays = set(kept)
        end = max((at for at in kept if self._lines[at].text.startswith(ACKNOWLEDGED)), default=-1)
        changed: Set[int] = set()
        for at in range(end):
            line = self._lines[at]
            if at in stays:
                changed |= line.changes
            elif changed and (_syncs_all(line.call) or line.syncs & changed):
                return False
        return True

    def _replayed(self, kept: Sequence[int]) -> Optional[Tuple[str, Content]]:
        """The script of these lines, and what there is without a loss."""
        run = _Run(self._words)
        texts: List[str] = []
        try:
            for at in kept:
                line = self._lines[at]
                if line.call is None or line.call.is_by_path or line.call.word in ("configure", "crash"):
                    if line.call is not None:
                        run._session.call(line.text)
                    texts.append(line.text)
                    continue
                if not run.make_again(line, self._made[at]):
                    return None
                texts.append(run.lines[-1])
                if at in self._paths:
                    texts.append(f"# descriptor {run._files[self._made[at]['descriptor']]} is {self._paths[at]}")
            return "".join(f"{text}\n" for text in [*self._preamble, *texts]), run.settled()
        finally:
            run.close()

    def _outcomes(self, text: str) -> Iterator[Tuple[str, Content]]:
        """The outcomes of a crash at the end: first all lost, then those of `CrashStates`."""
        crash = CrashStates(text, files=True).crash_at_end()
        try:
            yield from chain(crash.all_lost(), crash)
        finally:
            crash.close()


def texts_of(lines: List[str]) -> Iterator[int]:
    """1 for each of these lines that is one of a cutter's, and 0 for the other comments."""
    return (int(not line.startswith("#") or line.startswith(ACKNOWLEDGED)) for line in lines)


def _syncs_all(call: Optional[FileCall]) -> bool:
    """Whether a call is taken for a sync of all files."""
    return call is not None and (call.word in _SYNCS_ALL or (call.is_by_path and call.word in ("fsync", "fdatasync")))


def _reach(call: FileCall, made: Dict[str, int], inodes: Dict[int, int]) -> Tuple[frozenset[int], frozenset[int]]:
    """The inodes whose bytes or names a call changes, and those that it syncs."""
    none: frozenset[int] = frozenset()
    if call.is_by_path or call.word in _CHANGES_PATHS:
        changes = call.word in ("write", "truncate") or call.word in _CHANGES_PATHS
        return frozenset((0, made.get("inode", 0))) if changes else none, none
    if call.word in ("write", "truncate"):
        return frozenset((inodes.get(call.number, 0),)), none
    if call.word in ("fsync", "fdatasync"):
        return none, frozenset((inodes.get(call.number, 0),))
    if call.word == "fsyncdir_at":
        return none, frozenset((call.number,))
    if call.word in _NAMES:
        both = {call.number, *made.values()} - {made.get("descriptor", -1)}
        return frozenset(both | ({call.first} if call.word in ("link_at", "rename_at") else set())), none
    if call.word == "open_inode_truncated":
        return frozenset((call.number,)), none
    return none, none
