"""Every state in which a crash could have left a run that was recorded: docs/GUIDE.md.

    from blobcrash import CrashStates

    for state in CrashStates(script):              # the script of a run, `store.script` for example
        log = Log(state.store())                   # recover from what the crash left
        assert log.records[: len(state.acknowledged)] == state.acknowledged

A crash is put after each call that may change what it leaves. The calls are made once, as they were recorded, with their draws. Of each
crash all draws are tried that decide something. With `proved=True` the program `blobcrash states` finds the states of each crash of a store.
"""

from __future__ import annotations

import os
import subprocess
import time
from bisect import bisect_left
from itertools import chain, islice
from typing import Any, Dict, Iterator, List, NamedTuple, Optional, Tuple

from .crash_outcomes import CrashOutcomes, Forward, shown_words
from .file_system import Files
from .generator import words_of
from .grammar import MAX, hex_of, unhex
from .layers import Library
from .pipe import program
from .recorded import split_script
from .replayed import Content, NotMadeAgain, ReplayedFiles, ReplayedStore
from .seen_contents import SeenContents
from .store import Store

# How many words a script and a crash are given at first.
_ROOM = 256
_ACKNOWLEDGED = "# acknowledged "
Words = Tuple[int, ...]


class CrashState(NamedTuple):
    """What a crash left.

    `line` is the number of the line after which it is, of the lines of `script` that aren't empty, `words` or `seed`. `script` are the
    lines up to the crash, with words by which they are made again. `acknowledged` are the texts of the comments `# acknowledged ..` before
    it. `content` has the blobs of a store, or the paths of files.
    """

    line: int
    script: str
    acknowledged: Tuple[str, ...]
    content: Content
    is_files: bool

    def store(self, **named: Any) -> Store:
        """Returns a store with these blobs, reached by the library. Its further arguments are those of `Store`."""
        if self.is_files:
            raise ValueError("the state is one of files")
        images = [(partition.decode(), name, data) for partition, name, data in self.content]
        return Store(images=images, by=named.pop("by", Library), **named)

    def files(self, **named: Any) -> Files:
        """Returns files with these names and bytes, all of them durable. Its arguments are those of `Files`."""
        if not self.is_files:
            raise ValueError("the state is one of a store")
        files = Files(**named)
        for path, data in self.content:
            if data is None:
                files.mkdir(path)
            else:
                with files.open(path, "wb") as file:
                    file.write(data)
        files.settle()
        return files

    def write_to(self, folder: str) -> None:
        """Writes it as plain files below a folder: the paths of files, or for each blob PARTITION/NAME, the name in hex, with its header."""
        for entry in self.content:
            path = entry[0] if self.is_files else b"/" + entry[0] + b"/" + hex_of(entry[1]).encode()
            place = os.fsencode(folder) + path
            os.makedirs(place if entry[-1] is None else os.path.dirname(place), exist_ok=True)
            if entry[-1] is not None:
                with open(place, "wb") as file:
                    file.write(entry[-1])


class CrashStates:
    """The states that crashes leave, each once: two of one content and one list of acknowledgements are the same.

    `script` is one of a store, or with `files` one of files. `at` is the only line after which there is a crash, `since` the first one, as to
    go on after an interruption. `limit` is how many outcomes are tried of each crash: first all kept, then each single loss, all lost, each
    single draw kept, then the others. `most` is how many states are found at most, and `seconds` how long they are looked for. With `whole`
    each write is kept or lost as a whole. With `proved` the states of each crash are those that the program `blobcrash states` prints, of
    which it is proved that none is missing. They come in its order: depth first.

    Iterating yields each `CrashState`. Meanwhile `crashes` counts the places of a crash, `outcomes` the outcomes of their draws that were
    tried, or leave what one that was tried leaves, and `states` the states. `complete` is whether no limit was reached, `places` how many
    places there are, and `line` the last one's. Raises `BadLine` for a line that is no call, and `ValueError` for `proved` with `files` or
    `limit`, for a `most` below 1, for no `seconds`, and if there is no crash after the line `at`.
    """

    def __init__(
        self,
        script: str,
        *,
        files: bool = False,
        at: Optional[int] = None,
        limit: Optional[int] = None,
        whole: bool = False,
        proved: bool = False,
        since: int = 0,
        most: Optional[int] = None,
        seconds: Optional[float] = None,
    ) -> None:
        if proved and (files or limit is not None):
            raise ValueError("the program finds the states of a store, and all of them")
        if (most is not None and most < 1) or (seconds is not None and not seconds > 0):
            raise ValueError("`most` is at least 1, and `seconds` are more than 0")
        self._is_proved = proved
        self._parts = split_script(script)
        self._way: Any = ReplayedFiles if files else ReplayedStore
        self._is_files = bool(files)
        self._lines = [_whole(line) for line in self._parts.rest] if whole else self._parts.rest
        self._at, self._limit, self._since = at, limit, since
        self._most, self._seconds = most, seconds
        self._began = 0.0
        # How many places of a crash there are, and the line of the present one.
        self.places, self.line = 0, since
        self.crashes = self.outcomes = self.states = 0
        self.complete = True

    def __str__(self) -> str:
        counts = f"{self.crashes} crashes, {self.outcomes} outcomes, {self.states} states"
        return f"{counts}, all of them" if self.complete else f"{counts}, not all of them: a limit was reached"

    def __iter__(self) -> Iterator[CrashState]:
        self.crashes = self.outcomes = self.states = 0
        self.complete, self._began = True, time.monotonic()
        words = self._recorded_words()
        seen = SeenContents()
        noted = [(number, text[len(_ACKNOWLEDGED) :]) for number, text in enumerate(self._lines, 1) if text.startswith(_ACKNOWLEDGED)]
        acknowledged: Tuple[str, ...] = ()
        places = self._places()
        self.places = len(places)
        run = self._forward(words)
        try:
            for self.line in places:
                line = self.line
                if self._is_at_limit():
                    return
                self.crashes += 1
                run.go_to(line)
                count = bisect_left(noted, (line + 1, ""))
                if count > len(acknowledged):
                    acknowledged = tuple(text for _, text in noted[:count])
                crash, before = CrashOutcomes(run, self._limit), self.outcomes
                for taken, content in self._printed(line) if self._is_proved else crash.by_words():
                    if self._is_at_limit():
                        break
                    self.outcomes += 1
                    # The acknowledgements are the same if their number is.
                    if seen.add(content, count):
                        self.states += 1
                        yield CrashState(line, crash.script(taken), acknowledged, content, self._is_files)
                if not self._is_proved:
                    self.outcomes = before + crash.leaves
                    self.complete = self.complete and crash.is_complete
        finally:
            run.close()

    def _is_at_limit(self) -> bool:
        """Whether no more may be tried, which is noted. At least one state is found."""
        is_late = self._seconds is not None and time.monotonic() - self._began >= self._seconds
        is_over = self.states > 0 and (is_late or (self._most is not None and self.states >= self._most))
        self.complete = self.complete and not is_over
        return is_over

    def crash_at_end(self) -> CrashOutcomes:
        """The outcomes of a crash after the last line."""
        run = self._forward(self._recorded_words())
        run.go_to(len(self._lines))
        return CrashOutcomes(run, self._limit)

    def _forward(self, words: List[int]) -> Forward:
        return Forward(self._way, self._parts.images, words, self._lines)

    def _places(self) -> List[int]:
        """After how many lines there is a crash: at the start, and after each call that changes something, with its acknowledgement."""
        places = [0]
        for number, line in enumerate(self._lines, 1):
            if line.startswith(_ACKNOWLEDGED) or (not line.startswith("#") and self._way.changes(line)):
                places.append(number)
        if self._at is None:
            return [line for line in places if line >= self._since]
        if self._at not in places:
            shown = " ".join(map(str, places[:20])) + (" .." if len(places) > 20 else "")
            raise ValueError(f"there is no crash after line {self._at}: there are crashes after the lines {shown}")
        return [self._at]

    def _printed(self, line: int) -> Iterator[Tuple[Words, Content]]:
        """The words and the content of each state that the program prints. It counts the other outcomes."""
        parts = self._parts
        given = [f"words {shown_words(parts.words)}"] if parts.words else []
        seed = [] if parts.seed is None else [f"seed {parts.seed}"]
        script = "".join(f"{text}\n" for text in [*parts.images, *given, *seed, *self._lines])
        calls = sum(not text.startswith("#") for text in self._lines[:line])
        named = f"{program()}_states"
        command = [named] if os.path.exists(named) else [program(), "states"]
        ran = subprocess.run([*command, "--at", str(calls)], input=script.encode(), stdout=subprocess.PIPE, check=False)
        if ran.returncode:
            raise NotMadeAgain(f"blobcrash states ended with status {ran.returncode}")
        *lines, counts = ran.stdout.decode().splitlines()
        states: List[Tuple[List[int], List[Tuple[Any, ...]]]] = []
        for printed in lines:
            if printed.startswith("#"):
                states.append((_words_in(printed), []))
            else:
                _, partition, name, data = printed.split()
                states[-1][1].append((partition.encode(), unhex(name), unhex(data)))
        # The program stops after a million outcomes of a crash.
        if not counts.endswith(" states, all of them") and not counts.endswith(" state, all of them"):
            self.complete = False
        for taken, blobs in states:
            yield tuple(taken), tuple(sorted(blobs))
        self.outcomes += int(counts.split()[3]) - len(states)

    def _recorded_words(self) -> List[int]:
        """The words of the whole script, with zeros after them that no call takes, and a last one."""
        room = _ROOM
        while True:
            stream = chain(self._parts.words, iter([0] * room) if self._parts.seed is None else words_of(self._parts.seed))
            words = [*islice(stream, len(self._parts.words) + room), MAX]
            if self._replayed(words, len(self._lines))[1] is not None:
                return words
            room *= 4

    def _replayed(self, words: List[int], count: int) -> Tuple[Any, Optional[int]]:
        """Makes the first calls. Returns their session, and how many words they took; `None` if there were too few."""
        session = self._way(self._parts.images, words)
        for line in self._lines[:count]:
            if not line.startswith("#"):
                session.call(line)
        left = session.words_left()
        if left == 0:
            session.close()
        return session, len(words) - left if left else None


def _words_in(printed: str) -> List[int]:
    """The words in a line `# crash after call N, words ..` or `.., no words`."""
    return [MAX if word == "max" else int(word) for word in printed.split(", ")[1].split() if word not in ("no", "words")]


def _whole(line: str) -> str:
    """A line; if it sets the mode of writes, with one by which each is kept or lost as a whole."""
    tokens = line.split()
    return " ".join([*tokens[:6], "sectors", str(MAX)]) if tokens[:2] == ["config", "write"] else line
