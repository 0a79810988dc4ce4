"""A store."""

from __future__ import annotations

from copy import copy
from itertools import islice
from threading import get_ident
from typing import Any, Callable, Dict, Iterable, Iterator, List, Optional, Tuple

from .blob import Blob, FollowedBlob
from .calls import Call, Line, Reply, Rows, new, reply_of
from .errors import BadLine, NeedsSeed, refusal
from .files import BlobFile
from .grammar import data_of, image_line, is_call, number, partition_word, setting_line, text_of, tokens_of, unhex, versions_of
from .layers import INT_BITS, Library, default_way
from .session import Session
from .unkept import Unsynced

Versions = Optional[Tuple[int, int]]
_CRASH, _REOPEN = Call("crash"), Call("reopen")
# Words of calls that open no handle, close none and make none stale. Outside a search, nothing is updated after their lines.
_PLAIN = frozenset(("read", "write", "writes", "resize", "size", "sync", "startsync", "finish"))
# The word after all that are pushed. It isn't zero, so that the library can tell how many words are left.
_LAST_WORD = 1


class Store(Session):
    """A store with its faults, open handles and started syncs.

    `seed`, a number below 2^64, decides what fails and what a crash keeps. `words` are the first words of the generator, in place of
    the seed's; after the last one it goes on with the seed, or without one with zeros, for which every draw is true. `settings` are
    those of `configure`, from the start. `images` are raw blobs that exist from the start: partition, name and bytes. `by` is `Program`,
    which is reached through pipes, or `Library`, in this process; by default the library if it is part of the installed package, else
    the program. With `allow_stale` stale handles may be used. With `pushed` each draw is given by `push_words`, right before the call
    that takes it; it goes with neither a seed nor words, and with `Library` alone.

    Raises `NeedsSeed` if a setting needs random draws and there is neither a seed nor a word, and `ValueError` or `TypeError` for an
    argument that is none, before anything is started.
    """

    def __init__(
        self,
        seed: Optional[int] = None,
        *,
        words: Iterable[int] = (),
        images: Iterable[Tuple[str, bytes, bytes]] = (),
        settings: Iterable[str] = (),
        by: Any = None,
        allow_stale: bool = False,
        pushed: bool = False,
    ) -> None:
        if isinstance(settings, str):
            raise TypeError("settings are a list of texts")
        super().__init__(words)
        if pushed and (self._words or seed is not None):
            raise ValueError("a store with `pushed` has neither a seed nor words")
        self._pushed = bool(pushed)
        # The words after those, the next one last: so a push costs the same however many words weren't taken.
        self._ahead = [_LAST_WORD] if pushed else []
        lines = [image_line(*image) for image in images]
        if seed is not None:
            lines.append(f"seed {number(seed, 'a seed')}")
        words_line = self._words_line()
        self._has_draws = bool(words_line) or seed is not None or self._is_search
        self._unsynced = Unsynced()
        for setting in settings:
            lines.append(self._setting_line(setting))
        self._lines = lines
        self._allow_stale = bool(allow_stale)
        # The handles that were opened and not closed, by their numbers.
        self._opened: Dict[int, Blob] = {}
        way = by or (Library if pushed else default_way())
        if pushed and not hasattr(way, "push_words"):
            raise ValueError("words can be pushed with `by=Library` alone")
        self._layer = way("\n".join([*words_line, *lines, ""]).encode())
        # The library, if reads and writes are made by it without a layer between.
        self._direct: Any = self._layer if type(self._layer) is Library and not self._is_bounded else None

    def _words_line(self) -> List[str]:
        words = [*self._words, *reversed(self._ahead)]
        return ["words " + " ".join(map(str, words))] if words else []

    def push_words(self, words: Iterable[int]) -> None:
        """Gives the words that the next draws take, before any that were pushed and weren't taken.

        A draw of a rate of 1/2 is true for 0 and false for 2^64 - 1. Push at least as many words as the next call may take: one for each
        rate and, if a write fails or the store crashes, one for each byte. Raises `ValueError` if calls took more than were pushed.
        """
        words = [number(word, "a word") for word in words]
        self._check()
        if not self._pushed:
            raise ValueError("words can be pushed into a store that is made with `pushed`")
        left = self._layer.words_left()
        if left == 0:
            raise ValueError("calls took more words than were pushed for them")
        self._layer.push_words(words)
        while len(self._ahead) > left:
            self._words.append(self._ahead.pop())
        self._ahead += reversed(words)

    def fork(self) -> Store:
        """Returns another store in the same state: blobs, pending writes, settings, the power, and the words that the generator gives next.

        No call is made again, and from here on no call of one store changes the other. The new one belongs to this thread too. Handles
        stay with the store that opened them. In the new one, `call` and `finish` name handles and started syncs by the same numbers, and
        a name that is open stays so until the new store is reopened.

        Raises `ValueError` for a store by a pipe, and for that of a search's run.
        """
        self._check()
        if self._is_search or not hasattr(self._layer, "fork"):
            raise ValueError("only a store with `by=Library` can be forked, and not that of a search's run")
        other = copy(self)
        other._layer = layer = self._layer.fork()
        other._words, other._ahead, other._unsynced, other._opened = self._words[:], self._ahead[:], self._unsynced.again(), {}
        other._lines, direct = self._lines[:], self._direct
        if direct is not None:
            other._direct = layer
            # Writes begin with the address of their session.
            other._lines = [layer.at if line is direct.at else line for line in self._lines]
        return other

    def call(self, line: str) -> List[str]:
        """Makes the call of any line of a script, and returns the words of its reply.

        Raises `BadLine` if the text isn't exactly one line that is a call, a comment or empty. No call is then made.
        """
        if type(line) is not str:
            line = text_of(line, "a line")
        if not is_call(line):
            self._check()
            self._lines.append(line)
            return []
        if getattr(self._layer, "ends_at_bad_line", False):
            tokens_of(line)
        is_plain = self._direct is not None and not self._is_search and line.lstrip(" ").partition(" ")[0] in _PLAIN
        try:
            if is_plain:
                return self._words_of(line)
            asked = Line.of(line)
            words: List[str] = self._call(asked)
        except BadLine:
            # Raises with the reason.
            tokens_of(line)
            raise
        self._follow(asked, reply_of(words))
        return words

    def _words_of(self, line: str, partition: str = "") -> List[str]:
        """Makes the call of a line by the library, and returns the words of its reply. Handles aren't updated."""
        if self._owner != get_ident():
            raise self._unusable()
        self._owner = None
        try:
            reply: str = self._direct.call(line.encode()).decode()
        except BaseException as error:
            self._ended(line, error)
            raise
        self._lines.append(line)
        self._owner = self._thread
        if reply.startswith("error "):
            raise refusal(reply, partition)
        return reply.split(" ")

    def _follow(self, asked: Call, reply: Any) -> None:
        """Takes a call by its line, that was made, and what it returned."""
        word = asked.word
        self._unsynced.take(asked, reply)
        if word == "close":
            self._closed_handle(asked.number)
        elif word == "remove":
            self._end_blobs(asked.partition, asked.name)
        elif word in ("crash", "reopen"):
            self._end_handles(f"the store had the call `{word}` since")

    def open(self, partition: str, name: bytes, versions: Versions = None) -> Tuple[Blob, int]:
        """Opens a blob, or creates it. Returns its handle and its size in bytes.

        Raises `BlobAlreadyOpen` if the name is open. Pending writes of an earlier handle are dropped. `versions` are the first and the
        last one that are accepted; a new blob has the last, and without them 0.
        """
        return self._open("open", partition, name, versions)

    def open_loose(self, partition: str, name: bytes, versions: Versions = None) -> Tuple[Blob, int]:
        """Opens a blob although another handle may be open. A crash may still apply what is pending."""
        return self._open("loose", partition, name, versions)

    def file(self, partition: str, name: bytes, versions: Versions = None) -> BlobFile:
        """Opens a blob as a binary file object."""
        return BlobFile(self.open(partition, name, versions)[0])

    def admit(self, partition: str, name: bytes) -> None:
        """Drops what is pending of a blob, so that no crash applies it."""
        self._call(Call("admit", partition=text_of(partition, "a partition"), name=data_of(name, "a name")))

    def finish(self, started: int) -> None:
        """Finishes a started sync. Raises what the sync came to."""
        self._call(Call("finish", number(started, "a started sync")))

    def remove(self, partition: str, name: Optional[bytes] = None) -> None:
        """Removes a blob, or without a name the partition with all its blobs."""
        partition, name = text_of(partition, "a partition"), None if name is None else data_of(name, "a name")
        self._call(Call("remove", partition=partition, name=name))
        self._end_blobs(partition, name)

    def scan(self, partition: str) -> List[bytes]:
        """Returns the names of a partition's blobs, sorted by their bytes."""
        partition = text_of(partition, "a partition")
        if self._direct is None:
            names: List[bytes] = self._call(new(Call, ("scan", 0, None, None, partition, None)))
        else:
            names = [unhex(name) for name in self._words_of(f"scan {partition_word(partition)}", partition)[1:]]
        return names

    def crash(self) -> Rows:
        """Loses what isn't durable, except what the draws keep. Returns the draws. All handles are stale."""
        rows: Rows = self._call(_CRASH)
        self._unsynced.crash()
        self._end_handles("the store has crashed since")
        return rows

    def reopen(self) -> None:
        """Builds the store again from what is durable. All handles are stale, and no name is open."""
        self._call(_REOPEN)
        self._unsynced.reopen()
        self._end_handles("the store was reopened since")

    def restart(self, *, expecting: Any = None) -> Rows:
        """Crashes and reopens the store, and closes every handle, as the end of a process does. Returns the draws of the crash.

        `expecting` is for `explore`: what the body still expects of the store. A run ends here if an earlier one was at this place with
        the same durable bytes and an equal value, since all that follows was tried. Then no draws are returned.
        """
        rows = self.crash()
        for blob in list(self._opened.values()):
            blob.close()
        self.reopen()
        if expecting is None:
            return rows
        self._expect(expecting)
        return []

    def _expect(self, value: Any) -> None:
        """Takes what a body expects after a restart. Here it does nothing."""

    def recover(self, step: Callable[..., Any], *arguments: Any, expecting: Any = None) -> Any:
        """Restarts the store, calls `step` and returns what that returns. Does both again if the power fails meanwhile. `expecting` is
        that of `restart`."""
        return self._recover(lambda: self.restart(expecting=expecting), step, arguments)

    def configure(self, setting: str) -> None:
        """Sets a rate, as `write 1 100 1 2 sectors 512`, or with `clear` none.

        Raises `BadLine` with the reason if it is no setting, and `NeedsSeed` if it needs random draws and the store has neither a seed
        nor a word.
        """
        self._call(Line.of(self._setting_line(setting)))

    def _setting_line(self, setting: str) -> str:
        line, needs_draws = setting_line(setting if type(setting) is str else text_of(setting, "a setting"))
        if needs_draws and not self._has_draws:
            raise NeedsSeed(
                f"`{line[len('config ') :]}` needs random draws: give the store a seed, `Store(seed=7)`, or the words of its generator, "
                "`Store(words=[..])`. Without them every draw is true, so that nothing would be lost; if you want that, say `words=[0]`"
            )
        self._unsynced.set(line.split())
        return line

    def _open(self, word: str, partition: str, name: bytes, versions: Versions) -> Tuple[Blob, int]:
        name, partition = data_of(name, "a name"), text_of(partition, "a partition")
        first, last = (None, None) if versions is None else versions_of(versions)
        handle, size, version = self._call(new(Call, (word, 0, first, last, partition, name)))
        if not self._is_search:
            blob = self._opened[handle] = Blob(self, handle, version, partition, name)
            return blob, size
        blob = self._opened[handle] = FollowedBlob(self, handle, version, partition, name)
        self._unsynced.open(word, handle, blob._of)
        return blob, size

    def _end_handles(self, why: str) -> None:
        for blob in self._opened.values():
            blob._end(why)

    def _end_blobs(self, partition: str, name: Optional[bytes]) -> None:
        self._unsynced.remove(partition, name)
        for blob in self._opened.values():
            if blob._of == (partition, name) or (name is None and blob._of[0] == partition):
                blob._end("its blob was removed since")

    def _refused(self) -> None:
        """Is called before a use of a handle is refused without a call."""

    def _call(self, asked: Call) -> Any:
        """Makes a call, and returns what it does. Raises its refusal."""
        reply = self._apply(asked)
        if type(reply) is Reply:
            raise refusal(reply.line, asked.partition)
        return reply

    def _refuse(self, asked: Call, status: int) -> None:
        """Raises the refusal of a call that the library was asked for without a call object."""
        try:
            refused = self._direct.refusal(status)
        except BaseException as error:
            self._ended(asked, error)
            raise
        self._lines.append(asked)
        self._owner = self._thread
        raise refusal(refused.line)

    def _closed_handle(self, handle: int) -> None:
        blob = self._opened.pop(handle, None)
        if blob is not None:
            blob._end()

    @staticmethod
    def _write_call(handle: int, offset: int, data: bytes, sync: bool) -> Call:
        call: Call = new(Call, ("writes" if sync else "write", handle, offset, None, "", data))
        return call

    def _made(self) -> Iterator[Any]:
        at = self._direct and self._direct.at
        lines = iter(self._lines)
        for line in lines:
            # The first argument of a write by `Blob.write`, which the others follow.
            if line is at:
                handle, offset, data, _, sync = islice(lines, 5)
                line = self._write_call(handle, offset, data, sync)
            yield line

    def _read(self, handle: int, offset: int, length: int) -> Any:
        """Reads exactly `length` bytes. Without a layer between, this makes no call object, as `Blob.write`."""
        direct = self._direct
        asked = new(Call, ("read", handle, offset, length, "", None))
        if direct is None or offset >> INT_BITS or length > len(direct.room):
            return self._call(asked)
        if self._owner != get_ident():
            raise self._unusable()
        self._owner = None
        try:
            status = direct.untyped_read(direct.at, handle, offset, direct.room, length)
            found = direct.room[:length]
        except BaseException as error:
            self._ended(asked, error)
            raise
        if status:
            self._refuse(asked, status)
        self._lines.append(asked)
        self._owner = self._thread
        return found
