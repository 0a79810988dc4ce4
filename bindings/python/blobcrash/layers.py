"""The two ways to the storage layer: the program through pipes, and the library in this process.

Both have the same calls. They take lines as they are: `Store` is what checks arguments.
"""

from __future__ import annotations

import ctypes
import os
from array import array
from copy import copy
from struct import Struct
from typing import Any, Callable, Dict, List, Optional, Sequence, Tuple, Type, TypeVar, Union

from .bad_lines import bad_at, bad_line
from .calls import Call, Line, Opened, Reply, made, new, reply_of, rows_of
from .errors import BadLine
from .foreign import (
    BAD_LINE,
    DONE,
    INSIDE,
    NO_ROOM,
    POWER_LOSS,
    REMOVE_PARTITION,
    UNPRINTED,
    W_KINDS,
    Ran,
    Session,
    check,
    function,
    kinds,
    untyped,
)
from .grammar import MAX, data_of
from .pipe import Program
from .power import InLibrary

_Own = TypeVar("_Own", bound="InProcess")
_LINE_FEED = 10
# The numbers of a typed call: `blobcrash_asked` and `blobcrash_file_call`.
ASKED = Struct("@I4xQQQ")
# How many bytes the first buffer for replies has.
_ROOM = 4096
# The least status of a call that was made and refused.
_FIRST_REFUSAL = 16
# Short lengths as arguments of an untyped function.
_LENGTHS = [ctypes.c_size_t.from_param(length) for length in range(256)]
NO_BYTES = _LENGTHS[0]
# An untyped function takes numbers of this many bits as they are.
INT_BITS = 31
# `ctypes` takes a greater number modulo 2^64, without an error.
_NO_NUMBER = "a handle, an offset and a length are numbers from 0 to 2^64 - 1"


def default_way() -> type:
    """Returns the way of a store that is given none: the library if it is part of this package, else the program."""
    return Library if os.path.exists(INSIDE) else Program


class InProcess(InLibrary):
    """A session of the library in this process."""

    # How its functions begin, a message that names it, and the table of its words.
    _functions, _named, _table = "", "store is", W_KINDS
    # Whether `close` has anything to end.
    _is_open = False

    def __init__(self, preamble: bytes = b"") -> None:
        # The functions that most runs of a search call. A call without the types of its arguments takes half as long.
        self._apply, self._open, self._push = [untyped(f"{self._functions}{name}", False) for name in ("apply", "open", "push_words")]
        self._words_left, self._kinds = untyped(f"{self._functions}words_left"), kinds(self._table)
        self._session = Session()
        self.at = ctypes.byref(self._session)
        self.room: Any = ctypes.create_string_buffer(_ROOM)
        self.begin(preamble)

    def begin(self, preamble: bytes = b"") -> None:
        """Begins in place with another preamble: what the session held is ended."""
        if type(preamble) is not bytes:
            preamble = data_of(preamble, "a preamble")
        self._is_open, self._has_lost = True, False
        length = len(preamble)
        ran = self._call("open", preamble, length) if length >> INT_BITS else self._open(self.at, preamble, length)
        status = ran.status
        if status == BAD_LINE:
            raise self._bad_preamble(preamble, ran.line)
        if status:
            self._check(status)

    def words_left(self) -> int:
        """Returns how many words the generator has up to the last one that isn't zero. `ValueError` if a seed gives more."""
        ran = self._words_left(self.at)
        left: int = ran.len
        # Any other status than DONE has the length 0.
        if not left:
            self._check(ran.status)
        return left

    def push_words(self, words: Sequence[int]) -> None:
        """Inserts words before those that the generator has. An `array` with the type code `Q` takes least."""
        count, data = len(words), array("Q", words).tobytes()
        status = self._call("push_words", data, count) if count >> INT_BITS else self._push(self.at, data, count)
        if status:
            self._check(status)

    def _forked(self: _Own, name: str) -> Tuple[_Own, int]:
        """Returns another session, which a function opens in the state of this one, and the status."""
        other = copy(self)
        other._session = Session()
        other.at = ctypes.byref(other._session)
        other.room = ctypes.create_string_buffer(_ROOM)
        return other, self._call(name, other.at)

    def close(self) -> int:
        """Ends the session, and returns 0."""
        if self._is_open:
            self._is_open = False
            self._call("close")
        return 0

    def __del__(self) -> None:
        if self._is_open:
            self.close()

    def _call(self, name: str, *arguments: Any) -> Any:
        return function(self._functions + name)(self.at, *arguments)

    def _applied(self, kind: int, number: int, first: int, last: int, one: bytes, other: bytes) -> Any:
        """Makes a typed call, and returns its reply."""
        size, length = len(one), len(other)
        # The last argument isn't passed in a register.
        if size < 256 and length < 256:
            last_one = _LENGTHS[length]
        elif (size | length) >> INT_BITS:
            raise MemoryError
        else:
            last_one = ctypes.c_size_t(length)
        return self._apply(self.at, ASKED.pack(kind, number, first, last), one, size, other, last_one)

    def _check(self, status: int) -> None:
        if status == POWER_LOSS:
            self._lose_power()
        if status != DONE:
            check(status, self._named)

    def _bad_preamble(self, preamble: bytes, line: int) -> BadLine:
        return bad_at(preamble, line, "bad preamble")


class InTurn:
    """A way of which all sessions are one session of the library, which begins again for each. Use only the last one."""

    def __init__(self, way: Type[InProcess]) -> None:
        self._way, self.push_words = way, way.push_words
        self._layer: Optional[InProcess] = None

    def __call__(self, preamble: bytes) -> InProcess:
        if self._layer is None:
            self._layer = self._way(preamble)
        else:
            self._layer.begin(preamble)
        return self._layer

    def close(self) -> None:
        """Ends the session."""
        if self._layer is not None:
            self._layer.close()


class Library(InProcess):
    """The layer in this process."""

    def __init__(self, preamble: bytes = b"") -> None:
        self.untyped_read, self.untyped_write = untyped("read"), untyped("write")
        self._line, self._reply = untyped("call", False), untyped("reply", False)
        super().__init__(preamble)

    def fork(self) -> Library:
        """Returns another session in the same state."""
        other, status = self._forked("fork_session")
        self._check(status)
        return other

    def call(self, line: bytes) -> bytes:
        """Makes the call of a line, and returns its reply; nothing for an empty line and a comment."""
        line = data_of(line, "a line")
        if _LINE_FEED in line:
            raise bad_line(line)
        length, room, size = len(line), self.room, len(self.room)
        is_long = (length | size) >> INT_BITS
        ran = self._call("call", line, length, room, size) if is_long else self._line(self.at, line, length, room, size)
        if ran.status == BAD_LINE:
            raise bad_line(line)
        return self._printed(ran)

    def tracked_size(self, handle: int) -> Optional[int]:
        """Returns the size that a handle tracks, without a call; `None` if there is no such handle."""
        reply = self._call("tracked_size", handle)
        return None if reply.status != DONE else int(reply.size)

    def apply(self, asked: Call) -> Any:
        """Makes a typed call, and returns its value, or the `Reply` of a refusal. That of a `Line` is the words of its reply."""
        if type(asked) is Line:
            return made(asked, self.call(asked.text.encode()).decode())
        word, number, first, last, partition, name = asked
        if word == "read":
            return self.read(number, first or 0, last or 0)
        if word in ("write", "writes"):
            return self.write(number, first or 0, name or b"", word == "writes")
        kind = self._kinds[word] if name is not None or word != "remove" else REMOVE_PARTITION
        text = partition.encode("utf-8", "replace") if partition else b""
        reply = self._applied(kind, number, first or 0, last or 0, text, name or b"")
        status = reply.status
        if status:
            return self.refusal(status)
        value = _VALUES.get(word)
        return value and value(self, reply)

    def read(self, handle: int, offset: int, length: int) -> Union[bytes, Reply]:
        """Returns exactly `length` bytes, or the reply that says why not."""
        if (handle | offset | length) >> INT_BITS or length > len(self.room):
            if not 0 <= handle <= MAX or not 0 <= offset <= MAX or length < 0:
                raise ValueError(_NO_NUMBER)
            if length > len(self.room) and not self._has_grown(handle, offset, length):
                asked = Call("read", handle, offset, length)
                found: Union[bytes, Reply] = made(asked, self.call(str(asked).encode()).decode())
                return found
            status = self._call("read", handle, offset, self.room, length)
        else:
            status = self.untyped_read(self.at, handle, offset, self.room, length)
        return self.refusal(status) if status else self.room[:length]

    def write(self, handle: int, offset: int, data: bytes, sync: bool = False) -> Optional[Reply]:
        """Writes bytes. Returns the reply if it isn't `ok`."""
        data = data_of(data, "the data of a write")
        length = len(data)
        if (handle | offset | length) >> INT_BITS:
            if not 0 <= handle <= MAX or not 0 <= offset <= MAX:
                raise ValueError(_NO_NUMBER)
            status = self._call("write", handle, offset, data, length, bool(sync))
        else:
            status = self.untyped_write(self.at, handle, offset, data, length, bool(sync))
        return self.refusal(status) if status else None

    def _opened(self, reply: Any) -> Any:
        return new(Opened, (reply.number, reply.size, reply.version))

    def _names(self, reply: Any) -> Any:
        # One call for all names.
        return reply_of(self._last().decode().split(" "))

    def _rows(self, reply: Any) -> Any:
        # One call for all rows. By blobcrash_kept_run it would be one for each run of kept bytes.
        return rows_of(self._last().decode().split(" "))

    def _has_grown(self, handle: int, offset: int, length: int) -> bool:
        """Grows the buffer for a read that ends within the blob. For any other length it doesn't allocate."""
        size = self.tracked_size(handle)
        if size is None or offset + length > size:
            return False
        self.room = ctypes.create_string_buffer(length)
        return True

    def refusal(self, status: int) -> Reply:
        """The reply of a call that was refused."""
        if status < _FIRST_REFUSAL:
            self._check(status)
        return Reply(self._last().decode())

    def _last(self) -> bytes:
        """The last reply, as the program prints it."""
        room, size = self.room, len(self.room)
        return self._printed(self._call("reply", room, size) if size >> INT_BITS else self._reply(self.at, room, size))

    def _printed(self, ran: Ran) -> bytes:
        """A reply in the buffer. Grows it if it is too small."""
        while ran.status:
            if ran.status not in (NO_ROOM, UNPRINTED):
                self._check(ran.status)
            if ran.len > len(self.room):
                self.room = ctypes.create_string_buffer(ran.len)
            ran = self._call("reply", self.room, len(self.room))
            if ran.status == UNPRINTED:
                self._check(ran.status)
        found: bytes = self.room[: ran.len]
        return found


# What typed calls return; the others return nothing.
_VALUES: Dict[str, Callable[[Library, Any], Any]] = {
    "open": Library._opened,
    "loose": Library._opened,
    "size": lambda library, reply: reply.size,
    "startsync": lambda library, reply: reply.number,
    "scan": Library._names,
    "crash": Library._rows,
}
