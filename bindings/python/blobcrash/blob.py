"""An open handle of a store."""

from __future__ import annotations

from threading import get_ident
from typing import TYPE_CHECKING, Any, Mapping, Optional, Tuple

from .calls import Call, new
from .errors import StaleHandle
from .grammar import data_of, number
from .layers import ASKED, NO_BYTES

if TYPE_CHECKING:
    from .store import Store

# A typed write takes numbers below 2^31 as they are. Python compares those below 2^30 faster.
_SHORT = 2**30 - 1


class Blob:
    """An open handle. `with` closes it at the end.

    After a crash, a reopen or the removal of the blob the handle is stale: it still has its live bytes, which no restart would leave.
    Each use but `close` then raises `StaleHandle`, unless `allow_stale` is set.
    """

    _put: Any = None
    _ask: Any = None
    _stale = ""
    # Calls with no other number than the handle's, by their words: as the record has them, and as the library takes them. It has none
    # of its own until it has made one.
    _known: Mapping[str, Tuple[Call, bytes]] = {}

    def __init__(self, store: Store, handle: int, version: int, partition: str, name: bytes) -> None:
        self._store = store
        self._handle = handle
        self._version = version
        self._of = (partition, name)
        self.allow_stale = store._allow_stale
        # The record of the store.
        self._lines = store._lines
        # If no layer is between: the library's session, and its functions for writes and typed calls. A handle that is closed or stale
        # has no functions, and its calls are made by the store.
        direct = store._direct
        if direct is not None:
            self._put, self._ask, self._at = direct.untyped_write, direct._apply, direct.at

    def __enter__(self) -> Blob:
        return self

    def __exit__(self, *_: object) -> None:
        # If the store can't be used any more, an error here would only hide why.
        if self._handle in self._store._opened and self._store._owner is not None:
            self.close()

    @property
    def handle(self) -> int:
        """The number by which lines of a script name the handle."""
        return self._handle

    @property
    def version(self) -> int:
        """The blob's version."""
        return self._version

    @property
    def is_stale(self) -> bool:
        """Whether the handle is from before a crash, a reopen or the blob's removal."""
        return bool(self._stale)

    def read(self, offset: int, length: int) -> bytes:
        """Reads exactly `length` bytes at a logical offset. Raises `BlobInsufficientLength` if there are fewer."""
        offset, length = number(offset, "an offset"), number(length, "a length")
        if self._stale:
            self._refuse_stale()
        found: bytes = self._store._read(self._handle, offset, length)
        return found

    def write(self, offset: int, data: bytes, sync: bool = False) -> None:
        """Writes bytes at a logical offset. They may be lost until they are synced; with `sync` they are durable immediately."""
        put = self._put
        if (
            put is None
            or type(offset) is not int
            or type(data) is not bytes
            or not 0 <= offset <= _SHORT
            or (length := len(data)) > _SHORT
        ):
            self._write(offset, data, sync)
            return
        # The usual case, without a call object. The record gets the arguments, of which a line is made when it is asked for.
        store = self._store
        if store._owner != get_ident():
            raise store._unusable()
        store._owner = None
        asked = (self._at, self._handle, offset, data, length, 1 if sync else 0)
        try:
            status = put(*asked)
        except BaseException as error:
            store._ended(store._write_call(self._handle, offset, data, sync), error)
            raise
        if status:
            store._refuse(store._write_call(self._handle, offset, data, sync), status)
        lines = self._lines
        lines += asked
        store._owner = store._thread

    def _write(self, offset: int, data: bytes, sync: bool) -> None:
        """Writes bytes by a call object."""
        offset, data = number(offset, "an offset"), data_of(data, "the data of a write")
        if self._stale:
            self._refuse_stale()
        self._store._call(self._store._write_call(self._handle, offset, data, sync))

    def _end(self, why: str = "") -> None:
        """Notes that the handle is closed, or stale for this reason. The store makes its calls from then on."""
        self._put, self._ask, self._stale = None, None, why or self._stale

    def resize(self, length: int) -> None:
        """Truncates or extends the blob to a logical length."""
        self._call("resize", number(length, "a length"))

    def size(self) -> int:
        """Returns the size of the blob in bytes, as the handle tracks it."""
        size: int = self._call("size")
        return size

    def sync(self) -> None:
        """Makes the handle's bytes durable."""
        self._call("sync")

    def start_sync(self) -> int:
        """Starts a sync, and returns its number. `Store.finish` returns its outcome."""
        started: int = self._call("startsync")
        return started

    def close(self) -> None:
        """Closes the handle. A stale handle may be closed, and one that `restart` closed stays so."""
        store = self._store
        if self._ask is None:
            store._check()
            if self._handle not in store._opened and self._stale:
                return
        self._call("close")
        store._closed_handle(self._handle)

    def _call(self, word: str, first: Optional[int] = None) -> Any:
        """Makes a call of this handle that has no bytes, and returns its value."""
        store, ask = self._store, self._ask
        if ask is None:
            if self._stale and word != "close":
                self._refuse_stale()
            return store._call(new(Call, (word, self._handle, first, None, "", None)))
        if store._owner != get_ident():
            raise store._unusable()
        known = self._known.get(word) if first is None else None
        if known is None:
            asked = new(Call, (word, self._handle, first, None, "", None))
            packed = ASKED.pack(store._direct._kinds[word], self._handle, first or 0, 0)
            if first is None and word != "close":
                self._known = {**self._known, word: (asked, packed)}
        else:
            asked, packed = known
        store._owner = None
        try:
            reply = ask(self._at, packed, b"", 0, b"", NO_BYTES)
            status = reply.status
        except BaseException as error:
            store._ended(asked, error)
            raise
        if status:
            store._refuse(asked, status)
        self._lines.append(asked)
        store._owner = store._thread
        return reply.size if word == "size" else reply.number if word == "startsync" else None

    def _refuse_stale(self) -> None:
        if not self.allow_stale:
            self._store._refused()
            raise StaleHandle(f"handle {self._handle} is stale: {self._stale}. Open the blob again, or set `allow_stale`")


class FollowedBlob(Blob):
    """A handle of a search's run, of which unsynced writes are followed."""

    def write(self, offset: int, data: bytes, sync: bool = False) -> None:
        if self._put is None:
            self._write(offset, data, sync)
        else:
            super().write(offset, data, sync)
        if data and not sync:
            self._store._unsynced.write(self._of)

    def sync(self) -> None:
        super().sync()
        self._store._unsynced.sync(self._of)

    def start_sync(self) -> int:
        started = super().start_sync()
        self._store._unsynced.sync(self._of)
        return started
