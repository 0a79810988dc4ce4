"""Unsynced writes that no crash could keep, since they were made at a retention of 0: docs/GUIDE.md."""

from __future__ import annotations

from typing import Any, Dict, List, Optional

from .file_settings import TORN_WRITES

# What a crash met: unsynced writes that it could not keep, and some that it could.
NEVER_KEPT, MAY_KEEP = 1, 2


def note_of(met: int) -> str:
    """What a report says of what the crashes of all runs met; nothing if they could keep each unsynced write."""
    if not met & NEVER_KEPT:
        return ""
    which = "some unsynced writes" if met & MAY_KEEP else "no unsynced write"
    return f"{which} could {'not ' if met & MAY_KEEP else ''}be kept: set `{TORN_WRITES}`"


class Unsynced:
    """The files or blobs that have unsynced writes, with whether a crash could keep these. `met` is what the crashes met so far."""

    def __init__(self) -> None:
        self.met = 0
        self._kept = NEVER_KEPT
        self._syncs_lie = False
        self._writes: Dict[Any, int] = {}
        # The blobs of handles, or the inodes of open files by their descriptors.
        self._opened: Dict[int, Any] = {}

    def again(self) -> Unsynced:
        """Returns one with the same settings."""
        other = Unsynced()
        other._kept, other._syncs_lie = self._kept, self._syncs_lie
        return other

    def set(self, tokens: List[str]) -> None:
        """Takes the line of a setting."""
        if tokens[:2] == ["config", "write"]:
            self._kept = MAY_KEEP if tokens[4].strip("0") else NEVER_KEPT
        elif tokens[:2] == ["config", "clear"]:
            self._kept = NEVER_KEPT
        elif tokens[0] == "syncs":
            self._syncs_lie = tokens[1] == "lie"

    def open(self, word: str, handle: int, of: Any) -> None:
        """Takes a new handle of a blob. An `open`, unlike a `loose` one, drops what is pending."""
        self._opened[handle] = of
        if word == "open":
            self.sync(of)

    def write(self, of: Any) -> None:
        """Takes a write of a file or a blob."""
        self._writes[of] = self._writes.get(of, 0) | self._kept

    def sync(self, of: Any) -> None:
        """Takes a sync, also one that has only started, or what else leaves no unsynced write."""
        if not self._syncs_lie:
            self._writes.pop(of, None)

    def remove(self, partition: str, name: Optional[bytes]) -> None:
        """Takes the removal of a blob, or without a name of a partition."""
        for of in [of for of in self._writes if of and of[0] == partition and name in (None, of[1])]:
            del self._writes[of]

    def crash(self) -> None:
        """Takes a crash."""
        for kept in self._writes.values():
            self.met |= kept
        self._writes.clear()

    def reopen(self) -> None:
        """Takes a reopen, which drops what is pending."""
        self._writes.clear()

    def take(self, asked: Any, reply: Any) -> None:
        """Takes a call on a store by its line, that was made, and what it returned."""
        word, number = asked.word, asked.number
        if word == "config":
            self.set(asked.name.decode().split())
        elif word == "crash":
            self.crash()
        elif word == "reopen":
            self.reopen()
        elif word in ("open", "loose"):
            self.open(word, reply.handle, (asked.partition, asked.name))
        elif word in ("sync", "startsync"):
            self.sync(self._opened.get(number))
        elif word == "write" and asked.name:
            self.write(self._opened.get(number))

    def before_call(self, asked: Any, layer: Any) -> None:
        """Learns the inode of a file before a call on it, after which the power may be off."""
        if asked.word in ("write", "fsync", "fdatasync") and asked.number not in self._opened and not getattr(layer, "is_off", False):
            self._inode(asked.number, layer)

    def take_of_files(self, asked: Any, layer: Any) -> None:
        """Takes a call on files that was made."""
        word, number = asked.word, asked.number
        if word == "write":
            self.write(self._inode(number, layer))
        elif word in ("fsync", "fdatasync"):
            self.sync(self._inode(number, layer))
        elif word == "close":
            self._opened.pop(number, None)
        elif word == "crash":
            self.crash()
            self._opened.clear()
        elif word == "settle" or (word == "sync" and not self._syncs_lie):
            self._writes.clear()

    def _inode(self, descriptor: int, layer: Any) -> Any:
        """The inode of an open file; of a layer that doesn't tell it, a key of the descriptor."""
        inode = self._opened.get(descriptor)
        if inode is None:
            ask = getattr(layer, "inode_at", None)
            inode = self._opened[descriptor] = ask(descriptor) if ask else -1 - descriptor
        return inode
