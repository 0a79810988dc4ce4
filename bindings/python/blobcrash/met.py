"""Restarts of an explored run that an earlier run came to as well: docs/GUIDE.md."""

from __future__ import annotations

import ctypes
import sys
from types import FrameType
from typing import Any, Dict, Iterable, List, Optional, Set, Tuple

from .foreign import DONE, E_BLOB_MISSING, NO_ROOM, function

# What the rest of a run depends on after a restart.
State = Tuple[Any, ...]
# Each state that a run came to, and the choices by which it did.
Met = Dict[State, State]


def frozen(value: Any) -> Any:
    """Returns a copy of a value that can be a key: of lists, sets and dictionaries, and of what is in them."""
    if isinstance(value, (list, tuple)):
        return tuple(map(frozen, value))
    if isinstance(value, (set, frozenset)):
        return frozenset(map(frozen, value))
    if isinstance(value, dict):
        return frozenset((key, frozen(of)) for key, of in value.items())
    try:
        hash(value)
    except TypeError:
        raise TypeError(f"what a body expects is compared: {type(value).__name__} has no hash; give its fields as a tuple") from None
    return value


def durable_blobs(layer: Any, names: Iterable[Tuple[bytes, bytes]], with_header: bool = True) -> Tuple[Tuple[bytes, bytes, bytes], ...]:
    """Returns the partition, the name and the durable bytes of each of these blobs that there is. Without `with_header` these are the bytes after
    the header, of each blob that has one. `layer` is a `Library`. Draws nothing."""
    durable = function("durable_blob")
    found = []
    room = ctypes.create_string_buffer(4096)
    for partition, name in names:
        ran = durable(layer.at, partition, len(partition), name, len(name), with_header, room, len(room))
        if ran.status == NO_ROOM:
            room = ctypes.create_string_buffer(ran.len)
            ran = durable(layer.at, partition, len(partition), name, len(name), with_header, room, len(room))
        if ran.status == DONE:
            found.append((partition, name, room.raw[: ran.len]))
        elif ran.status != E_BLOB_MISSING:
            raise MemoryError
    return tuple(found)


def blobs_of(calls: Iterable[Any], images: Iterable[Tuple[str, bytes, bytes]]) -> List[Tuple[bytes, bytes]]:
    """Returns the partition and the name of each blob that there may be: those of the images, and those that a call opened."""
    names: Set[Tuple[bytes, bytes]] = {(partition.encode(), bytes(name)) for partition, name, _ in images}
    names |= {(call.partition.encode("utf-8", "replace"), call.name) for call in calls if call.word in ("open", "loose")}
    return sorted(names)


def settings_of(calls: Iterable[Any]) -> Tuple[Tuple[bytes, ...], ...]:
    """Returns the settings that the calls made, each with what it was set to last."""
    settings: Dict[bytes, Tuple[bytes, ...]] = {}
    for call in calls:
        if call.word == "config":
            tokens = tuple(call.name.split())
            if tokens[1:] == (b"clear",):
                settings.clear()
            settings[tokens[1]] = tokens
    return tuple(sorted(settings.values()))


def place() -> State:
    """Returns where the body is: the code of each frame from here up to the search, and the position in it."""
    frames: List[Tuple[Any, int]] = []
    frame: Optional[FrameType] = sys._getframe(1)
    while frame is not None and frame.f_globals.get("__name__") != f"{__package__}.exploration":
        frames.append((frame.f_code, frame.f_lasti))
        frame = frame.f_back
    return tuple(frames)
