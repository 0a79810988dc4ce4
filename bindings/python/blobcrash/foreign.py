"""The functions of the shared library, for `ctypes`: bindings/c/blobcrash.h and blobcrash_files.h."""

from __future__ import annotations

import ctypes
import os
import subprocess
from functools import lru_cache
from typing import Any, Dict, FrozenSet, Optional

from .errors import LibraryMissing, NotMade

_HERE = os.path.dirname(os.path.abspath(__file__))
# The top of the repository that this package lies in, if it lies in one.
TOP = os.path.dirname(os.path.dirname(os.path.dirname(_HERE)))
# The shared library of an installed package.
INSIDE = os.path.join(_HERE, "libblobcrash.so")

# The one that the repository built.
BUILT = os.path.join(TOP, "out", "libblobcrash.so")

# How a call ended. tests/c_numbers.py compares each of these numbers with the C header.
DONE, ENDLESS, BAD_LINE, NO_MEMORY, NO_ROOM, CLOSED, OTHER_REPLY, UNPRINTED, BAD_CALL, POWER_LOSS = range(10)
E_BLOB_MISSING = 20
# The kind that has the word `remove` too: without a name, it removes a partition.
REMOVE_PARTITION = 10
# The bits of an effect: what a crash leaves may differ after the call; it may take words of the generator.
CHANGES, DRAWS = 1, 2
# The tables of words: those of the kinds of calls on stores and on files.
W_KINDS, W_FILE_KINDS = range(2)


class Session(ctypes.Structure):
    """A session of a store, or of files."""

    _fields_ = [("at", ctypes.c_void_p), ("is_open", ctypes.c_bool)]


class Ran(ctypes.Structure):
    _fields_ = [("status", ctypes.c_uint32), ("len", ctypes.c_size_t)]


class ScriptRan(ctypes.Structure):
    _fields_ = [("status", ctypes.c_uint32), ("len", ctypes.c_size_t), ("line", ctypes.c_uint64)]


class Asked(ctypes.Structure):
    """A typed call of a store, or of files, without its bytes."""

    _fields_ = [("kind", ctypes.c_uint32), ("number", ctypes.c_uint64), ("first", ctypes.c_uint64), ("last", ctypes.c_uint64)]


class TypedReply(ctypes.Structure):
    _fields_ = [("status", ctypes.c_uint32), ("version", ctypes.c_uint32), ("number", ctypes.c_size_t), ("size", ctypes.c_uint64)]


class FileReply(ctypes.Structure):
    _fields_ = [("status", ctypes.c_uint32), ("kind", ctypes.c_uint32), ("number", ctypes.c_uint64), ("size", ctypes.c_uint64)]


class KeptRun(ctypes.Structure):
    _fields_ = [
        ("status", ctypes.c_uint32),
        ("write", ctypes.c_uint64),
        ("bytes", ctypes.c_size_t),
        ("start", ctypes.c_size_t),
        ("len", ctypes.c_size_t),
    ]


class PowerState(ctypes.Structure):
    _fields_ = [
        ("status", ctypes.c_uint32),
        *((name, ctypes.c_bool) for name in ("is_off", "has_crashed", "is_counting")),
        *((name, ctypes.c_uint64) for name in ("changes", "left")),
    ]


class Choice(ctypes.Structure):
    _fields_ = [("kind", ctypes.c_uint32), ("branch", ctypes.c_uint64), ("among", ctypes.c_uint64)]


class Explorer(ctypes.Structure):
    _fields_ = [*((name, ctypes.c_size_t) for name in ("root", "len", "taken", "given", "drawn")), ("differs", ctypes.c_bool)]


class Branch(ctypes.Structure):
    _fields_ = [("status", ctypes.c_uint32), ("branch", ctypes.c_uint64)]


_session, _asked = ctypes.POINTER(Session), ctypes.POINTER(Asked)
_size, _text, _room, _status = ctypes.c_size_t, ctypes.c_char_p, ctypes.c_void_p, ctypes.c_uint32
_bytes, _number, _explorer, _choices = (_text, _size), ctypes.c_uint64, ctypes.POINTER(Explorer), ctypes.POINTER(Choice)
# What each function returns, and takes after a session.
_OF_SESSIONS = {
    "open": (ScriptRan, *_bytes),
    "fork_session": (_status, _session),
    "call": (Ran, *_bytes, _room, _size),
    "reply": (Ran, _room, _size),
    "apply": (TypedReply, _asked, *_bytes, *_bytes),
    "durable_blob": (Ran, *_bytes, *_bytes, ctypes.c_bool, _room, _size),
    "write": (_status, _size, _number, *_bytes, ctypes.c_bool),
    "read": (_status, _size, _number, _room, _size),
    "tracked_size": (TypedReply, _size),
    "words_left": (Ran,),
    "push_words": (_status, _text, _size),
    "power_off_after": (_status, _number),
    "power_on": (_status,),
    "power": (PowerState,),
    "close": (None,),
    "files_open": (ScriptRan, *_bytes),
    "files_fork": (_status, _session),
    "files_configure": (_status, *_bytes),
    "files_apply": (FileReply, _asked, *_bytes, *_bytes),
    "files_write": (_status, _number, _number, *_bytes),
    "files_read": (Ran, _number, _number, _room, _size),
    "files_name": (FileReply, _size, _room, _size),
    "files_kept_run": (KeptRun, _size, _size),
    "files_kept_place": (FileReply, _size),
    "files_kept_edit": (Ran, _size),
    "files_follows": (Ran, _size),
    "files_words_left": (Ran,),
    "files_push_words": (_status, _text, _size),
    "files_power_off_after": (_status, _number),
    "files_power_on": (_status,),
    "files_power": (PowerState,),
    "files_close": (None,),
}
# The same of the other functions, with all that they take.
_OTHERS = {
    "effect": (_status, _status),
    "files_effect": (_status, _status),
    "word": (Ran, _status, _status, _room, _size),
    "line_of": (Ran, _asked, *_bytes, *_bytes, _room, _size),
    "files_line_of": (Ran, _asked, *_bytes, *_bytes, _room, _size),
    "run": (ScriptRan, *_bytes, _room, _size),
    "explain": (ScriptRan, *_bytes, _room, _size),
    "explain_json": (ScriptRan, *_bytes, _room, _size),
    "explorer_begin": (None, _explorer, _size),
    "explorer_choose": (Branch, _explorer, _choices, _size, _status, _number),
    "explorer_count": (_status, _explorer, _choices, _size, _size),
    "explorer_count_size": (_status, _explorer, _choices, _size, _size, _number),
    "explorer_end": (ctypes.c_bool, _explorer),
    "explorer_next": (ctypes.c_bool, _explorer, _choices, _size),
}
_TYPES = {**{name: (result, _session, *taken) for name, (result, *taken) in _OF_SESSIONS.items()}, **_OTHERS}

_functions: Optional[ctypes.CDLL] = None


def library() -> str:
    """Returns the path of the shared library: `$BLOBCRASH_LIBRARY`, the one in this package, or the one that the repository built."""
    return os.environ.get("BLOBCRASH_LIBRARY", INSIDE if os.path.exists(INSIDE) else BUILT)


def _current() -> str:
    """Returns the path of the library to load. In a clone it is one of the current sources: if the proved one isn't, one that is compiled
    without a proof. With `BLOBCRASH_PROVED` it is the one that was built."""
    path, build = library(), os.path.join(TOP, "bindings", "build.sh")
    if path != BUILT or os.environ.get("BLOBCRASH_PROVED") or not os.path.exists(build):
        return path
    made = subprocess.run(["sh", build, "--unproved"], stdin=subprocess.DEVNULL, stdout=subprocess.PIPE, text=True, check=False)
    return path if made.returncode else os.path.join(made.stdout.rstrip("\n"), "libblobcrash.so")


def is_loaded() -> bool:
    """Returns whether this process has loaded the library."""
    return _functions is not None


def is_proved() -> bool:
    """Returns whether the library that this process uses is proved. One that a clone compiles without a proof isn't."""
    return not hasattr(loaded(), "blobcrash_unproved")


def loaded() -> ctypes.CDLL:
    """Returns the functions. The first call loads the library."""
    global _functions
    if _functions is None:
        try:
            _functions = ctypes.CDLL(_current())
        except OSError as error:
            raise LibraryMissing(f"{error}: build it with `sh bindings/build.sh`, or name its file in BLOBCRASH_LIBRARY") from None
    return _functions


@lru_cache(maxsize=None)
def function(name: str) -> Any:
    """Returns a function, with the types of its result and its arguments. Raises `LibraryMissing` if an earlier library lacks it."""
    try:
        found = getattr(loaded(), f"blobcrash_{name}")
    except AttributeError:
        raise LibraryMissing(f"{library()} has no blobcrash_{name}: build it with `sh bindings/build.sh`") from None
    if found.argtypes is None:
        found.restype, found.argtypes = _TYPES[name][0], _TYPES[name][1:]
    return found


@lru_cache(maxsize=None)
def untyped(name: str, keeps_lock: bool = True) -> Any:
    """Returns a function without the types of its arguments: so a call takes half as long. It keeps the interpreter's lock, or doesn't.

    Pass a session and a buffer by `byref`, bytes as `bytes`, and a number below 2^31 as it is: it is passed as an `int`, which libffi
    extends to the 64 bits of its register. Pass a greater one, and one that isn't passed in a register, as a `c_uint64`.
    """
    found: Any = (ctypes.PyDLL if keeps_lock else ctypes.CDLL)(None, handle=loaded()._handle)[f"blobcrash_{name}"]
    found.restype = _TYPES[name][0]
    return found


@lru_cache(maxsize=None)
def kinds(table: int) -> Dict[str, int]:
    """Returns the numbers of the kinds of calls by their words in a script, the lower number for a word of two."""
    found: Dict[str, int] = {}
    room = ctypes.create_string_buffer(32)
    for kind in range(64):
        ran = function("word")(table, kind, room, len(room))
        if ran.status == DONE:
            found.setdefault(room.raw[: ran.len].decode(), kind)
    return found


@lru_cache(maxsize=None)
def having(effect: int, of_files: bool = False) -> FrozenSet[str]:
    """Returns the words of the calls that have an effect. A setting of files has no kind, and none."""
    ask = function("files_effect" if of_files else "effect")
    return frozenset(word for word, kind in kinds(W_FILE_KINDS if of_files else W_KINDS).items() if ask(kind) & effect)


def changes(word: str, of_files: bool = False) -> bool:
    """Returns whether what a crash leaves may differ after a call."""
    return word in having(CHANGES, of_files)


def check(status: int, what: str = "store is") -> None:
    """Raises the error of a status other than DONE that isn't a refusal."""
    if status == CLOSED:
        raise ValueError(f"the {what} closed")
    if status == NO_MEMORY:
        raise NotMade
    if status == ENDLESS:
        raise ValueError("a seed gives words without end")
    if status in (NO_ROOM, UNPRINTED):
        raise MemoryError
    if status != DONE:
        raise RuntimeError(f"the library returned the status {status}")
