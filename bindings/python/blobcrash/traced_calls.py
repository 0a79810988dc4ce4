"""What `strace -f -k -y` printed of a run: each call that succeeded, with its stack, and which of them made a call of a record."""

from __future__ import annotations

import os
import re
from typing import Dict, FrozenSet, Iterator, List, NamedTuple, Tuple

_CALL = re.compile(r"(?P<thread>\d+) +(?P<name>\w+)\((?P<arguments>.*)\) += (?P<result>\d+)")
_UNFINISHED = re.compile(r"(?P<start>(?P<thread>\d+) +\w+\(.*) <unfinished \.\.\.>")
_RESUMED = re.compile(r"(?P<thread>\d+) +<\.\.\. \w+ resumed>(?P<end>.*)")
_FRAME = re.compile(r" > (?P<module>.+)\((?:(?P<function>[^()]*)\+0x[0-9a-f]+)?\) \[0x(?P<address>[0-9a-f]+)\]")
_OPENED, _STRING = re.compile(r"<([^<>]*)>"), re.compile(r'"((?:[^"\\]|\\.)*)"')
# The files of the C library. Its frames aren't shown.
_LIBRARIES = re.compile(r"(?:libc|libpthread|ld-linux[\w-]*)[.-].*")
_ON_NAMES = ("rename", "link", "symlink", "unlink", "rmdir", "mkdir", "open", "creat", "mknod", "truncate")
_WRITES = frozenset(("write", "pwrite64", "writev", "pwritev", "pwritev2", "copy_file_range", "sendfile", "splice", "fallocate"))
_SYNCS = frozenset(("fsync", "fdatasync"))
_OPENS = frozenset(("open", "openat", "openat2", "creat", "mknod", "mknodat", "symlink", "symlinkat"))
# By which calls of a program a call of a record may have been made.
_MADE_BY: Dict[str, FrozenSet[str]] = {
    "write": _WRITES,
    "truncate": frozenset(("truncate", "ftruncate", "fallocate", *_OPENS)),
    "create": _OPENS,
    "open": _OPENS,
    "fsync": _SYNCS | {"msync"},
    "fdatasync": _SYNCS | {"msync"},
    "fsyncdir": _SYNCS,
    "rename": frozenset(("rename", "renameat", "renameat2")),
    "link": frozenset(("link", "linkat")),
    "unlink": frozenset(("unlink", "unlinkat")),
    "rmdir": frozenset(("rmdir", "unlinkat")),
    "mkdir": frozenset(("mkdir", "mkdirat")),
}


class Frame(NamedTuple):
    """A function on a stack, and the address in its file to which the call returns."""

    module: str
    function: str
    address: int


class TracedCall(NamedTuple):
    """A call of a thread. `names` are the last parts of the paths that it names, `result` is what it returned."""

    thread: str
    name: str
    names: FrozenSet[str]
    result: int
    stack: List[Frame]


def traced_calls(text: str) -> Iterator[TracedCall]:
    """Yields the calls, each with its frames outside of the C library, the innermost first."""
    unfinished: Dict[str, str] = {}
    call = None
    for line in text.splitlines():
        frame = _FRAME.match(line)
        if frame is not None:
            if call is not None and not _LIBRARIES.match(os.path.basename(frame["module"])):
                call.stack.append(Frame(frame["module"], frame["function"] or "", int(frame["address"], 16)))
            continue
        if call is not None:
            yield call
            call = None
        begun, resumed = _UNFINISHED.match(line), _RESUMED.match(line)
        if begun is not None:
            unfinished[begun["thread"]] = begun["start"]
        else:
            whole = unfinished.pop(resumed["thread"], "") + resumed["end"] if resumed is not None else line
            found = _CALL.match(whole)
            call = None if found is None else _call(found)
    if call is not None:
        yield call


def _call(found: "re.Match[str]") -> TracedCall:
    name = found["name"]
    return TracedCall(found["thread"], name, _names(name, found["arguments"]), int(found["result"]), [])


def _names(name: str, arguments: str) -> FrozenSet[str]:
    paths = _OPENED.findall(arguments) + (_STRING.findall(arguments) if name.startswith(_ON_NAMES) else [])
    return frozenset(os.path.basename(path.rstrip("/")) for path in paths)


class Matching:
    """Finds the call of a program for each call of a record, which come in the same order for each thread."""

    def __init__(self, text: str) -> None:
        self._calls: Dict[str, List[TracedCall]] = {}
        for call in traced_calls(text):
            self._calls.setdefault(call.thread, []).append(call)
        self._next: Dict[str, int] = {}
        # How many bytes of the present write are in the record.
        self._written: Dict[str, int] = {}

    @property
    def has_stacks(self) -> bool:
        return any(call.stack for calls in self._calls.values() for call in calls)

    def stack(self, thread: str, word: str, names: Tuple[str, ...], length: int) -> List[Frame]:
        """The stack of the call of a thread that made a call with this word, of files with these last parts of their paths. Empty if none is
        found. A write of a program may be several of a record, as of the pages of a file."""
        calls, at = self._calls.get(thread, []), self._next.get(thread, 0)
        if word == "write" and at > 0 and calls[at - 1].name in _WRITES and set(names) <= calls[at - 1].names:
            if self._written.get(thread, 0) + length <= calls[at - 1].result:
                self._written[thread] = self._written.get(thread, 0) + length
                return calls[at - 1].stack
        for number in range(at, len(calls)):
            call = calls[number]
            if call.name in _MADE_BY.get(word, ()) and {name for name in names if name} <= call.names:
                self._next[thread], self._written[thread] = number + 1, length
                return call.stack
        return []
