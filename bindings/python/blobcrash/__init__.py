"""A storage layer that crashes, for tests of recovery: the program `./blobcrash` through pipes, or the library in this process.

    from blobcrash import Store

    with Store(seed=7) as store:
        store.configure("write 0 1 1 2 subset")
        log, size = store.open("wal", b"0")
        log.write(0, b"record")
        log.sync()
        log.write(6, b"another")
        store.restart()                           # a crash: the store and its handles end, and what is durable is opened again
        log, size = store.open("wal", b"0")       # 6 bytes at least
        assert log.read(0, 6) == b"record"

`Store(seed=7, by=Library)` is the same in this process, with the library that `sh bindings/build.sh` builds. A call that the layer
refuses raises the error that is named like its reply: `error BlobMissing p 62` is `BlobMissing`, and its `fields` are `("p", "62")`. An
argument that isn't one raises `TypeError` or `ValueError`, and nothing is sent. `store.script` is a script that makes the same calls
again. Its lines and replies are those of docs/FORMATS.md. A store belongs to one thread.

`Files(seed=7, profile="ext4")` is a file system that crashes, with the calls of `os` and the library (docs/FILES.md).
`patched(files, "/disk")` lets unmodified code that calls `open` and `os` run on it.

To use the package without installing it, copy this folder: it needs nothing but Python 3.8 or later.
"""

from .blob import Blob
from .calls import Reply
from .checking import Fault, check
from .cutting import cut, cut_lines
from .errors import (
    BadLine, BlobAlreadyOpen, BlobCorrupt, BlobInsufficientLength, BlobLayoutMismatch, BlobMissing, BlobVersionMismatch, Closed,
    EmptyRange, GenerationsExhausted, Injected, Interrupted, LibraryMissing, Memory, NeedsSeed, NoHandle, NoRuns, NotMade,
    OffsetOverflow, PartitionMissing, PartitionNameInvalid, ProgramEnded, ReadFailed, StaleHandle, StorageError, WriteFailed,
    WrongThread,
)
from .exploration import explore as _explore
from .failures import Failed, TooLong
from .file_calls import Kept
from .file_library import FilesLibrary
from .file_settings import PROFILES, Profile
from .file_system import Files, FileStatus
from .files import BlobFile
from .follow import ExploredFiles, ExploredStore, NotDeterministic
from .foreign import TOP, is_proved, library
from .judging import acknowledgement, judge
from .layers import Library
from .open_file import OpenFile
from .patching import patched
from .pipe import Program, program
from .power import PowerLoss
from .progress import counted
from .results import Explored, Seeded
from .seeding import SeededFiles, SeededStore
from .seeding import seeds as _seeds
from .shrinking import shrink
from .signatures import Explores, Seeds
from .spread import LostWork
from .states import CrashState, CrashStates
from .store import Store
from .whole_scripts import explain, run

explore: Explores = _explore
seeds: Seeds = _seeds

__version__ = "0.3.0"


def version() -> str:
    """Returns the version of the package, and whether the library that this process uses is proved."""
    return f"blobcrash {__version__}, {'proved' if is_proved() else 'not proved'}"


__all__ = [
    "BadLine", "Blob", "BlobAlreadyOpen", "BlobCorrupt", "BlobFile", "BlobInsufficientLength", "BlobLayoutMismatch", "BlobMissing",
    "BlobVersionMismatch", "Closed", "CrashState", "CrashStates", "EmptyRange", "Explored", "ExploredFiles", "ExploredStore",
    "Failed", "Fault", "FileStatus", "Files", "FilesLibrary", "GenerationsExhausted", "Injected", "Interrupted", "Kept", "Library",
    "LibraryMissing", "LostWork", "Memory", "NeedsSeed", "NoHandle", "NoRuns", "NotDeterministic", "NotMade", "OffsetOverflow",
    "OpenFile", "PROFILES", "PartitionMissing", "PartitionNameInvalid", "PowerLoss", "Profile", "Program", "ProgramEnded",
    "ReadFailed", "Reply", "Seeded", "SeededFiles", "SeededStore", "StaleHandle", "StorageError", "Store", "TOP", "TooLong",
    "WriteFailed", "WrongThread", "acknowledgement", "check", "counted", "cut", "cut_lines", "explain", "explore", "is_proved",
    "judge", "library", "patched", "program", "run", "seeds", "shrink", "version",
]
