"""The numbers of calls on files, and their refusals: bindings/c/blobcrash_files.h."""

from __future__ import annotations

import errno
from typing import Dict, NamedTuple

# What a rename does if the new name is taken.
REPLACES, REFUSES, EXCHANGES = range(3)
# The kind of a reply.
IS_FILE, IS_DIRECTORY = range(2)


class Refusal(NamedTuple):
    """Why a call is refused: its name, its errno, and a text."""

    name: str
    number: int
    text: str


# By the statuses of replies.
REFUSALS: Dict[int, Refusal] = {
    16: Refusal("OffsetOverflow", errno.EFBIG, "the end of the range doesn't fit in 64 bits"),
    28: Refusal("Injected", errno.EIO, "an injected I/O error"),
    29: Refusal("Memory", errno.ENOMEM, "there is no memory"),
    30: Refusal("GenerationsExhausted", errno.ENOSPC, "no number is left for a file or a write"),
    64: Refusal("Exists", errno.EEXIST, "the name is taken"),
    65: Refusal("NotFound", errno.ENOENT, "no file or directory has this name"),
    66: Refusal("NotEmpty", errno.ENOTEMPTY, "the directory has names"),
    67: Refusal("IsDirectory", errno.EISDIR, "the call wants a file, and this is a directory"),
    68: Refusal("NotDirectory", errno.ENOTDIR, "the call wants a directory, and this is a file"),
    69: Refusal("NameTooLong", errno.ENAMETOOLONG, "a name has more than 255 bytes"),
    70: Refusal("InvalidName", errno.EINVAL, "a name is empty, `.` or `..`, or has a zero"),
    71: Refusal("TooManyLinks", errno.EMLINK, "the file has as many names as a file may have"),
    72: Refusal("Stale", errno.ESTALE, "the file is closed, or was opened before the last crash"),
    73: Refusal("NoSpace", errno.ENOSPC, "a limit of bytes or of files is reached"),
    74: Refusal("Loop", errno.EINVAL, "a directory would be moved below itself"),
    75: Refusal("Crashed", errno.EIO, "the recovery of the last crash failed: crash again"),
}


def refusal_of(status: int) -> Refusal:
    """The refusal of a status."""
    return REFUSALS.get(status) or Refusal(f"Refusal{status}", errno.EIO, "the layer refused the call")
