"""What a failure lost, in words: what `blobcrash files explain --json` tells of its record, and the last calls before the crash by their
paths."""

import json
import os
import subprocess

CALLS_MOST, REMARKS_MOST = 8, 12
# A longer record isn't explained, nor one that takes longer.
_BYTES_MOST, _SECONDS_MOST = 64 << 20, 300
_NO_CALLS = ("seed", "words", "image")
_OUTCOMES = {"lost": "lost", "discarded": "discarded, since an edit before it was lost"}


def described(program, record):
    """
    Returns two lists of lines: what the last crash of a record lost, and the last calls before it. Both are empty if the record can't be
    explained. `program` is the path of `blobcrash`.
    """
    try:
        if os.path.getsize(record) > _BYTES_MOST:
            return [], []
        with open(record, "rb") as script:
            ran = subprocess.run([program, "files", "explain", "--json"], stdin=script, stdout=subprocess.PIPE, timeout=_SECONDS_MOST,
                                 env={**os.environ, "BLOBCRASH_TOLD": "1"})
        with open(record, encoding="utf-8") as script:
            lines = script.read().splitlines()
    except (OSError, subprocess.TimeoutExpired, UnicodeDecodeError):
        return [], []
    if ran.returncode != 0:
        return [], []
    told = [json.loads(line) for line in ran.stdout.decode(errors="replace").split("\n")[:-1]]
    return lost(told), _Calls(lines, [it["reply"] for it in told if "call" in it]).last()


def lost(told):
    """What is told of the last crash, in the words of `blobcrash files explain`, without what was kept."""
    crash = max((at for at, it in enumerate(told) if it.get("reply", "").split(" ")[0] == "crashed"), default=len(told))
    end = next((at for at, it in enumerate(told) if at > crash and "call" in it), len(told))
    found, header = [], "unsettled edits:"
    for it in told[crash + 1:end]:
        if "file" in it and "of" not in it:
            header = _file(it)
            if it["before"] != it["after"]:
                found, header = [*found, header], None
        elif it["lost"] or it["covered"] if "bytes" in it else it["outcome"] != "kept":
            found, header = [*found, *([header] if header else []), _bytes(it) if "bytes" in it else _edit(it)], None
    return found if len(found) <= REMARKS_MOST else [*found[:REMARKS_MOST], f".. {len(found) - REMARKS_MOST} more lines"]


def _edit(it):
    return f"  line {it['of']}: {it['edit']}: {_OUTCOMES[it['outcome']]}"


def _file(it):
    """A file with its sizes, and the path that it had before the crash if that was another one."""
    if it["file"] is None:
        return f"{it['was']}: removed, since no name of it was kept"
    was = ", which had no name" if it["was"] is None else "" if it["was"] == it["file"] else f", which was {it['was']}"
    return f"{it['file']}{was}: size {it['before']} before, {it['after']} after"


def _bytes(it):
    """A write, or zeros: one word if all bytes have the same outcome, and else each outcome with its runs."""
    outcomes = [(word, it[word]) for word in ("kept", "lost", "covered") if it[word]]
    runs = [word if len(outcomes) == 1 else f"{word} {','.join(f'{start}..{end}' for start, end in runs)}" for word, runs in outcomes]
    return f"  line {it['of']}: {'zeros' if it['zeros'] else 'write'} {it['bytes'][0]}..{it['bytes'][1]}: {'; '.join(runs)}"


class _Calls:
    """The calls of a record, with paths in place of numbers."""

    def __init__(self, lines, replies):
        self._files, self._folders, self._known = {}, {"1": ("", "")}, {}
        self._calls = []
        replies = iter(replies)
        for line in lines:
            words = line.split(" ")
            if line.startswith("# descriptor ") and len(words) > 4:
                self._files[words[2]] = " ".join(words[4:])
            elif line.startswith("# acknowledged"):
                self._calls.append(line[2:])
            elif words[0] not in _NO_CALLS and line and not line.startswith("#"):
                self._take(words, next(replies, ""))

    def last(self):
        """The last calls before the last crash."""
        crash = max((at for at, call in enumerate(self._calls) if call == "crash"), default=0)
        return self._calls[max(0, crash - CALLS_MOST):crash]

    def _folder(self, number):
        """The path of a directory, without a slash at its end."""
        above, name = self._folders.get(number, ("", f"directory-{number}"))
        return f"{self._folder(above)}/{name}" if above else f"/{name}" if name else ""

    def _path(self, folder, name):
        return f"{self._folder(folder)}/{name}"

    def _take(self, words, reply):
        """Adds a call, unless it only opens or closes."""
        call, rest = words[0], words[1:]
        failed = f": {reply}" if reply.startswith("error") else ""
        if call == "write":
            start = int(rest[1])
            shown = f"write {self._file(rest[0])} {start}..{start + len(rest[2]) // 2}" if len(rest) > 2 else ""
        elif call in ("fsync", "fdatasync", "truncate"):
            shown = " ".join([call, self._file(rest[0]), *rest[1:]])
        elif call == "rename_at":
            shown = " ".join(["rename", self._path(*rest[:2]), "->", self._path(*rest[2:4]), *rest[4:]])
            self._move(rest, failed)
        elif call == "link_at":
            shown = f"link {self._path(*rest[1:3])}"
        elif call == "fsyncdir_at":
            shown = f"fsyncdir {self._folder(rest[0]) or '/'}"
        elif call in ("create_at", "mkdir_at", "unlink_at", "rmdir_at"):
            shown = f"{call[:-3]} {self._path(*rest[:2])}"
        elif call in ("crash", "settle", "commit", "sync"):
            shown = call
        else:
            return
        if call == "mkdir_at" and reply.startswith("inode "):
            number = reply.split(" ")[1]
            self._folders[number] = tuple(rest[:2])
            self._known[tuple(rest[:2])] = number
        self._calls.append(shown + failed)

    def _file(self, number):
        return self._files.get(number, f"descriptor {number}") if number.isdigit() else number

    def _move(self, rest, failed):
        """Follows a directory to its new name."""
        if failed or len(rest) > 4:
            return
        number = self._known.pop(tuple(rest[:2]), None)
        if number:
            self._folders[number] = tuple(rest[2:4])
            self._known[tuple(rest[2:4])] = number
