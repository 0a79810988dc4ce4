"""The steps of the programs in docs/FILES.md, as calls on files: on those of the library (tests/files_litmus.py), on those of a real file
system, or as lines of a script (tests/calibrating)."""

import re

FORMS = (
    (r"(\S+) = (\w+)", lambda steps, path, letters: steps.put(path, "xb", letters)),
    (r"append (\w+) to (\S+)", lambda steps, letters, path: steps.put(path, "ab", letters)),
    (r"write (\w+) to (\S+)", lambda steps, letters, path: steps.put(path, "r+b", letters)),
    (r"write (\w+) to (\S+) at (\d+)", lambda steps, letters, path, at: steps.put(path, "r+b", letters, int(at))),
    (r"map (\w+) to (\S+) at (\d+)", lambda steps, letters, path, at: steps.map(path, letters, int(at))),
    (r"rewrite (\S+) (\w+)", lambda steps, path, letters: steps.put(path, "wb", letters)),
    (r"empty (\S+)", lambda steps, path: steps.put(path, "wb", "")),
    (r"truncate (\S+) to (\w+)", lambda steps, path, letters: steps.truncate(path, letters)),
    (r"truncate (\S+)", lambda steps, path: steps.truncate(path, "")),
    (r"allocate (\S+) to (\w+)", lambda steps, path, letters: steps.allocate(path, letters)),
    (r"create (\S+)", lambda steps, path: steps.put(path, "xb", "")),
    (r"mkdir (\S+)", lambda steps, path: steps.files.mkdir(path)),
    (r"rmdir (\S+)", lambda steps, path: steps.files.rmdir(path)),
    (r"rename (\S+) (\S+)", lambda steps, old, new: steps.files.rename(old, new)),
    (r"exchange (\S+) (\S+)", lambda steps, one, other: steps.files.exchange(one, other)),
    (r"link (\S+) (\S+)", lambda steps, old, new: steps.files.link(old, new)),
    (r"unlink (\S+)", lambda steps, path: steps.files.unlink(path)),
    (r"fsync (\S+)", lambda steps, path: steps.sync(path)),
    (r"fdatasync (\S+)", lambda steps, path: steps.sync(path, data=True)),
    (r"sync", lambda steps: steps.files.sync()),
)
FORMS = tuple((re.compile(form), act) for form, act in FORMS)


def parted(text, by):
    """The parts of a text, without spaces around them; none of an empty one."""
    return [part.strip() for part in text.split(by)] if text.strip() else []


class Steps:
    """Makes steps on files. A letter is `size` bytes, `0` as many zeros."""

    def __init__(self, files, size):
        self.files, self.size = files, size

    def make(self, text):
        """Makes the calls of a step."""
        for form, act in FORMS:
            found = form.fullmatch(text)
            if found:
                return act(self, *found.groups())
        raise ValueError(f"{text!r} is no step")

    def bytes_of(self, letters):
        return b"".join((b"\0" if letter == "0" else letter.encode()) * self.size for letter in letters)

    def put(self, path, mode, letters, at=0):
        with self.files.open(path, mode) as file:
            if at:
                file.seek(at * self.size)
            if letters:
                file.write(self.bytes_of(letters))

    def truncate(self, path, letters):
        """Truncates a file to as many letters as these are."""
        with self.files.open(path, "r+b") as file:
            file.truncate(self.size * len(letters))

    def allocate(self, path, letters):
        """Allocates as many letters as these are, by fallocate."""
        with self.files.open(path, "r+b") as file:
            file.allocate(self.size * len(letters))

    def map(self, path, letters, at):
        """Writes through a map, and syncs all of it by msync."""
        with self.files.open(path, "r+b") as file:
            file.map_and_write(at * self.size, self.bytes_of(letters))

    def sync(self, path, data=False):
        if self.files.stat(path).kind == "directory":
            return self.files.fsync_directory(path)
        with self.files.open(path, "rb") as file:
            return self.files.fdatasync(file) if data else self.files.fsync(file)

    def look(self, path):
        """What is found of a file, in letters."""
        if not self.files.exists(path):
            return "none"
        with self.files.open(path, "rb") as file:
            return self.letters_of(file.read()) or "empty"

    def letters_of(self, content):
        parts = [content[at : at + self.size] for at in range(0, len(content), self.size)]
        assert all(part == part[:1] * self.size for part in parts), "a letter is torn"
        return "".join("0" if part[:1] == b"\0" else chr(part[0]) for part in parts)
