"""The names of the model of tests/files_model.py: directories, and the edits that change them."""

import os
import sys
from typing import NamedTuple

TOP = os.path.dirname(os.path.dirname(os.path.abspath(__file__)))
sys.path.insert(0, os.path.join(TOP, "bindings", "python"))

from blobcrash.file_calls import Found
from blobcrash.foreign_files import EXCHANGES, IS_DIRECTORY, IS_FILE, REFUSES

ROOT = 1


class Refused(Exception):
    """A call is refused, by the name of the refusal."""


class Edit(NamedTuple):
    """A change of one name or two: what each is bound to, the inodes and the directories that it is about, its number, its rate, and
    whether the log of the syncs has a name that it frees."""

    changes: tuple
    inodes: tuple
    directories: tuple
    number: int
    rate: tuple
    is_followed: bool


class Names:
    """The names, and the calls that change and find them. Files are of a class below."""

    def __init__(self):
        # Each name with what it is bound to, and each directory with the one that has it.
        self.names, self.directories = {}, {ROOT: ROOT}
        self.edits, self.keep = [], (1, 2)
        # The names of edits that syncs settled since the last commit, in a profile whose syncs write a log.
        self.log = {}
        self.next_inode, self.next_edit = ROOT + 1, 0

    def entry_in(self, directory, name):
        if name in (b"", b".", b"..") or b"\0" in name:
            raise Refused("InvalidName")
        if len(name) > 255:
            raise Refused("NameTooLong")
        return directory, name

    def binding_of(self, entry):
        if entry not in self.names:
            raise Refused("NotFound")
        return self.names[entry]

    def directory_of(self, path):
        directory = ROOT
        for name in path.split(b"/"):
            if name:
                inode, kind = self.binding_of(self.entry_in(directory, name))
                if kind == IS_FILE:
                    raise Refused("NotDirectory")
                directory = inode
        return directory

    def place_of(self, path):
        above, _, name = path.rstrip(b"/").rpartition(b"/")
        directory = self.directory_of(above) if name else ROOT
        return self.entry_in(directory, name)

    def bind(self, changes, inodes, directories):
        """Makes an edit. The log follows it if it frees a name that the log has."""
        is_followed = any(binding is None and entry in self.log for entry, binding in changes)
        self.edits.append(Edit(tuple(changes), tuple(inodes), tuple(directories), self.next_edit, self.keep, is_followed))
        if is_followed:
            apply(self.log, changes)
        self.next_edit += 1
        apply(self.names, changes)

    def new(self, path, kind):
        entry = self.place_of(path)
        if entry in self.names:
            raise Refused("Exists")
        inode = self.next_inode
        self.next_inode += 1
        self.bind([(entry, (inode, kind))], [inode], [entry[0]])
        return inode, entry[0]

    def mkdir(self, asked):
        inode, above = self.new(asked.path, IS_DIRECTORY)
        self.directories[inode] = above

    def link(self, asked):
        inode, kind = self.binding_of(self.place_of(asked.path))
        entry = self.place_of(asked.to)
        if kind == IS_DIRECTORY:
            raise Refused("IsDirectory")
        if entry in self.names:
            raise Refused("Exists")
        self.bind([(entry, (inode, kind))], [inode], [entry[0]])

    def unlink(self, asked):
        entry = self.place_of(asked.path)
        inode, kind = self.binding_of(entry)
        if kind == IS_DIRECTORY:
            raise Refused("IsDirectory")
        self.bind([(entry, None)], [inode], [entry[0]])

    def rmdir(self, asked):
        entry = self.place_of(asked.path)
        inode, kind = self.binding_of(entry)
        if kind == IS_FILE:
            raise Refused("NotDirectory")
        self.check_empty(inode)
        self.bind([(entry, None)], [inode], [entry[0]])
        del self.directories[inode]

    def check_empty(self, directory):
        if any(above == directory for above, _ in self.names):
            raise Refused("NotEmpty")

    def check_not_below(self, binding, directory):
        inode, kind = binding
        while kind == IS_DIRECTORY:
            if directory == inode:
                raise Refused("Loop")
            if directory == ROOT:
                break
            directory = self.directories[directory]

    def rename(self, asked):
        old, new = self.place_of(asked.path), self.place_of(asked.to)
        moved, there = self.binding_of(old), self.names.get(new)
        self.check_not_below(moved, new[0])
        if there is None and asked.first == EXCHANGES:
            raise Refused("NotFound")
        if there is not None and asked.first == REFUSES:
            raise Refused("Exists")
        if there == moved:
            return
        if asked.first == EXCHANGES:
            self.check_not_below(there, old[0])
            self.bind([(old, there), (new, moved)], [moved[0], there[0]], [old[0], new[0]])
            self.put_below(there, old[0])
        else:
            if there is not None:
                self.replace(moved, there)
            self.bind([(old, None), (new, moved)], [moved[0]], [old[0], new[0]])
        self.put_below(moved, new[0])

    def replace(self, moved, there):
        """Checks that one file or empty directory may replace another."""
        if moved[1] != there[1]:
            raise Refused("IsDirectory" if there[1] == IS_DIRECTORY else "NotDirectory")
        if there[1] == IS_DIRECTORY:
            self.check_empty(there[0])
            del self.directories[there[0]]
        else:
            self.before_replacing(moved[0])

    def put_below(self, binding, directory):
        if binding[1] == IS_DIRECTORY:
            self.directories[binding[0]] = directory

    def listdir(self, asked):
        directory = self.directory_of(asked.path)
        return sorted(name for above, name in self.names if above == directory)

    def find(self, asked):
        inode, kind = self.binding_of(self.place_of(asked.path))
        return Found(kind, inode, 0)


def apply(names, changes):
    """Makes the changes of an edit."""
    for entry, binding in changes:
        if binding is None:
            names.pop(entry, None)
        else:
            names[entry] = binding
