"""Programs as lines of a script of files (docs/FORMATS.md)."""

from types import SimpleNamespace


class Entry:
    """A file: how long it is. A directory has no length."""

    def __init__(self, length):
        self.length = length


class Open:
    """An open file of a Script."""

    def __init__(self, script, path, mode):
        self.script, self.entry = script, script.found[path]
        self.at = self.entry.length if mode == "ab" else 0
        # A file that exists and isn't truncated is named by its path. A call then takes a descriptor for itself.
        self.name = script.absolute(path)
        self.number = None
        if mode in ("xb", "wb"):
            self.number = script.take()
            script.add(f"{'create' if mode == 'xb' else 'open_truncated'} {self.name}")

    def __enter__(self):
        return self

    def __exit__(self, *_):
        if self.number is not None:
            self.script.add(f"close {self.number}")

    def call(self, word, rest):
        if self.number is None:
            self.script.take()
        self.script.add(f"{word} {self.name if self.number is None else self.number} {rest}".strip())

    def write(self, data):
        if self.at + len(data) > self.entry.length:
            self.script.grows[len(self.script.lines)] = self.entry.length
        self.call("write", f"{self.at} {data.hex()}")
        self.at += len(data)
        self.entry.length = max(self.entry.length, self.at)

    def seek(self, offset):
        self.at = offset

    def truncate(self, size):
        self.call("truncate", size)
        self.entry.length = size

    def allocate(self, size):
        if size > self.entry.length:
            self.truncate(size)

    def map_and_write(self, offset, data):
        self.seek(offset)
        self.write(data)
        self.call("fdatasync", "")

    def write_back(self, start, end):
        """Background writeback is in no program."""


class Script:
    """The calls on the files of a folder, as lines of a script of files. Follows which paths there are, and how long files are."""

    def __init__(self):
        self.lines, self.found, self.descriptors = [], {"/": Entry(None), ".": Entry(None)}, 0
        # The numbers of the lines that make a file longer, with its length before, and of those that rename over a name.
        self.grows, self.replaces = {}, set()
        # The descriptor of a file of another program, which has no name.
        self.other = None

    def add(self, line):
        self.lines.append(line)

    def take(self):
        self.descriptors += 1
        return self.descriptors - 1

    def settle(self):
        """Makes all durable."""
        self.add("settle")

    def make_other(self):
        self.other = self.take()
        self.add("create /other")
        self.add("unlink /other")

    def sync_other(self):
        self.add(f"fsync {self.other}")

    @staticmethod
    def absolute(path):
        return "/" + path.strip("/.")

    def open(self, path, mode):
        if mode == "xb":
            self.take_path(path)
            self.found[path] = Entry(0)
        if self.found[path].length is None:
            raise IsADirectoryError(path)
        opened = Open(self, path, mode)
        if mode == "wb":
            opened.entry.length = 0
        return opened

    def stat(self, path):
        return SimpleNamespace(kind="directory" if self.found[path].length is None else "file")

    def fsync(self, file):
        file.call("fsync", "")

    def fdatasync(self, file):
        file.call("fdatasync", "")

    def fsync_directory(self, path):
        self.add(f"fsyncdir {self.absolute(path)}")

    def take_path(self, path):
        """Refuses a path that is taken, or has no folder."""
        if path in self.found:
            raise FileExistsError(path)
        folder = path.rpartition("/")[0]
        if folder and self.found[folder].length is not None:
            raise NotADirectoryError(folder)

    def mkdir(self, path):
        self.take_path(path)
        self.found[path] = Entry(None)
        self.add(f"mkdir {self.absolute(path)}")

    def rmdir(self, path):
        if any(other.startswith(path + "/") for other in self.found) or self.found[path].length is not None:
            raise OSError(path)
        del self.found[path]
        self.add(f"rmdir {self.absolute(path)}")

    def move(self, old, new):
        """Takes a path and all below it to another one."""
        for path in [path for path in self.found if path == old or path.startswith(old + "/")]:
            self.found[new + path[len(old) :]] = self.found.pop(path)

    def rename(self, old, new):
        taken = self.found.get(new)
        if taken is not None and (taken.length is None or self.found[old].length is None):
            raise IsADirectoryError(new)
        if taken is None:
            self.take_path(new)
        if taken is not self.found[old]:
            self.found.pop(new, None)
            self.move(old, new)
            if taken is not None:
                self.replaces.add(len(self.lines))
        self.add(f"rename {self.absolute(old)} {self.absolute(new)}")

    def exchange(self, one, other):
        self.move(one, "//")
        self.move(other, one)
        self.move("//", other)
        self.add(f"rename {self.absolute(one)} {self.absolute(other)} exchange")

    def link(self, old, new):
        self.take_path(new)
        self.found[new] = self.found[old]
        self.add(f"link {self.absolute(old)} {self.absolute(new)}")

    def unlink(self, path):
        if self.found[path].length is None:
            raise IsADirectoryError(path)
        del self.found[path]
        self.add(f"unlink {self.absolute(path)}")

    def sync(self):
        self.add("sync")


def tree_of(line):
    """A state, as the program prints it after `tree`, with letters."""
    paths = []
    for word in line.split()[1:]:
        name, _, content = word[1:].partition("=")
        if "=" not in word:
            paths.append(name)
            continue
        letters = "" if content == "-" else bytes.fromhex(content).decode("latin-1").replace("\0", "0")
        paths.append(f"{name}={letters}")
    return " ".join(sorted(paths))
