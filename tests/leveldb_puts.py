"""Puts keys into a LevelDB by its library, each synced, and checks that those that were acknowledged can be read. The record
tests/diagnosed/leveldb.script was made with it; diagnose_mount.py runs the check.

    leveldb_puts.py put FOLDER KEY ..   puts the keys, and appends each to $ACKNOWLEDGED once it is synced
    leveldb_puts.py check FOLDER        exits with 1 if the database doesn't open, or lacks an acknowledged key

The key `many` is the last one of many in one batch. They fill the table in memory, so that the next key is in another log.
"""

import ctypes
import os
import sys

# LevelDB begins a log after 64 KB in memory, of which a key takes some 50 bytes and in the log nine.
MANY = [f"{number:04}" for number in range(1500)] + ["many"]


class Database:
    """An open database."""

    def __init__(self, folder):
        self._library = ctypes.CDLL("libleveldb.so")
        options = self._made("options_create")
        self._library.leveldb_options_set_create_if_missing(options, ctypes.c_ubyte(1))
        self._library.leveldb_options_set_write_buffer_size(options, ctypes.c_size_t(1 << 16))
        self._database = self._made("open", options, folder.encode(), self._error())
        self._raise()

    def put(self, keys):
        """Puts keys, in one batch, each as its own value."""
        options, batch = self._made("writeoptions_create"), self._made("writebatch_create")
        self._library.leveldb_writeoptions_set_sync(options, ctypes.c_ubyte(1))
        for key in keys:
            length = ctypes.c_size_t(len(key))
            self._library.leveldb_writebatch_put(batch, key.encode(), length, key.encode(), length)
        self._library.leveldb_write(self._database, options, batch, self._error())
        self._raise()

    def has(self, key):
        length = ctypes.c_size_t()
        options = self._made("readoptions_create")
        found = self._made("get", self._database, options, key.encode(), ctypes.c_size_t(len(key)), ctypes.byref(length), self._error())
        self._raise()
        return bool(found) and ctypes.string_at(found, length.value) == key.encode()

    def _made(self, name, *arguments):
        function = getattr(self._library, f"leveldb_{name}")
        function.restype = ctypes.c_void_p
        return ctypes.c_void_p(function(*arguments))

    def _error(self):
        self._said = ctypes.c_char_p()
        return ctypes.byref(self._said)

    def _raise(self):
        if self._said.value:
            raise OSError(self._said.value.decode())


def main(word, folder, *keys):
    acknowledged = os.environ["ACKNOWLEDGED"]
    try:
        database = Database(folder)
        if word == "check":
            with open(acknowledged, encoding="ascii") as file:
                return int(not all(database.has(key) for key in file.read().split()))
        for key in keys:
            database.put(MANY if key == "many" else [key])
            with open(acknowledged, "a", encoding="ascii") as file:
                file.write(f"{key}\n")
        return 0
    except OSError as error:
        print(error)
        return 1


if __name__ == "__main__":
    sys.exit(main(*sys.argv[1:]))
