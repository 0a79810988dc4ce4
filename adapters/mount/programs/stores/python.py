"""Modules of Python: dbm.dumb and shelve, synced for each key, and sqlite3 with a transaction for each. The words are those of stores.c."""

import dbm.dumb
import shelve
import sqlite3
import sys

kind, path, command, *rest = sys.argv[1:]


class Table(sqlite3.Connection):
    """A table as a mapping of keys."""

    def __init__(self, name):
        super().__init__(name)
        self.execute("create table if not exists t(k text primary key, v text)")

    def __setitem__(self, key, text):
        with self:
            self.execute("insert or replace into t values(?, ?)", (key, text))

    def items(self):
        """Returns all keys with their values."""
        return self.execute("select k, v from t").fetchall()


opened = {"python-dumb": dbm.dumb.open, "python-shelve": lambda name: shelve.Shelf(dbm.dumb.open(name)), "python-sqlite3": Table}[kind](path)
if command == "work":
    with open(rest[2], "a", encoding="ascii") as file:
        for number in range(1, int(rest[0]) + 1):
            opened[str(number % int(rest[1]))] = f"{number}:{chr(97 + number % 26) * (number * 37 % 900)}"
            if hasattr(opened, "sync"):
                opened.sync()
            file.write(f"{number}\n")
            file.flush()
if command == "list":
    for name, got in opened.items():
        print(*(part.decode() if isinstance(part, bytes) else part for part in (name, got)), sep="|")
    print("end")
opened.close()
