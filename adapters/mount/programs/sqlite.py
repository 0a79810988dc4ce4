#!/usr/bin/env python3
"""SQLite's shell: sqlite.py prepare|work|check JOURNAL_MODE SYNCHRONOUS."""

from driver import DAMAGED, KEYS, MOUNT, Shell, judge, main, pairs, value, work

DATABASE = f"{MOUNT}/database"


def shell(mode, level):
    """Opens the database."""
    opened = Shell(["sqlite3", "-batch", DATABASE], "select '#end';")
    opened.ask(f"pragma journal_mode={mode}; pragma synchronous={level}; pragma cache_size=20; pragma wal_autocheckpoint=20;")
    return opened


def prepare(mode, level):
    """Makes a table."""
    made = shell(mode, level).ask("create table t(k integer primary key, v text); create index i on t(v);")
    return 0 if made == [] else 1


def make_rows(mode, level):
    """A transaction an operation."""
    opened = shell(mode, level)
    put = "begin; insert or replace into t values({}, '{}'); commit; select changes();"
    return work(lambda number: opened.ask(put.format(number % KEYS, value(number))) == ["1"])


def check(mode, level):
    """The database is whole, and has the acknowledged rows."""
    opened = shell(mode, level)
    said = opened.ask("pragma integrity_check;")
    if said != ["ok"]:
        print("integrity_check:", said)
        return DAMAGED
    found = pairs(opened.ask("select k, v from t;") or [])
    return DAMAGED if found is None else judge(found)


if __name__ == "__main__":
    main({"prepare": prepare, "work": make_rows, "check": check})
