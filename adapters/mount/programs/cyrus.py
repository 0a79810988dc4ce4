#!/usr/bin/env python3
"""Databases of the Cyrus IMAP server, by its cyr_dbtool: cyrus.py prepare|work|check twoskip|skiplist. A key is an operation."""

import os

from driver import DAMAGED, KEYS, MOUNT, SCRATCH, judge, main, pairs, run, value, work

TOOL, CONFIG, DATABASE = "/usr/lib/cyrus/bin/cyr_dbtool", os.path.join(SCRATCH, "imapd.conf"), f"{MOUNT}/database"


def tool(kind, *words):
    """Runs an action."""
    with open(CONFIG, "w", encoding="ascii") as file:
        file.write(f"configdirectory: {SCRATCH}\ndefaultpartition: p\npartition-p: {SCRATCH}\ncyrus_user: root\n")
    return run(TOOL, "-n", "-C", CONFIG, DATABASE, kind, *words, stderr=None)


def check(kind):
    """The database is whole, and has the acknowledged keys."""
    said = tool(kind, "show")
    if said is None or tool(kind, "consistent") is None:
        return DAMAGED
    found = pairs([line.replace("\t", "|", 1) for line in said.splitlines()])
    return DAMAGED if found is None else judge(found)


if __name__ == "__main__":
    main({"prepare": lambda kind: tool(kind, "set", "0", value(0)) is None, "check": check,
          "work": lambda kind: work(lambda number: tool(kind, "set", str(number % KEYS), value(number)) is not None, 60)})
