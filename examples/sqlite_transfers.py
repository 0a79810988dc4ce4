"""Crashes an application's own transactions on SQLite: transfers between ten accounts, over 100 seeds.

    sqlite_transfers.py [PRAGMA ..]    for each connection; `synchronous=EXTRA` without one. `synchronous=FULL` loses a transfer
"""

import os
import random
import sqlite3
import sys

OUT = os.path.join(os.path.dirname(os.path.abspath(__file__)), "..", "out", "sqlite")
control = sqlite3.connect(":memory:")
control.enable_load_extension(True)
control.load_extension(os.environ.get("BLOBCRASH_SQLITE", os.path.join(OUT, "blobcrash.so")))


def connect(seed):
    db = sqlite3.connect(f"file:bank.db?vfs=blobcrash&seed={seed}&tear=sectors512", uri=True, isolation_level=None)
    for pragma in sys.argv[1:] or ["synchronous=EXTRA"]:
        db.execute(f"PRAGMA {pragma}")
    return db


def transfer(db, source, target):
    db.execute("BEGIN")
    db.execute("UPDATE accounts SET balance = balance - 1 WHERE id = ?", (source,))
    db.execute("UPDATE accounts SET balance = balance + 1, transfers = transfers + 1 WHERE id = ?", (target,))
    db.execute("COMMIT")


def live(seed):
    db, draws, done = connect(seed), random.Random(seed), 0
    db.execute("CREATE TABLE accounts(id INTEGER PRIMARY KEY, balance INT, transfers INT)")
    db.executemany("INSERT INTO accounts VALUES(?, 100, 0)", [(i,) for i in range(10)])
    control.execute("SELECT blobcrash_power_off(?)", (draws.randrange(200),))
    try:
        while True:
            transfer(db, *draws.sample(range(10), 2))
            done += 1
    except sqlite3.OperationalError:
        db.close()
    control.execute("SELECT blobcrash_crash()")
    db = connect(seed)
    found = db.execute("SELECT sum(balance), sum(transfers) FROM accounts").fetchone()
    db.close()
    assert found in ((1000, done), (1000, done + 1)), f"seed {seed}: {done} transfers, found {found}"
    return done


print(sum(map(live, range(100))), "transfers in 100 lives, none was lost")
