"""Shows a fault of SQLite itself, without the layer: a commit in WAL mode at synchronous=FULL that recovery doesn't find.

    sqlite_savepoint.py [LIVES]    300 by default

Each life commits one transaction: it changes rows until the page cache spills into the log, rolls back to a savepoint, and
changes rows again. Then the two files are copied, which is what the end of the process at this moment leaves. If the copy is
older than the commit, the frames of the log that have neither salt nor checksum are printed: recovery stops at the first.
"""

import os
import random
import shutil
import sqlite3
import sys
import tempfile

PAGE, WAL_HEADER, FRAME_HEADER, ROWS = 1024, 32, 24, 100


def random_bytes(draws):
    return draws.getrandbits(8 * 300).to_bytes(300, "little")


def update(db, draws, count):
    for _ in range(count):
        db.execute("UPDATE t SET v = ? WHERE id = ?", (random_bytes(draws), draws.randrange(ROWS)))


def create(path, draws):
    db = sqlite3.connect(path, isolation_level=None)
    for pragma in (f"page_size={PAGE}", "journal_mode=WAL", "synchronous=FULL", "cache_size=5", "wal_autocheckpoint=0"):
        db.execute(f"PRAGMA {pragma}")
    db.execute("CREATE TABLE t(id INTEGER PRIMARY KEY, v BLOB)")
    db.execute("CREATE TABLE done(n)")
    db.execute("INSERT INTO done VALUES(0)")
    db.execute("BEGIN")
    db.executemany("INSERT INTO t VALUES(?, ?)", [(i, random_bytes(draws)) for i in range(ROWS)])
    db.execute("COMMIT")
    return db


def transact(db, draws):
    db.execute("BEGIN")
    db.execute("UPDATE done SET n = 1")
    update(db, draws, draws.randrange(40))
    db.execute("SAVEPOINT s")
    update(db, draws, draws.randrange(60))
    db.execute("ROLLBACK TO s")
    db.execute("RELEASE s")
    update(db, draws, draws.randrange(40))
    db.execute("COMMIT")


def is_done(path):
    db = sqlite3.connect(path)
    (n,) = db.execute("SELECT n FROM done").fetchone()
    db.close()
    return n == 1


def unsummed_frames(path):
    """Returns the numbers, from 1, of the frames with a salt and checksum of zero, and how many frames the log has."""
    with open(path, "rb") as file:
        log = file.read()[WAL_HEADER:]
    size = FRAME_HEADER + PAGE
    frames = [log[at : at + size] for at in range(0, len(log), size)]
    return [i + 1 for i, frame in enumerate(frames) if frame[8:FRAME_HEADER] == bytes(16)], len(frames)


def live(seed, folder):
    """Returns a line about the lost commit, or None if it is found."""
    draws = random.Random(seed)
    path, copy = os.path.join(folder, f"{seed}.db"), os.path.join(folder, f"{seed}.copy.db")
    db = create(path, draws)
    transact(db, draws)
    assert db.execute("SELECT n FROM done").fetchone() == (1,)
    for end in ("", "-wal"):
        shutil.copy(path + end, copy + end)
    unsummed, count = unsummed_frames(copy + "-wal")
    is_found = is_done(copy)
    db.close()
    return None if is_found else f"life {seed}: the commit is lost. Without a checksum, of {count} frames: {unsummed}"


def main():
    lives = int(sys.argv[1]) if len(sys.argv) > 1 else 300
    with tempfile.TemporaryDirectory() as folder:
        lost = [line for line in (live(seed, folder) for seed in range(lives)) if line]
    for line in lost[:3]:
        print(line)
    print(f"SQLite {sqlite3.sqlite_version}: {len(lost)} of {lives} lives lose an acknowledged commit")


if __name__ == "__main__":
    main()
