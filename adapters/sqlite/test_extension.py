"""Tests of the loadable extension, from Python. BLOBCRASH_SQLITE names the extension."""

import os
import sqlite3
import threading
import unittest

HERE = os.path.dirname(os.path.abspath(__file__))
EXTENSION = os.environ.get("BLOBCRASH_SQLITE", os.path.join(HERE, "..", "..", "out", "sqlite", "blobcrash.so"))


def load():
    control = sqlite3.connect(":memory:", isolation_level=None)
    control.enable_load_extension(True)
    control.load_extension(EXTENSION)
    return control


class ExtensionTest(unittest.TestCase):
    def setUp(self):
        self.open = []
        self.control = load()
        self.call("blobcrash_reset()")

    def tearDown(self):
        for db in self.open:
            db.close()
        self.call("blobcrash_reset()")
        self.control.close()

    def call(self, expression, *arguments):
        return self.control.execute(f"SELECT {expression}", arguments).fetchone()[0]

    def connect(self, parameters="", name="a.db"):
        db = sqlite3.connect(f"file:{name}?vfs=blobcrash{parameters}", uri=True, isolation_level=None)
        self.open.append(db)
        return db

    def refused(self, parameters, message):
        with self.assertRaises(sqlite3.OperationalError):
            self.connect(parameters)
        self.assertEqual(self.call("blobcrash_message()"), message)

    def rows(self, db):
        return [row[0] for row in db.execute("SELECT v FROM t ORDER BY v")]

    def test_a_committed_row_survives_and_one_in_a_transaction_does_not(self):
        db = self.connect("&seed=7&tear=sectors512")
        db.execute("CREATE TABLE t(v)")
        db.execute("INSERT INTO t VALUES(1)")
        db.execute("BEGIN")
        db.execute("INSERT INTO t VALUES(2)")
        self.call("blobcrash_crash()")
        db.close()
        self.assertEqual(self.rows(self.connect("&seed=7")), [1])

    def test_a_database_that_is_open_in_a_crash_fails_until_it_is_opened_again(self):
        db = self.connect()
        db.execute("CREATE TABLE t(v)")
        self.call("blobcrash_crash()")
        with self.assertRaises(sqlite3.OperationalError):
            self.rows(db)
        self.assertEqual(self.rows(self.connect()), [])

    def test_a_write_ahead_log(self):
        db = self.connect("&tear=all")
        self.assertEqual(db.execute("PRAGMA journal_mode=WAL").fetchone()[0], "wal")
        db.execute("PRAGMA synchronous=FULL")
        db.execute("CREATE TABLE t(v)")
        db.execute("INSERT INTO t VALUES(1)")
        self.call("blobcrash_crash()")
        db.close()
        self.assertEqual(self.rows(self.connect()), [1])

    def test_a_write_ahead_log_in_exclusive_mode(self):
        db = self.connect()
        db.execute("PRAGMA locking_mode=EXCLUSIVE")
        self.assertEqual(db.execute("PRAGMA journal_mode=WAL").fetchone()[0], "wal")

    def test_two_connections_share_a_write_ahead_log(self):
        one, two = self.connect(), self.connect()
        one.execute("PRAGMA journal_mode=WAL")
        one.execute("CREATE TABLE t(v)")
        two.execute("INSERT INTO t VALUES(1)")
        self.assertEqual(self.rows(one), [1])

    def test_the_crash_says_how_many_bytes_it_lost(self):
        db = self.connect("&tear=bytes&keep=1/1000000000")
        db.execute("PRAGMA synchronous=OFF")
        db.execute("CREATE TABLE t(v)")
        # The two pages of 4,096 bytes were written without a sync.
        self.assertGreater(self.call("blobcrash_crash()"), 8000)

    def test_the_same_seed_crashes_the_same(self):
        def life(seed):
            self.call("blobcrash_reset()")
            db = self.connect(f"&seed={seed}&tear=bytes&keep=1/2")
            db.execute("PRAGMA synchronous=OFF")
            db.execute("PRAGMA journal_mode=MEMORY")
            db.execute("CREATE TABLE t(v)")
            lost = self.call("blobcrash_crash()")
            db.close()
            return lost

        self.assertEqual(life(3), life(3))
        self.assertNotEqual([life(3), life(3)], [life(4), life(5)])

    def test_another_seed_is_another_store(self):
        db = self.connect("&seed=1")
        db.execute("CREATE TABLE t(v)")
        self.refused("&seed=2", "1 files are open")
        db.close()
        self.assertEqual(self.connect("&seed=2").execute("SELECT * FROM sqlite_master").fetchall(), [])

    def test_the_power_goes_off(self):
        db = self.connect()
        db.execute("CREATE TABLE t(v)")
        before = self.call("blobcrash_changes()")
        db.execute("INSERT INTO t VALUES(1)")
        changes = self.call("blobcrash_changes()") - before
        self.call("blobcrash_power_off(?)", changes)
        db.execute("INSERT INTO t VALUES(2)")
        with self.assertRaises(sqlite3.OperationalError):
            db.execute("INSERT INTO t VALUES(3)")
        db.close()
        self.call("blobcrash_crash()")
        self.assertEqual(self.rows(self.connect()), [1, 2])

    def test_the_power_goes_off_by_a_parameter(self):
        db = self.connect("&power_off=5")
        with self.assertRaises(sqlite3.OperationalError):
            db.execute("CREATE TABLE t(v)")

    def test_faults_by_parameters(self):
        for call in ("sync", "write", "resize"):
            self.call("blobcrash_reset()")
            db = self.connect(f"&fail_{call}=1/1")
            if call == "resize":
                db.execute("PRAGMA journal_mode=TRUNCATE")
            with self.assertRaises(sqlite3.OperationalError, msg=call) as raised:
                db.execute("CREATE TABLE t(v)")
            self.assertIn("disk I/O error", str(raised.exception))
            db.close()
        self.call("blobcrash_reset()")
        self.refused("&fail_open=1/1", "an injected fault")

    def test_the_sector_and_the_device(self):
        db = self.connect("&sector=512&device=0")
        db.execute("CREATE TABLE t(v)")
        db.execute("PRAGMA journal_mode=PERSIST")
        db.execute("INSERT INTO t VALUES(1)")
        self.assertEqual(self.rows(db), [1])

    def test_parameters_that_are_refused(self):
        for parameter in (
            "taer=none", "tear=", "tear=half", "tear=sectors", "tear=sectors0", "tear=sectors-1",
            "tear=sectors18446744073709551616", "keep=1", "keep=2/1", "keep=1/0", "keep=-1/2", "keep=1/2 ", "keep=/", "partial=x",
            "seed=", "seed=-1", "seed=18446744073709551616", "seed=7x", "power_off=-1", "power_off=9223372036854775808",
            "sector=0", "sector=513", "sector=131072", "device=x", "device=4294967296", "profile=", "profile=zfs", "syncs=no",
            "failed_sync=drop", "failed_write=x", "edits=none", "keep_names=2/1", "keep_names=none", "directory=lags", "fail_scan=1/2", "resizes=survive", "fail_=1/2", "fail_sync=1", "fail_sync=1/1/1", "fail_size=1/2", "seed=1%0acrash",
        ):  # fmt: skip
            self.refused("&" + parameter, "not a parameter: " + parameter.replace("%0a", "\n"))
        self.refused("&seed=1&seed=2", "the parameter seed is given twice")
        # None of them has started a store.
        with self.assertRaises(sqlite3.Error):
            self.call("blobcrash_crash()")

    def last_transaction(self, parameters, synchronous):
        """Commits one transaction, crashes, and returns whether it is found."""
        self.call("blobcrash_reset()")
        db = self.connect(parameters)
        db.execute("CREATE TABLE t(v)")
        self.call("blobcrash_settle()")
        db.execute(f"PRAGMA synchronous={synchronous}")
        db.execute("INSERT INTO t VALUES(1)")
        self.call("blobcrash_crash()")
        db.close()
        db = self.connect()
        found = self.rows(db)
        db.close()
        return found == [1]

    def test_the_directory_isn_t_synced_at_full(self):
        for profile in ("ext4", "xfs", "btrfs", "posix"):
            lost = f"&profile={profile}&keep_names=0/1"
            self.assertFalse(self.last_transaction(lost, "FULL"), profile)
            self.assertTrue(self.last_transaction(lost, "EXTRA"), profile)
            self.assertTrue(self.last_transaction(f"&profile={profile}&keep_names=1/1", "FULL"), profile)

    def test_syncs_that_lie(self):
        db = self.connect("&syncs=lie")
        db.execute("CREATE TABLE t(v)")
        self.call("blobcrash_crash()")
        db.close()
        self.assertEqual(self.connect("&syncs=honest").execute("SELECT * FROM sqlite_master").fetchall(), [])

    def test_a_database_in_a_directory(self):
        db = self.connect(name="/home/me/a.db")
        db.execute("PRAGMA synchronous=EXTRA")
        db.execute("CREATE TABLE t(v)")
        self.call("blobcrash_crash()")
        self.assertEqual(self.rows(self.connect(name="/home/me/a.db")), [])

    def test_arguments_that_are_refused(self):
        self.connect()
        for expression in (
            "blobcrash_set('config sync 2 1')", "blobcrash_set('config sync 0 1' || char(10) || 'syncs lie')",
            "blobcrash_set('config sync 0 1' || char(0) || 'x')", "blobcrash_set(NULL)", "blobcrash_set('')", "blobcrash_set('seed 1')",
            "blobcrash_power_off('x')", "blobcrash_power_off(NULL)", "blobcrash_power_off(1.5)", "blobcrash_reset()",
        ):  # fmt: skip
            with self.assertRaises(sqlite3.Error, msg=expression):
                self.call(expression)

    def test_functions_are_not_for_views(self):
        self.control.execute("CREATE VIEW v AS SELECT blobcrash_crash()")
        with self.assertRaises(sqlite3.OperationalError):
            self.control.execute("SELECT * FROM v").fetchone()

    def test_another_thread_is_refused(self):
        self.connect()
        errors = []

        def use():
            control = load()
            for expression in ("blobcrash_crash()", "blobcrash_reset()", "blobcrash_power_off(1)", "blobcrash_set('syncs lie')"):
                try:
                    control.execute(f"SELECT {expression}").fetchone()
                except sqlite3.Error:
                    errors.append(expression)
            control.close()
            try:
                sqlite3.connect("file:b.db?vfs=blobcrash", uri=True)
            except sqlite3.OperationalError:
                errors.append("open")

        thread = threading.Thread(target=use)
        thread.start()
        thread.join()
        self.assertEqual(len(errors), 5)

    def test_the_vfs_stays_when_the_connection_that_loaded_it_is_closed(self):
        control = load()
        control.close()
        db = self.connect()
        db.execute("CREATE TABLE t(v)")
        self.assertEqual(self.rows(db), [])

    def test_a_temporary_table_is_not_in_the_store(self):
        db = self.connect()
        db.execute("CREATE TABLE t(v)")
        before = self.call("blobcrash_changes()")
        db.execute("CREATE TEMP TABLE u(v)")
        db.execute("INSERT INTO u VALUES(1)")
        self.assertEqual(self.call("blobcrash_changes()"), before)


if __name__ == "__main__":
    unittest.main()
