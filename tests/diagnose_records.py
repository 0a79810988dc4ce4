"""`blobcrash diagnose` of records other than those of the mount: of `Files` in Rust, of the failures of `explore` and of the pytest fixture, and of
SQLite's VFS and LevelDB's `Env`. The report of each failure names the command. diagnose.sh runs it.
The last line is `N passed, M failed`. With the name of a test only that one is run."""

import os
import subprocess
import sys
import tempfile

from diagnose import SAVED, Diagnosed, saves
from passing import run_tests

TOP = os.path.dirname(os.path.dirname(os.path.abspath(__file__)))
from blobcrash import Failed, explore

# As `Files::script` in Rust has it, with the calls of `saves`.
RUST = """seed 7
profile posix
config write 0 1 1 2 sectors 4
create /new # is 0
write 0 0 6669727374
fsync 0
close 0
rename /new /settings
fsyncdir /
# acknowledged first
create /new # is 1
write 1 0 7365636f6e64
close 1
rename /new /settings
fsyncdir /
# acknowledged second
"""


def test_rust():
    found = Diagnosed(RUST, SAVED)
    found.only("order", ["write 0..6 of /new"], "rename /new -> /settings", "fsync /new")


def test_explore():
    """The report of a failure names the command. What is told of its script is what the body forgets."""

    def body(files):
        saves("directory")(files)
        files.restart()
        assert files.exists("/settings")
        with files.open("/settings", "rb") as file:
            assert file.read() == b"second"

    try:
        explore(body, profile="posix")
        raise RuntimeError("nothing failed")
    except Failed as failed:
        assert "`blobcrash diagnose FILE -- CHECK` names the missing sync" in str(failed), failed
        found = Diagnosed("\n".join(failed.script) + "\n", SAVED)
    found.only("acknowledged before durable", ["rename /new -> /settings"], "acknowledged second", "fsyncdir /")


FIXTURE = """
import pytest

@pytest.mark.blobcrash_files(seeds=20, profile="posix")
def test_it(blobcrash_files):
    with blobcrash_files.open("/f", "xb") as file:
        file.write(b"x")
        blobcrash_files.fsync(file)
    blobcrash_files.note("acknowledged f")
    blobcrash_files.restart()
    assert blobcrash_files.exists("/f")
"""


def test_pytest():
    with tempfile.TemporaryDirectory() as folder:
        with open(f"{folder}/test_it.py", "w", encoding="utf-8") as file:
            file.write(FIXTURE)
        command = [sys.executable, "-m", "pytest", "-p", "no:cacheprovider", "-p", "blobcrash.pytest_plugin", "-q", "-x", "test_it.py"]
        ran = subprocess.run(command, cwd=folder, stdout=subprocess.PIPE, text=True)
        assert ran.returncode == 1 and "which sync is missing: `blobcrash diagnose SCRIPT -- CHECK`" in ran.stdout, ran.stdout
        name = min(name for name in os.listdir(f"{folder}/blobcrash-scripts") if name.endswith(".script") and ".short." not in name)
        with open(f"{folder}/blobcrash-scripts/{name}", encoding="utf-8") as file:
            found = Diagnosed(file.read(), '[ ! -s "$ACKNOWLEDGED" ] || [ -e "$STATE/f" ]\n')
    found.only("acknowledged before durable", ["create /f"], "acknowledged f", "fsyncdir /")


COMMITS = """.load out/sqlite/blobcrash
attach 'file:bank.db?vfs=blobcrash&tear=sectors512&profile=posix' as bank;
pragma bank.synchronous={level};
create table bank.t(n integer primary key, x);
select blobcrash_settle();
insert into bank.t values(1, 'one');
select blobcrash_note('acknowledged 1');
"""
COMMITTED = """
found=$(sqlite3 "$STATE/bank.db" "pragma integrity_check; select count(*) from sqlite_schema; select n from t" 2>&1 | tr "\\n" " ")
test ! -s "$ACKNOWLEDGED" || test "$found" = "ok 1 1 "
"""


def test_sqlite():
    """A commit through the VFS: at FULL the deletion of the journal isn't durable, which EXTRA syncs."""
    for level in ("full", "extra"):
        with tempfile.TemporaryDirectory() as folder:
            record = {**os.environ, "BLOBCRASH_RECORD": f"{folder}/record"}
            subprocess.run(["sqlite3", ":memory:"], input=COMMITS.format(level=level), cwd=TOP, env=record, stdout=subprocess.PIPE, text=True, check=True)
            with open(f"{folder}/record", encoding="utf-8") as file:
                found = Diagnosed(file.read(), COMMITTED, "--whole")
        if level == "extra":
            assert found.causes == [], found.causes
        else:
            found.only("acknowledged before durable", ["unlink /bank.db-journal"], "acknowledged 1", "fsyncdir /")


def test_leveldb():
    """Batches through the Env: each open removes what the old CURRENT names before the rename of the new one is durable. With a sync of the
    directory after each creation and rename nothing is missing."""
    with tempfile.TemporaryDirectory() as folder:
        for mode, orders in (("sync-posix", 2), ("sync-posix-create-rename", 0)):
            subprocess.run(["sh", f"{TOP}/adapters/leveldb/crash.sh", "--record", f"{folder}/record", mode], stdout=subprocess.DEVNULL, check=True)
            with open(f"{folder}/record", encoding="utf-8") as file:
                check = f'exec "{TOP}/out/leveldb/crash" --check "$STATE" "$ACKNOWLEDGED"\n'
                found = Diagnosed(file.read(), check, "--whole", "--limit", "40")
            assert len(found.causes) == orders, found.causes
            for cause in found.causes:
                (lost,), at = cause["lost"], cause["at"]
                assert cause["class"] == "order" and lost["call"].endswith(".dbtmp -> /d/CURRENT") and at["call"].startswith("unlink /d/"), cause
                assert cause["syncs"] == [{"sync": "fsyncdir /d", "before": at["line"]}], cause


if __name__ == "__main__":
    sys.exit(run_tests(globals(), sys.argv[1:]))
