"""`blobcrash diagnose` of the findings of docs/FOUND.md that have records in tests/diagnosed: the sync that each program is known to lack is
named. The checks are in tests/diagnosed/check.py, so that the programs aren't needed. diagnose.sh runs it. The last line is
`N passed, M failed`. With the name of a test only that one is run."""

import os
import sys

from diagnose import Diagnosed
from passing import run_tests

DIAGNOSED = os.path.join(os.path.dirname(os.path.abspath(__file__)), "diagnosed")
with open(os.path.join(DIAGNOSED, "check.py"), encoding="utf-8") as source:
    CHECK = source.read()


def diagnosed(record, check=None, *options, profile="posix"):
    with open(os.path.join(DIAGNOSED, f"{record}.script"), encoding="utf-8") as file:
        script = file.read().replace("\nprofile posix\n", f"\nprofile {profile}\n")
    return Diagnosed(script, CHECK, "--whole", "--limit", "40", "--jobs", "2", *options, python=[check or record])


def lacks(found, *syncs):
    """Asserts that these syncs are missing, each before the acknowledgement."""
    assert {cause["class"] for cause in found.causes} == {"acknowledged before durable"}, found.causes
    assert found.counts["unfixed"] == 0 and sorted(sync["sync"] for sync in found.counts["syncs"]) == sorted(syncs), found.counts
    first = next(number for number, line in enumerate(found.lines, 1) if line.startswith("# acknowledged "))
    assert {sync["before"] for sync in found.counts["syncs"]} == {first}, found.counts


def is_no_loss(found, call):
    """Asserts that the check fails after this call already without a loss: no sync helps."""
    assert [(cause["class"], cause["at"]["call"]) for cause in found.causes] == [("no loss", call)], found.causes


def test_initdb():
    """It syncs the cluster, and not the folder that the cluster is in."""
    lacks(diagnosed("initdb"), "fsyncdir /")


def test_a_start_of_postgresql():
    """The lock file is empty between its creation and its sync. A server that is killed there leaves it too."""
    is_no_loss(diagnosed("postgres_start"), "create /cluster/postmaster.pid")


def test_redis_new():
    """It makes `appendonlydir`, and never syncs the folder above it."""
    lacks(diagnosed("redis_new"), "fsyncdir /")


def test_redis_zeros():
    """On ext4 a crash may keep the size of an append and lose its bytes, so that the log ends with zeros. On XFS it doesn't."""
    found, log = diagnosed("redis_new", "redis_zeros", profile="ext4"), "/appendonlydir/appendonly.aof.1.incr.aof"
    for number, written in enumerate(("0..54", "54..85")):
        found.is_cause(number, "torn", [f"write {written} of {log}"], f"write {written} of {log}")
    assert len(found.causes) == found.counts["unfixed"] == 2, found.causes
    assert diagnosed("redis_new", "redis_zeros", profile="xfs").causes == []


def test_redis_truncation():
    """It truncates a torn log, and a manifest with the next log is durable before that is synced."""
    found = diagnosed("redis_truncation")
    log, manifest = "/appendonlydir/appendonly.aof.1.incr.aof", "/appendonlydir/appendonly.aof.manifest"
    renamed = f"rename /appendonlydir/temp-appendonly.aof.manifest -> {manifest}"
    found.is_cause(0, "order", [f"truncate {log} 60"], renamed, f"fsync {log}")
    assert {cause["at"]["call"] for cause in found.causes} == {renamed} and found.counts["unfixed"] == 0, found.causes


def test_lmdb_new():
    """It never syncs its folder. The driver doesn't sync the one above it."""
    lacks(diagnosed("lmdb_new"), "fsyncdir /", "fsyncdir /store")


def test_etcd_new():
    """It doesn't sync the folders in which it makes its data folder, `member` and the first log."""
    lacks(diagnosed("etcd_new"), "fsyncdir /", "fsyncdir /data", "fsyncdir /data/member/wal")


def test_a_start_of_etcd():
    """Its log is durable before the first entry, which names the members. A server that is killed there leaves it too."""
    is_no_loss(diagnosed("etcd_new", "etcd_start"), "rename /data/member/wal.tmp -> /data/member/wal")


def test_git():
    """At `core.fsync=all` it syncs files before it renames or links them, and never a folder. On ext4 the sync of the next new file makes the
    names of the objects durable, and the branch is renamed last. No earlier crash can fail, since all of the first commit is durable."""
    git, branch = "/r/.git", "rename /r/.git/refs/heads/main.lock -> /r/.git/refs/heads/main"
    last = ["--from", "186"]  # the sync before that rename
    lacks(diagnosed("git_fsync", None, *last, profile="ext4"), f"fsyncdir {git}/refs/heads")
    found = diagnosed("git_fsync", None, *last)
    found.is_cause(0, "order", [f"mkdir {git}/objects/{folder}" for folder in ("61", "36", "8c")], branch, f"fsyncdir {git}/objects")
    for number, folder in enumerate(("61", "36", "8c"), 1):
        cause = found.causes[number]
        assert cause["class"] == "order" and [loss["call"].split()[0] for loss in cause["lost"]] == ["link"], cause
        assert cause["syncs"] == [{"sync": f"fsyncdir {git}/objects/{folder}", "before": cause["at"]["line"]}], cause
    head = "8cc7989a4328bdb5866fe8d6add289b601036926"
    found.is_cause(4, "acknowledged before durable", [branch], f"acknowledged {head}", f"fsyncdir {git}/refs/heads")
    assert len(found.causes) == 5 and found.counts["unfixed"] == 0, found.causes


def test_leveldb():
    """At an open it removes the old log and manifest, and the folder isn't synced after the rename of CURRENT, nor after a log was made."""
    current, renamed = diagnosed("leveldb", "leveldb_current"), "rename /store/000004.dbtmp -> /store/CURRENT"
    current.only("order", [renamed], "unlink /store/MANIFEST-000002", "fsyncdir /store")
    keys = diagnosed("leveldb", "leveldb_keys")
    keys.is_cause(0, "order", [renamed], "unlink /store/000003.log", "fsyncdir /store")
    keys.is_cause(1, "acknowledged before durable", ["create /store/000007.log"], "acknowledged last", "fsyncdir /store")
    assert len(keys.causes) == 2 and keys.counts["unfixed"] == 0 and len(keys.counts["syncs"]) == 2, keys.causes


if __name__ == "__main__":
    sys.exit(run_tests(globals(), sys.argv[1:]))
