"""
Tests of the drivers of programs: mount_drivers.py [TEST ..]. How they judge what a crash left, the table of programs, and the syncs that
syncs.c adds. The last line is `N passed, M failed`.
"""

import contextlib
import io
import os
import subprocess
import sys
import tempfile

sys.dont_write_bytecode = True
from mount_calls import TOP, check, run_tests  # noqa: E402

FOLDER = tempfile.TemporaryDirectory()  # removed at the end
PROGRAMS = os.path.join(TOP, "adapters", "mount", "programs")
os.environ.update(MOUNT=FOLDER.name, ACKNOWLEDGED=f"{FOLDER.name}/acknowledged")
sys.path.insert(0, PROGRAMS)
import driver  # noqa: E402

HELD, LOST, DAMAGED = 0, 1, 2


def acknowledge(last):
    """Notes the operations up to one."""
    with open(os.environ["ACKNOWLEDGED"], "w", encoding="ascii") as file:
        file.write("".join(f"{number}\n" for number in range(1, last + 1)))


def silently(judge, found):
    """Returns what a function returns, without what it prints."""
    with contextlib.redirect_stdout(io.StringIO()):
        return judge(found)


def test_judge():
    """A key may have its last acknowledged value, or that of the operation under way, and no other. By hand: 3 operations, key 1 is
    operation 1, and the letters of operation 1 are 37 b."""
    acknowledge(3)
    first, all_three = {1: "1:" + "b" * 37}, {number: driver.value(number) for number in (1, 2, 3)}
    check("a value", driver.value(1) == first[1])
    for name, found, wanted in (("all", all_three, HELD), ("one more", {**all_three, 4: driver.value(4)}, HELD), ("two are missing", first, LOST),
                                ("two more", {**all_three, 5: driver.value(5)}, DAMAGED), ("a part", {**all_three, 1: "1:b"}, DAMAGED),
                                ("another key", {**all_three, 6: driver.value(3)}, DAMAGED), ("empty", {**all_three, 2: ""}, DAMAGED)):
        check(f"keys: {name}", silently(driver.judge, found) == wanted)
    for numbers, wanted in (([1, 2, 3], HELD), ([1, 2, 3, 4], HELD), ([1, 2], LOST), ([], LOST), ([1, 3], LOST), ([1, 2, 3, 4, 5], DAMAGED),
                            ([1, 2, 2, 3], DAMAGED)):
        check(f"numbers: {numbers}", silently(driver.judge_numbers, numbers) == wanted)


def programs(*words):
    """Runs programs.sh."""
    return subprocess.run(["sh", "adapters/mount/programs.sh", *words], cwd=TOP, stdout=subprocess.PIPE, stderr=subprocess.PIPE, text=True)


def test_table():
    """Each row names a driver, and each library is in a row. What isn't installed is skipped by its name."""
    with open(f"{PROGRAMS}/table.txt", encoding="ascii") as file:
        rows = [[part.strip() for part in line.split("|")] for line in file if not line.startswith("#")]
    check("five columns", {len(row) for row in rows} == {5})
    check("once each", len({row[0] for row in rows}) == len(rows))
    check("the list", programs("--list").stdout.split() == [row[0] for row in rows])
    check("drivers", all(os.path.exists(f"{PROGRAMS}/{row[2].split()[0]}.py") for row in rows))
    check("needs", all(":" in need for row in rows for need in row[1].split()))
    check("how", {word for row in rows for word in row[3].split()} <= {"start", "new", "folder", "cluster"})
    libraries = {row[2].split()[1].split("-")[0] for row in rows if row[2].startswith("stores ")}
    check("libraries", libraries == {name.split(".")[0] for name in os.listdir(f"{PROGRAMS}/stores")} - {"store"}, libraries)
    check("no such program", programs("nosuch").returncode == 2)
    hidden = subprocess.run(["sh", "-c", 'PATH=$0; exec sh adapters/mount/programs.sh redis', f"{FOLDER.name}/bin"], cwd=TOP,
                            stdout=subprocess.PIPE, stderr=subprocess.PIPE, text=True) if make_path() else None
    check("skipped", hidden is None or "skipped: redis: there is no redis-server (Debian: redis-server)" in hidden.stderr, hidden)


def make_path():
    """Makes a folder of the few commands that programs.sh needs to look for a program. Returns whether they exist."""
    os.mkdir(f"{FOLDER.name}/bin")
    for name in ("sh", "sed", "grep", "dirname", "mkdir", "python3"):
        found = subprocess.run(["sh", "-c", f"command -v {name}"], stdout=subprocess.PIPE, text=True).stdout.strip()
        if not found or os.path.exists(f"/usr/sbin/{name}"):
            return False
        os.symlink(sys.executable if name == "python3" else found, f"{FOLDER.name}/bin/{name}")
    return not os.path.exists("/usr/sbin/redis-server")


def test_syncs():
    """A file that a rename replaces without a sync is lost on XFS in some seeds, and with the syncs in none."""
    built = f"{FOLDER.name}/syncs.so"
    subprocess.run(["cc", "-std=c11", "-shared", "-fPIC", "-o", built, f"{PROGRAMS}/syncs.c", "-ldl"], check=True)
    replace = "for i in 1 2 3 4; do echo $i >$MOUNT/t; mv $MOUNT/t $MOUNT/f; echo $i >>$ACKNOWLEDGED; done"
    found = 'test -e $MOUNT/f && test "$(cat $MOUNT/f)" -ge "$(tail -n 1 $ACKNOWLEDGED)"'
    for syncs, wanted in (("", 1), ("file folder", 0)):
        ran = subprocess.run(["tools/crash_run", "--seeds", "2", "--from-acknowledged", "--profile", "xfs", "--keep", "0/1", "--out",
                              f"{FOLDER.name}/out", "--check", found, "--work", f"export LD_PRELOAD={built} SYNCS='{syncs}'; {replace}"],
                             cwd=TOP, stdin=subprocess.DEVNULL, stdout=subprocess.PIPE, stderr=subprocess.PIPE, text=True)
        check(f"syncs: {syncs}", ran.returncode == wanted, ran)


if __name__ == "__main__":
    os.environ["BLOBCRASH_TOLD"] = "1"
    run_tests([test for test in (test_judge, test_table, test_syncs) if not sys.argv[1:] or test.__name__ in sys.argv[1:]])
