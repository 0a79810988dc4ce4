"""Shrinking records of files: each is reduced to the lines that were found by hand. shrink.sh runs it. The last line is `N passed, M failed`.
With the name of a test only that one is run."""

import os
import subprocess
import sys
import tempfile

from passing import run_tests

TOP = os.path.dirname(os.path.dirname(os.path.abspath(__file__)))
sys.path.insert(0, os.path.join(TOP, "bindings", "python"))
from blobcrash.file_cutting import FileCutter

LOST = " ".join(["max"] * 60)
SETTINGS = ["profile posix", "config write 0 1 1 2 sectors 512", "keep 1 2"]
# A log whose name is never synced, after another file that is durable, with calls between that have nothing to do with it.
LOG = [f"words {LOST}", *SETTINGS, "mkdir_at 1 noise", "create_at 2 n", "# descriptor 0 is /noise/n", "write 0 0 6161", "fsync 0", "settle", "commit",
       "create_at 1 log", "# descriptor 1 is /log", "write 1 0 31", "fsync 1", "# acknowledged 1", "write 0 2 62", "mkdir_at 1 more",
       "write 1 1 32", "fsync 1", "# acknowledged 2", "size 1", "write 1 2 33", "crash"]


def has_records(state):
    """Whether the log has a byte for each acknowledgement: the status of a check."""
    log = dict(state.content).get(b"/log", b"") or b""
    return int(len(log) < len(state.acknowledged))


def shortened(lines, check=has_records):
    return FileCutter("\n".join(lines) + "\n", check, 16).run()


def test_a_name_that_is_not_synced():
    """One record: the creation, the write and its sync, which stays, and the acknowledgement. Its numbers are those of the short run."""
    wanted = ["words max", *SETTINGS, "create_at 1 log", "# descriptor 0 is /log", "write 0 0 31", "fsync 0", "# acknowledged 1", "crash"]
    assert shortened(LOG).splitlines() == wanted, shortened(LOG)


def test_a_sync_is_not_left_out():
    """With the folder synced nothing is lost, and no shorter record is made that forgets it."""
    lines = [*LOG[:LOG.index("# acknowledged 1")], "fsyncdir_at 1", *LOG[LOG.index("# acknowledged 1"):]]
    assert shortened(lines) is None


def test_a_check_that_fails_without_a_crash():
    assert shortened(LOG, lambda state: 1) is None


def test_other_statuses():
    """A record that fails in another way isn't a shorter one."""
    found = shortened(LOG, lambda state: 3 * has_records(state) if len(state.acknowledged) == 2 else has_records(state))
    assert found.splitlines().count("# acknowledged 2") == 1 and "# acknowledged 1" in found, found


def test_two_crashes():
    """What is before the last crash but one stays."""
    first = ["create_at 1 a", "write 0 0 61", "crash"]
    found = shortened([*LOG[:4], *first, *LOG[LOG.index("create_at 1 log"):LOG.index("write 0 2 62")], "crash"])
    assert found.splitlines()[4:] == [*first, *LOG[LOG.index("create_at 1 log"):LOG.index("write 0 2 62")], "crash"], found


def test_the_command():
    with tempfile.TemporaryDirectory() as work:
        script = os.path.join(work, "script")
        with open(script, "w", encoding="utf-8") as file:
            file.write("\n".join(LOG) + "\n")
        check = 'n=$(wc -l <"$ACKNOWLEDGED"); test "$n" -eq 0 || test "$(cat "$MOUNT/log" 2>&1 | head -c "$n" | grep -c .)" -eq 1 -a -e "$STATE/log"'
        ran = subprocess.run([f"{TOP}/tools/shrink", "--files", script, "--", "sh", "-c", check], stdout=subprocess.PIPE, text=True, check=False)
        assert ran.returncode == 0 and ran.stdout.splitlines()[-4:] == ["write 0 0 31", "fsync 0", "# acknowledged 1", "crash"], ran
        for words in (["--files"], ["--files", script], ["--files", script, "--"], ["--files", "--limit", "0", script, "--", "true"],
                      ["--files", f"{script}.none", "--", "true"]):
            ran = subprocess.run([f"{TOP}/tools/shrink", *words], stdout=subprocess.PIPE, stderr=subprocess.PIPE, text=True, check=False)
            assert ran.returncode == 2 and ran.stdout == "" and "Traceback" not in ran.stderr, ran
        ran = subprocess.run([f"{TOP}/tools/shrink", "--files", script, "--", "true"], stderr=subprocess.PIPE, text=True, check=False)
        assert ran.returncode == 1 and "doesn't fail" in ran.stderr, ran


if __name__ == "__main__":
    sys.exit(run_tests(globals(), sys.argv[1:]))
