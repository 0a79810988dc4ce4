"""`blobcrash diagnose` of programs on the mount: it names the sync that docs/FOUND.md says is missing, and who made the
calls. diagnose.sh runs it. The last line is `N passed, M failed`. With the name of a test only that one is run."""

import os
import re
import shutil
import subprocess
import sys
import tempfile

from passing import run_tests

TOP = os.path.dirname(os.path.dirname(os.path.abspath(__file__)))
sys.path.insert(0, os.path.join(TOP, "adapters", "mount"))
from blobcrash.call_stacks import COMMAND
from mounting import Mount

PROGRAM = os.path.join(TOP, "out", "mount", "blobcrash_mount")


def shell(command, at, **environment):
    """Runs a command in a folder. Returns what it printed."""
    ran = subprocess.run(["sh", "-ec", command], cwd=at, stdout=subprocess.PIPE, text=True, check=True, env={**os.environ, **environment})
    return ran.stdout.strip()


def missing(text):
    """The syncs at the end of what is printed, without their places."""
    return sorted(re.findall(r"`(fsync\w* [^`]*)` before line", text[text.rindex("\nWith") :])) if "\nWith" in text else []


def example(level):
    """What the example prints of a commit of SQLite's shell at this level."""
    ran = subprocess.run(["sh", f"{TOP}/examples/mount_diagnose.sh", level], stdout=subprocess.PIPE, text=True)
    return ran.returncode, ran.stdout


def test_sqlite3():
    status, full = example("full")
    # EXTRA syncs the folder after the journal has been deleted.
    assert status == 1 and missing(full) == ["fsyncdir /"] and "; 1 fails" in full.splitlines()[0], full
    found = r"1\. acknowledged before durable: .*\n  lost: line \d+, unlink /db-journal, by sqlite3\[\d+\]\n  then: line \d+, acknowledged 1\n"
    assert re.search(found, full), full
    status, extra = example("extra")
    assert status == 0 and extra.splitlines()[0].endswith("; 0 fail"), extra


# What git gets: each file is synced before its rename.
GIT = {"GIT_CONFIG_NOSYSTEM": "1", "HOME": "/nonexistent", "GIT_AUTHOR_NAME": "n", "GIT_AUTHOR_EMAIL": "n@localhost", "GIT_COMMITTER_NAME": "n",
       "GIT_COMMITTER_EMAIL": "n@localhost"}
COMMITTED = """
export HOME=/nonexistent
cd "$STATE/r" || exit 1
[ -s "$ACKNOWLEDGED" ] || exit 0
git -c 'safe.directory=*' fsck --full && [ "$(git -c 'safe.directory=*' rev-parse HEAD)" = "$(cat "$ACKNOWLEDGED")" ]
"""


def diagnosed(record, *words, options=()):
    """What is printed of a record, at most 40 outcomes of a crash and each write as a whole."""
    command = [f"{TOP}/tools/diagnose", "--whole", "--limit", "40", "--out", f"{record}.out", *options, record, "--", *words]
    # A library without a proof is kept below the home folder, which is git's alone.
    ran = subprocess.run(command, stdout=subprocess.PIPE, text=True, env={**os.environ, **GIT, "HOME": os.environ.get("HOME", "/")})
    assert ran.returncode == 1, ran
    return ran.stdout


def commits(profile):
    """What is printed of a second commit of git at `core.fsync=all`."""
    with tempfile.TemporaryDirectory() as folder:
        record = f"{folder}/record"
        with Mount(PROGRAM, "--record", record, "--profile", profile) as mount:
            shell("git init -q -b main --template= r; cd r; git config core.fsync all; git config core.fsyncMethod fsync\n"
                  "echo a >a; git add a; git commit -qm one", mount.at, **GIT)
            mount.ask("settle")
            mount.ask("note acknowledged " + shell("cd r; echo b >b; git add b; git commit -qm two; git rev-parse HEAD", mount.at, **GIT))
        return diagnosed(record, "sh", "-c", COMMITTED)


def test_git():
    """It syncs files before it renames them, and never a folder. On ext4 the next sync of a new file makes the names of objects durable."""
    ext4, btrfs = commits("ext4"), commits("btrfs")
    assert missing(ext4) == ["fsyncdir /r/.git/refs/heads"], ext4
    objects = [found for found in missing(btrfs) if re.fullmatch(r"fsyncdir /r/\.git/objects/..", found)]
    assert missing(btrfs) == sorted([*objects, "fsyncdir /r/.git/refs/heads"]) and len(objects) == 3, btrfs
    for text in (ext4, btrfs):
        assert re.search(r"lost: line \d+, rename /r/\.git/refs/heads/main\.lock -> /r/\.git/refs/heads/main, by git\[", text), text


def test_leveldb():
    """It syncs its folder neither between the rename to CURRENT and the removal of what that replaces, nor after it has begun a new log. The
    record isn't made here: a thread of LevelDB soon syncs the folder for another reason."""
    with tempfile.TemporaryDirectory() as folder:
        record = shutil.copy(f"{TOP}/tests/diagnosed/leveldb.script", folder)
        text = diagnosed(record, "sh", "-c", f'exec "{sys.executable}" -S -E "{TOP}/tests/leveldb_puts.py" check "$STATE/store"')
    assert missing(text) == ["fsyncdir /store", "fsyncdir /store"], text
    order = r"1\. order: .*\n  lost: line \d+, rename /store/\d+\.dbtmp -> /store/CURRENT, by .*\n  kept: line \d+, unlink /store/\d+\.log, by "
    log = r"2\. acknowledged before durable: .*\n  lost: line \d+, create /store/\d+\.log, by .*\n  then: line \d+, acknowledged last\n"
    assert re.search(order, text) and re.search(log, text), text


def test_processes():
    """When the calls of another process begin there is a comment."""
    with tempfile.TemporaryDirectory() as folder:
        record = f"{folder}/record"
        with Mount(PROGRAM, "--record", record) as mount:
            shell("mkdir d; cp /dev/null d/f; mv d/f d/g", mount.at)
            mount.ask("record stop")
        with open(record, encoding="utf-8") as file:
            lines = file.read().splitlines()
    by = ""
    made = []
    for line in lines:
        if line.startswith("# process "):
            by = line.split(" ", 3)[3]
        elif line.split()[0] in ("mkdir_at", "create_at", "rename_at"):
            made.append((by, line.split()[0]))
    assert made == [("mkdir", "mkdir_at"), ("cp", "create_at"), ("mv", "rename_at")], lines


# Its line 5 writes a file, and line 10 renames it without a sync.
SAVES = """#include <fcntl.h>
#include <stdio.h>
#include <unistd.h>
static int fill_file(const char *name) { int file = open(name, O_CREAT | O_WRONLY, 0644);
  return write(file, "two", 3) == 3 ? close(file) : 1; }

static int commit_file(void) {
  int status;
  puts("saved");
  status = rename("new", "settings");
  return status; }
int main(void) { return fill_file("new") || commit_file(); }
"""


def test_stacks():
    """With what `strace` prints of the run, the functions are named that made the calls, with file and line."""
    with tempfile.TemporaryDirectory() as folder:
        record, traced, program = (f"{folder}/{name}" for name in ("record", "traced", "saves"))
        with open(f"{program}.c", "w", encoding="utf-8") as file:
            file.write(SAVES)
        subprocess.run([os.environ.get("CC", "cc"), "-g", "-O1", "-fno-inline", "-fno-optimize-sibling-calls", "-o", program, f"{program}.c"], check=True)
        with Mount(PROGRAM, "--record", record, "--profile", "xfs") as mount:
            shell(COMMAND.replace("FILE", traced).replace("PROGRAM", program), mount.at)
        text = diagnosed(record, "sh", "-c", '[ ! -e "$STATE/settings" ] || grep -q two "$STATE/settings"', options=["--stacks", traced])
    by = r"by saves\[\d+\], in "
    assert re.search(rf"lost: line \d+, write 0\.\.3 of /new, {by}fill_file \(saves\.c:5\), main \(saves\.c:12\)", text), text
    assert re.search(rf"kept: line \d+, rename /new -> /settings, {by}commit_file \(saves\.c:10\), main \(saves\.c:12\)", text), text


def test_crash_run():
    """The record of a failing seed has what was acknowledged. The log forgets its sync."""
    log = f"{TOP}/examples/mount_log.py"
    with tempfile.TemporaryDirectory() as folder:
        words = ["--first", "3", "--seeds", "1", "--stop-after", "14", "--out", folder, "--work", f"{log} append --forget-sync", "--check", f"{log} check"]
        ran = subprocess.run([f"{TOP}/tools/crash_run", "--diagnose", *words], stdout=subprocess.PIPE, text=True)
    assert ran.returncode == 1 and re.search(r"^  diagnose: \S*blobcrash diagnose ", ran.stdout, re.M), ran.stdout
    assert "1. acknowledged before durable: " in ran.stdout and set(missing(ran.stdout)) == {"fsync /log"}, ran.stdout


if __name__ == "__main__":
    sys.exit(run_tests(globals(), sys.argv[1:]))
