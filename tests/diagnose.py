"""`blobcrash diagnose`: from the record of a run it names the sync that is known to be missing, and no other. diagnose.sh runs it. The last
line is `N passed, M failed`. With the name of a test only that one is run."""

import json
import os
import subprocess
import sys
import tempfile

from files_bugs import PROFILES, Log, Settings, checkpoint
from passing import run_tests

TOP = os.path.dirname(os.path.dirname(os.path.abspath(__file__)))
from blobcrash import Files, Injected, Library, Store
from blobcrash.crash_units import Unit, canonical, count_outcomes, outcomes, runs
from blobcrash.grammar import MAX
from blobcrash.traced_calls import Frame, Matching

SECTORS = ["write 0 1 1 2 sectors 4"]
# What is in /settings: what was acknowledged last, or what is saved next. In a file of zeros the shell reads nothing.
SAVED = """
last=$(tail -n 1 "$ACKNOWLEDGED")
[ ! -e "$STATE/settings" ] || found=$(cat "$STATE/settings")
case $last:${found-none} in :none | :first | first:first | first:second | second:second) ;; *) exit 1 ;; esac
"""
# The records of the log of files_bugs.py are those that were acknowledged, and at most the next one.
APPENDED = """
import os, sys, zlib
found, content = [], b""
if os.path.exists(os.environ["STATE"] + "/log"):
    content = open(os.environ["STATE"] + "/log", "rb").read()
while content:
    end, record = 5 + content[0], content[5 : 5 + content[0]]
    if len(content) < end or content[0] == 0 or (sys.argv[1:] and zlib.crc32(record).to_bytes(4, "big") != content[1:5]):
        break
    found.append(record.decode(errors="replace"))
    content = content[end:]
acknowledged = open(os.environ["ACKNOWLEDGED"]).read().split()
sys.exit(found not in (acknowledged, ["seven..", "letters"][: len(acknowledged) + 1]))
"""
# Once it is acknowledged the page is in one of the two files.
PAGE = """
[ ! -s "$ACKNOWLEDGED" ] || grep -q page "$STATE/data" "$STATE/log"
"""


class Diagnosed:
    """What the command prints of a record, as JSON: an object a cause, and the counts."""

    def __init__(self, script, check, *options, python=None):
        with tempfile.TemporaryDirectory() as folder:
            for name, text in (("record", script), ("check", check)):
                with open(os.path.join(folder, name), "w", encoding="utf-8") as file:
                    file.write(text)
            command = ["sh", f"{folder}/check"] if python is None else [sys.executable, "-S", "-E", f"{folder}/check", *python]
            own = ["--json", "--out", f"{folder}/out", *options, f"{folder}/record"]
            ran = subprocess.run([sys.executable, "-m", "blobcrash", "diagnose", *own, "--", *command], capture_output=True, text=True)
            assert ran.returncode in (0, 1), ran.stderr
            *self.causes, self.counts = map(json.loads, ran.stdout.splitlines())
            assert ran.returncode == int(bool(self.causes)), ran.stdout
        self.lines = script.splitlines()

    def only(self, kind, lost, at, sync=None):
        """Asserts that there is one cause: of this kind, with these lost calls, and with the sync before the call `at`, after which it
        shows. Without a sync none helps."""
        assert [cause["class"] for cause in self.causes] == [kind], self.causes
        self.is_cause(0, kind, lost, at, sync)
        assert self.counts["unfixed"] == int(sync is None), self.counts
        assert [found["sync"] for found in self.counts["syncs"]] == ([] if sync is None else [sync]), self.counts

    def is_cause(self, number, kind, lost, at, sync=None):
        cause = self.causes[number]
        wanted = [] if sync is None else [{"sync": sync, "before": cause["at"]["line"]}]
        assert (cause["class"], [loss["call"] for loss in cause["lost"]]) == (kind, lost), cause
        assert (cause["at"]["call"], cause["syncs"]) == (at, wanted), cause


def recorded(program, profile="posix", settings=SECTORS):
    """The script of a program on files."""
    with Files(1, profile=profile, settings=settings) as files:
        program(files)
        return "\n".join(files.script) + "\n"


def saves(forgets):
    def program(files):
        for value, forgotten in ((b"first", ""), (b"second", forgets)):
            Settings(files, forgotten).save(value)
            files.note(f"acknowledged {value.decode()}")
        # An added sync must not take the number of this file.
        with files.open("/other", "xb") as file:
            file.write(b"other")
            files.fsync(file)

    return program


def appends(files):
    log = Log(files)
    for record in (b"seven..", b"letters"):
        log.append(record)
        files.note(f"acknowledged {record.decode()}")


def checkpoints(files, retries=True):
    for path, content in (("/data", b"...."), ("/log", b"page")):
        with files.open(path, "xb") as file:
            file.write(content)
    files.settle()
    files.note("acknowledged page")
    # The first of `words` is zero: it lets the first sync fail.
    files.configure("sync 1 2")
    try:
        checkpoint(files, b"page", retries)
    except Injected:
        assert not retries


def failing(switch, retries=True):
    with Files(words=[0, *[2**64 - 1] * 8], profile="posix", settings=[*SECTORS, switch]) as files:
        checkpoints(files, retries)
        return "\n".join(files.script) + "\n"


def test_no_sync_before_a_rename():
    for profile in PROFILES:
        found = Diagnosed(recorded(saves("file"), profile), SAVED)
        found.only("order", ["write 0..6 of /new"], "rename /new -> /settings", "fsync /new")


def test_no_sync_of_the_directory():
    for profile in PROFILES:
        found = Diagnosed(recorded(saves("directory"), profile), SAVED)
        found.only("acknowledged before durable", ["rename /new -> /settings"], "acknowledged second", "fsyncdir /")


def test_an_append_without_a_checksum():
    script = recorded(appends)
    found = Diagnosed(script, APPENDED, python=[])
    assert {cause["class"] for cause in found.causes} == {"torn"}, found.causes
    # A record has a byte, four of the checksum, and seven: the last four are a sector.
    cause = found.causes[0]
    assert [loss["call"] for loss in cause["lost"]] == [cause["at"]["call"]] == ["write 0..12 of /log"], cause
    assert found.counts["syncs"] == [] and found.counts["unfixed"] == len(found.causes), found.counts
    assert Diagnosed(script, APPENDED, python=["sums"]).causes == []


def test_a_failed_sync_that_is_tried_again():
    dropped = Diagnosed(failing("failed_sync drops"), PAGE)
    dropped.only("dropped by a failed sync", ["write 0..4 of /data"], "truncate /log 0")
    assert dropped.causes[0]["failed"]["call"] == "fsync /data"
    assert Diagnosed(failing("failed_sync keeps"), PAGE).causes == []
    assert Diagnosed(failing("failed_sync drops", False), PAGE).causes == []


def test_without_bugs():
    for profile in PROFILES:
        assert Diagnosed(recorded(saves(""), profile), SAVED).causes == []
        assert Diagnosed(recorded(appends, profile), APPENDED, python=["sums"]).causes == []


def test_two_causes():
    def program(files):
        with files.open("/a.new", "xb") as file:
            file.write(b"a")
        files.rename("/a.new", "/a")
        files.fsync_directory("/")
        files.note("acknowledged a")
        with files.open("/b", "xb") as file:
            file.write(b"b")
            files.fsync(file)
        files.note("acknowledged b")

    check = """
    for name in a b; do
        if [ -e "$STATE/$name" ]; then
            [ "$(cat "$STATE/$name")" = $name ] || { [ $name = b ] && ! grep -q b "$ACKNOWLEDGED"; } || exit 1
        elif grep -q $name "$ACKNOWLEDGED"; then exit 1; fi
    done
    """
    found = Diagnosed(recorded(program), check)
    assert len(found.causes) == 2, found.causes
    found.is_cause(0, "order", ["write 0..1 of /a.new"], "rename /a.new -> /a", "fsync /a.new")
    found.is_cause(1, "acknowledged before durable", ["create /b"], "acknowledged b", "fsyncdir /")
    assert [sync["sync"] for sync in found.counts["syncs"]] == ["fsync /a.new", "fsyncdir /"], found.counts


def test_several_syncs():
    """Each of two folders needs its sync. A crash that keeps the second rename keeps the first one too, so that only one loss shows at first."""

    def program(files):
        for folder in ("/d", "/e"):
            files.mkdir(folder)
        files.settle()
        for folder in ("/d", "/e"):
            with files.open(f"{folder}/new", "xb") as file:
                file.write(b"x")
                files.fsync(file)
            files.rename(f"{folder}/new", f"{folder}/old")
        files.note("acknowledged both")

    found = Diagnosed(recorded(program, "btrfs"), '[ ! -s "$ACKNOWLEDGED" ] || [ -e "$STATE/d/old" -a -e "$STATE/e/old" ]\n')
    for number, folder in enumerate(("/e", "/d")):
        lost = f"rename {folder}/new -> {folder}/old"
        found.is_cause(number, "acknowledged before durable", [lost], "acknowledged both", f"fsyncdir {folder}")
    assert len(found.causes) == 2 and sorted(sync["sync"] for sync in found.counts["syncs"]) == ["fsyncdir /d", "fsyncdir /e"], found.counts


def test_a_superfluous_sync():
    def program(files):
        with files.open("/new", "xb") as file:
            file.write(b"first")
            files.fsync(file)
            files.fsync(file)
        files.rename("/new", "/settings")
        files.fsync_directory("/")
        files.note("acknowledged first")

    found = Diagnosed(recorded(program), SAVED, "--superfluous")
    assert found.causes == []
    second = [at for at, line in enumerate(found.lines, 1) if line.startswith("fsync ")][1]
    assert found.counts["superfluous"] == [{"line": second, "call": "fsync /new"}], found.counts


def test_a_store():
    check = 'for text in $(cat "$ACKNOWLEDGED"); do grep -q $text "$STATE"/p/62 || exit 1; done\n'
    for syncs in (False, True):
        with Store(3, settings=["write 0 1 1 2 subset"], by=Library) as store:
            blob = store.open("p", b"b")[0]
            blob.write(0, b"one")
            blob.sync()
            store.note("acknowledged one")
            blob.write(3, b"two")
            if syncs:
                blob.sync()
            store.note("acknowledged two")
            script = "\n".join(store.script) + "\n"
        found = Diagnosed(script, check)
        if syncs:
            assert found.causes == []
        else:
            found.only("acknowledged before durable", ["write 3..6 of p/62"], "acknowledged two", "sync p/62")


def test_a_check_that_fails_without_a_loss():
    found = Diagnosed("create /f\n", 'test -e "$STATE/f"\n')
    assert [(cause["class"], cause["at"]) for cause in found.causes] == [("no loss", None)], found.causes
    found = Diagnosed("create /f\nunlink /f\n", 'test ! -e "$STATE/f"\n')
    assert [(cause["class"], cause["at"]) for cause in found.causes] == [("no loss", {"line": 1, "call": "create /f"})], found.causes


def test_outcomes():
    """A write of two sectors, and two edits of which a crash keeps those up to some point."""
    write, one, other = Unit((1, 0), False, 2, False, 2, 0, 8), *(Unit((line, 0), True, 1, False, None, 0, 9) for line in (2, 3))
    units = [write, one, other]
    least = [(0, 0, 0), (3, 0, 0), (0, 1, 1), (0, 0, 1), (3, 1, 1), (3, 0, 1), (1, 0, 0), (2, 0, 0)]
    assert list(outcomes(units, 0, None)) == [*least, (1, 1, 1), (1, 0, 1), (2, 1, 1), (2, 0, 1)]
    assert list(outcomes(units, 0, 3)) == least[:3] and count_outcomes(units, 0) == 12
    assert len(list(outcomes(units, MAX, None))) == count_outcomes(units, MAX) == 16
    # In the mode `prefix` the bytes after the first one that is lost are lost too.
    prefix = Unit((1, 0), False, 4, True, 2, 0, 4)
    assert canonical([prefix], (0b0010,), 0) == (0b1110,) and prefix.words(0b1110) == [0, 2**64 - 1]
    assert count_outcomes([prefix], 0) == len(list(outcomes([prefix], 0, None))) == 5
    # 60 edits in order have 61 outcomes. Trying each set of them would take years.
    edits = [one._replace(key=(line, 0)) for line in range(1, 61)]
    assert len(list(outcomes(edits, 0, None))) == count_outcomes(edits, 0) == 61
    assert len(list(outcomes([*edits, write], 0, None))) == 4 * 61
    # A sync at line 2 left the first two: the second may be kept alone, unless it is a removal. The third is kept with all before it.
    assert list(outcomes(edits[:3], 2, None)) == [(0, 0, 0), (1, 0, 1), (0, 1, 1), (0, 0, 1), (1, 1, 1)] and count_outcomes(edits[:3], 2) == 5
    removal = [edits[0], edits[1]._replace(is_removal=True), edits[2]]
    assert list(outcomes(removal, 2, None)) == [(0, 0, 0), (1, 1, 1), (0, 1, 1), (0, 0, 1)] and count_outcomes(removal, 2) == 4
    # If the log follows the removal, it may be kept alone too, but not without an earlier edit that the log follows.
    removal[1] = removal[1]._replace(is_followed=True)
    assert list(outcomes(removal, 2, None)) == [(0, 0, 0), (1, 0, 1), (0, 1, 1), (0, 0, 1), (1, 1, 1)] and count_outcomes(removal, 2) == 5
    removal[0] = removal[0]._replace(is_followed=True)
    assert list(outcomes(removal, 2, None)) == [(0, 0, 0), (1, 1, 1), (0, 1, 1), (0, 0, 1)] and count_outcomes(removal, 2) == 4
    assert runs("110100", "1", 8) == [(8, 10), (11, 12)] and runs("110100", "0", 8) == [(10, 11), (12, 14)]


# Of two threads; the call of the first one is printed in two parts.
TRACED = """7 rename("/m/a", "/m/b" <unfinished ...>
8 write(3</m/log>, "x"..., 5000) = 5000
 > /bin/p(append+0x10) [0x1010]
 > /lib/libc.so.6(__libc_start_main+0x1) [0x2000]
7 <... rename resumed>) = 0
 > /lib/libc.so.6(rename+0x7) [0x7]
 > /bin/p(swap+0x9) [0x20]
8 fsync(3</m/log>) = 0
 > /bin/p() [0x1040]
"""


def test_stacks():
    found = Matching(TRACED)
    # The kernel passes a write on in pages.
    for length in (4096, 904):
        assert found.stack("8", "write", ("log",), length) == [Frame("/bin/p", "append", 0x1010)]
    assert found.stack("8", "fsync", ("log",), 0) == [Frame("/bin/p", "", 0x1040)]
    assert found.stack("7", "rename", ("a", "b"), 0) == [Frame("/bin/p", "swap", 0x20)]
    assert found.stack("8", "write", ("log",), 1) == [] and found.stack("9", "fsync", ("log",), 0) == []
    assert found.has_stacks and not Matching("7 fsync(3</m/log>) = 0\n").has_stacks


REPLACED = """profile posix
create /f
write 0 0 6f6c64
rename /f /g
fsyncdir /
"""


def test_text():
    with tempfile.TemporaryDirectory() as folder:
        with open(f"{folder}/record", "w", encoding="utf-8") as file:
            file.write(REPLACED)
        check = ["sh", "-c", '[ ! -e "$STATE/g" ] || [ "$(cat "$STATE/g")" = old ]']
        command = [sys.executable, "-m", "blobcrash", "diagnose", "--superfluous", "--out", f"{folder}/out", f"{folder}/record", "--", *check]
        ran = subprocess.run(command, capture_output=True, text=True)
        said = [line for line in ran.stderr.splitlines() if not line.startswith("not proved yet")]
        assert said == [] and ran.returncode == 1, ran
        # None, and /f and /g each empty, of three zeros, and whole. With the sync /g is whole in each state that has it.
        assert ran.stdout == f"""5 crashes, 7 states; 2 fail
1. order: a later call was kept, and one that it depends on was lost
  lost: line 3, write 0..3 of /f
  kept: line 4, rename /f -> /g
  missing: `fsync /f` before line 4
  state: {folder}/out/1
With `fsync /f` before line 4 none of 5 states fails.
This is said of this record and this check alone.
Not needed for this check, all of them left out: 1 sync
  line 5, fsyncdir /
""", ran.stdout
        with open(f"{folder}/out/1/script", encoding="utf-8") as file:
            assert file.read().splitlines()[-1] == "crash"


def test_crashes_begin_at_the_last_settle():
    """A crash after the first line would lose /a, and fail."""
    check = 'test ! -s "$ACKNOWLEDGED" -o -e "$STATE/a"\n'
    lines = ["# acknowledged a", "create /a", "settle", "create /b"]
    script = "".join(f"{line}\n" for line in lines)
    assert Diagnosed(script, check).causes == [] and Diagnosed(script, check, "--from", "3").causes == []
    assert [cause["class"] for cause in Diagnosed(script, check, "--from", "0").causes] == ["no loss"]
    with tempfile.NamedTemporaryFile("w", suffix=".script") as file:
        file.write("create /a\nsettle\n")
        file.flush()
        ran = subprocess.run([sys.executable, "-m", "blobcrash", "diagnose", file.name, "--", "true"], capture_output=True, text=True)
    assert ran.returncode == 2 and "nothing after line 2 changes what a crash leaves: --from 0" in ran.stderr, ran


def test_bad_arguments():
    for arguments, text in ((["/none", "--", "true"], "No such file"), (["/dev/null"], "wants a CHECK"), ([], "wants a CHECK|required")):
        command = [sys.executable, "-m", "blobcrash", "diagnose", *arguments]
        ran = subprocess.run(command, capture_output=True, text=True)
        assert ran.returncode == 2 and any(part in ran.stderr for part in text.split("|")), ran
    with tempfile.NamedTemporaryFile("w", suffix=".script") as file:
        file.write("frob\n")
        file.flush()
        ran = subprocess.run([sys.executable, "-m", "blobcrash", "diagnose", file.name, "--", "true"], capture_output=True, text=True)
        assert ran.returncode == 2 and "bad call" in ran.stderr, ran


def test_calls_after_a_crash():
    """Calls after the first crash of a record aren't tried, and this is said."""
    lines = ["profile xfs", "create /a", "crash", "create /b", "# acknowledged b"]
    for count, until in ((5, 3), (3, None)):
        with tempfile.NamedTemporaryFile("w", suffix=".script") as file:
            file.write("".join(f"{line}\n" for line in lines[:count]))
            file.flush()
            text, told = (subprocess.run([sys.executable, "-m", "blobcrash", "diagnose", *words, file.name, "--", "true"],
                                         capture_output=True, text=True).stdout for words in ([], ["--json"]))
        assert ("Calls after the crash of line 3 weren't tried.\n" in text) == (until is not None), text
        assert json.loads(told).get("until") == until, told


if __name__ == "__main__":
    sys.exit(run_tests(globals(), sys.argv[1:]))
