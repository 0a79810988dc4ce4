"""Every crash of a recorded run: the states are those of brute force over words, planted bugs are found, and the command does what it says.
states.sh runs it. The last line is `N passed, M failed`. With the name of a test only that one is run."""

import itertools
import os
import random
import subprocess
import sys
import tempfile
from unittest.mock import patch

from explore_log import RECORDS, AcknowledgesFirst, Checked, ForgetsSync, TakesZeros
from passing import raises, run_tests

TOP = os.path.dirname(os.path.dirname(os.path.abspath(__file__)))
from blobcrash import BadLine, CrashStates, Files, Library, StorageError, Store, crash_outcomes
from blobcrash.crash_outcomes import CrashOutcomes, Forward
from blobcrash.file_contents import Draws

PREFIX = "write 0 1 1 2 prefix"
MAX = 2**64 - 1
NAMES = (b"a", b"b")


def random_script(chance):
    """A run with faults, of which some fail, with syncs that are started, removals and a crash."""
    mode = chance.choice(["prefix", "subset", "sectors 2"])
    settings = [f"write {chance.randrange(2)} 3 1 2 {mode}", f"sync {chance.randrange(2)} 3", "resize 1 3 1 2"]
    with Store(chance.randrange(2**64), settings=settings, by=Library) as store:
        open_blobs = {}
        for _ in range(chance.randrange(3, 9)):
            name = chance.choice(NAMES)
            try:
                if name not in open_blobs:
                    open_blobs[name] = store.open("p", name)[0]
                blob = open_blobs[name]
                step = chance.randrange(9)
                data = bytes(chance.choice(b"xyz") for _ in range(chance.randrange(1, 3)))
                if step < 4:
                    blob.write(chance.randrange(3), data, sync=step == 0)
                elif step < 6:
                    blob.resize(chance.randrange(4))
                elif step == 6:
                    blob.sync()
                elif step == 7:
                    store.remove("p", name)
                    open_blobs.pop(name).close()
                elif chance.randrange(2):
                    store.restart()
                    open_blobs.clear()
            except StorageError:
                pass
        return "\n".join(store.script)


def logical(store):
    """The names and the bytes of the blobs, as opens find them."""
    found = []
    for name in NAMES:
        try:
            is_there = name in store.scan("p")
        except StorageError:
            is_there = False
        if is_there:
            blob, size = store.open_loose("p", name)
            found.append((name, blob.read(0, size)))
    return tuple(found)


def replies(store, lines):
    for line in lines:
        if line.startswith("#"):
            continue
        try:
            store.call(line)
        except StorageError:
            pass


def words_used(script, count):
    """The words that the first lines of a script take, by a store with a recording of its own: those of its seed."""
    from blobcrash.generator import words_of

    lines = script.split("\n")
    seed = int(lines[0].split()[1])
    words = list(itertools.islice(words_of(seed), 200))
    with Store(words=[*words, MAX], by=Library, allow_stale=True) as store:
        replies(store, lines[1 : 1 + count])
        return words[: 201 - store._layer.words_left()]


def brute(script, count):
    """What a crash after these lines leaves, for all outcomes of its draws. It makes most of them if it keeps all. `None` if these are many."""
    used = words_used(script, count)
    lines = script.split("\n")[1 : 1 + count]
    with Store(words=[*used, *[0] * 40, MAX], by=Library, allow_stale=True) as store:
        replies(store, lines)
        before = store._layer.words_left()
        store.crash()
        draws = before - store._layer.words_left()
    if draws > 6:
        return None
    found = set()
    for words in itertools.product((0, MAX), repeat=draws):
        with Store(words=[*used, *words, MAX], by=Library, allow_stale=True) as store:
            replies(store, [*lines, "crash", "reopen", "config clear"])
            found.add(logical(store))
    return found


def test_random_scripts_against_brute_force():
    chance = random.Random(57)
    compared = 0
    for _ in range(200):
        script = random_script(chance)
        by_line = {}
        for state in CrashStates(script):
            with state.store() as store:
                by_line.setdefault(state.line, set()).add(logical(store))
        seen = set()
        for line in [0, *range(1, script.count("\n") + 1)]:
            seen |= by_line.get(line, set())
            expected = brute(script, line)
            if expected is not None:
                # A state that an earlier crash left isn't repeated.
                assert by_line.get(line, set()) <= expected <= seen, (script, line)
                compared += 1
    assert compared > 500, compared


def found_by(script, **named):
    """The counts, and the states: after which line, their acknowledgements and their blobs."""
    states = CrashStates(script, **named)
    found = sorted((state.line, state.acknowledged, state.content) for state in states)
    return str(states), found


def test_random_scripts_against_the_program():
    chance = random.Random(58)
    for number in range(40):
        script = random_script(chance) + "\n# acknowledged x"
        whole = number % 4 == 0
        assert found_by(script, whole=whole, proved=True) == found_by(script, whole=whole), script
    crashed = "words max 0 0 0\nconfig write 0 1 1 2 subset\nopen p 61\nwrite 0 0 6162\ncrash\nwrite 0 1 63"
    for state in CrashStates(crashed, at=5, proved=True):
        # Its script leaves it.
        words, *lines = state.script.splitlines()
        taken = [MAX if word == "max" else int(word) for word in words.split()[1:]]
        with Store(words=[*taken, MAX], by=Library, allow_stale=True) as store:
            replies(store, [*lines, "reopen", "config clear"])
            found = logical(store)
        with state.store() as store:
            assert logical(store) == found, state
    raises(ValueError, CrashStates, script, proved=True, limit=1)
    raises(ValueError, CrashStates, script, proved=True, files=True)


def recorded(kind, records, settings):
    """The script of a log that appends records."""
    with Store(7, settings=settings, by=Library) as store:
        log = kind(store)
        for record in records:
            log.append(record)
        return "\n".join(store.script)


def lost(kind, records, settings, recovers=Checked):
    """The first state in which a log of this kind lacks an acknowledged record, or has another one."""
    states = CrashStates(recorded(kind, records, settings))
    for state in states:
        with state.store() as store:
            found = recovers(store).records
        count = len(state.acknowledged)
        if found not in (records[:count], records[: count + 1]):
            return state
    assert states.complete
    return None


def test_the_bugs_of_the_log_are_found_from_one_run():
    assert lost(Checked, RECORDS, [PREFIX]) is None
    assert lost(Checked, RECORDS, ["write 0 1 1 2 sectors 8"]) is None
    assert lost(ForgetsSync, RECORDS, [PREFIX]) is not None
    early = lost(NotesFirst, RECORDS, [PREFIX])
    assert early is not None and early.script.count("sync") == 0, early
    assert lost(Checked, RECORDS, ["write 0 1 1 2 sectors 8"], TakesZeros) is not None


class NotesFirst(AcknowledgesFirst):
    """Its script has the acknowledgement before the sync."""

    def acknowledge(self, record):
        super().acknowledge(record)
        if self.records is not None:
            self._store.note(f"acknowledged {len(self.acknowledged)}")


def slots(store, bug=None):
    """A value in two slots of one byte of version and four of value, written in turn."""
    blob, _ = store.open("meta", b"m")
    blob.write(0, b"\0" * 10, sync=True)
    for number in range(1, 5):
        at = 5 * (number % 2) if bug != "one slot" else 0
        value = bytes([96 + number]) * 4
        if bug == "version first":
            blob.write(at, bytes([number]), sync=True)
            blob.write(at + 1, value, sync=True)
        else:
            blob.write(at + 1, value)
            if bug != "forgets":
                blob.sync()
            blob.write(at, bytes([number]))
            blob.sync()
        store.note(f"acknowledged {number}")


def newest(store):
    """The version and the value of the newest slot."""
    blob, size = store.open("meta", b"m")
    data = blob.read(0, size).ljust(10, b"\0")
    at = max((0, 5), key=lambda at: data[at])
    return data[at], data[at + 1 : at + 5]


def test_a_store_of_two_slots():
    for bug in (None, "version first", "one slot", "forgets"):
        with Store(7, settings=["write 0 1 1 2 subset"], by=Library) as store:
            slots(store, bug)
            script = "\n".join(store.script)
        bad = []
        for state in CrashStates(script):
            with state.store() as store:
                version, value = newest(store)
            count = len(state.acknowledged)
            if version not in (count, count + 1) or value != (bytes([96 + version]) * 4 if version else bytes(4)):
                bad.append(state)
        assert bool(bad) == (bug is not None), (bug, [state.script for state in bad[:1]])


def replaced(files, syncs):
    """Replaces a file by a rename."""
    with files.open("/f", "wb") as file:
        file.write(b"old" * 300)
        files.fsync(file)
    files.fsync_directory("/")
    files.note("acknowledged old")
    with files.open("/t", "wb") as file:
        file.write(b"new" * 300)
        if syncs:
            files.fsync(file)
    files.rename("/t", "/f")
    files.fsync_directory("/")
    files.note("acknowledged new")


def test_a_file_that_is_replaced():
    for profile in ("ext4", "xfs", "btrfs", "posix"):
        for syncs in (True, False):
            with Files(3, profile=profile, settings=["write 0 1 1 2 sectors 512"]) as files:
                replaced(files, syncs)
                script = "\n".join(files.script)
            states, bad = CrashStates(script, files=True), 0
            for state in states:
                paths = dict(state.content)
                allowed = {0: (None, b"old" * 300), 1: (b"old" * 300, b"new" * 300), 2: (b"new" * 300,)}[len(state.acknowledged)]
                if state.acknowledged and paths.get(b"/f") not in allowed:
                    bad += 1
            assert states.complete and bool(bad) == (not syncs), (profile, syncs, bad, str(states))


def random_files(chance):
    """A script of files with faults, in any profile and mode."""
    mode = chance.choice(["sectors 2", "prefix", "subset", f"sectors {MAX}"])
    lines = [f"profile {chance.choice(['ext4', 'xfs', 'btrfs', 'posix'])}", f"config write {chance.choice([0, 0, 1])} 3 1 2 {mode}"]
    if chance.random() < 0.3:
        lines.append(f"keep {chance.choice(['0 1', '1 1', '1 3'])}")
    if chance.random() < 0.2:
        lines.append(f"edits {chance.choice(['any', 'prefix', 'logged'])}")
    lines += ["mkdir /d"] + ["settle"] * chance.randrange(2)
    for _ in range(chance.randrange(3, 8)):
        a, b = (chance.choice(["/a", "/b", "/c", "/d/a"]) for _ in range(2))
        data = chance.choice(["6161", "626263", "64"])
        lines.append(chance.choice([f"create {a}", f"create {b}", f"write {a} {chance.randrange(3)} {data}", f"write {b} 0 {data}", f"rename {a} {b}",
                                    f"unlink {a}", f"fsync {a}", "fsyncdir /", "fsyncdir /d", f"truncate {a} {chance.randrange(3)}"]))
    return "\n".join([f"seed {chance.randrange(100)}", *lines, "# acknowledged x"])


def test_random_scripts_of_files_by_all_draws():
    """The draws that are left out decide nothing: without this all are tried, and leave the same states."""
    chance = random.Random(59)
    fewer = 0
    for number in range(120):
        script, whole = random_files(chance), number % 2 == 0
        found = found_by(script, files=True, whole=whole)
        with patch.object(Forward, "is_prefix", False):
            assert found_by(script, files=True, whole=whole) == found, script
        fewer += "edits" not in script and any(f"profile {name}" in script for name in ("ext4", "xfs"))
    assert fewer > 30, fewer


def random_writes(chance):
    """A script of files with many writes, which overlap, extend the file, repeat its bytes or are zeros, of which all but a few are unsynced."""
    lines = [f"profile {chance.choice(['ext4', 'xfs', 'btrfs', 'posix'])}", f"config write {chance.choice([0, 0, 0, 1])} 3 1 2 sectors {MAX}"]
    lines += ["create /a", "create /b", f"write /a 0 {chance.choice(['6161', '0000'])}"] + ["settle"] * chance.choice([0, 1, 1, 1])
    for _ in range(chance.randrange(3, 7)):
        file = chance.choice(["/a", "/a", "/b"])
        data = chance.choice(["6161", "000000", "61", "00"])
        lines.append(f"write {file} {chance.randrange(4)} {data}")
        if chance.random() < 0.2:
            lines.append(chance.choice([f"fsync {file}", f"truncate {file} {chance.randrange(3)}", f"rename {file} /c", "settle", f"unlink {file}", "crash"]))
    return "\n".join([f"seed {chance.randrange(100)}", *lines])


def test_random_writes_by_all_draws():
    """So do the draws of writes that decide nothing. Fewer outcomes are tried, and as many are counted. If a crash leaves something else than
    what was expected, all are tried."""
    chance = random.Random(60)
    tried = {0: 0, MAX: 0}
    new, agrees = CrashOutcomes._crash, Draws.agrees

    def counted(outcomes, *path):
        tried[crash_outcomes._MANY] += 1
        return new(outcomes, *path)

    for _ in range(40):
        script = random_writes(chance)
        with patch.object(CrashOutcomes, "_crash", counted):
            with patch.object(crash_outcomes, "_MANY", MAX):
                every = found_by(script, files=True)
            with patch.object(crash_outcomes, "_MANY", 0):
                assert found_by(script, files=True) == every, script
        with patch.object(crash_outcomes, "_MANY", 0), patch.object(Draws, "agrees", lambda *crash: chance.random() < 0.9 and agrees(*crash)):
            assert found_by(script, files=True) == every, script
    assert tried[0] < 0.9 * tried[MAX], tried


def test_a_rename_that_isnt_settled():
    """Of a file that is renamed over another one on ext4 a crash that keeps the rename leaves the size, and one that loses it may not."""
    script = "profile ext4\nconfig write 0 1 1 2 sectors 512\ncreate /f\nwrite /f 0 6f\nfsync /f\ncreate /t\nfsync /t\nwrite /t 0 6e6e\nrename /t /f"
    found = {tuple(state.content) for state in CrashStates(script, files=True, at=9)}
    assert ((b"/f", b"o"), (b"/t", b"")) in found and ((b"/f", b"o"), (b"/t", b"\0\0")) in found and ((b"/f", b"\0\0"),) in found, found


def test_a_limit_isnt_taken_by_draws_that_decide_nothing():
    """Of forty writes of zeros over zeros and one of another byte a crash leaves two states."""
    zeros = "".join(f"write /a {at} 00\n" for at in range(40))
    script = f"profile ext4\nconfig write 0 1 1 2 sectors {MAX}\ncreate /a\nwrite /a 0 {'00' * 50}\nfsync /a\n{zeros}write /a 7 61\n"
    states = CrashStates(script, files=True, at=script.count("\n"), limit=5)
    assert sorted(dict(state.content)[b"/a"][7] for state in states) == [0, 0x61], str(states)
    assert states.outcomes == 2**41 and states.complete, str(states)


def test_edits_in_order():
    """Of 30 edits in order a crash keeps some first ones: 31 states, of a thousand million outcomes."""
    for profile in ("ext4", "xfs"):
        script = f"profile {profile}\n" + "".join(f"mkdir /{number}\n" for number in range(30))
        states = CrashStates(script, files=True, at=31)
        assert sorted(len(state.content) for state in states) == list(range(31)), str(states)
        assert states.outcomes == 2**30 and states.complete, str(states)


def test_a_long_run():
    """A crash after many lines is made in a copy of the process, and leaves the same."""
    script = f"config {PREFIX.replace('prefix', 'subset')}\nopen p 61\nwrite 0 0 6162\n"
    files = "profile ext4\ncreate /a\nwrite /a 0 6162\nmkdir /d\nrename /a /d/a\n"
    for text, is_files in ((script, False), (files, True)):
        short = [state.content for state in CrashStates(text, files=is_files)]
        assert short == [state.content for state in CrashStates("# note\n" * 600 + text, files=is_files)], text


def test_files_of_a_state_and_its_folder():
    with Files(3) as files:
        files.mkdir("/d")
        with files.open("/d/a b", "wb") as file:
            file.write(b"x")
            files.fsync(file)
        script = "\n".join(files.script)
    state = list(CrashStates(script, files=True))[-1]
    assert dict(state.content) == {b"/d": None, b"/d/a b": b"x"}, state.content
    with state.files() as again, again.open("/d/a b") as file:
        assert file.read() == b"x"
    with tempfile.TemporaryDirectory() as folder:
        state.write_to(folder)
        with open(os.path.join(folder, "d", "a b"), "rb") as file:
            assert file.read() == b"x"
    raises(ValueError, state.store)


def test_every_line_of_a_script_of_files():
    lines = ["profile posix", "config write 0 1 1 2 sectors 512", "keep 1 2", "mkdir /d", "create_at 1 g", "write 0 0 6161", "link_at 3 2 h"]
    lines += ["open /g # is 1", "write /g 1 62", "truncate 1 1", "fdatasync /g", "rename_at 1 g 2 k noreplace", "rename /d/k /d/h exchange"]
    lines += ["fsyncdir_at 1", "fsyncdir /d", "read 1 0 9", "size /d/h", "find /d", "find_at 2 h", "inode_of 1", "open_inode 3", "listdir /"]
    lines += ["unlink_at 2 h", "rmdir /d", "mkdir_at 1 x\\x20y", "rmdir_at 1 x\\x20y"]
    lines += ["settle", "sync", "crash", "listdir_at 1", "open_truncated /d/k"]
    states = list(CrashStates("\n".join(lines), files=True, at=len(lines)))
    # The truncation of the last line is kept or lost.
    wanted = [{b"/d": None, b"/d/k": left} for left in (b"", b"a")]
    assert [dict(state.content) for state in states] == wanted, [state.content for state in states]
    for bad in ("frobnicate /a", "create", "write 0 x 61", "rename /a /b sideways", "close 18446744073709551616", "write 0 0 6"):
        raises(BadLine, list, CrashStates(bad, files=True))
    raises(BadLine, list, CrashStates("open p"))


def test_a_limit_takes_the_least_and_the_greatest_losses_first():
    script = f"config {PREFIX.replace('prefix', 'subset')}\nopen p 61\nwrite 0 0 616263646566\n"
    states = CrashStates(script, at=3, limit=8)
    found = [state.content[0][2][8:] if state.content else None for state in states]
    # All kept, each byte lost alone, all lost: the blob then ends before its first byte.
    assert found[0][-6:] == b"abcdef" and len(found) == 8 and not states.complete, found
    assert str(states).endswith("not all of them: a limit was reached"), str(states)
    assert [each[-6:] for each in found[1:6]] == [b"\0bcdef", b"a\0cdef", b"ab\0def", b"abc\0ef", b"abcd\0f"], found
    whole = CrashStates(script, at=3, whole=True)
    assert len(list(whole)) == 2 and whole.outcomes == 2 and whole.complete


def test_a_line_without_a_crash():
    script = "profile ext4\ncreate /f # is 0\nsize 0\nwrite 0 0 61\n"
    for at in (3, 5, 99, -1):
        error = raises(ValueError, list, CrashStates(script, files=True, at=at))
        assert str(error) == f"there is no crash after line {at}: there are crashes after the lines 0 2 4", error
    with tempfile.TemporaryDirectory() as work:
        path = os.path.join(work, "script")
        with open(path, "w", encoding="utf-8") as file:
            file.write(script)
        ran = command("--files", "--at", "99", path, "--", "true")
        assert (ran.returncode, ran.stdout) == (2, "") and ran.stderr.startswith("states: there is no crash after line 99: "), ran
        with open(path, "w", encoding="utf-8"):
            pass
        # Before the first line there is a crash too.
        assert command(path, "--", "true").stdout == "1 crashes, 1 outcomes, 1 states, all of them; 0 fail\n"


def test_limits_of_states_and_of_seconds():
    script = f"config {PREFIX.replace('prefix', 'subset')}\nopen p 61\nwrite 0 0 61\nwrite 0 1 62\n"
    every = [state.content for state in CrashStates(script)]
    for most in range(1, len(every) + 2):
        states = CrashStates(script, most=most)
        assert [state.content for state in states] == every[:most] and states.states == min(most, len(every)), most
        # The last state is that of an outcome after which others leave the same.
        assert states.complete == (most > len(every)), (most, str(states))
    # However short the time is, one state is found: no search ends that looked at nothing.
    states = CrashStates(script, seconds=1e-9)
    assert [state.content for state in states] == every[:1] and not states.complete, str(states)
    for bad in ({"most": 0}, {"seconds": 0}, {"seconds": -1.0}, {"seconds": float("nan")}):
        raises(ValueError, CrashStates, script, **bad)
    states = CrashStates(script, seconds=3600)
    assert len(list(states)) == len(every) and states.complete
    with tempfile.TemporaryDirectory() as work:
        path = os.path.join(work, "run.script")
        with open(path, "w", encoding="utf-8") as file:
            file.write(script)
        ran = command("--states", "2", path, "--", "true")
        assert ran.stdout.endswith("2 states, not all of them: a limit was reached; 0 fail\n"), ran.stdout
        assert ran.stderr.endswith("states: not all crashes were tried. To go on: --since 3\n"), ran.stderr
        assert command("--seconds", "3600", path, "--", "true").stdout.endswith(f"{len(every)} states, all of them; 0 fail\n")
        ran = command("--seconds", "0.000000001", "--out", os.path.join(work, "out"), path, "--", "false")
        assert ran.returncode == 1 and ran.stdout.endswith("1 states, not all of them: a limit was reached; 1 fail\n"), ran.stdout
        for bad in ("--states", "--seconds"):
            assert command(bad, "0", "--out", work, path, "--", "true").returncode == 2, bad


def test_a_crash_in_the_record_keeps_what_it_kept():
    script = "words max 0 0 0\nconfig write 0 1 1 2 subset\nopen p 61\nwrite 0 0 6162\ncrash\nreopen\nopen p 61\nsync 1\n"
    states = list(CrashStates(script))
    # After the crash of the record no state has its first byte.
    later = [state for state in states if state.line > 4]
    assert later == [] or all(b"a" not in state.content[0][2][8:] for state in later), later


def test_files_after_the_last_settle():
    """Of files the command tries crashes from the last `settle` on, unless a line is named."""
    with tempfile.TemporaryDirectory() as work:
        script = os.path.join(work, "run.script")
        with open(script, "w", encoding="utf-8") as file:
            file.write("seed 1\nprofile ext4\nmkdir /a\nsettle\n# a comment\nmkdir /b\nsettle\nmkdir /c\nmkdir /d\n")
        check = ["--", "sh", "-c", 'echo "$(ls "$STATE" | tr -d "\\n")"']

        def seen(*options):
            return sorted(command("--files", *options, script, *check).stdout.splitlines()[:-1])

        assert seen() == ["ab", "abc", "abc", "abcd"] or seen() == ["ab", "abc", "abcd"], seen()
        assert "" in seen("--from", "0") and seen("--from", "0") == seen("--since", "0"), seen("--from", "0")
        assert seen("--from", "3") == sorted({"a", "ab", *seen()}), seen("--from", "3")
        assert seen("--at", "0") == [""], seen("--at", "0")
        with open(script, "a", encoding="utf-8") as file:
            file.write("settle\n# the end\n")
        ran = command("--files", script, "--", "true")
        assert (ran.returncode, ran.stdout) == (2, "") and "nothing after line 9 changes" in ran.stderr, ran


def command(*words):
    words = [sys.executable, f"{TOP}/tools/states", *words]
    return subprocess.run(words, stdout=subprocess.PIPE, stderr=subprocess.PIPE, text=True, check=False)


def test_the_command():
    with tempfile.TemporaryDirectory() as work:
        script = os.path.join(work, "run.script")
        with open(script, "w", encoding="utf-8") as file:
            file.write(recorded(ForgetsSync, RECORDS[:1], ["write 0 1 1 2 sectors 8"]))
        out = os.path.join(work, "out")
        check = ["sh", "-c", 'test ! -s "$ACKNOWLEDGED" || (test -s "$STATE/wal/30" && grep -q crash "$SCRIPT")']
        for options in (["--jobs", "1"], ["--jobs", "3"], ["--proved"]):
            ran = command("--out", out, *options, script, "--", *check)
            assert ran.returncode == 0 and ran.stdout.endswith(", all of them; 0 fail\n"), ran
        ran = command("--out", out, script, "--", "sh", "-c", 'test ! -s "$ACKNOWLEDGED"')
        assert ran.returncode == 1 and "the check exits with 1" in ran.stdout, ran
        with open(os.path.join(out, "1", "script"), encoding="utf-8") as file:
            assert file.read().endswith("\ncrash\n")
        assert os.path.isdir(os.path.join(out, "1", "state"))
        assert command(script).returncode == 2 and command("--limit", "0", script, "--", "true").returncode == 2
        assert command("--proved", "--limit", "1", script, "--", "true").returncode == 2
        assert command(os.path.join(work, "none"), "--", "true").returncode == 2
        assert command(script, "--", "/none/none").returncode == 2
        with open(script, "w", encoding="utf-8") as file:
            file.write("open p\n")
        ran = command(script, "--", "true")
        assert ran.returncode == 2 and "bad call" in ran.stderr and "Traceback" not in ran.stderr, ran
        ran = command("--help")
        assert ran.returncode == 0 and "STATE" in ran.stdout, ran


if __name__ == "__main__":
    sys.exit(run_tests(globals(), sys.argv[1:]))
