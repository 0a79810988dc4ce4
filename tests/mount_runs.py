"""
Tests of tools/crash_run: mount_runs.py [TEST ..]. The run without a crash, what counts as tested, after which call the power goes off, what a
failure says, and what is drawn. The last line is `N passed, M failed`.
"""

import argparse
import json
import os
import subprocess
import sys
import tempfile

sys.dont_write_bytecode = True
from mount_calls import TOP, check, run_tests  # noqa: E402

import crash_swarm  # noqa: E402
import losses  # noqa: E402

FOLDER = tempfile.TemporaryDirectory()  # removed at the end
# Six files. Each has three changing calls, create, write and fsync, and is acknowledged after them: 18 calls.
SIX = 'for i in 1 2 3 4 5 6; do echo $i >$MOUNT/f$i; sync $MOUNT/f$i; echo $i >>$ACKNOWLEDGED; done'
ALL_SIX = 'test $(wc -l <$ACKNOWLEDGED) -eq 6'  # holds without a crash alone


def crash_run(*words):
    """Runs crash_run with JSON. Returns its status, the objects that it prints, and its messages."""
    command = ["tools/crash_run", "--json", "--out", f"{FOLDER.name}/out", *words]
    ran = subprocess.run(command, cwd=TOP, stdin=subprocess.DEVNULL, stdout=subprocess.PIPE, stderr=subprocess.PIPE, text=True)
    said = "".join(line + "\n" for line in ran.stderr.splitlines() if not line.startswith("not proved yet"))
    return ran.returncode, [json.loads(line) for line in ran.stdout.splitlines()], said


def acknowledged(failure):
    """Returns how many lines were acknowledged in a failure that was kept."""
    with open(f"{failure['kept']}/acknowledged", encoding="ascii") as file:
        return len(file.readlines())


def option(failure, name):
    """Returns an option of the command that repeats a failure, or None."""
    words = failure["again"].split()
    return words[words.index(name) + 1] if name in words else None


def test_without_a_crash():
    """What fails without a crash isn't a loss, also with --stop-after."""
    for words in ([], ["--stop-after", "5"], ["--after-acknowledgement", "1"]):
        status, found, said = crash_run("--seeds", "2", *words, "--work", SIX, "--check", "test -e $MOUNT/f7")
        check(f"a check that fails: {words}", (status, found) == (2, []) and said.startswith("crash_run: --check without a crash: 1"), said)
        status, found, said = crash_run("--seeds", "2", *words, "--work", f"{SIX}; exit 7", "--check", "true")
        check(f"a workload that fails: {words}", (status, found) == (2, []) and said.startswith("crash_run: --work without a crash: 7"), said)


def test_untested():
    """A seed without an acknowledgement is untested, and if all are, the run fails. A workload that has none may run."""
    late = "for i in 1 2 3 4 5 6; do echo $i >$MOUNT/f$i; done; sync $MOUNT/f6; echo 1 >>$ACKNOWLEDGED"
    status, found, said = crash_run("--seeds", "3", "--stop-after", "4", "--work", late, "--check", "true")
    check("all are untested", status == 2 and (found[0]["held"], found[0]["untested"]) == (0, 3), (status, found))
    check("it says so", said == "crash_run: no acknowledgement was tested by a seed\n", said)
    status, found, said = crash_run("--seeds", "2", "--work", late, "--check", "true")
    check("after the first one", status == 0 and found[0]["held"] >= 1 and found[0]["held"] + found[0]["untested"] == 2, (status, found))
    status, found, said = crash_run("--seeds", "2", "--work", "mkdir $MOUNT/d", "--check", "true")
    check("no acknowledgement", status == 0 and found[0]["untested"] == 2 and "writes nothing to $ACKNOWLEDGED" in said, (status, found, said))


def test_points():
    """After which calls the power goes off."""
    for words, wanted in ((["--after-acknowledgement", "3", "--stop-after", "2"], {3}), (["--from-call", "10", "--stop-after", "2"], {3}),
                          (["--from-acknowledged", "--stop-after", "0"], {1}), (["--from-call", "18"], {5, 6})):
        status, found, said = crash_run("--seeds", "4", *words, "--work", SIX, "--check", f"{ALL_SIX} && test -z $(cat $MOUNT/f9)")
        counts = {acknowledged(failure) for failure in found[:-1]}
        # After the last call the power may go off before its acknowledgement is written, or after it.
        check(f"{words}", status == int(bool(counts)) and (counts or {6}) <= wanted, (status, counts, said))
    for words, why in ((["--after-acknowledgement", "7"], "acknowledges only 6 times"), (["--from-call", "19"], "makes only 18 changing calls")):
        status, found, said = crash_run("--seeds", "1", *words, "--work", SIX, "--check", "true")
        check(f"too many: {words}", status == 2 and said == f"crash_run: the run without a crash {why}\n", said)
    for words in (["--from-call", "0"], ["--after-acknowledgement", "0"], ["--from-call", "1", "--from-acknowledged"], ["--stop-after", "0"]):
        check(f"bad: {words}", crash_run(*words, "--work", SIX, "--check", "true")[0] == 2)


def calls(failure):
    """Returns the record of a failure without the numbers of its processes."""
    with open(f"{failure['kept']}/run.script", encoding="utf-8") as file:
        return [line for line in file if not line.startswith("# process ")]


def test_halves():
    """Without an option seeds with an even number stop after the first acknowledgement. The command that repeats a seed says how."""
    status, found, _ = crash_run("--seeds", "8", "--jobs", "2", "--work", SIX, "--check", ALL_SIX)
    check("some fail", status == 1 and len(found) > 4, found)
    for failure in found[:-1]:
        is_even = failure["seed"] % 2 == 0
        wanted = ("1", "15") if is_even else (None, "18")
        said = (option(failure, "--after-acknowledgement"), option(failure, "--stop-after"))
        check(f"seed {failure['seed']}", said == wanted and acknowledged(failure) >= is_even, (said, acknowledged(failure)))
    failure = found[0]
    before = calls(failure)
    again = subprocess.run(["sh", "-c", f"{failure['again']} --json"], cwd=TOP, stdout=subprocess.PIPE, stderr=subprocess.PIPE, text=True)
    check("it repeats", again.returncode == 1 and calls(failure) == before, again)


def test_record():
    """The record has each acknowledgement between the calls of its file and those of the next one."""
    _, found, _ = crash_run("--seeds", "1", "--from-call", "15", "--stop-after", "1", "--work", SIX, "--check", ALL_SIX)
    with open(f"{found[0]['kept']}/run.script", encoding="utf-8") as file:
        lines = [line.split() for line in file]
    short = [" ".join(words[1:]) if words[0] == "#" else words[0] for words in lines
             if words[0] in ("fsync", "write") or words[:2] == ["#", "acknowledged"]]
    wanted = [line for i in range(1, 6) for line in ("write", "fsync", f"acknowledged {i}")]
    # The program may be killed after the last call before it writes the line.
    check("the record", short in (wanted, wanted[:-1]), short)


LOG = ["--work", "examples/mount_log.py append --forget-sync", "--check", "examples/mount_log.py check"]


def test_words():
    """A failure says what was lost, with the calls before it by their paths, before the commands that repeat it."""
    # The first record has 12 bytes: "0", two spaces, eight digits and the end of the line. It is acknowledged, and all is lost.
    options = ["--seeds", "1", "--keep", "0/1", "--profile", "btrfs", "--after-acknowledgement", "1", "--stop-after", "0"]
    _, found, said = crash_run(*options, *LOG)
    check("the calls", found[0]["calls"] == ["settle", "create /log", "fsyncdir /", "write /log 0..12", "acknowledged 0"], (found, said))
    check("what was lost", found[0]["lost"][0] == "/log: size 12 before, 0 after" and "write 0..12: lost" in found[0]["lost"][-1], found)
    command = ["tools/crash_run", "--out", f"{FOLDER.name}/out", *options, *LOG]
    ran = subprocess.run(command, cwd=TOP, stdin=subprocess.DEVNULL, stdout=subprocess.PIPE, stderr=subprocess.DEVNULL, text=True)
    places = [ran.stdout.find(text) for text in ("what the crash lost:", "write 0..12: lost", "the last calls", "acknowledged 0", "replay:", "again:")]
    check("in order", -1 not in places and places == sorted(places), ran.stdout)


def file_told(path, after):
    """What `files explain --json` tells of a file that had three bytes."""
    return {"file": path, "was": path, "before": 3, "after": after}


def bytes_told(path, line, end, outcome):
    """What it tells of a write of the first bytes, which have one outcome."""
    return {"file": path, "bytes": [0, end], "of": line, "zeros": False, "kept": [], "lost": [], "covered": [], outcome: [[0, end]]}


def test_calls():
    """Paths of calls follow directories that move."""
    script = ["seed 1", "mkdir_at 1 d", "mkdir_at 2 e", "create_at 3 f", "# descriptor 0 is /d/e/f", "write 0 0 6162", "rename_at 1 d 1 g",
              "fsyncdir_at 3", "link_at 4 3 h", "unlink_at 3 f", "truncate 0 1", "fsync 0", "close 0", "crash"]
    said = ["inode 2", "inode 3", "opened 0", "ok", "ok", "ok", "ok", "ok", "error injected", "ok", "ok", "crashed - 1:2"]
    wanted = ["write /d/e/f 0..2", "rename /d -> /g", "fsyncdir /g/e", "link /g/e/h", "unlink /g/e/f", "truncate /d/e/f 1: error injected",
              "fsync /d/e/f"]
    found = losses._Calls(script, said).last()
    check("calls by path", found[-7:] == wanted and len(found) == 8, found)
    told = [{"call": "crash", "reply": "crashed 01"}, {"edit": "create /a", "of": 1, "outcome": "kept"},
            {"edit": "create /b", "of": 2, "outcome": "lost"}, file_told("/a", 3), bytes_told("/a", 3, 3, "kept"),
            {**file_told("/b", None), "file": None}, file_told("/c", 3), bytes_told("/c", 4, 3, "lost"), file_told("/d", 2),
            bytes_told("/d", 5, 2, "kept"), {"call": "tree", "reply": "tree"}]
    wanted = ["unsettled edits:", "  line 2: create /b: lost", "/b: removed, since no name of it was kept", "/c: size 3 before, 3 after",
              "  line 4: write 0..3: lost", "/d: size 3 before, 2 after"]
    check("what is lost", losses.lost(told) == wanted, losses.lost(told))
    check("no record", losses.described("/none", f"{FOLDER.name}/none") == ([], []))


def test_swarm():
    """What is drawn depends on the seed alone; what is given isn't drawn. A seed repeats without --swarm."""
    options = argparse.Namespace(profile=None, tear=None, keep=None, fault=[])
    all_words = [crash_swarm.drawn(options, seed) for seed in range(400)]
    check("each seed once more", all_words == [crash_swarm.drawn(options, seed) for seed in range(400)])
    texts = {word for words in all_words for word in words}
    check("all kinds", {"ext4", "xfs", "btrfs", "posix", "prefix", "subset", "0/1", "1/1", "failed_sync drops", "failed_write prefix"} <= texts, texts)
    check("no lies", not any(text.startswith(("syncs", "edits")) for text in texts), texts)
    given = argparse.Namespace(profile="xfs", tear="prefix", keep="1/2", fault=["config sync 1 2"])
    check("what is given", crash_swarm.drawn(given, 1) == [])
    status, found, said = crash_run("--swarm", "--seeds", "3", "--work", SIX, "--check", ALL_SIX)
    check("a row", found[-1]["profile"] == "swarm" and found[-1]["seeds"] == 3, (status, found, said))
    for failure in found[:-1]:
        drawn = crash_swarm.drawn(options, failure["seed"])
        shown = failure["again"]
        check("it says what was drawn", failure["drawn"] == drawn and "--swarm" not in shown and f"--profile {drawn[1]}" in shown, failure)


def test_profiles():
    """A row for each profile, whose failures are kept apart."""
    status, found, said = crash_run("--profiles", "all", "--seeds", "1", "--stop-after", "5", "--work", SIX, "--check", ALL_SIX)
    rows = [row["profile"] for row in found if "seeds" in row]
    kept = [os.path.relpath(row["kept"], FOLDER.name) for row in found if "kept" in row]
    check("rows", rows == ["ext4", "xfs", "btrfs", "posix"], (status, found, said))
    check("folders", kept == [f"out/{profile}/seed-1" for profile in rows], kept)
    for words in (["--profiles", "zfs"], ["--profiles", "ext4", "--profile", "xfs"], ["--profiles", "all", "--swarm"]):
        check(f"bad: {words}", crash_run(*words, "--work", "true", "--check", "true")[0] == 2)


def test_every_state():
    """One run is recorded, and its check runs on every state. A crash that keeps nothing loses the second file after its acknowledgement."""
    work = "echo 1 >$MOUNT/a; sync $MOUNT/a; echo 1 >>$ACKNOWLEDGED; echo 2 >$MOUNT/b; echo 2 >>$ACKNOWLEDGED"
    check_it = "test $(cat $MOUNT/a $MOUNT/b 2>&1 | grep -c ^[12]$) -ge $(wc -l <$ACKNOWLEDGED)"
    out = f"{FOLDER.name}/checked"
    status, _, said = crash_run("--record-only", "--out", out, "--work", "false", "--check", "true")
    check("a workload that fails", status == 2 and "--work without a crash: 1" in said, said)
    for start in ([], ["--start", "sleep 100 & test -d $MOUNT"]):
        command = ["tools/check_program", "--profile", "btrfs", "--keep", "0/1", "--out", out, "--whole", "--work", work, "--check", check_it, *start]
        ran = subprocess.run(command, cwd=TOP, stdin=subprocess.DEVNULL, stdout=subprocess.PIPE, stderr=subprocess.PIPE, text=True)
        wanted = ["/run.script, 5 changing calls, 2 acknowledgements\n", "the check exits with 1: ", "what the crash lost:", "acknowledged 2\n",
                  "  shorter: tools/shrink --files ", " states, all of them; 1 fail\n", "missing: `fsync", f"\nthe page: {out}/page.html\n"]
        check(f"what it prints: {start}", ran.returncode == 1 and all(text in ran.stdout for text in wanted), ran)
        with open(f"{out}/page.html", encoding="utf-8") as file:
            check("the page", "fsync /b" in file.read())
        os.unlink(f"{out}/page.html")
    command = ["tools/check_program", "--out", out, "--work", "echo 1 >$MOUNT/a", "--check", "true", "--limit", "2"]
    ran = subprocess.run(command, cwd=TOP, stdin=subprocess.DEVNULL, stdout=subprocess.PIPE, stderr=subprocess.PIPE, text=True)
    check("a limit", ran.returncode == 0 and "not all of them: at most 2 outcomes of a crash were tried; 0 fail" in ran.stdout, ran)
    check("no failure and no page", "the page:" not in ran.stdout and not os.path.exists(f"{out}/page.html"), ran)
    check("bad words", subprocess.run(["tools/check_program", "--limit", "0"], cwd=TOP, stderr=subprocess.DEVNULL).returncode == 2)


def test_a_check_that_waits():
    """A check that waits for ever on a state, as for a lock that a crash left, fails after the time limit. No process is left."""
    work, waits = "echo 1 >$MOUNT/lock; sync $MOUNT/lock; rm $MOUNT/lock; sync $MOUNT; echo 1 >>$ACKNOWLEDGED", f"sleep 1000.{os.getpid()}"
    command = ["tools/check_program", "--out", f"{FOLDER.name}/waits", "--timeout", "4", "--work", work]
    ran = subprocess.run([*command, "--check", f"test ! -e $MOUNT/lock || {waits}"], cwd=TOP, stdin=subprocess.DEVNULL, stdout=subprocess.PIPE,
                         stderr=subprocess.PIPE, text=True)
    check("it fails", ran.returncode == 1 and "the check exits with 1: " in ran.stdout and "fails without any loss\n" in ran.stdout, ran)
    left = subprocess.run(["ps", "-eo", "args"], stdout=subprocess.PIPE, text=True).stdout
    check("nothing is left", waits not in left.splitlines(), left)


def test_never_due():
    """A fault whose call no seed makes is named at the end, by its number also after an earlier one was due."""
    faults = ["fail /f1 sync 1 EIO", "fail /no write 1 EIO", "fail /f2 open 1 off"]
    words = [word for fault in faults for word in ("--fault", fault)]
    status, _, said = crash_run("--seeds", "2", "--from-acknowledged", *words, "--work", f"echo 0 >>$ACKNOWLEDGED; {SIX}", "--check", "true")
    check("the second one", (status, said) == (0, "crash_run: no seed made the call of --fault 'fail /no write 1 EIO'\n"), (status, said))
    status, found, said = crash_run("--seeds", "1", "--profiles", "xfs,ext4", *words[2:4], "--work", f"echo 0 >>$ACKNOWLEDGED; {SIX}", "--check", "true")
    check("of each profile", [line.split()[-2:] for line in said.splitlines()] == [["on", "xfs"], ["on", "ext4"]], said)
    status, _, said = crash_run("--seeds", "1", "--fault", "config sync 0 1", "--work", f"echo 0 >>$ACKNOWLEDGED; {SIX}", "--check", "true")
    check("other faults", (status, said) == (0, ""), (status, said))


def test_folder():
    """The folder of the mount needs no quotes, also if TMPDIR does."""
    os.mkdir(f"{FOLDER.name}/a folder")
    os.environ["TMPDIR"] = f"{FOLDER.name}/a folder"
    work = "mkdir $MOUNT/d; sync $MOUNT/d; echo 1 >>$ACKNOWLEDGED"
    status, _, said = crash_run("--seeds", "1", "--from-acknowledged", "--work", work, "--check", "ls $MOUNT $ACKNOWLEDGED")
    del os.environ["TMPDIR"]
    check("no quotes", status == 0, said)
    check("nothing is left", os.listdir(f"{FOLDER.name}/a folder") == [])


if __name__ == "__main__":
    os.environ["BLOBCRASH_TOLD"] = "1"
    all_tests = [test_without_a_crash, test_untested, test_points, test_halves, test_record, test_words, test_calls, test_swarm, test_profiles,
                 test_every_state, test_a_check_that_waits, test_never_due, test_folder]
    run_tests([test for test in all_tests if not sys.argv[1:] or test.__name__ in sys.argv[1:]])
