"""Searches of `blobcrash` on a terminal and in a pipe: what they show, what they print after Ctrl-C, and their JSON, worked out by hand. The
last line is `N passed, M failed`."""

import functools
import json
import os
import re
import signal
import subprocess
import sys
import tempfile
import time

TOP = os.path.dirname(os.path.dirname(os.path.abspath(__file__)))
PYTHON = os.path.join(TOP, "bindings", "python")
sys.path.insert(0, PYTHON)

from mount_calls import check, run_tests
from terminal import on_terminal

from blobcrash import explore, seeds

BLOBCRASH = os.path.join(TOP, "blobcrash")
# Two bytes over nothing, kept up to the first that is lost: three outcomes.
PREFIX = "config write 0 1 1 2 prefix\nopen p 62\nwrite 0 0 6162\ncrash\nreopen\nopen p 62\nsize 1\n"


def wide(count):
    """A script in which each of `count` bytes is kept or lost: 2^count leaves."""
    return f"config write 0 1 1 2 subset\nopen p 62\nwrite 0 0 {'61' * count}\ncrash\nopen p 62\nsize 1\n"


def overwritten(count):
    """A script in which each of `count` writes of one byte is kept or lost: 2^count leaves, and two states."""
    return "config write 0 1 1 2 subset\nopen p 62\n" + "write 0 0 61\n" * count


def written(work, text):
    place = os.path.join(work, "script")
    with open(place, "w", encoding="utf-8") as file:
        file.write(text)
    return place


def piped(words, text):
    """Runs `blobcrash` without a terminal."""
    return subprocess.run([BLOBCRASH, *words], input=text, stdout=subprocess.PIPE, stderr=subprocess.PIPE, text=True, check=False)


def test_json(work):
    """Each line is an object; these are the outcomes and states that the script has by hand."""
    lines = [json.loads(line) for line in piped(["explore", "--last", "--json"], PREFIX).stdout.splitlines()]
    wanted = [{"leaves": 1, "words": words, "replies": [f"size {size}"]} for words, size in (("0 0", 2), ("0 max", 1), ("max", 0))]
    check("explore --json", lines == [*wanted, {"leaves": 3, "outcomes": 3, "complete": True}], lines)
    lines = [json.loads(line) for line in piped(["explore", "--json", "--limit", "1"], PREFIX).stdout.splitlines()]
    replies = ["ok", "opened 0 0 0", "ok", "crashed 0:11", "ok", "opened 1 2 0", "size 2"]
    check("explore --json with a limit", lines == [{"leaves": 1, "words": "0 0", "replies": replies},
                                                   {"leaves": 1, "outcomes": 1, "complete": False}], lines)
    lines = [json.loads(line) for line in piped(["explore", "--json"], "open p 62\n").stdout.splitlines()]
    check("explore --json without draws", lines[0] == {"leaves": 1, "words": "", "replies": ["opened 0 0 0"]}, lines)
    found = [json.loads(line) for line in piped(["states", "--at", "3", "--json"], PREFIX).stdout.splitlines()]
    sizes = [(it["call"], it["words"], [(b["partition"], b["name"], len(b["bytes"]) // 2 - 4096) for b in it["blobs"]]) for it in found[:-1]]
    wanted = [(3, words, [("p", "62", size)]) for words, size in (("0 0", 2), ("0 max", 1), ("max", 0))]
    check("states --json", sizes == wanted and found[-1] == {"crashes": 1, "outcomes": 3, "states": 3, "complete": True}, sizes)
    script = "create /a\ntree\ncrash\ntree\n"
    lines = [json.loads(line) for line in piped(["files", "explore", "--last", "--json"], script).stdout.splitlines()]
    wanted = [{"leaves": 1, "words": "0", "replies": ["tree /a=-"]}, {"leaves": 1, "words": "max", "replies": ["tree"]}]
    check("files explore --json", lines == [*wanted, {"leaves": 2, "outcomes": 2, "complete": True}], lines)
    ran = piped(["explore", "--json"], "wirte 0 0 61\n")
    check("a bad line with --json", (ran.returncode, ran.stdout) == (2, ""), ran)


def test_json_of_checks(work):
    """tools/states with --json: of the three states of the record the two that lose a byte fail."""
    script = written(work, PREFIX.partition("crash")[0])
    test = 'test "$(wc -c <$(find "$STATE" -type f))" -eq 4098'
    words = [BLOBCRASH, "states", "--json", "--at", "3", "--out", f"{work}/out", script, "--", "sh", "-c", test]
    ran = subprocess.run(words, stdout=subprocess.PIPE, text=True, check=False)
    lines = [json.loads(line) for line in ran.stdout.splitlines()]
    failed = [{"line": 3, "status": 1, "kept": f"{work}/out/{number}"} for number in (1, 2)]
    check("states --json of checks", ran.returncode == 1 and lines == [
        *failed, {"crashes": 1, "outcomes": 3, "states": 3, "complete": True, "fail": 2}], lines)


def test_pipe(work):
    """A long run shows nothing in a pipe."""
    for words, script in ((["explore", "--last"], wide(17)), (["states"], overwritten(15))):
        ran = piped(words, script)
        check(f"{words[0]} in a pipe", ran.returncode == 0 and ran.stderr == "" and "\x1b" not in ran.stdout, (ran.returncode, ran.stderr))


def test_terminal(work):
    """It shows what was visited and removes that. It prints what it prints in a pipe."""
    wanted = piped(["explore", "--last"], wide(21)).stdout
    ran = on_terminal([BLOBCRASH, "explore", "--last"], work, written(work, wide(21)))
    check("explore shows how far it is", re.search(r"\rexplore: 100000 leaves, 1 outcome; now up to 1000000, \d+ s", ran.shown), ran.shown[-300:])
    check("and removes that", ran.status == 0 and ran.out == wanted and [line for line in ran.last if line] == [], (ran.status, ran.last))
    ran = on_terminal([BLOBCRASH, "explore", "--last"], work, written(work, PREFIX))
    check("a short run shows nothing", (ran.status, ran.shown) == (0, ""), ran.shown)
    ran = on_terminal([BLOBCRASH, "explore", "--last"], work, written(work, wide(17)), kind="dumb")
    check("a terminal that removes nothing", (ran.status, ran.shown) == (0, ""), ran.shown)
    for words in (["explore"], ["states"], ["files", "explore"], ["files"], ["explain"], []):
        ran = on_terminal([BLOBCRASH, *words], work, written(work, "wirte 0 0 61\n"))
        why = "blobcrash: line 1: `wirte`: no such call; did you mean `write`?"
        check(f"{words} says why a line is bad", ran.status == 2 and ran.last == ["line 1: bad call", why], (ran.status, ran.last))


def test_ctrl_c(work):
    """After Ctrl-C a search tells what it counted, which is what it prints with that limit, and prints nothing."""
    ran = on_terminal([BLOBCRASH, "explore", "--last", "--limit", "1000000000"], work, written(work, wide(30)), until="; now up to ")
    found = re.search(r"explore: interrupted after \d+ s and (\d+) leaves, (\d+) outcomes?. To go on: --limit (\d+) prints them", ran.shown)
    check("explore: the counts", ran.status == 130 and ran.out == "" and found and found[1] == found[3], (ran.status, ran.shown[-300:]))
    if found:
        last = piped(["explore", "--last", "--limit", found[3]], wide(30)).stdout.splitlines()[-1]
        check("explore: with the limit", re.match(rf"# {found[1]} leaves, not all of them: .*; {found[2]} outcome", last), last)
    ran = on_terminal([BLOBCRASH, "states", "--at", "32"], work, written(work, overwritten(30)), until="; now up to ")
    told = re.search(r"states: interrupted after \d+ s and 1 crash, (\d+) outcomes, \d states?. To go on: --limit (\d+) prints them", ran.shown)
    check("states: the counts", ran.status == 130 and ran.out == "" and told and told[1] == told[2], (ran.status, ran.shown[-300:]))
    with open(written(work, wide(30)), "rb") as given:
        run = subprocess.Popen([BLOBCRASH, "explore", "--json", "--limit", "1000000000"], stdin=given, stdout=subprocess.DEVNULL)
    time.sleep(1)
    run.kill()
    run.wait()
    left = subprocess.run(["pgrep", "-f", "blobcrash_explore .*--limit 1000000000"], stdout=subprocess.PIPE, check=False)
    check("no program is left", left.stdout == b"", left.stdout)


SEARCHES = """
import sys, time
sys.path.insert(0, sys.argv[2])
from blobcrash import Library, explore, seeds

def body(store):
    log, _ = store.open("p", b"b")
    log.write(0, b"12345678")
    store.restart()
    time.sleep(0.01)
    return store.open("p", b"b")[1]

settings = ["write 0 1 1 2 subset"]
try:
    found = explore(body, settings=settings) if sys.argv[1] == "explore" else seeds(body, 400, settings=settings, by=Library)
except KeyboardInterrupt as error:
    explored = getattr(error, "explored", None)
    print(repr((explored.runs, list(explored.rest)) if explored else None))
    sys.exit(130)
"""


def body(store):
    log, _ = store.open("p", b"b")
    log.write(0, b"12345678")
    store.restart()


def test_python(work):
    """`explore` and `seeds` show their counts. What is left after Ctrl-C and what was made are all 256 runs, and all 400 seeds."""
    place = written(work, SEARCHES)
    words = [sys.executable, place]
    ran = on_terminal([*words, "explore", PYTHON], work, until=" runs, ")
    check("explore in Python", ran.status == 130 and re.search(r"\rexplore: \d+ runs, \d s", ran.shown), (ran.status, ran.shown[-500:]))
    runs, rest = eval(ran.out)
    shown = re.search(r"explore: interrupted after (\d+) runs, \d+ s; none failed. To go on: explore\(.., under=(\[.*?\])\)", ran.shown, re.S)
    check("it prints how to go on", shown and (int(shown[1]), eval(shown[2])) == (runs, rest), ran.shown[-500:])
    found = explore(body, settings=["write 0 1 1 2 subset"], under=rest)
    check("the rest is the rest", found.complete and runs + found.runs == 256 and runs > 0, (runs, found))
    ran = on_terminal([*words, "seeds", PYTHON], work, until=" of 400, ")
    shown = re.search(r"seeds: interrupted after (\d+) seeds, \d+ s; none failed. To go on: seeds\(.., range\((\d+), 400\)\)", ran.shown)
    check("seeds in Python", ran.status == 130 and shown and shown[1] == shown[2] and int(shown[1]) > 0, ran.shown[-500:])


def test_by_workers(work):
    """The same with workers: nothing is shown in a pipe, and what is left isn't lost."""
    place = written(work, SEARCHES.replace("settings=settings)", "settings=settings, executor=pool)").replace("by=Library)", "by=Library, executor=pool)")
                    .replace("try:\n", "import concurrent.futures\npool = concurrent.futures.ThreadPoolExecutor(2)\ntry:\n"))
    ran = on_terminal([sys.executable, place, "explore", PYTHON], work, until=" runs, ")
    runs, rest = eval(ran.out)
    found = explore(body, settings=["write 0 1 1 2 subset"], under=rest)
    check("explore by workers", ran.status == 130 and runs > 0 and found.complete and runs + found.runs == 256, (ran.status, runs, found))
    ran = on_terminal([sys.executable, place, "seeds", PYTHON], work, until=" of 400, ")
    shown = re.search(r"seeds: interrupted after (\d+) seeds, \d+ s; none failed. To go on: seeds\(.., (.*)\)", ran.shown)
    check("seeds by workers", ran.status == 130 and shown and len(eval(shown[2])) + int(shown[1]) == 400, ran.shown[-500:])


PROFILES = """
import sys, time
sys.path.insert(0, sys.argv[2])
from blobcrash import explore, seeds

def body(files):
    time.sleep(0.02)
    if files.choose(100) == 3 and f"profile {sys.argv[3]}" in files.script:
        raise ValueError("lost")

try:
    explore(body, profile="all") if sys.argv[1] == "explore" else seeds(body, 100, profile="all")
except KeyboardInterrupt as error:
    explored = getattr(error, "explored", None)
    print(repr((explored.runs, list(explored.rest)) if explored else None))
"""


def test_profiles(work):
    """A search in all profiles: Ctrl-C in the second one leaves its rest and the others, and what failed before is told."""
    place = written(work, PROFILES)
    for failing, result, runs_before in (("none", "none failed", 100), ("ext4", "ext4 failed: ValueError: lost (3/100)", 0)):
        ran = on_terminal([sys.executable, place, "explore", PYTHON, failing], work, until="explore in xfs: ")
        runs, rest = eval(ran.out)
        told = re.search(r"explore: interrupted after (\d+) runs, \d+ s; (.*). To go on: explore\(.., under=(\[.*?\])\)", ran.shown, re.S)
        check("explore in all profiles", told and (int(told[1]), told[2], eval(told[3])) == (runs, result, rest), ran.shown[-500:])
        rest_of_all = explore(lambda files: files.choose(100) and None, profile="all", under=rest)
        check("its rest", runs > runs_before and runs - runs_before + rest_of_all.runs == 300 and "ext4" not in rest_of_all.profiles, (runs, rest))
    ran = on_terminal([sys.executable, place, "seeds", PYTHON, "none"], work, until="seeds in xfs: ")
    calls = re.findall(r"\n    seeds\(.., range\((\d+), 100\), profile='([a-z0-9]*)'\)", ran.shown.replace("\r\n", "\n"))
    told = re.search(r"seeds: interrupted after (\d+) runs, \d+ s; none failed. To go on:", ran.shown)
    check("seeds in all profiles", told and [(0, "btrfs"), (0, "posix")] == [(int(first), name) for first, name in calls[1:]], ran.shown[-500:])
    check("their counts", calls[0][1] == "xfs" and int(told[1]) == 100 + int(calls[0][0]), ran.shown[-500:])


def test_checks(work):
    """tools/states and examples/seeds.py."""
    script = written(work, PREFIX.partition("crash")[0] + "".join(f"write 0 {at} 61\n" for at in range(2, 8)))
    words = [BLOBCRASH, "states", script, "--", "sleep", "0.05"]
    ran = on_terminal(words, work, until=" fail, ")
    shown = re.search(r"states: interrupted after \d+ s: crash (\d+) of (\d+), \d+ states, 0 fail. To go on: --since (\d+)", ran.shown)
    check("tools/states", ran.status == 130 and shown and 0 < int(shown[3]) < 9, (ran.status, ran.shown[-300:]))
    whole, rest = ([line.partition(":")[0] for line in subprocess.run([BLOBCRASH, "states", "--out", f"{work}/out", *since, script, "--", "false"],
                   stdout=subprocess.PIPE, text=True, check=False).stdout.splitlines()] for since in ([], ["--since", "7"]))
    check("--since", set(rest[:-1]) == {f"crash after line {line}" for line in (7, 8, 9)} < set(whole), rest)
    ran = on_terminal([sys.executable, os.path.join(TOP, "examples", "seeds.py"), "100000"], work, until=" of 100000, ")
    shown = re.search(r"(\d+) seeds of 100000; to go on: --from (\d+)", ran.shown)
    check("examples/seeds.py", ran.status == 130 and shown and shown[1] == shown[2] and ran.out == f"{shown[1]} seeds, 0 fail: []\n", (ran.status, ran.out, ran.shown[-300:]))
    check("no traceback, no message of a worker", "Traceback" not in ran.shown and "output failed" not in ran.shown, ran.shown[-500:])


def test_signals(work):
    """A signal to the launcher alone ends a program whose script is a file."""
    for number in (signal.SIGTERM, signal.SIGHUP, signal.SIGINT):
        with open(written(work, wide(30)), "rb") as given:
            run = subprocess.Popen([BLOBCRASH, "explore", "--limit", "1000000001"], stdin=given, stdout=subprocess.DEVNULL, stderr=subprocess.PIPE)
        time.sleep(1)
        run.send_signal(number)
        errors = run.communicate(timeout=20)[1]
        status = run.returncode
        left = subprocess.run(["pgrep", "-f", "blobcrash_explore --limit 1000000001"], stdout=subprocess.PIPE, check=False)
        check(f"{number.name}", (status, errors, left.stdout) == (128 + number, b"", b""), (status, errors, left.stdout))


def test_reason(work):
    """The reason is that of the line, and none if the script was read in part before."""
    script = written(work, "open p 62\nread 0 0 1\nfrob 0\n")
    for taken, wanted in ((0, "line 3: bad call\nblobcrash: line 3: `frob`: no such call\n"), (10, "line 2: bad call\n")):
        with open(script, "rb", buffering=0) as given:
            given.read(taken)
            ran = subprocess.run([BLOBCRASH], stdin=given, stdout=subprocess.DEVNULL, stderr=subprocess.PIPE, text=True, check=False)
        check(f"a script from byte {taken} on", (ran.returncode, ran.stderr) == (2, wanted), ran)
    ran = piped([], "frob\n")
    check("a script in a pipe", (ran.returncode, ran.stderr) == (2, "line 1: bad call\n"), ran)


def in_folder(test):
    """Runs a test with a folder of its own."""
    with tempfile.TemporaryDirectory() as work:
        test(work)


if __name__ == "__main__":
    run_tests([functools.partial(in_folder, test) for name, test in list(globals().items()) if name.startswith("test_")])
