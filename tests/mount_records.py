"""
Tests of the mount's records: mount_records.py PROGRAM FILES. A run with crashes is recorded, and `blobcrash files` (FILES) replays the
record: after each crash its tree has exactly the names and bytes that the mount had. The last line is `N passed, M failed`.
"""

import os
import re
import resource
import subprocess
import sys
import tempfile
import time

sys.dont_write_bytecode = True
from mount_calls import Mount, Random, check, get, put, refusal, refused, run_tests  # noqa: E402

PROGRAM, FILES = sys.argv[1:3]
FOLDER = tempfile.TemporaryDirectory()  # removed at the end
CRASHES, CALLS = 3, 150  # calls before each crash


def names_and_bytes(root):
    """Returns each path below a folder, with a slash after that of a folder, and the bytes of each file. Links are empty in the layer."""
    found = {}
    for folder, folders, files in os.walk(os.fsencode(root)):
        for name in folders + files:
            path = os.path.join(folder, name)
            key = path[len(os.fsencode(root)):]
            if os.path.islink(path):
                found[key] = b""
            elif os.path.isdir(path):
                found[key + b"/"] = None
            else:
                found[key] = get(path)
    return found


def told(reply):
    """Returns the same of a line `tree`."""
    found = {}
    for word in reply.split()[1:]:
        path, is_file, digits = word.rpartition("=") if not word.endswith("/") else (word, "", "")
        path = re.sub(rb"\\x(..)", lambda match: bytes([int(match[1], 16)]), path.encode())
        found[path] = bytes.fromhex(digits.replace("-", "")) if is_file else None
    return found


def replay(script):
    """Replays a record with a `tree` after each crash. Returns the replies to both, or None if the program refuses the record."""
    lines = re.sub(r"^crash$", "crash\ntree", script, flags=re.M)
    ran = subprocess.run([FILES], input=lines, stdout=subprocess.PIPE, stderr=subprocess.PIPE, encoding="ascii")
    if ran.returncode or ran.stderr:
        print(ran.stderr)
        return None, None
    replies = ran.stdout.splitlines()
    return [line for line in replies if line.startswith("crashed")], [told(line) for line in replies if line.split()[0] == "tree"]


def read_record(path):
    """Returns a record."""
    with open(path, encoding="ascii") as file:
        return file.read()


def differences(one, other):
    """Returns the paths that two trees have not alike, and where their bytes differ first."""
    found = []
    for path in sorted(set(one) | set(other)):
        ours, theirs = one.get(path, "missing"), other.get(path, "missing")
        if isinstance(ours, bytes) and isinstance(theirs, bytes) and ours != theirs:
            first = next((at for at, pair in enumerate(zip(ours, theirs)) if pair[0] != pair[1]), min(len(ours), len(theirs)))
            found.append(f"{path}: {len(ours)} and {len(theirs)} bytes, from {first} on")
        elif ours != theirs:
            found.append(f"{path}: {str(ours)[:20]}, {str(theirs)[:20]}")
    return found


def compare(name, script, crashes, trees):
    """Compares a replay with what the mount said of its crashes, and with the trees after them."""
    replies, replayed = replay(script)
    check(f"{name}: the program takes the record", replies is not None, script[-500:])
    if replies is None:
        return
    for number, (said, tree) in enumerate(zip(crashes, trees)):
        reply = replies[number] if number < len(replies) else "missing"
        edits = reply.split()[1].strip("-") if number < len(replies) else ""
        kept = {"edits": len(edits), "kept-edits": edits.count("1")}
        check(f"{name}: crash {number}", all(said[key] == str(count) for key, count in kept.items()), (said, reply[:300]))
        again = replayed[number] if number < len(replayed) else {}
        check(f"{name}: the tree after crash {number}", again == tree, differences(tree, again))
    check(f"{name}: the record has all crashes", len(replies) == len(crashes) > 0)


def crash(mount, crashes, trees):
    """Crashes, and notes what is left."""
    words = mount.ask("crash").split()
    crashes.append(dict(zip(words[::2], words[1::2])))
    trees.append(names_and_bytes(mount.at))


def random_run(seed, *options, settings=()):
    """Random calls, with crashes between them."""
    crashes, trees, folder = [], [], tempfile.mkdtemp(dir=FOLDER.name)
    path = os.path.join(folder, "a record")
    with Mount(PROGRAM, "--seed", str(seed), "--record", path, *options) as mount:
        calls = Random(seed, [mount.at])
        for number in range(CRASHES * CALLS):
            _, call = calls.call()
            refusal(call, 0)
            if number % CALLS == 60 and number < 2 * CALLS:
                mount.ask("settle")
            if number % CALLS == 80:
                for setting in settings:
                    mount.ask(setting)
            if number % CALLS == CALLS - 1:
                mount.ask("config read 0 1")  # the walk draws nothing
                crash(mount, crashes, trees)
                for held in calls.held[0]:
                    refusal(os.close, held)
                calls.held[0].clear()
        mount.ask("record stop")
        check("a stopped record", mount.control.status()["record"] == "off" and os.stat(path).st_mode & 0o777 == 0o600)
    compare(f"seed {seed} {' '.join(options)}", read_record(path), crashes, trees)


def test_random():
    """Random calls in each profile, with faults and other settings."""
    for seed, profile in enumerate(("ext4", "xfs", "btrfs", "posix"), 1):
        random_run(seed, "--profile", profile)
    random_run(5, "--profile", "posix", "--tear", "subset", "--keep", "3/4", "--size", "1M")
    random_run(6, "--tear", "prefix", settings=["config read 1 20", "config sync 1 8", "config open 1 9", "config write 1 9 1 2 prefix"])
    random_run(8, "--changes", "20")
    random_run(7, settings=["profile posix", "keep 1 5", "config read 1 3", "config resize 1 4 1 2"])


THREADS = """
import os, random, sys, threading

def work(seed):
    draw, held = random.Random(seed), []
    name = lambda: sys.argv[1] + "/" + draw.choice(["a", "b", "d", "d/x", "e", "e/f", "e/f/g"]) + str(draw.randrange(3))
    calls = [lambda: os.mkdir(name()), lambda: os.rename(name(), name()), lambda: os.unlink(name()), lambda: os.link(name(), name()),
             lambda: held.append(os.open(name(), os.O_RDWR | draw.choice([0, os.O_CREAT, os.O_TRUNC]))),
             lambda: os.pwrite(draw.choice(held), bytes([seed]) * draw.choice([1, 5000, 20000]), draw.choice([0, 77, 4096])),
             lambda: os.fsync(draw.choice(held)), lambda: os.close(held.pop(draw.randrange(len(held))))]
    while True:
        try:
            draw.choice(calls)()
        except (OSError, IndexError, ValueError):
            pass

for seed in range(int(sys.argv[2]), int(sys.argv[2]) + 6):
    threading.Thread(target=work, args=(seed,)).start()
"""


def test_threads():
    """A program with six threads, which is killed at each crash."""
    crashes, trees, path = [], [], os.path.join(tempfile.mkdtemp(dir=FOLDER.name), "record")
    with Mount(PROGRAM, "--profile", "btrfs", "--record", path) as mount:
        for number in range(CRASHES):
            mount.ask("crash-after 150")
            process = subprocess.Popen([sys.executable, "-c", THREADS, mount.at, str(10 * number)])
            until = time.monotonic() + 60
            while not mount.control.is_off() and time.monotonic() < until:
                time.sleep(0.02)
            process.kill()
            mount.ask("off")
            crash(mount, crashes, trees)
            process.wait(60)
    compare("threads", read_record(path), crashes, trees)


def test_commands():
    """When a record may begin, and where."""
    folder = tempfile.mkdtemp(dir=FOLDER.name)
    path = f"{folder}/record"
    with Mount(PROGRAM) as mount:
        check("not on the mount", refused(mount, f"record {mount.at}/record") == "Resource deadlock avoided")
        os.mkfifo(f"{folder}/fifo")
        check("not a fifo", refused(mount, f"record {folder}/fifo") != "")
        os.listdir(mount.at)
        check("before a change", refused(mount, f"record {path}") == "" and mount.control.status()["record"] == "on")
        check("one record", refused(mount, f"record {path}") == "Device or resource busy")
        put(f"{mount.at}/#f \\", b"bytes")
        crashes, trees = [], []
        crash(mount, crashes, trees)
        check("end", refused(mount, "record stop") == "" and refused(mount, "record stop") == "")
        put(f"{mount.at}/g", b"bytes")
        check("too late", refused(mount, f"record {path}").startswith("too late"))
        compare("a record by command", read_record(path), crashes, trees)
        check("nothing after the end", "g" not in [line.split()[-1] for line in read_record(path).splitlines()])


def test_full():
    """A record that can't be written stops with a whole line, and no call fails."""
    path = os.path.join(tempfile.mkdtemp(dir=FOLDER.name), "record")
    with Mount(PROGRAM, "--record", path) as mount:
        resource.prlimit(mount.daemon.pid, resource.RLIMIT_FSIZE, (400000, 400000))
        for number in range(20):
            check("a call", refusal(put, f"{mount.at}/{number}", bytes(50000)) is None)
        check("the state", mount.control.status()["record"] == "failed")
        check("the reason", refused(mount, "record stop") == "File too large" and "File too large" in mount.messages())
        check("a whole line", read_record(path).endswith("\n"))
        refusal(put, f"{mount.at}/more", b"x")


def main():
    """Runs all tests."""
    run_tests([test_random, test_threads, test_commands, test_full])


if __name__ == "__main__":
    main()
