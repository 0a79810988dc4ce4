"""
Tests of acknowledgements on the mount: mount_acknowledged.py PROGRAM. Each line of the file of --acknowledged is noted in the record between
the calls before it and after it, and the power may go off after one. The last line is `N passed, M failed`.
"""

import os
import subprocess
import sys
import tempfile

sys.dont_write_bytecode = True
from mount_calls import Mount, check, comes, put, refused, run_tests  # noqa: E402

PROGRAM = sys.argv[1]
FOLDER = tempfile.TemporaryDirectory()  # removed at the end
LOG = """
import os, sys
log = os.open(sys.argv[1] + "/log", os.O_CREAT | os.O_WRONLY)
for number in range(int(sys.argv[3])):
    os.pwrite(log, b"%02d" % number, 2 * number)
    os.fsync(log)
    with open(sys.argv[2], "ab") as file:
        file.write(b"%d\\n" % number)
"""


def files():
    """Returns the paths of a new record and of a new file of acknowledgements."""
    folder = tempfile.mkdtemp(dir=FOLDER.name)
    open(f"{folder}/acknowledged", "wb").close()
    return f"{folder}/record", f"{folder}/acknowledged"


def lines_of(record):
    """Returns the calls that change bytes and the acknowledgements of a record, without their bytes."""
    with open(record, encoding="utf-8") as file:
        lines = [line.split() for line in file]
    return [" ".join(words[1:]) if words[0] == "#" else words[0] for words in lines
            if words[0] in ("write", "fsync", "crash") or words[:2] == ["#", "acknowledged"]]


def test_order():
    """A program that acknowledges 30 records, each after its sync, as fast as it can."""
    record, acknowledged = files()
    with Mount(PROGRAM, "--record", record, "--acknowledged", acknowledged) as mount:
        subprocess.run([sys.executable, "-c", LOG, mount.at, acknowledged, "30"], check=True)
        check("their number", mount.control.status()["acknowledged"] == "30", mount.control.status())
        # A create, then two calls before each line.
        check("the calls before a line", [mount.ask(f"acknowledgement {number}") for number in (1, 2, 30)] == ["3", "5", "61"])
        missing = [refused(mount, f"acknowledgement {number}") for number in (0, 31, "x")]
        check("no such line", missing == ["there is no such acknowledgement"] * 2 + ["Invalid argument"], missing)
        mount.ask("crash")
        mount.ask("record stop")
    wanted = [line for number in range(30) for line in ("write", "fsync", f"acknowledged {number}")]
    check("each line is between its sync and the next write", lines_of(record) == [*wanted, "crash"], lines_of(record)[:12])


def test_texts():
    """What was in the file before isn't noted. A line in parts is one; hostile lines are escaped."""
    record, acknowledged = files()
    put(acknowledged, b"before\n")
    with Mount(PROGRAM, "--record", record, "--acknowledged", acknowledged) as mount:
        for part in (b"a", b" b", b"\n", "\u00e4".encode() + b"\n", b"\x00\xff\\\x1b[2J\n", b"x" * 3000 + b"\n\n", b"no end"):
            with open(acknowledged, "ab") as file:
                file.write(part)
            mount.ask("status")
        check("whole lines", mount.control.status()["acknowledged"] == "5", mount.control.status())
        mount.ask("record stop")
    with open(record, encoding="utf-8") as file:
        found = [line[len("# acknowledged "):-1] for line in file if line.startswith("# acknowledged ")]
    check("their texts", found == ["a b", "\u00e4", "\\x00\\xff\\x5c\\x1b[2J", "x" * 1024, ""], found)


def test_power():
    """The power goes off some calls after a line: immediately, or at the next line; and immediately if the line exists already."""
    for calls, wanted in ((0, 5), (1, 5), (2, 6), (3, 6)):
        _, acknowledged = files()
        with Mount(PROGRAM, "--acknowledged", acknowledged) as mount:
            mount.ask(f"crash-after {calls} 5")
            process = subprocess.Popen([sys.executable, "-c", LOG, mount.at, acknowledged, "30"])
            check("the power goes off", comes(mount.control.is_off))
            process.kill()
            process.wait(60)
            status = mount.control.status()
            # Two calls for each record, and a create.
            check(f"{calls} calls after line 5", (status["acknowledged"], status["changing"]) == (str(wanted), str(11 + calls)), status)
            mount.ask("crash")
            mount.ask("crash-after 0 5")
            check("the line is there", mount.control.is_off())
            mount.ask("on")
            check("bad numbers", {refused(mount, f"crash-after {words}") for words in ("1 x", "1 2 3", "1 ", " 1")} == {"Invalid argument"})


def test_file():
    """A file that can't be read is refused."""
    for path in (f"{FOLDER.name}/none", FOLDER.name, "/dev/null"):
        command = [PROGRAM, "--control", f"{FOLDER.name}/socket", "--acknowledged", path, "--", FOLDER.name]
        ran = subprocess.run(command, stderr=subprocess.PIPE, text=True)
        check(f"no file of lines: {path}", ran.returncode == 1 and ran.stderr.startswith(f"mount: --acknowledged {path}: "), ran)


if __name__ == "__main__":
    run_tests([test_order, test_texts, test_power, test_file])
