"""
Tests ./test on a terminal, and ./test --quick, in a repository of this test, with a toolchain and scripts that only count: runs.py FOLDER.
The last line is `N passed, M failed`.
"""

import fcntl
import os
import pty
import re
import select
import shutil
import signal
import struct
import subprocess
import sys
import termios
import time
from pathlib import Path

TOP = Path(__file__).resolve().parent.parent
FOLDER = Path(sys.argv[1])
REPOSITORY = FOLDER / "top"
COPIED = ("test", "HANDLES", "tools/building.sh", "tests/counting.sh", "tests/times.py", "tests/progress.py")
RT = """#!/bin/sh
pwd >"$SAID/folder"
ls crates/*/must-fail >"$SAID/edits" 2>/dev/null
echo 'rt: low proved'
sleep ${PAUSE:-0}
echo 'rt: blob_c proved'
echo "3 passed, ${RT_FAILED:-0} failed"
"""
SCRIPT = '. "$top/tests/counting.sh"\nsleep ${PAUSE:-0}\npass\nfinish\n'
SCRIPTS = ("pages", "sql", "own", "bindings")
counts = {True: 0, False: 0}


def check(what, is_good, *shown):
    counts[bool(is_good)] += 1
    if not is_good:
        print(f"runs.py: {what}", *shown, sep="\n")


def make():
    files = {
        "crates.txt": "low:\nblob_c staticlib: low\n",
        "tests/budget.txt": "low 600 0 0\nblob_c 1200 168 0\n",
        "crates/low/src/lib.rt": "",
        "crates/low/must-fail/one.edit": "file: src/lib.rt\n",
        "crates/blob_c/src/lib.rt": "",
        "bindings/build.sh": "exit 1\n",
        **{f"tests/{name}.sh": f"top='{REPOSITORY}'\n{SCRIPT}" for name in SCRIPTS},
    }
    for name in COPIED:
        (REPOSITORY / name).parent.mkdir(parents=True, exist_ok=True)
        shutil.copy(TOP / name, REPOSITORY / name)
    for name, text in files.items():
        (REPOSITORY / name).parent.mkdir(parents=True, exist_ok=True)
        (REPOSITORY / name).write_text(text, encoding="utf-8")
    (FOLDER / "bin").mkdir()
    (FOLDER / "bin/rt").write_text(RT, encoding="utf-8")
    (FOLDER / "bin/rt").chmod(0o755)
    (FOLDER / "temporary").mkdir()


def settings(**more):
    own = {"PATH": f"{FOLDER}/bin:{os.environ['PATH']}", "SAID": str(FOLDER), "RUN_OF": str(FOLDER)}
    return {**os.environ, "TERM": "xterm", "TMPDIR": str(FOLDER / "temporary"), **own, **more}


def plain(*words, **more):
    """Runs ./test without a terminal. Returns its status and its output."""
    how = {"stdout": subprocess.PIPE, "stderr": subprocess.STDOUT, "stdin": subprocess.DEVNULL, "text": True, "timeout": 120}
    ran = subprocess.run(["./test", *words], cwd=REPOSITORY, env=settings(**more), check=False, **how)
    return ran.returncode, ran.stdout


def on_terminal(*words, until=None, columns=200, **more):
    """Runs ./test on a terminal, with Ctrl-C when it shows the text `until`. Returns its status and all that it wrote."""
    child, terminal = pty.fork()
    if child == 0:
        os.chdir(REPOSITORY)
        os.execve("./test", ["./test", *words], settings(**more))
    fcntl.ioctl(terminal, termios.TIOCSWINSZ, struct.pack("HHHH", 24, columns, 0, 0))
    shown, began = b"", time.monotonic()
    while time.monotonic() - began < 120:
        try:
            shown += os.read(terminal, 65536) if select.select([terminal], [], [], 0.1)[0] else b""
        except OSError:
            break
        if until and until.encode() in shown:
            os.write(terminal, b"\x03")
            until = None
    else:
        os.kill(child, signal.SIGKILL)
    return os.waitstatus_to_exitcode(os.waitpid(child, 0)[1]), shown.decode().replace("\r\n", "\n")


def left(shown):
    """Returns what a terminal shows in the end, line by line: without lines that were erased."""
    return [re.sub(r".*\r\x1b\[K", "", line) for line in shown.split("\n")]


def untimed(lines):
    return sorted(re.sub(r"\d+ (minutes|seconds)", "N", line) for line in lines if "processor seconds" not in line)


def processes():
    """Returns the processes of this test that still run."""
    found = []
    for name in filter(str.isdigit, os.listdir("/proc")):
        try:
            if f"RUN_OF={FOLDER}\0".encode() in Path(f"/proc/{name}/environ").read_bytes():
                found.append(int(name))
        except OSError:
            pass
    return found


def test_terminal():
    status, output = plain()
    check("a run without a terminal", status == 0 and output.endswith("\n7 passed, 0 failed\n"), output)
    check("it shows no progress", "\x1b" not in output and "so far" not in output, output)
    status, shown = on_terminal(PAUSE="1.5")
    check("a run on a terminal", status == 0 and left(shown)[-2:] == ["7 passed, 0 failed", ""], shown)
    check("it leaves what a run without a terminal prints", untimed(left(shown)) == untimed(output.split("\n")), left(shown))
    for text in (r"test: 1 of 2 crates, at most 8 minutes left; \d+ seconds so far \(\d+ seconds last time for the proofs\)",
                 r"test: [0-3] of 4 scripts, about \d+ seconds left; .* so far \(\d+ seconds last time\); now .*own\.sh \(\d+ seconds\)"):
        check(f"it shows {text}", re.search(text, shown), shown)
    narrow = on_terminal(columns=40)[1]
    lines = re.findall(r"\x1b\[K(test: [^\r\n]*so f[^\r\n]*)", narrow)
    check("a narrow terminal", lines and all(len(line) == 39 for line in lines), narrow)
    status, shown = on_terminal(RT_FAILED="1")
    check("a run that fails", status == 1 and left(shown)[-2:] == ["3 passed, 1 failed", ""], shown)
    status, shown = on_terminal(TERM="dumb")
    check("a terminal that erases nothing", status == 0 and "\x1b" not in shown and "so far" not in shown, shown)
    status, shown = on_terminal(until="1 of 2 crates", PAUSE="5")
    check("Ctrl-C", status not in (0, None), status, shown)
    for _ in range(100):
        if not processes():
            break
        time.sleep(0.1)
    check("Ctrl-C leaves no process", not processes(), processes())


def test_quick():
    plain()
    before = {name: (REPOSITORY / name).read_bytes() for name in ("out/gate.sums", "out/test/rt ci/log", "out/test.last")}
    check("a whole run has the edits", "one.edit" in (FOLDER / "edits").read_text())
    check("a whole run proves the repository", (FOLDER / "folder").read_text().strip() == str(REPOSITORY))
    for what, run in (("a quick run", plain), ("a quick run on a terminal", on_terminal)):
        status, output = run("--quick")
        lines = left(output)
        check(what, status == 0 and lines[-2:] == ["6 passed, 0 failed", ""], output)
        wanted = "test: a quick run leaves out 1 must-fail edits, and tests/sql.sh; ./test runs them"
        check(f"{what}: what it leaves out", wanted in lines[-6:], output)
        check(f"{what}: scripts", "tests/own.sh: " in output and "tests/sql.sh: " not in output, output)
        folder = (FOLDER / "folder").read_text().strip()
        check(f"{what}: it proves a copy", folder.startswith(f"{FOLDER}/temporary/"), folder)
        check(f"{what}: without edits", not (FOLDER / "edits").read_text())
        check(f"{what}: it removes the copy", not os.listdir(FOLDER / "temporary"), os.listdir(FOLDER / "temporary"))
        check(f"{what}: it leaves what a whole run noted", all((REPOSITORY / name).read_bytes() == it for name, it in before.items()))
    status, output = plain("--quick", RT_FAILED="1")
    check("a quick run that fails", status == 1 and output.endswith("\n3 passed, 1 failed\n"), output)
    check("it removes the copy too", not os.listdir(FOLDER / "temporary"), os.listdir(FOLDER / "temporary"))
    status, output = plain("--quick", "low")
    check("a quick run of a crate", status == 2 and output == "usage: ./test [--quick | --edits [CRATE ..]]\n", output)


make()
test_terminal()
test_quick()
print(f"{counts[True]} passed, {counts[False]} failed")
sys.exit(counts[False] > 0)
